//! The source's named ellipsoids and its constructors of others.

use crate::functions::{Arguments, Takes};
use crate::line::Answer;
use crate::patterns::edges;
use crate::source::fixed::ellipsoid::*;
use crate::source::fixed::parts::{built_from_a_f, built_from_a_rf, built_sphere};
use std::f64::consts::{FRAC_PI_2, FRAC_PI_4};

pub const NAMED: [(&str, Ellipsoid); 9] = [
    ("WGS84", WGS84),
    ("GRS80", GRS80),
    ("CLARKE1866", CLARKE1866),
    ("INTL1924", INTL1924),
    ("BESSEL1841", BESSEL1841),
    ("KRASSOWSKY", KRASSOWSKY),
    ("AIRY1830", AIRY1830),
    ("UNIT_SPHERE", UNIT_SPHERE),
    ("WGS84_SPHERE", WGS84_SPHERE),
];

pub struct Constructor {
    pub name: &'static str,
    pub takes: Takes,
    pub built: fn(Arguments) -> Answer,
    /// A second argument with which any good a is taken.
    pub good: f64,
}

pub const CONSTRUCTORS: [Constructor; 3] = [
    Constructor {
        name: "from_a_rf",
        takes: Takes::Any(2),
        built: |a| built_from_a_rf(f64::from_bits(a[0]), f64::from_bits(a[1])),
        good: 300.0,
    },
    Constructor {
        name: "from_a_f",
        takes: Takes::Any(2),
        built: |a| built_from_a_f(f64::from_bits(a[0]), f64::from_bits(a[1])),
        good: 1.0 / 300.0,
    },
    Constructor {
        name: "sphere",
        takes: Takes::Any(1),
        built: |a| built_sphere(f64::from_bits(a[0])),
        good: 0.0,
    },
];

impl Constructor {
    /// Each edge as one argument, the others good.
    pub fn edge_arguments(&self) -> Vec<Arguments> {
        let places = 0..self.takes.count();
        let at = |place| {
            edges().into_iter().map(move |edge| {
                let mut arguments = [1.0, self.good, 0.0, 0.0].map(f64::to_bits);
                arguments[place] = edge;
                arguments
            })
        };
        places.flat_map(at).collect()
    }
}

/// Each named ellipsoid as arguments, with its name: a and f, and some latitudes where there is a
/// third.
pub fn named_arguments(count: usize) -> Vec<(Arguments, &'static str)> {
    let latitudes: &[f64] = match count {
        2 => &[0.0],
        _ => &[0.0, 0.5, FRAC_PI_4, -1.25, FRAC_PI_2],
    };
    let at = |(name, e): (&'static str, Ellipsoid)| {
        latitudes.iter().map(move |&lat| {
            let numbers = [e.semi_major_axis(), e.flattening(), lat, 0.0];
            (numbers.map(f64::to_bits), name)
        })
    };
    NAMED.into_iter().flat_map(at).collect()
}
