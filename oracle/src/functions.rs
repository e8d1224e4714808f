//! The functions to compare, each as a map from patterns to a pattern: ours, document 01's or the
//! source's with 01's functions, and the platform's or the source's with those.

use crate::fixed::{T, bits_of, f64_of};
use crate::{fixed, ours, source, whole};

/// As many arguments as any function has, as patterns. A function reads those that it takes.
pub type Arguments = [u64; 4];

/// What a function takes.
#[derive(Clone, Copy)]
pub enum Takes {
    /// So many numbers.
    Any(usize),
    /// A number and two limits in order, neither NaN.
    Limits,
    /// So many numbers, the first two an ellipsoid's a and f.
    Ellipsoid(usize),
}

impl Takes {
    pub fn count(self) -> usize {
        match self {
            Takes::Any(count) | Takes::Ellipsoid(count) => count,
            Takes::Limits => 3,
        }
    }

    pub fn admits(self, arguments: &Arguments) -> bool {
        let [a, b, c, _] = arguments.map(f64::from_bits);
        match self {
            Takes::Any(_) => true,
            Takes::Limits => b <= c,
            Takes::Ellipsoid(_) => 0.0 < a && a.is_finite() && (0.0..1.0).contains(&b),
        }
    }
}

pub struct Function {
    pub name: &'static str,
    pub takes: Takes,
    pub tried: fn(Arguments) -> u64,
    pub expected: fn(Arguments) -> u64,
    /// None where 01 means the platform's own.
    pub platform: Option<fn(Arguments) -> u64>,
}

/// One argument and a result of 01's functions, by how a pattern is read and written.
macro_rules! one {
    ($name:ident, $read:expr, $write:expr, $platform:expr) => {
        Function {
            name: stringify!($name),
            takes: Takes::Any(1),
            tried: |a| $write(ours::$name($read(a[0]))),
            expected: |a| $write(fixed::$name($read(a[0]))),
            platform: $platform,
        }
    };
    ($name:ident, $platform:expr) => {
        one!(
            $name,
            f64_of,
            bits_of,
            Some(|a| bits_of($platform(f64_of(a[0]))))
        )
    };
    ($name:ident) => {
        one!($name, f64_of, bits_of, None)
    };
}

/// Document 01's functions.
pub const FUNCTIONS: [Function; 19] = [
    one!(root, f64::sqrt),
    one!(sin, f64::sin),
    one!(cos, f64::cos),
    one!(tan, f64::tan),
    one!(atan, f64::atan),
    one!(asin, f64::asin),
    Function {
        name: "atan2",
        takes: Takes::Any(2),
        tried: |a| bits_of(ours::atan2(f64_of(a[0]), f64_of(a[1]))),
        expected: |a| bits_of(fixed::atan2(f64_of(a[0]), f64_of(a[1]))),
        platform: Some(|a| bits_of(f64_of(a[0]).atan2(f64_of(a[1])))),
    },
    one!(ln, f64::ln),
    one!(powf_3_2, |d: f64| d.powf(1.5)),
    one!(rem_euclid, |x: f64| x.rem_euclid(T)),
    one!(abs),
    one!(signum),
    Function {
        name: "clamp",
        takes: Takes::Limits,
        tried: |a| bits_of(ours::clamp(f64_of(a[0]), f64_of(a[1]), f64_of(a[2]))),
        expected: |a| bits_of(fixed::clamp(f64_of(a[0]), f64_of(a[1]), f64_of(a[2]))),
        platform: None,
    },
    one!(max_zero, |x: f64| x.max(0.0)),
    one!(is_finite, f64_of, u64::from, None),
    one!(is_negative, f64_of, u64::from, None),
    one!(is_nan, f64_of, u64::from, None),
    one!(f64_of, u64::from, bits_of, None),
    one!(bits_of, f64_of, u64::from, None),
];

/// A part of the source, of so many f64.
macro_rules! part {
    ($name:ident, $takes:expr, [$($at:literal),+], $write:expr) => {
        Function {
            name: stringify!($name),
            takes: $takes,
            tried: |a| $write(ours::$name($(f64_of(a[$at])),+)),
            expected: |a| $write(source::fixed::parts::$name($(f64_of(a[$at])),+)),
            platform: Some(|a| $write(source::platform::parts::$name($(f64_of(a[$at])),+))),
        }
    };
    ($name:ident, 1, $write:expr) => {
        part!($name, Takes::Any(1), [0], $write)
    };
    ($name:ident, 2, $write:expr) => {
        part!($name, Takes::Any(2), [0, 1], $write)
    };
}

/// One of the meridian's 13 numbers, which one by the second pattern.
macro_rules! coefficient {
    ($name:ident) => {
        Function {
            name: stringify!($name),
            takes: Takes::Any(2),
            tried: |a| bits_of(ours::$name(f64_of(a[0]), (a[1] % 13) as usize)),
            expected: |a| {
                bits_of(source::fixed::parts::$name(
                    f64_of(a[0]),
                    (a[1] % 13) as usize,
                ))
            },
            platform: Some(|a| {
                bits_of(source::platform::parts::$name(
                    f64_of(a[0]),
                    (a[1] % 13) as usize,
                ))
            }),
        }
    };
}

/// The ellipsoid's numbers, and the units of its angles.
pub const ELLIPSOID: [Function; 10] = [
    part!(inverse_flattening, Takes::Ellipsoid(2), [0, 1], bits_of),
    part!(b, Takes::Ellipsoid(2), [0, 1], bits_of),
    part!(e2, Takes::Ellipsoid(2), [0, 1], bits_of),
    part!(e, Takes::Ellipsoid(2), [0, 1], bits_of),
    part!(n, Takes::Ellipsoid(2), [0, 1], bits_of),
    part!(ep2, Takes::Ellipsoid(2), [0, 1], bits_of),
    part!(n_radius, Takes::Ellipsoid(3), [0, 1, 2], bits_of),
    part!(m_radius, Takes::Ellipsoid(3), [0, 1, 2], bits_of),
    part!(deg_to_rad, 1, bits_of),
    part!(rad_to_deg, 1, bits_of),
];

/// What the kinds share.
pub const PARTS: [Function; 17] = [
    part!(from_a_rf, 2, u64::from),
    part!(from_a_f, 2, u64::from),
    part!(validate_angle, 1, u64::from),
    part!(validate_latitude_param, 1, u64::from),
    part!(validate_offset, 1, u64::from),
    part!(validate_lon_lat, 2, u64::from),
    part!(validate_projected, 2, u64::from),
    part!(ensure_finite_xy, 2, u64::from),
    part!(ensure_finite_lon_lat, 2, u64::from),
    part!(normalize_longitude, 1, bits_of),
    Function {
        name: "lenthuc_normalize_longitude",
        takes: Takes::Any(1),
        tried: |a| bits_of(ours::lenthuc_normalize_longitude(f64_of(a[0]))),
        expected: |a| bits_of(source::fixed::parts::normalize_longitude(f64_of(a[0]))),
        platform: Some(|a| bits_of(source::platform::parts::normalize_longitude(f64_of(a[0])))),
    },
    part!(authalic_q, 2, bits_of),
    part!(authalic_latitude, 2, bits_of),
    part!(geodetic_from_authalic, 2, bits_of),
    coefficient!(meridian_arc_coefficient),
    part!(meridian_arc, Takes::Any(4), [0, 1, 2, 3], bits_of),
    part!(inverse_meridian_arc, 2, bits_of),
];

/// What `fixed` takes from the machine, against the same by whole numbers.
pub const MACHINE: [Function; 2] = [
    Function {
        name: "sqrt",
        takes: Takes::Any(1),
        tried: |a| bits_of(f64_of(a[0]).sqrt()),
        expected: |a| bits_of(whole::root(f64_of(a[0]))),
        platform: None,
    },
    Function {
        name: "% T",
        takes: Takes::Any(1),
        tried: |a| bits_of(f64_of(a[0]) % T),
        expected: |a| bits_of(whole::remainder(f64_of(a[0]), T)),
        platform: None,
    },
];
