//! Every NaN in every argument, and every argument's infinities: refused by the argument's number.

mod common;

use common::{EARTH, KINDS, NANS, WAYS, build, build_in, project};
use lenthuc::{Ellipsoid, Refusal};

/// The numbers that are not finite.
fn not_finite() -> impl Iterator<Item = f64> {
    let nans = NANS.into_iter().map(f64::from_bits);
    nans.chain([f64::INFINITY, f64::NEG_INFINITY])
}

#[test]
fn all_are_nan() {
    assert!(
        NANS.into_iter()
            .all(|pattern| f64::from_bits(pattern).is_nan())
    );
}

#[test]
fn of_an_ellipsoid() {
    for x in not_finite() {
        assert_eq!(Ellipsoid::from_a_f(x, 0.0), Err(Refusal::SemiMajorAxis));
        assert_eq!(Ellipsoid::from_a_f(1.0, x), Err(Refusal::Flattening));
        assert_eq!(Ellipsoid::sphere(x), Err(Refusal::SemiMajorAxis));
        assert_eq!(Ellipsoid::from_a_rf(x, 300.0), Err(Refusal::SemiMajorAxis));
        let refused = Ellipsoid::from_a_rf(1.0, x);
        assert_eq!(refused, Err(Refusal::InverseFlattening));
    }
}

/// Of the settings, by their place: those that a kind does not use are no matter.
#[test]
fn of_the_settings() {
    let refusal = |kind, place| match place {
        0 => Some(Refusal::SemiMajorAxis),
        1 => Some(Refusal::Flattening),
        2 => Some(Refusal::Lon0),
        3 => (kind != b'E').then_some(Refusal::LatitudeSetting),
        4 | 5 => (kind == b'A').then_some(Refusal::LatitudeSetting),
        6 => Some(Refusal::FalseEasting),
        _ => Some(Refusal::FalseNorthing),
    };
    for kind in KINDS {
        for place in 0..EARTH.len() {
            for x in not_finite() {
                let mut settings = EARTH;
                settings[place] = x;
                let refused = build(kind, settings).err();
                assert_eq!(refused, refusal(kind, place), "{kind} {place}");
            }
        }
    }
}

#[test]
fn of_an_area() {
    for kind in KINDS {
        for place in 0..4 {
            for x in not_finite() {
                let mut edges = [-1.0, 1.0, -1.0, 1.0];
                edges[place] = x;
                let refused = build_in(edges, kind, EARTH).err();
                assert_eq!(refused, Some(Refusal::AreaEdges), "{kind} {place}");
            }
        }
    }
}

#[test]
fn of_a_point() {
    for kind in KINDS {
        let map = build(kind, EARTH).expect("a map of the Earth");
        let in_area = build_in([2.0, 3.0, -1.0, -0.5], kind, EARTH).expect("an area");
        for (way, refusal) in WAYS
            .into_iter()
            .zip([Refusal::ForwardInput, Refusal::InverseInput])
        {
            for map in [&*map, &*in_area] {
                for x in not_finite() {
                    assert_eq!(project(map, way, x, 0.1), Err(refusal));
                    assert_eq!(project(map, way, 0.1, x), Err(refusal));
                    assert_eq!(project(map, way, x, x), Err(refusal));
                }
            }
        }
    }
}
