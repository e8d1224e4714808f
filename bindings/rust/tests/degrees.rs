//! Degrees in and out: radians and their conversion, and where the ends of the map come out.

mod common;

use common::{EARTH, KINDS, NANS, Random, bits, build};
use lenthuc::{CassiniSoldner, EqualEarth, Projection, Refusal, UNIT_SPHERE, WGS84};
use std::f64::consts::{FRAC_PI_2, PI};

/// The ends of an inverse's answers, and of what a forward takes. A conversion rises with its angle,
/// so what lies between them stays between them.
#[test]
fn the_ends() {
    assert_eq!(PI.to_degrees(), 180.0);
    assert_eq!((-PI).to_degrees(), -180.0);
    assert_eq!(FRAC_PI_2.to_degrees(), 90.0);
    assert_eq!(180.0_f64.to_radians(), PI);
    assert_eq!(90.0_f64.to_radians(), FRAC_PI_2);
    let bound = (FRAC_PI_2 + 1e-12).to_degrees();
    assert!(90.0 < bound && bound < 90.0 + 6e-11, "{bound}");
}

#[test]
fn are_radians_converted() {
    let mut random = Random(7);
    for kind in KINDS {
        let map = build(kind, EARTH).expect("a map of the Earth");
        for _ in 0..2000 {
            let (lon, lat) = (random.input(b'F') * 60.0, random.input(b'F') * 60.0);
            let expected = map.forward(lon.to_radians(), lat.to_radians());
            assert_eq!(bits(map.forward_degrees(lon, lat)), bits(expected));
            let (x, y) = (random.input(b'I'), random.input(b'I'));
            let expected = map.inverse(x, y);
            let expected = expected.map(|(lon, lat)| (lon.to_degrees(), lat.to_degrees()));
            assert_eq!(bits(map.inverse_degrees(x, y)), bits(expected));
            if let Ok((lon, lat)) = map.inverse_degrees(x, y) {
                assert!((-180.0..=180.0).contains(&lon), "{lon}");
                assert!(lat.abs() <= 90.0 + 6e-11, "{lat}");
            }
        }
    }
}

/// The poles and the edges of the world, there and back.
#[test]
fn poles_and_edges() {
    let world = EqualEarth::new(WGS84, 0.0, 0.0, 0.0).expect("the world");
    for lon in [-180.0, 0.0, 180.0] {
        for lat in [-90.0, 0.0, 90.0] {
            let (x, y) = world
                .forward_degrees(lon, lat)
                .expect("an end of the world");
            let (back, north) = world.inverse_degrees(x, y).expect("the same end");
            assert!((-180.0..=180.0).contains(&back));
            // ±180 are one meridian
            assert!((back.abs() - lon.abs()).abs() < 1e-9, "{lon} {back}");
            // an arcsine loses half its digits next to the pole lines
            assert!((north - lat).abs() < 1e-5, "{lat} {north}");
        }
    }
}

#[test]
fn refusals() {
    let map = CassiniSoldner::new(UNIT_SPHERE, 0.0, 0.0, 0.0, 0.0).expect("a map");
    assert_eq!(map.forward_degrees(0.0, 90.1), Err(Refusal::ForwardBeyond));
    assert_eq!(map.forward_degrees(0.0, -90.1), Err(Refusal::ForwardBeyond));
    assert!(map.forward_degrees(0.0, 90.0).is_ok());
    assert!(map.forward_degrees(1e300, 45.0).is_ok());
    assert_eq!(map.inverse_degrees(0.0, 2.0), Err(Refusal::InverseBeyond));
    let not_finite = NANS.into_iter().map(f64::from_bits);
    for x in not_finite.chain([f64::INFINITY, f64::NEG_INFINITY]) {
        assert_eq!(map.forward_degrees(x, 0.0), Err(Refusal::ForwardInput));
        assert_eq!(map.forward_degrees(0.0, x), Err(Refusal::ForwardInput));
        assert_eq!(map.inverse_degrees(x, 0.0), Err(Refusal::InverseInput));
        assert_eq!(map.inverse_degrees(0.0, x), Err(Refusal::InverseInput));
    }
}
