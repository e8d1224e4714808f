//! Albers on a sphere: an atlas that is answered both ways, its edges, and what is not a sphere.

mod common;

use common::{Random, build};
use lenthuc::{AlbersEqualArea, Ellipsoid, Projection, Refusal, UNIT_SPHERE};
use std::f64::consts::{FRAC_PI_2, PI};

const RADIUS: f64 = 6370997.0;

/// An atlas of the United States, on a sphere of the Earth's size.
fn atlas(f: f64) -> AlbersEqualArea {
    let on = Ellipsoid::from_a_f(RADIUS, f).expect("an ellipsoid");
    let [lon0, lat0, lat1, lat2] = [-96.0, 23.0, 29.5, 45.5].map(f64::to_radians);
    AlbersEqualArea::new(on, lon0, lat0, lat1, lat2, 0.0, 0.0).expect("an atlas")
}

#[test]
fn there_and_back() {
    let atlas = atlas(0.0);
    let mut random = Random(21);
    for _ in 0..10_000 {
        let (lon, lat) = (random.within(PI), random.within(1.57));
        let (x, y) = atlas.forward(lon, lat).expect("a place");
        let (back_lon, back_lat) = atlas.inverse(x, y).expect("a point of the map");
        assert!((back_lat - lat).abs() < 1e-9, "{lon}, {lat}");
        let turned = (back_lon - lon).abs();
        assert!(turned.min(2.0 * PI - turned) < 1e-9, "{lon}, {lat}");
    }
}

/// A small square has the same area on the map and on the sphere.
#[test]
fn areas_are_kept() {
    let atlas = atlas(0.0);
    for lat in [-1.2, 0.0, 0.5, 1.0, 1.4] {
        let (side, lon) = (1e-4, -1.7);
        let corners = [(0.0, 0.0), (side, 0.0), (side, side), (0.0, side)];
        let [a, b, c, d] = corners.map(|(e, n)| atlas.forward(lon + e, lat + n).expect("a place"));
        let cross =
            |p: (f64, f64), q: (f64, f64)| (p.0 - a.0) * (q.1 - a.1) - (q.0 - a.0) * (p.1 - a.1);
        let on_map = (cross(b, c) + cross(c, d)) / 2.0;
        let on_ground = RADIUS * RADIUS * side * ((lat + side).sin() - lat.sin());
        assert!((on_map / on_ground - 1.0).abs() < 1e-6, "{lat}");
    }
}

#[test]
fn minus_zero_is_a_sphere_and_no_other_f_is() {
    let (sphere, minus) = (atlas(0.0), atlas(-0.0));
    let answer = sphere.forward(-1.7, 0.7).expect("a place");
    assert_eq!(minus.forward(-1.7, 0.7), Ok(answer));
    assert_ne!(atlas(5e-324).forward(-1.7, 0.7), Ok(answer));
    assert_ne!(atlas(1e-20).forward(-1.7, 0.7), Ok(answer));
}

#[test]
fn parallels_that_count_as_one() {
    let by = |lat1, lat2| build(b'A', [1.0, 0.0, 0.0, 0.0, lat1, lat2, 0.0, 0.0]).err();
    assert_eq!(by(4e-11, -4e-11), None);
    assert_eq!(by(5e-11, -5e-11), Some(Refusal::ConeConstant));
    assert_eq!(by(0.0, 3e-12), Some(Refusal::ConeConstant));
    assert_eq!(by(3e-12, 0.0), None);
    assert_eq!(by(0.5, -0.5 + 1e-13), Some(Refusal::ConeConstant));
}

/// The arcsine is not clamped: a pole is a place, and its image may be off the map by rounding.
#[test]
fn off_the_map() {
    let map = AlbersEqualArea::new(UNIT_SPHERE, 0.0, 0.6, 0.5, 0.7, 0.0, 0.0).expect("a map");
    assert_eq!(map.inverse(0.0, 9.0), Err(Refusal::InverseResult));
    let (x, y) = map.forward(0.5, -FRAC_PI_2).expect("a pole");
    assert_eq!(map.inverse(x, y), Err(Refusal::InverseResult));
}
