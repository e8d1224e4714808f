//! Lines of Albers of which 02 and its readings say what number they get, each with the wrong
//! readings that it notices.

use crate::area::BOUND;
use crate::cases::line;
use crate::expected::answer;
use crate::line::{A, F, FE, FN, LAT0, LAT1, LAT2, LON0, Line, U, V};
use std::f64::consts::FRAC_PI_2;

pub struct SphereCase {
    /// By its number among Q-2's readings.
    pub reading: usize,
    pub number: u8,
    pub line: Line,
    /// The wrong readings that it notices.
    pub why: &'static str,
}

pub fn sphere_cases() -> Vec<SphereCase> {
    let all = [
        spheres,
        snyder,
        sizes,
        parallels,
        off_the_map,
        inverses,
        order,
    ];
    all.iter().flat_map(|cases| cases()).collect()
}

/// The reading and the number, and the line as `cases` has it.
fn case(
    (reading, number): (usize, u8),
    name: &[u8; 2],
    named: &[&[(usize, f64)]],
    why: &'static str,
) -> SphereCase {
    let line = line(name, &named.concat());
    SphereCase {
        reading,
        number,
        line,
        why,
    }
}

/// The settings of the readings, to be followed by others.
const MAP: &[(usize, f64)] = &[(LAT0, 0.6), (LAT1, 0.5), (LAT2, 0.7)];
const SOUTHERN: &[(usize, f64)] = &[(LAT0, -0.6), (LAT1, -0.5), (LAT2, -0.7)];
const OPPOSITE: &[(usize, f64)] = &[(LAT1, 0.5), (LAT2, -0.5)];

/// The Earth's, and a place of it.
const EARTH: &[(usize, f64)] = &[(A, 6378137.0), (U, 0.1), (V, 0.7)];

/// Which e2 are a sphere's.
#[rustfmt::skip]
fn spheres() -> Vec<SphereCase> {
    let tiny = "an e2 below 1e-15 taken for 0";
    let minus = "f = -0 left out";
    let near = &[(U, 0.1), (V, 0.1)];
    vec![
        case((1, 0), b"FA", &[MAP, EARTH], "every point on a sphere refused"),
        case((1, 0), b"FA", &[MAP, EARTH, &[(F, -0.0)]], minus),
        case((1, 0), b"FA", &[MAP, EARTH, &[(F, 1e-20)]], tiny),
        case((1, 0), b"FA", &[MAP, EARTH, &[(F, 5e-324)]], tiny),
        case((1, 0), b"IA", &[MAP, near], "every point on a sphere refused"),
        case((1, 0), b"IA", &[MAP, near, &[(F, -0.0)]], minus),
        case((1, 22), b"IA", &[MAP, near, &[(F, 1e-20)]], tiny),
        case((1, 22), b"IA", &[MAP, near, &[(F, 5e-324)]], tiny),
    ]
}

/// Snyder's worked example (PP 1395, Appendix A), and the way back.
fn snyder() -> Vec<SphereCase> {
    let degrees = [
        (LAT1, 29.5),
        (LAT2, 45.5),
        (LAT0, 23.0),
        (LON0, -96.0),
        (U, -75.0),
        (V, 35.0),
    ];
    let named = degrees.map(|(field, degrees): (_, f64)| (field, degrees.to_radians()));
    let forward = line(b"FA", &named);
    let why = "another formula than Snyder's";
    vec![
        case((2, 0), b"FA", &[&named], why),
        SphereCase {
            reading: 2,
            number: 0,
            line: back(&forward),
            why,
        },
    ]
}

/// The inverse line of a forward one's answer.
fn back(forward: &Line) -> Line {
    let image = answer(forward);
    let mut line = *forward;
    line.way = b'I';
    [line.fields[U], line.fields[V]] = [image.p, image.q].map(f64::from_bits);
    line
}

/// Where rounding makes C - nq negative.
#[rustfmt::skip]
fn sizes() -> Vec<SphereCase> {
    let parallel = 1.5707866472948966;
    let near_pole = &[(LAT1, parallel), (LAT2, parallel)];
    let size = "rho or rho0 without the size, or 0 for it";
    vec![
        case((2, 0), b"FA", &[near_pole, &[(U, 0.1), (V, FRAC_PI_2)]], size),
        case((2, 0), b"FA", &[near_pole, &[(LAT0, FRAC_PI_2), (U, 0.1)]], size),
        case((2, 0), b"IA", &[near_pole, &[(LAT0, FRAC_PI_2), (U, 0.1)]], size),
    ]
}

/// Which parallels are one, and which are refused.
#[rustfmt::skip]
fn parallels() -> Vec<SphereCase> {
    let place = &[(U, 0.1), (V, 0.2)];
    let between = |numbers, lat1, lat2, why| {
        case(numbers, b"FA", &[&[(LAT1, lat1), (LAT2, lat2)], place], why)
    };
    vec![
        between((3, 0), 4e-11, -4e-11, "15 for every opposite pair"),
        between((3, 15), 5e-11, -5e-11, "1e-10 apart taken for one"),
        between((3, 15), 0.0, 3e-12, "n the mean of the sines, or the second, where they are one"),
        between((3, 0), 3e-12, 0.0, "n the second sine where they are one"),
        between((4, 15), 0.5, -0.5 + 1e-13, "15 only where the sum is 0"),
        between((4, 0), 1e-12, 1e-12, "15 at 1e-12 itself"),
        between((4, 15), 1e-12_f64.next_down(), 0.0, "15 only further below 1e-12"),
    ]
}

/// No rounds and no clamp.
#[rustfmt::skip]
fn off_the_map() -> Vec<SphereCase> {
    let south_pole = line(b"FA", &[MAP, &[(U, 0.5), (V, -FRAC_PI_2)]].concat());
    let clamped = "the arcsine clamped, or 22 for a point off the map";
    vec![
        case((5, 23), b"IA", &[MAP, &[(V, 9.0)]], clamped),
        case((5, 22), b"IA", &[MAP, &[(V, 9.0), (F, 1.0 / 300.0)]], "23 on an ellipsoid"),
        SphereCase { reading: 5, number: 0, line: south_pole, why: "a pole refused" },
        SphereCase { reading: 5, number: 23, line: back(&south_pole), why: "the arcsine clamped near 1" },
    ]
}

/// The inverse as on the ellipsoid.
#[rustfmt::skip]
fn inverses() -> Vec<SphereCase> {
    let near = &[(U, 0.1), (V, 0.1)];
    vec![
        case((6, 0), b"IA", &[MAP, &[(U, -0.75), (V, -0.25)]], "the sum of the squares never rooted"),
        case((6, 0), b"IA", &[SOUTHERN, near], "signum left out"),
        case((6, 0), b"IA", &[MAP, near, &[(LON0, 4.0)]], "the longitude not normalised"),
    ]
}

/// What comes before 15, and what after.
#[rustfmt::skip]
fn order() -> Vec<SphereCase> {
    let beyond = &[(U, 0.25), (V, BOUND.next_up())];
    vec![
        case((8, 15), b"FA", &[OPPOSITE, beyond], "17 before 15"),
        case((8, 15), b"FA", &[OPPOSITE, &[(U, f64::NAN)]], "16 before 15"),
        case((8, 15), b"IA", &[OPPOSITE, &[(U, f64::NAN)]], "20 before 15"),
        case((8, 9), b"FA", &[OPPOSITE, &[(FE, f64::NAN)]], "15 before 9"),
        case((8, 10), b"FA", &[OPPOSITE, &[(FN, f64::INFINITY)]], "15 before 10"),
        case((8, 4), b"IA", &[OPPOSITE, &[(A, 0.0)]], "15 before 4"),
    ]
}
