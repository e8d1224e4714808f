//! What 01 and READINGS say, tried on what is expected.

use oracle::cases::{cases, line};
use oracle::expected::answer;
use oracle::fixed::{T, bits_of};
use oracle::line::{Answer, F, LAT0, LON0, U, V};
use oracle::source::fixed::parts::from_a_rf;
use std::f64::consts::{FRAC_PI_2, PI};

fn tried(name: &[u8; 2], named: &[(usize, f64)]) -> Answer {
    answer(&line(name, named))
}

#[test]
fn numbers() {
    assert_eq!(from_a_rf(1.0, 1.0), 3);
    for (line, number) in cases() {
        assert_eq!(answer(&line).number, number, "{}", line.text());
    }
}

#[test]
fn the_sheet_of_01() {
    let half = tried(b"FP", &[(U, 0.5)]);
    assert_eq!(half.text(), "0,3fe0000000000000,0000000000000000");
}

#[test]
fn cassini_has_a_pole() {
    let v = f64::from_bits(0x4012_d97c_7f33_21d2);
    for u in [0.0, 0.3, -1e300] {
        let north = Answer::pair(0.0, FRAC_PI_2);
        assert_eq!(tried(b"IC", &[(U, u), (V, v)]), north);
    }
    let south = Answer::pair(-FRAC_PI_2, -FRAC_PI_2);
    assert_eq!(tried(b"IC", &[(LON0, 1.5 * PI), (V, -v)]), south);
}

/// Strictly below 1e-9, lon0 normalised.
#[test]
fn lambert_has_a_centre() {
    for kind in [b"IL", b"IS"] {
        let at = |u| tried(kind, &[(LON0, 4.0), (LAT0, 0.5), (U, u)]);
        let centre = Answer::pair(4.0 - T, 0.5);
        assert_eq!(at(1e-9_f64.next_down()), centre);
        assert_ne!(at(1e-9), centre);
    }
}

/// L at a pole answers the series at lat0 for its centre, S lat0 itself.
#[test]
fn lambert_has_a_polar_centre() {
    let lat0 = FRAC_PI_2 - 5e-13;
    let polar = [(F, 1.0 / 300.0), (LAT0, lat0)];
    assert_eq!(tried(b"IS", &polar).q, bits_of(lat0));
    assert_ne!(tried(b"IL", &polar).q, bits_of(lat0));
}

#[test]
fn minus_zero_is_not_below_zero() {
    let u = f64::from_bits(0xc022_d97c_7f33_21d2);
    assert_eq!(tried(b"FE", &[(U, u)]), tried(b"FE", &[(U, -PI)]));
}

#[test]
fn equal_earth_answers_its_edge() {
    let edge = tried(b"IE", &[(U, 0.3), (V, 1e9)]);
    assert_eq!(edge.q, bits_of(1.5707962113709983));
}
