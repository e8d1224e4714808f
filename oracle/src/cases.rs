//! Lines of which 01 and READINGS say what number they get, 'Run only' as 02's sphere has it, and the
//! numbers that a kind can give.

use crate::line::{A, F, LAT0, LAT1, LAT2, Line, U, V};
use std::f64::consts::{FRAC_PI_2, PI};

const ALL: &[u8] = b"LSAECPG";

/// 01's numbers, each with the ways and kinds that can give it. A gives 22 on ellipsoids alone, and
/// 23 on spheres alone.
pub const NUMBERS: [(u8, &[u8], &[u8]); 21] = [
    (4, b"FI", ALL),
    (5, b"FI", ALL),
    (6, b"FI", ALL),
    (7, b"FI", b"LSACPG"),
    (8, b"FI", b"LSACPG"),
    (9, b"FI", ALL),
    (10, b"FI", ALL),
    (11, b"FI", b"G"),
    (12, b"FI", b"LS"),
    (13, b"FI", b"LS"),
    (14, b"FI", b"LS"),
    (15, b"FI", b"A"),
    (16, b"F", ALL),
    (17, b"F", ALL),
    (18, b"F", b"LS"),
    (19, b"F", ALL),
    (20, b"I", ALL),
    (21, b"I", b"P"),
    (22, b"I", b"AEP"),
    (23, b"I", ALL),
    (24, b"I", b"ACPG"),
];

/// The numbers that a kind can give, that way.
pub fn numbers(way: u8, kind: u8) -> Vec<u8> {
    let fits =
        |(_, ways, kinds): &&(u8, &[u8], &[u8])| ways.contains(&way) && kinds.contains(&kind);
    NUMBERS
        .iter()
        .filter(fits)
        .map(|&(number, ..)| number)
        .collect()
}

/// A line by its way and kind, where fields that are not named are 0, and a is 1.
pub fn line(name: &[u8; 2], named: &[(usize, f64)]) -> Line {
    let mut fields = [0.0; 10];
    fields[A] = 1.0;
    for &(field, value) in named {
        fields[field] = value;
    }
    let [way, kind] = *name;
    Line { way, kind, fields }
}

/// The cases of 01 and READINGS that are a line and a number.
pub fn cases() -> Vec<(Line, u8)> {
    let bound = FRAC_PI_2 + 1e-12;
    let near_1 = 1.0 - 2.0_f64.powi(-53);
    let parallels = [(LAT1, 0.5), (LAT2, -0.5)];
    let on_ellipsoid = [(F, 1.0 / 300.0), (LAT1, 0.5), (LAT2, -0.5)];
    let stalls = [0x3f93_627a_11e4_27df, 0x3ff8_e53a_7de8_4c09].map(f64::from_bits);
    let pole = f64::from_bits(0x4012_d97c_7f33_21d2);
    vec![
        // the sheet's example
        (line(b"FP", &[(U, 0.5)]), 0),
        // M8 to M13
        (line(b"FL", &[(F, 1.0)]), 5),
        (line(b"FL", &[(F, near_1)]), 12),
        (line(b"FL", &[(LAT0, bound)]), 13),
        (line(b"FL", &[(LAT0, bound.next_up())]), 8),
        (line(b"FS", &[(U, PI)]), 18),
        (line(b"IP", &[(F, 1.0 / 300.0), (V, FRAC_PI_2)]), 21),
        (line(b"IC", &[(V, 2.0)]), 24),
        // Albers between opposite parallels, on a sphere too
        (line(b"FA", &parallels), 15),
        (line(b"IA", &parallels), 15),
        (line(b"FA", &on_ellipsoid), 15),
        // the polyconic's steps are used up before the cosine is looked at
        (line(b"IP", &[(F, stalls[0]), (V, stalls[1])]), 22),
        // Cassini's pole, whatever x is
        (line(b"IC", &[(V, pole)]), 0),
        (line(b"IC", &[(U, -1e300), (V, pole)]), 0),
        // latitude by latitude
        (line(b"FA", &[(LAT0, 3.0), (LAT1, f64::NAN)]), 8),
        (line(b"FA", &[(LAT1, 3.0), (LAT2, f64::NAN)]), 8),
        (line(b"FA", &[(LAT1, f64::NAN), (LAT2, 3.0)]), 7),
        // -0 is an f, and a sphere's; it is no a
        (line(b"FG", &[(F, -0.0)]), 11),
        (line(b"FL", &[(F, -0.0)]), 0),
        (line(b"FL", &[(A, -0.0)]), 4),
        // e2 rounded to 1
        (line(b"FE", &[(F, near_1), (U, 0.1), (V, 0.5)]), 19),
        (line(b"IE", &[(F, near_1), (U, 0.1), (V, 0.5)]), 22),
        (line(b"FC", &[(F, near_1), (U, 0.1), (V, 0.5)]), 19),
        (line(b"IC", &[(F, near_1), (U, 0.1), (V, 0.5)]), 23),
        (line(b"FP", &[(F, near_1), (U, 0.1), (V, 0.5)]), 0),
        (line(b"FG", &[(F, near_1), (U, 0.1), (V, 0.5)]), 0),
        // the band of 13 on a sphere
        (line(b"FL", &[(LAT0, FRAC_PI_2 - 5e-13)]), 0),
        (line(b"FL", &[(LAT0, FRAC_PI_2 - 2e-12)]), 13),
        (line(b"FS", &[(LAT0, FRAC_PI_2 - 1e-9)]), 13),
        (line(b"FS", &[(LAT0, FRAC_PI_2 - 1e-7)]), 0),
        // Equal Earth's northing off the map
        (line(b"IE", &[(U, 0.3), (V, 1e9)]), 0),
    ]
}
