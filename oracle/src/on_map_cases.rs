//! Clicks of which 02 on the second inverse and its readings say what number they get, each with the
//! wrong readings that it notices.

use crate::area::{Area, WIDEST};
use crate::cases::line;
use crate::clicks::NO_SCALE;
use crate::line::{A, F, FE, FN, LAT0, LAT1, LAT2, LON0, U, V};
use crate::on_map::{BEYOND, CENTRE, Click, RIM, TOP};
use std::f64::consts::{FRAC_PI_2, PI};

pub struct OnMapCase {
    /// By its number among Q-6's readings; 0 is the order of the checks.
    pub reading: usize,
    /// None where the kind has no second inverse.
    pub number: Option<u8>,
    pub click: Click,
    /// The wrong readings that it notices.
    pub why: &'static str,
}

pub fn on_map_cases() -> Vec<OnMapCase> {
    let all = [
        distances,
        polar,
        limits,
        centres,
        longitudes,
        equal_earth,
        not_finite,
        areas,
        other_kinds,
        order,
    ];
    all.iter().flat_map(|cases| cases()).collect()
}

/// The reading and the number, the kind, and an inverse line as `cases` has it.
fn case(
    (reading, number): (usize, u8),
    kind: u8,
    named: &[&[(usize, f64)]],
    why: &'static str,
) -> OnMapCase {
    OnMapCase {
        reading,
        number: Some(number),
        click: Click::new(line(&[b'I', kind], &named.concat())),
        why,
    }
}

/// The same, built with an area.
fn within(area: Area, mut case: OnMapCase) -> OnMapCase {
    case.click.area = Some(area);
    case
}

/// The same of a kind that has no second inverse.
fn missing(mut case: OnMapCase) -> OnMapCase {
    case.number = None;
    case
}

fn at(x: f64, y: f64) -> [(usize, f64); 2] {
    [(U, x), (V, y)]
}

/// The limits.
const QUOTIENT: f64 = RIM + BEYOND;
const NORTHING: f64 = TOP + BEYOND;

/// An ellipsoid, one that is far flatter, and one of which e2 rounds to 1.
const FLAT: (usize, f64) = (F, 1.0 / 300.0);
const FLATTER: (usize, f64) = (F, 0.5);
const FLATTEST: (usize, f64) = (F, 1.0 - 1.0 / (1u64 << 53) as f64);

/// Where a map is about.
const OBLIQUE: (usize, f64) = (LAT0, 0.5);
const NORTH: (usize, f64) = (LAT0, FRAC_PI_2);
const SOUTH: (usize, f64) = (LAT0, -FRAC_PI_2);

/// The next f64 outwards.
fn out(x: f64) -> f64 {
    match x < 0.0 {
        true => x.next_down(),
        false => x.next_up(),
    }
}

/// The rho that the inverse forms.
#[rustfmt::skip]
fn distances() -> Vec<OnMapCase> {
    let ellipsoid = &[FLAT, OBLIQUE];
    let half = 2.0 * (RIM + BEYOND / 2.0);
    vec![
        case((1, 0), b'L', &[ellipsoid, &at(1.999, 0.0)], "the plain distance"),
        case((1, 30), b'L', &[ellipsoid, &at(0.0, 1.999)], "d taken the other way"),
        case((1, 30), b'L', &[&[FLATTER, OBLIQUE], &at(0.0, 1.6)], "the plain distance"),
        case((1, 30), b'S', &[ellipsoid, &at(1.999, 0.0)], "a of the ellipsoid for the radius, or S scaled by d"),
        case((1, 0), b'S', &[ellipsoid, &at(0.0, 1.9977)], "S scaled by d"),
        case((1, 0), b'S', &[&[NORTH], &at(half, 0.0)], "S at a pole by the polar form"),
        case((1, 30), b'L', &[&[NORTH], &at(half, 0.0)], "L at a pole by rho/(2×radius)"),
        case((1, 0), b'S', &[&[SOUTH], &at(0.0, half)], "S at a pole by the polar form"),
        case((1, 30), b'L', &[&[SOUTH], &at(0.0, half)], "L at a pole by rho/(2×radius)"),
        case((1, 30), b'S', &[&at(1.5, 1.5)], "each coordinate by itself"),
    ]
}

/// The polar arcsine's quotient.
#[rustfmt::skip]
fn polar() -> Vec<OnMapCase> {
    let square = "rho²/(a²qp) for the quotient";
    let half = 2.0 * (RIM + BEYOND / 2.0);
    vec![
        case((2, 0), b'L', &[&[NORTH], &at(1.5, 0.0)], square),
        case((2, 0), b'L', &[&[SOUTH], &at(1.5, 0.0)], square),
        case((2, 0), b'L', &[&[NORTH], &at(0.0, -2.0)], square),
        case((2, 0), b'L', &[&[SOUTH], &at(0.0, 2.0)], square),
        case((2, 30), b'L', &[&[NORTH], &at(0.0, 2.1)], "the quotient without its size"),
        case((2, 30), b'L', &[&[SOUTH], &at(0.0, 2.1)], "the quotient below -1 - 1e-12 alone"),
        case((2, 30), b'L', &[&[NORTH, FLAT], &at(1.999, 0.0)], "a polar quotient of a sphere"),
        case((2, 30), b'L', &[&[SOUTH, FLAT], &at(-1.999, 0.0)], "a polar quotient of a sphere"),
        case((2, 30), b'L', &[&[(LAT0, FRAC_PI_2 - 5e-13)], &at(half, 0.0)], "polar at a pole alone"),
        case((2, 0), b'L', &[&[(LAT0, FRAC_PI_2 - 1e-7)], &at(2.0004, 0.0)], "polar within 1e-6 of a pole"),
    ]
}

/// At each limit and a step beyond. The last coordinates but those of a sphere are found by halving.
#[rustfmt::skip]
fn limits() -> Vec<OnMapCase> {
    let (last, beyond) = ("refused at the limit itself, or at the edge", "a limit that is a step further out");
    let both = |kind, settings: &[(usize, f64)], [x, y]: [f64; 2]| {
        let next = match x == 0.0 {
            true => at(x, out(y)),
            false => at(out(x), y),
        };
        [
            case((3, 0), kind, &[settings, &at(x, y)], last),
            case((3, 30), kind, &[settings, &next], beyond),
        ]
    };
    let sphere = 2.0 * QUOTIENT;
    let pole = f64::from_bits(0x4000_0000_0000_0466);
    let flat_pole = f64::from_bits(0x3fff_f6e5_506f_b0ff);
    [
        both(b'S', &[], [sphere, 0.0]),
        both(b'S', &[OBLIQUE], [0.0, -sphere]),
        both(b'L', &[], [-sphere, 0.0]),
        both(b'L', &[FLAT, OBLIQUE], [1.999490905642988, 0.0]),
        both(b'L', &[NORTH], [pole, 0.0]),
        both(b'L', &[SOUTH], [0.0, -pole]),
        both(b'L', &[NORTH, FLAT], [0.0, flat_pole]),
        both(b'L', &[NORTH], [1.9999749998442484, 0.01]),
        both(b'L', &[SOUTH, FLAT], [flat_pole, 0.0]),
        both(b'E', &[], [0.0, NORTHING]),
        both(b'E', &[], [0.0, -NORTHING]),
        both(b'E', &[FLAT], [0.0, 1.3158986980549239]),
        both(b'E', &[], [2.706629503856847, 0.001]),
        both(b'E', &[], [-2.706629503856847, 0.001]),
        both(b'E', &[FLAT], [2.703621469542547, 0.001]),
        both(b'E', &[], [2.7060080339273616, 0.036]),
        both(b'E', &[], [1.6035886482845927, TOP + BEYOND / 2.0]),
    ]
    .into_iter()
    .flatten()
    .collect()
}

/// The centre rule comes first.
#[rustfmt::skip]
fn centres() -> Vec<OnMapCase> {
    let small = (A, 1e-12);
    let first = "the test before the centre rule";
    let strict = "the centre at 1e-9 itself";
    let about = |kind, lat0, x, number, why| case((4, number), kind, &[&[small, lat0], &at(x, 0.0)], why);
    let below = CENTRE.next_down();
    vec![
        about(b'S', (LAT0, 0.0), 5e-10, 0, first),
        about(b'S', OBLIQUE, below, 0, first),
        about(b'S', OBLIQUE, CENTRE, 30, strict),
        about(b'L', OBLIQUE, 5e-10, 0, first),
        about(b'L', OBLIQUE, -CENTRE, 30, strict),
        about(b'L', NORTH, 5e-10, 0, first),
        about(b'L', NORTH, CENTRE, 30, strict),
        about(b'L', SOUTH, below, 0, first),
        about(b'L', SOUTH, CENTRE, 30, strict),
        case((4, 0), b'L', &[&[small, FLATTER, OBLIQUE], &at(1.01e-9, 0.0)], "the centre by the plain distance"),
        case((4, 30), b'L', &[&[small, FLATTER, OBLIQUE], &at(0.0, 0.99e-9)], "the centre by the plain distance"),
        case((4, 30), b'E', &[&[small], &at(5e-10, 0.0)], "a centre of Equal Earth"),
    ]
}

/// Equal Earth's longitude from the origin.
#[rustfmt::skip]
fn longitudes() -> Vec<OnMapCase> {
    let added = "the longitude with lon0 added";
    let normalised = "the longitude normalised";
    let of = |lon0, number, x, why| case((5, number), b'E', &[&[(LON0, lon0)], &at(x, 0.0)], why);
    vec![
        of(3.0, 0, 2.0, added),
        of(3.0, 30, -2.75, added),
        of(-3.0, 0, -2.0, added),
        of(-3.0, 30, 2.75, added),
        of(PI, 0, 2.5, added),
        of(1e300, 0, 2.0, added),
        of(7.0, 0, -2.5, added),
        of(1e300, 30, -2.75, normalised),
    ]
}

/// Equal Earth's northing before the clamp, and the longitude after the rounds.
#[rustfmt::skip]
fn equal_earth() -> Vec<OnMapCase> {
    let edge = "refused at the edge, or beyond it";
    let untested = "the longitude not tested beyond the northing's edge";
    let clamped = "the northing after the clamp";
    let between = TOP + BEYOND / 2.0;
    let on = |x, y, why| case((6, 0), b'E', &[&at(x, y)], why);
    let off = |x, y, why| case((6, 30), b'E', &[&at(x, y)], why);
    vec![
        on(0.3, TOP, edge),
        on(0.3, between, edge),
        on(-0.3, -between, edge),
        off(0.3, 1e9, clamped),
        off(0.0, 1.4, clamped),
        off(0.0, -1.4, "the northing without its size"),
        off(-2.8, 0.0, "the longitude without its size"),
        off(2.5, 1.0, "the longitude as on the equator"),
        on(1.6, 1.3, "the longitude at the start of the rounds"),
        off(1.7, between, untested),
        off(1.7, -TOP, untested),
    ]
}

/// What is infinite is above, and what is NaN is not.
#[rustfmt::skip]
fn not_finite() -> Vec<OnMapCase> {
    let large = 1.7e308;
    let (above, none) = ("an infinite number taken for none", "NaN taken for above");
    let opposite = &[(FE, -large), (U, large)];
    let northern = &[(FN, -large), (V, large)];
    let [a, f] = NO_SCALE;
    vec![
        case((7, 30), b'E', &[opposite], "30 after 23"),
        case((7, 30), b'E', &[northern], above),
        case((7, 22), b'E', &[&[FLATTEST], &at(9.0, 2.0)], none),
        case((7, 22), b'E', &[&[FLATTEST], opposite], none),
        case((7, 23), b'E', &[&[(A, a), (F, f)], opposite], none),
        case((7, 22), b'E', &[&[(A, a), (F, f)], northern], none),
        case((7, 30), b'S', &[opposite, northern], "30 after 23"),
        case((7, 30), b'L', &[&[FLAT, OBLIQUE], opposite, northern], "30 after 23"),
        case((7, 30), b'L', &[&[NORTH], &at(1e200, 0.0)], above),
        case((7, 30), b'L', &[&[SOUTH], northern], above),
        case((7, 23), b'L', &[&[(A, large)], &at(large, large)], none),
        case((7, 23), b'S', &[&[(A, large)], &at(large, large)], none),
        case((7, 23), b'L', &[&[(A, 1e200), NORTH], &at(1e200, 0.0)], none),
        case((7, 23), b'L', &[&[(A, 1e200), SOUTH], &at(1e200, 0.0)], none),
        case((7, 30), b'L', &[&[(A, 1e-170), NORTH], &at(1e-3, 0.0)], above),
        case((7, 30), b'S', &[&[(A, 5e-324)], &at(1.0, 0.0)], above),
    ]
}

/// Some way about the origin.
const NARROW: Area = [-0.5, 0.5, -0.5, 0.5];

/// The area of use is asked last.
#[rustfmt::skip]
fn areas() -> Vec<OnMapCase> {
    let (before, lost) = ("26 before 30", "the area not asked");
    let east = [1.0, 2.0, -1.0, 1.0];
    let nan = [f64::NAN, 1.0, -1.0, 1.0];
    let large = [(A, 1.7e308), (U, 1.7e308), (V, 1.7e308)];
    let edge = 2.0 * (RIM + BEYOND / 2.0);
    vec![
        within(NARROW, case((8, 30), b'S', &[&at(2.1, 0.0)], before)),
        within(NARROW, case((8, 30), b'L', &[&[FLAT], &at(0.0, 2.1)], before)),
        within(NARROW, case((8, 30), b'L', &[&[NORTH], &at(2.1, 0.0)], before)),
        within(NARROW, case((8, 30), b'E', &[&at(0.0, 1.4)], before)),
        within(NARROW, case((8, 30), b'E', &[&at(2.8, 0.0)], before)),
        within(NARROW, case((8, 26), b'S', &[&at(1.5, 0.0)], lost)),
        within(NARROW, case((8, 26), b'L', &[&[FLAT], &at(0.0, 1.5)], lost)),
        within(NARROW, case((8, 26), b'E', &[&at(0.0, 1.3)], lost)),
        within(NARROW, case((8, 26), b'S', &[&at(edge, 0.0)], lost)),
        within(NARROW, case((8, 26), b'S', &[&[(LON0, 2.25)]], "the centre not tested")),
        within(WIDEST, case((8, 0), b'S', &[&at(edge, 0.0)], "refused beyond the edge")),
        within(east, case((8, 23), b'L', &[&large], "26 before 23")),
        within(east, case((8, 22), b'E', &[&[FLATTEST], &at(9.0, 2.0)], "26 before 22")),
        within(nan, case((8, 25), b'E', &[&at(0.0, 1.4)], "30 before 25")),
    ]
}

/// They have no second inverse, and no number is made up for them.
#[rustfmt::skip]
fn other_kinds() -> Vec<OnMapCase> {
    let none = "another kind by its first inverse, or refused";
    let own = "a refused projection of another kind has none";
    let parallels = [(LAT1, 0.5), (LAT2, 0.7)];
    let place = at(0.1, 0.1);
    let nan = [f64::NAN, 1.0, -1.0, 1.0];
    vec![
        missing(case((9, 0), b'A', &[&parallels, &[FLAT], &place], none)),
        missing(case((9, 0), b'A', &[&parallels, &at(0.0, 9.0)], none)),
        missing(case((9, 0), b'C', &[&place], none)),
        missing(case((9, 0), b'C', &[&at(0.0, 2.0)], none)),
        missing(case((9, 0), b'P', &[&[FLAT], &place], none)),
        missing(case((9, 0), b'G', &[&[FLAT], &place], none)),
        missing(case((9, 0), b'G', &[&[FLAT], &at(f64::NAN, 0.0)], none)),
        within(NARROW, missing(case((9, 0), b'P', &[&place], none))),
        case((9, 15), b'A', &[&[(LAT1, 0.5), (LAT2, -0.5)], &place], own),
        case((9, 4), b'C', &[&[(A, 0.0)], &place], own),
        case((9, 8), b'P', &[&[(LAT0, 3.0)], &place], own),
        case((9, 11), b'G', &[&place], own),
        within(nan, case((9, 25), b'C', &[&place], own)),
    ]
}

/// What comes before 30.
#[rustfmt::skip]
fn order() -> Vec<OnMapCase> {
    let (inf, nan) = (f64::INFINITY, f64::NAN);
    let input = "30 before 20";
    let own = "a refused projection has none";
    vec![
        case((0, 20), b'S', &[&at(inf, 0.0)], input),
        case((0, 20), b'L', &[&[FLAT, OBLIQUE], &at(0.0, -inf)], input),
        case((0, 20), b'L', &[&[NORTH], &at(inf, 0.0)], input),
        case((0, 20), b'E', &[&at(nan, 9.0)], input),
        case((0, 20), b'E', &[&at(-inf, 0.0)], input),
        case((0, 4), b'S', &[&[(A, 0.0)], &at(9.0, 0.0)], own),
        case((0, 5), b'E', &[&[(F, 1.0)], &at(9.0, 0.0)], own),
        case((0, 12), b'L', &[&[FLATTEST], &at(9.0, 0.0)], own),
        case((0, 13), b'S', &[&[(LAT0, FRAC_PI_2 - 1e-9)], &at(9.0, 0.0)], own),
        case((0, 10), b'E', &[&[(FN, inf)], &at(0.0, 9.0)], own),
    ]
}
