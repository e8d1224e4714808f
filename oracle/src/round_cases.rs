//! Inverses of Albers of which 02 on the rounds, its readings and 01's order say what number they get,
//! each with the wrong readings that it notices: value lines, and numbers handed in. What is kept too
//! long, the cases before have left.

use crate::cases::line;
use crate::line::{A, F, LAT0, LAT1, LAT2, LON0, Line, U, V};
use crate::rounds::Handed;

pub struct RoundCase<Q> {
    /// By its number among Q-4's readings; 0 is 01's order.
    pub reading: usize,
    pub number: u8,
    pub question: Q,
    /// The wrong readings that it notices.
    pub why: &'static str,
}

/// The value lines.
pub fn line_cases() -> Vec<RoundCase<Line>> {
    let all = [forms, points, flat, round];
    all.iter().flat_map(|cases| cases()).collect()
}

/// What is handed in.
pub fn handed_cases() -> Vec<RoundCase<Handed>> {
    let all = [apart, kept, not_finite, answered, steps, on_spheres, order];
    all.iter().flat_map(|cases| cases()).collect()
}

/// The reading and the number, and an inverse line as `cases` has it.
fn built(
    (reading, number): (usize, u8),
    named: &[&[(usize, f64)]],
    why: &'static str,
) -> RoundCase<Line> {
    let question = line(b"IA", &named.concat());
    RoundCase {
        reading,
        number,
        question,
        why,
    }
}

/// A map of the Earth, to be followed by others.
const EARTH: &[(usize, f64)] = &[
    (A, 6378137.0),
    (F, 1.0 / 298.257222101),
    (LAT0, 0.6),
    (LAT1, 0.5),
    (LAT2, 0.7),
];

/// The same bits by no other form of the round.
#[rustfmt::skip]
fn forms() -> Vec<RoundCase<Line>> {
    let earth = |u, v, why| built((2, 0), &[EARTH, &[(U, u), (V, v)]], why);
    vec![
        earth(0.0, -3.9e6, "q times the reciprocal of 1 - e2, or the logarithm over 2e"),
        earth(0.0, -3.85e6, "the last two of the sum first"),
        earth(9.5e5, -4.5e5, "s/w last"),
        earth(1.5e5, -2.75e6, "the factor grouped otherwise"),
        earth(5e4, 1.65e6, "w grouped otherwise"),
    ]
}

/// Points of one map that are far apart, and one point of several maps.
#[rustfmt::skip]
fn points() -> Vec<RoundCase<Line>> {
    let earth = |v| built((1, 0), &[EARTH, &[(U, 1e6), (V, v)]], "q/(1 - e2) of another point");
    let other = |f| {
        built((1, 0), &[EARTH, &[(F, f), (U, 1e6), (V, -1e6)]], "1/(2e) of another projection")
    };
    vec![
        earth(3.5e6), earth(-6e6), earth(-1e6),
        other(0.1), other(1e-4), other(1.0 / 294.9786982),
    ]
}

/// An e2 of 1, or near it: f = 1 - 2^-53, 1 - 2^-27 and 1 - 2^-26.
#[rustfmt::skip]
fn flat() -> Vec<RoundCase<Line>> {
    let map = |f| [(F, f), (LAT0, 0.5), (LAT1, 0.5), (LAT2, 0.5), (U, 0.1)];
    let [nearest, rounded, below] = [53, 27, 26].map(|digits| map(1.0 - 2.0_f64.powi(-digits)));
    let itself = "q itself where e2 is 1";
    vec![
        built((3, 22), &[&nearest], itself),
        built((3, 22), &[&rounded, &[(V, 0.1)]], itself),
        built((3, 22), &[&below], "the last round's where all are used up"),
        built((3, 0), &[&map(0.99), &[(U, 0.0)]], "q times the reciprocal of 1 - e2"),
        built((0, 20), &[&nearest, &[(U, f64::NAN)]], "22 before 20 where e2 is 1"),
    ]
}

/// A sphere has no rounds, so nothing is worked out there.
#[rustfmt::skip]
fn round() -> Vec<RoundCase<Line>> {
    let sphere = &[(F, 0.0), (U, 1e6), (V, -1e6)];
    vec![
        built((5, 0), &[EARTH, sphere], "22 where e is 0, on a sphere too"),
        built((5, 0), &[EARTH, sphere, &[(F, -0.0), (LON0, 4.0)]], "rounds where e2 is -0"),
        built((5, 23), &[EARTH, sphere, &[(V, 5e7)]], "rounds on a sphere"),
        built((5, 22), &[EARTH, &[(V, 5e7)]], "started at a clamped arcsine"),
    ]
}

/// The reading and the number, and a q, e and e2.
fn handed(
    (reading, number): (usize, u8),
    [q, e, e2]: [f64; 3],
    why: &'static str,
) -> RoundCase<Handed> {
    let question = Handed::of(q, e, e2);
    RoundCase {
        reading,
        number,
        question,
        why,
    }
}

/// An e and e2 of nearly one ellipsoid.
const E: f64 = 0.08;
const E2: f64 = 0.0064;

/// The least e whose double has a reciprocal, but which has none itself; and half of that.
const LEAST: f64 = f64::from_bits(1 << 50);
const NONE: f64 = f64::from_bits(1 << 49);

/// The least e that has no double.
const LARGE: f64 = f64::from_bits(0x7fe0_0000_0000_0000);

/// The handed-in e is taken, and the handed-in e2.
#[rustfmt::skip]
fn apart() -> Vec<RoundCase<Handed>> {
    let root = "e from the root of e2";
    vec![
        handed((2, 0), [0.5, E, 0.5], root),
        handed((2, 0), [0.5, -E, E2], "e without its sign, or 22 where it is negative"),
        handed((2, 0), [0.0, LEAST, E2], "0.5 times 1/e"),
        handed((2, 0), [1e-310, LARGE, E2], "0.5/e"),
    ]
}

/// One q with several e2, and one e2 with several e.
#[rustfmt::skip]
fn kept() -> Vec<RoundCase<Handed>> {
    let (of_q, of_e2) = ("q/(1 - e2) kept for a q", "1/(2e) kept for an e2");
    vec![
        handed((1, 0), [0.5, E, E2], of_e2),
        handed((1, 0), [0.5, E, -0.5], of_q),
        handed((1, 0), [0.5, 1.0, -0.5], of_e2),
        handed((1, 0), [0.5, 0.5, -0.5], of_e2),
        handed((1, 0), [-1.5, E, -0.5], "q/(1 - e2) kept for an e2"),
    ]
}

/// Where a quotient or what is handed in is not finite.
#[rustfmt::skip]
fn not_finite() -> Vec<RoundCase<Handed>> {
    let (inf, nan) = (f64::INFINITY, f64::NAN);
    let (left_out, itself) = ("the logarithm left out where e is 0", "q itself where e2 is 1");
    let stops = "23 where the rounds have no number";
    vec![
        handed((3, 22), [0.0, 0.0, E2], left_out),
        handed((3, 22), [0.0, -0.0, E2], left_out),
        handed((3, 22), [0.5, 0.0, E2], "no rounds where e is 0"),
        handed((3, 22), [0.0, NONE, E2], "the logarithm left out where 1/(2e) is not finite"),
        handed((3, 22), [0.0, E, 1.0], itself),
        handed((3, 22), [0.5, 1.0, 1.0], itself),
        handed((3, 22), [0.0, 0.0, 1.0], "q/2 at once where q is 0"),
        handed((3, 22), [0.5, E, nan], stops),
        handed((3, 22), [0.5, nan, E2], stops),
        handed((3, 22), [nan, E, E2], stops),
        handed((3, 22), [inf, E, E2], stops),
        handed((3, 22), [0.5, inf, E2], stops),
        handed((3, 22), [0.5, E, inf], stops),
        handed((3, 22), [2.1, E, 2.0], "started at a clamped arcsine"),
    ]
}

/// What no ellipsoid has is answered.
#[rustfmt::skip]
fn answered() -> Vec<RoundCase<Handed>> {
    let above = "22 where e2 is above 1";
    vec![
        handed((3, 0), [0.5, E, 2.0], above),
        handed((3, 0), [1e-310, E, 1.0_f64.next_up()], above),
        handed((3, 0), [1e-310, E, 1.0_f64.next_down()], "22 where 1 - e2 is nearly 0"),
        handed((3, 0), [0.5, E, -4.0], "22 where e2 is negative"),
        handed((3, 0), [0.1, 2.0, E2], "22 where e is above 1"),
        handed((3, 0), [-0.0, E, E2], "q/2 at once where q is 0"),
    ]
}

/// The rounds are the source's.
#[rustfmt::skip]
fn steps() -> Vec<RoundCase<Handed>> {
    vec![
        handed((4, 0), [0.5, E, 1.5], "14 rounds"),
        handed((4, 22), [0.75, 0.5, 0.75], "16 rounds"),
        handed((4, 0), [2.6666666666666665e-15, 1e-20, 0.875], "settled at 1e-14 itself"),
    ]
}

#[rustfmt::skip]
fn on_spheres() -> Vec<RoundCase<Handed>> {
    let by_e = "the sphere known by e";
    vec![
        handed((5, 0), [0.5, 0.0, 0.0], "22 where e is 0, on a sphere too"),
        handed((5, 0), [0.5, E, -0.0], by_e),
        handed((5, 0), [0.5, f64::NAN, 0.0], by_e),
        handed((5, 23), [2.1, 0.0, 0.0], "rounds on a sphere"),
        handed((5, 0), [0.5, E, 5e-324], "no rounds below 1e-15"),
    ]
}

/// The place of lon0 among the numbers.
const ORIGIN: usize = 3;

/// 20, 22, 23, 24.
#[rustfmt::skip]
fn order() -> Vec<RoundCase<Handed>> {
    let at = |x, mut case: RoundCase<Handed>| {
        case.question.point[0] = x;
        case
    };
    let from = |lon0, mut case: RoundCase<Handed>| {
        case.question.numbers[ORIGIN] = lon0;
        case
    };
    let (inf, nan) = (f64::INFINITY, f64::NAN);
    let used_up = "22 before 20 where a quotient is not finite";
    vec![
        at(nan, handed((0, 20), [0.5, 1.0, 1.0], used_up)),
        at(inf, handed((0, 20), [0.5, 0.0, E2], used_up)),
        from(inf, handed((0, 22), [2.1, E, E2], "23 before 22")),
        from(nan, handed((0, 23), [0.5, E, E2], "23 left out")),
        from(-inf, handed((0, 23), [2.0, E, 2.0], "24 before 23")),
        handed((0, 24), [2.0, E, 2.0], "24 left out, or 22 at a q of 2"),
    ]
}
