//! Lines with an area of which 02 and its readings say what number they get, each with the wrong
//! readings that it notices.

use crate::area::{Area, AreaLine, BOUND, WIDEST};
use crate::cases::line;
use crate::line::{A, F, LAT0, LAT1, LAT2, LON0, U, V};
use std::f64::consts::{FRAC_PI_2, PI};

pub struct AreaCase {
    /// By its number among Q-1's readings.
    pub reading: usize,
    pub number: u8,
    pub question: AreaLine,
    /// The wrong readings that it notices.
    pub why: &'static str,
}

pub fn area_cases() -> Vec<AreaCase> {
    let all = [edges, order, sizes, handed, inverses];
    all.iter().flat_map(|cases| cases()).collect()
}

/// A case of a projection that is built with an area: the reading and the number, the line as
/// `cases` has it, the area.
fn case(
    (reading, number): (usize, u8),
    name: &[u8; 2],
    named: &[(usize, f64)],
    area: Area,
    why: &'static str,
) -> AreaCase {
    let line = line(name, named);
    let handed = false;
    AreaCase {
        reading,
        number,
        question: AreaLine { line, area, handed },
        why,
    }
}

/// Equal Earth forward, at a longitude of the parallel 0.5.
fn at(numbers: (usize, u8), lon: f64, area: Area, why: &'static str) -> AreaCase {
    case(numbers, b"FE", &[(U, lon), (V, 0.5)], area, why)
}

/// From the one longitude to the other, and as far as 1 north and south.
const fn between(west: f64, east: f64) -> Area {
    [west, east, -1.0, 1.0]
}

const NARROW: Area = [-0.5, 0.5, -0.5, 0.5];
const EAST: Area = between(1.0, 2.0);
const NAN: Area = between(f64::NAN, 1.0);

/// A flattening of which e2 rounds to 1.
const NEAR_1: f64 = 1.0 - 1.0 / (1u64 << 53) as f64;

/// A latitude beyond the bound, and Albers between opposite parallels, on an ellipsoid.
const BEYOND: [(usize, f64); 2] = [(U, 0.25), (V, BOUND.next_up())];
const PARALLELS: [(usize, f64); 3] = [(F, 1.0 / 300.0), (LAT1, 0.5), (LAT2, -0.5)];

/// Which longitudes and latitudes an area holds.
#[rustfmt::skip]
fn edges() -> Vec<AreaCase> {
    let normalised = f64::from_bits(0x3fb9_9999_9999_99a0);
    let one = "PI and -PI taken for one";
    let zeros = "-0 taken for less than +0";
    let at_equator = |lat, south, north| {
        case((7, 0), b"FE", &[(U, 0.25), (V, lat)], [-1.0, 1.0, south, north], zeros)
    };
    vec![
        at((1, 26), 0.1, between(-1.0, 0.1), "the east edge normalised too"),
        at((1, 26), 0.3, between(0.3, 1.0), "the west edge normalised too"),
        at((1, 0), 0.1, between(normalised, 1.0), "the place not normalised"),
        at((1, 0), 7.0, between(0.5, 1.0), "the place not normalised"),
        at((1, 0), 0.25, between(0.25, 1.0), "the west edge outside"),
        at((1, 0), 0.25, between(-1.0, 0.25), "the east edge outside"),
        at((5, 0), 2.0, between(2.0, 2.0), "one meridian taken for none"),
        at((5, 26), 2.5, between(2.0, 2.0), "one meridian taken for the turn"),
        at((6, 26), PI, between(-PI, -3.0), one),
        at((6, 26), -PI, between(3.0, PI), one),
        at((6, 0), PI, between(PI, -PI), "PI normalised to -PI, west outside"),
        at((6, 0), -PI, between(PI, -PI), "-PI normalised to PI, east outside"),
        at((6, 26), 3.0, between(PI, -PI), "a crossing taken for the turn"),
        at((6, 0), PI, between(-PI, PI), "the east edge outside"),
        at((6, 0), -PI, between(-PI, PI), "the west edge outside"),
        at((6, 0), 3.0 * PI, between(3.0, PI), "3 PI normalised to -PI"),
        at((6, 0), -3.0 * PI, between(-PI, -3.0), "-3 PI normalised to PI"),
        at((6, 0), (-PI).next_down(), between(3.0, PI), "a step below -PI normalised to -PI"),
        at((7, 26), 1.0, between(0.0, -0.0), zeros),
        at((7, 0), -0.0, between(0.0, -0.0), zeros),
        at((7, 0), 0.0, between(-1.0, -0.0), zeros),
        at_equator(0.0, 0.0, -0.0),
        at_equator(-0.0, 0.0, 1.0),
        at_equator(0.0, -1.0, -0.0),
        at((8, 0), 0.25, [-1.0, 1.0, 0.5, 1.0], "the south edge outside"),
        at((8, 0), 0.25, [-1.0, 1.0, -1.0, 0.5], "the north edge outside"),
        at((8, 0), 3.0, between(2.5, -2.5), "a crossing refused, or holding none"),
        at((8, 0), -3.0, between(2.5, -2.5), "a crossing that ends at the line"),
        at((8, 26), 0.25, between(2.5, -2.5), "a crossing turned about"),
    ]
}

/// What is tested, and when.
#[rustfmt::skip]
fn order() -> Vec<AreaCase> {
    let distance = "the distance from lon0 tested";
    let formula = "the formula given the normalised longitude";
    let brought = "the latitude brought to pi/2, or 17";
    let east_of_1 = [(LON0, 1.0), (U, 1.25), (V, 0.5)];
    let far = [(LON0, 1.0), (U, 1e300), (V, 0.5)];
    let no_result = [(F, NEAR_1), (U, 0.25), (V, 0.5)];
    let past_pole = [(U, 0.25), (V, FRAC_PI_2 + 5e-13)];
    vec![
        case((2, 26), b"FE", &east_of_1, between(-0.5, 0.5), distance),
        case((2, 0), b"FE", &east_of_1, between(1.0, 1.5), distance),
        case((2, 26), b"IE", &[(LON0, 1.0)], NARROW, distance),
        case((3, 0), b"FE", &far, WIDEST, formula),
        case((4, 26), b"FS", &[(U, PI)], NARROW, "18 before 26"),
        case((4, 18), b"FS", &[(U, PI)], [-PI, PI, -0.5, 0.5], "18 lost"),
        case((4, 26), b"FE", &no_result, between(-1.0, 0.0), "19 before 26"),
        case((4, 19), b"FE", &no_result, WIDEST, "19 lost"),
        at((4, 16), f64::NAN, NARROW, "26 before 16"),
        case((4, 17), b"FE", &BEYOND, between(-1.0, 1.0), "26 before 17"),
        case((12, 26), b"FE", &past_pole, [-1.0, 1.0, -1.0, FRAC_PI_2], brought),
        case((12, 0), b"FE", &past_pole, [-1.0, 1.0, -1.0, BOUND], "17 beyond pi/2"),
        case((9, 15), b"FA", &PARALLELS, NAN, "25 before 15"),
        case((9, 15), b"FA", &PARALLELS[1..], NAN, "25 before 15, on a sphere"),
        case((9, 25), b"FE", &no_result, NAN, "19 before 25"),
        case((9, 11), b"FG", &[], NAN, "25 before 11"),
        case((9, 4), b"IE", &[(A, 0.0)], NAN, "25 before 4"),
        case((9, 13), b"FL", &[(LAT0, BOUND)], NAN, "25 before 13"),
        at((9, 25), f64::NAN, NAN, "16 before 25"),
        case((9, 25), b"IE", &[(U, f64::NAN)], NAN, "20 before 25"),
    ]
}

/// Which areas are refused.
#[rustfmt::skip]
fn sizes() -> Vec<AreaCase> {
    let (pi, bound) = (PI.next_up(), BOUND.next_up());
    let a_step = "25 only from a step further on";
    let refused = |area, why| at((8, 25), 0.25, area, why);
    vec![
        at((8, 0), 0.25, WIDEST, "25 at PI, at the bound, or beyond pi/2"),
        refused([-pi, PI, -BOUND, BOUND], a_step),
        refused([pi, PI, -BOUND, BOUND], a_step),
        refused([-PI, pi, -BOUND, BOUND], a_step),
        refused([-PI, -pi, -BOUND, BOUND], a_step),
        refused([-PI, PI, -bound, BOUND], a_step),
        refused([-PI, PI, -BOUND, bound], a_step),
        at((8, 0), 0.25, [-1.0, 1.0, 0.5, 0.5], "25 where south is north"),
        refused([-1.0, 1.0, 0.5_f64.next_up(), 0.5], a_step),
        refused(NAN, "a west of NaN passed"),
        refused(between(-1.0, f64::NAN), "an east of NaN passed"),
        refused([-1.0, 1.0, f64::NAN, 1.0], "a south of NaN passed"),
        refused([-1.0, 1.0, -1.0, f64::NAN], "a north of NaN passed"),
    ]
}

/// Areas that are handed in.
#[rustfmt::skip]
fn handed() -> Vec<AreaCase> {
    let infinity = f64::INFINITY;
    let crossing = "crossing where west is not at most east";
    let checked = "25 for an area that is handed in";
    let centre = [(LON0, 4.0), (LAT0, 0.5)];
    let large = [-4.0, 4.0, -2.0, 2.0];
    let all = [-infinity, infinity, -infinity, infinity];
    let mut cases = vec![
        at((10, 26), 0.0, NAN, crossing),
        at((10, 26), 2.0, between(1.0, f64::NAN), crossing),
        at((10, 26), 0.0, [-1.0, 1.0, f64::NAN, 1.0], "a south of NaN passed"),
        at((10, 26), 0.0, [-1.0, 1.0, -1.0, f64::NAN], "a north of NaN passed"),
        at((10, 26), 0.0, [f64::NAN; 4], "NaN taken for no area"),
        at((10, 0), 3.0, between(-infinity, infinity), checked),
        at((10, 26), 3.0, between(infinity, -infinity), "infinite edges taken for the turn"),
        at((10, 26), 0.0, [-1.0, 1.0, 1.0, -1.0], "south above north turned about"),
        at((10, 0), 3.0, large, checked),
        case((10, 17), b"FE", &BEYOND, large, "17 lost"),
        case((10, 15), b"FA", &PARALLELS, large, "15 lost"),
        case((10, 24), b"IC", &[(V, 2.0)], all, "24 lost"),
        case((11, 26), b"IS", &centre, between(3.5, 4.5), "the centre tested at lon0 itself"),
    ];
    for case in &mut cases {
        case.question.handed = true;
    }
    cases
}

/// What an inverse hands out.
#[rustfmt::skip]
fn inverses() -> Vec<AreaCase> {
    let centre = [(LON0, 2.25), (LAT0, 0.5)];
    let turned = [(LON0, 4.0), (LAT0, 0.5)];
    let pole = [(V, f64::from_bits(0x4012_d97c_7f33_21d2))];
    let step_at_pole = [(F, 1.0 / 300.0), (V, FRAC_PI_2)];
    vec![
        case((11, 26), b"IS", &centre, NARROW, "Lambert's centre not tested"),
        case((11, 26), b"IL", &centre, NARROW, "Lambert's centre not tested"),
        case((11, 0), b"IL", &turned, between(-2.5, -2.0), "the centre tested at lon0 itself"),
        case((11, 26), b"IC", &pole, NARROW, "Cassini's pole not tested"),
        case((11, 20), b"IC", &[(U, f64::INFINITY)], EAST, "26 before 20"),
        case((11, 21), b"IP", &step_at_pole, EAST, "26 before 21"),
        case((11, 24), b"IC", &[(V, 2.0)], EAST, "26 before 24"),
    ]
}
