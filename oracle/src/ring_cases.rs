//! Rings of which 02 and its readings say what number they get and how many points they have, each
//! with the wrong readings that it notices.

use crate::area::{Area, BOUND};
use crate::cases::line;
use crate::line::{A, F, FE, FN, LAT0, LAT1, LAT2, LON0};
use crate::ring::{Pair, Ring};
use std::f64::consts::PI;

pub struct RingCase {
    /// By its number among Q-3's readings.
    pub reading: usize,
    pub number: u8,
    /// None where it is refused.
    pub points: usize,
    /// Its area, where the case is about that.
    pub area: Option<f64>,
    pub ring: Ring,
    /// The wrong readings that it notices.
    pub why: &'static str,
}

pub fn ring_cases() -> Vec<RingCase> {
    let all = [
        tolerance,
        depths,
        tested,
        order,
        corners_first,
        midpoints,
        areas,
        buffers,
        numbers,
        areas_of_use,
        lists,
        refusals,
        kinds,
    ];
    all.iter().flat_map(|cases| cases()).collect()
}

/// The reading, the number and how many points, a kind, settings that are not 0, and a is 1 where it
/// is none of them, the corners. The buffers have a place more than the corners and the points.
fn case(
    (reading, number, points): (usize, u8, usize),
    kind: u8,
    named: &[&[(usize, f64)]],
    corners: &[Pair],
    why: &'static str,
) -> RingCase {
    let [settings @ .., _, _] = line(&[b'F', kind], &named.concat()).fields;
    let ring = Ring {
        kind,
        settings,
        area: None,
        lists: [corners.len(); 2],
        corners: corners.to_vec(),
        buffers: [points.max(corners.len()) + 1; 2],
    };
    RingCase {
        reading,
        number,
        points,
        area: None,
        ring,
        why,
    }
}

/// How a case differs from that.
impl RingCase {
    fn within(mut self, area: Area) -> RingCase {
        self.ring.area = Some(area);
        self
    }

    fn lent(mut self, eastings: usize, northings: usize) -> RingCase {
        self.ring.buffers = [eastings, northings];
        self
    }

    fn listed(mut self, lons: usize, lats: usize) -> RingCase {
        self.ring.lists = [lons, lats];
        self
    }

    fn measuring(mut self, area: f64) -> RingCase {
        self.area = Some(area);
        self
    }
}

/// The Earth's, and one on whose map the meridian 0 is opposite the origin.
const EARTH: &[(usize, f64)] = &[(A, 6378137.0)];
const OPPOSITE: &[(usize, f64)] = &[(A, 6378137.0), (LON0, -PI)];
const SMALL_OPPOSITE: &[(usize, f64)] = &[(A, 1e-3), (LON0, -PI)];

/// Albers, and an ellipsoid.
const CONE: &[(usize, f64)] = &[(LAT0, 0.6), (LAT1, 0.5), (LAT2, 0.7)];
const FLAT: &[(usize, f64)] = &[(F, 1.0 / 300.0)];

/// On a map of a = 1 no edge of it is cut.
const TRIANGLE: &[Pair] = &[[0.0, 0.0], [0.5, 0.0], [0.5, 0.5]];

/// One in each quarter of a map, clockwise, and the other way round.
const CLOCKWISE: &[Pair] = &[[0.5, 0.5], [0.5, -0.5], [-0.5, -0.5], [-0.5, 0.5]];
const COUNTER: &[Pair] = &[[0.5, 0.5], [-0.5, 0.5], [-0.5, -0.5], [0.5, -0.5]];

/// Its first edge runs through 0, 0.
const THROUGH: &[Pair] = &[[-0.5, 0.0], [0.5, 0.0], [0.5, 0.5]];

/// A few kilometres of the Earth, where edges are cut.
const CATCHMENT: &[Pair] = &[[0.0, 0.6], [2e-3, 0.6], [2e-3, 0.602]];

const NOWHERE: &[Pair] = &[[f64::NAN; 2]; 3];

/// From the one longitude to the other, and as far as 1 north and south.
const fn between(west: f64, east: f64) -> Area {
    [west, east, -1.0, 1.0]
}

/// All but what lies between these longitudes: it crosses.
const fn but(from: f64, to: f64) -> Area {
    between(to, from)
}

/// 0.5 m is compared with the root.
#[rustfmt::skip]
fn tolerance() -> Vec<RingCase> {
    let at = |a| [(A, f64::from_bits(a)), (LAT0, 0.25)];
    let there_and_back = &[[-0.76, 0.16], [0.79, -0.59], [-0.76, 0.16]];
    vec![
        case((1, 0, 3), b'S', &[&at(0x4022_7aa6_7c56_57b3)], there_and_back, "the sum compared with 0.25, or 0.5 m cut"),
        case((1, 0, 5), b'S', &[&at(0x4022_7aa6_7c56_57b8)], there_and_back, "a step beyond 0.5 m uncut"),
    ]
}

/// Depth 10 is neither tested nor cut.
#[rustfmt::skip]
fn depths() -> Vec<RingCase> {
    let step = 1.0 / 1024.0;
    let from = |lon| [[lon, 0.0], [2.0 + lon, 0.0], [0.5, 0.5]];
    vec![
        case((2, 0, 3072), b'S', &[OPPOSITE], &from(-step), "depth 10 tested"),
        case((2, 18, 0), b'S', &[OPPOSITE], &from(-2.0 * step), "depth 9 not tested"),
    ]
}

/// A midpoint that is tested can refuse, uncut or not.
#[rustfmt::skip]
fn tested() -> Vec<RingCase> {
    let why = "a midpoint refused only where the edge is cut";
    vec![
        case((3, 18, 0), b'S', &[SMALL_OPPOSITE], THROUGH, why),
        case((3, 26, 0), b'S', &[&[(A, 1e-3)]], THROUGH, why).within(but(-0.25, 0.25)),
        case((3, 26, 0), b'E', &[&[(A, 1e-3)]], THROUGH, why).within(but(-0.25, 0.25)),
    ]
}

/// The first point that is refused in working order.
#[rustfmt::skip]
fn order() -> Vec<RingCase> {
    let hole = but(1.5, 2.5);
    let third = [1.0, 0.5];
    let (west, east) = ([-1.0, 0.0], [3.0, 0.0]);
    let deep = &[[-0.5, 0.0], [3.5, 0.0], third];
    vec![
        case((4, 18, 0), b'S', &[OPPOSITE], &[west, east, third], "the second half first").within(hole),
        case((4, 26, 0), b'S', &[OPPOSITE], &[east, west, third], "the western half first").within(hole),
        case((4, 26, 0), b'S', &[OPPOSITE], &[west, east, [2.0, 0.5]], "a corner projected when its edge comes").within(hole),
        case((4, 26, 0), b'S', &[OPPOSITE], &[[-2.0, 0.0], [6.0, 0.0], third], "the halves before the midpoint").within(hole),
        case((4, 18, 0), b'S', &[OPPOSITE], deep, "level by level").within(but(2.0, 3.0)),
    ]
}

/// Each corner in its turn.
#[rustfmt::skip]
fn corners_first() -> Vec<RingCase> {
    let beyond = [1.0, BOUND.next_up()];
    let (opposite, nowhere) = ([0.0, 0.0], [1.0, f64::NAN]);
    let checked = "all corners checked before any is projected";
    vec![
        case((5, 18, 0), b'S', &[OPPOSITE], &[opposite, [1.0, 0.0], beyond], checked),
        case((5, 17, 0), b'S', &[OPPOSITE], &[beyond, [1.0, 0.0], opposite], "the last refusal"),
        case((5, 17, 0), b'S', &[OPPOSITE], &[[1.0, 0.0], beyond, nowhere], "the least number"),
        case((5, 16, 0), b'S', &[OPPOSITE], &[[1.0, 0.0], nowhere, beyond], "the greatest number"),
    ]
}

/// Half the sum of the numbers as they are given.
#[rustfmt::skip]
fn midpoints() -> Vec<RingCase> {
    let short_way = "the short way taken";
    let about_the_line = between(3.0, -3.0);
    let around = &[[3.1, 0.0], [-3.1, 0.0], [3.1, 0.5]];
    let across = &[[3.1, 0.0], [3.18, 0.0], [3.1, 0.5]];
    let far = &[[1.6e308, 0.0], [1.7e308, 0.5], [0.0, 0.5]];
    let no_length = &[[1.7e308, 0.5]; 3];
    let offsets = &[(FE, 1.7e308)];
    vec![
        case((6, 26, 0), b'E', &[], around, short_way).within(about_the_line),
        case((6, 0, 3), b'E', &[], around, short_way),
        case((6, 0, 3), b'E', &[&[(LON0, PI)]], across, "longitudes normalised").within(about_the_line),
        case((6, 0, 3), b'E', &[&[(LON0, PI)]], across, "longitudes normalised"),
        case((6, 16, 0), b'E', &[], far, "a/2 + b/2 for the midpoint"),
        case((6, 16, 0), b'E', &[], no_length, "an edge of no length not tested"),
        case((6, 26, 0), b'E', &[offsets], THROUGH, "a/2 + b/2 for the projected ends").within(but(0.2, 0.3)),
        case((6, 0, 3072), b'E', &[offsets], TRIANGLE, "a/2 + b/2 for the projected ends"),
    ]
}

/// Half the sum of the terms.
#[rustfmt::skip]
fn areas() -> Vec<RingCase> {
    let offset = |metres| [(FE, metres), (FN, metres)];
    let overflow = "terms shifted to the first corner";
    let first = "the sum from the first term";
    let sized = |a| [(A, a)];
    let small = &[[0.0, 0.0], [0.0, 0.03125], [0.015625, 0.0]];
    let large = &[[0.5, 0.5], [-0.5, 0.5], [0.0, -1.0]];
    vec![
        case((7, 28, 0), b'E', &[&offset(1e200)], TRIANGLE, overflow),
        case((7, 28, 0), b'S', &[&offset(1e200)], TRIANGLE, overflow),
        case((7, 0, 3), b'E', &[&offset(1e7)], TRIANGLE, overflow),
        case((7, 0, 3), b'E', &[&offset(5e5)], TRIANGLE, "a term of one rounding"),
        case((7, 0, 4), b'S', &[&[(LAT0, 0.25)]], CLOCKWISE, "the sign dropped"),
        case((7, 0, 4), b'S', &[&[(LAT0, 0.25)]], COUNTER, "the sign turned about"),
        case((7, 0, 4), b'S', &[&sized(1e-170)], CLOCKWISE, first).measuring(0.0),
        case((7, 0, 4), b'S', &[&sized(1e-170)], COUNTER, "the sign turned about").measuring(0.0),
        case((7, 0, 3), b'S', &[&offset(1.0)], &[[0.5, 0.5]; 3], "the sign of no area").measuring(0.0),
        case((7, 0, 3), b'L', &[FLAT, &sized(1e-160)], small, "-0 taken for +0").measuring(-0.0),
        case((7, 28, 0), b'S', &[&sized(1.2e154)], large, "each term halved").lent(3072, 3072),
    ]
}

/// How long the buffers are to be.
#[rustfmt::skip]
fn buffers() -> Vec<RingCase> {
    let shorter = "the shorter buffer not looked at";
    let enough = "more places asked for than points";
    let three = |numbers, why| case(numbers, b'S', &[], TRIANGLE, why);
    let cut = |numbers, why| case(numbers, b'S', &[EARTH, &[(LAT0, 0.6)]], CATCHMENT, why);
    vec![
        three((8, 0, 3), enough).lent(3, 3),
        three((8, 0, 3), enough).lent(3, 7),
        three((8, 0, 3), enough).lent(7, 3),
        three((8, 0, 3), "places past the last point touched").lent(9, 8),
        three((8, 28, 0), shorter).lent(2, 3),
        three((8, 28, 0), shorter).lent(3, 2),
        three((8, 28, 0), shorter).lent(0, 64),
        three((8, 28, 0), shorter).lent(64, 0),
        three((8, 28, 0), "an empty buffer passed").lent(0, 0),
        cut((8, 0, 7), "the midpoint of an uncut edge stored, or the first point again"),
        cut((8, 0, 7), enough).lent(7, 7),
        cut((8, 28, 0), shorter).lent(6, 7),
        cut((8, 28, 0), shorter).lent(7, 6),
        cut((8, 28, 0), "the buffers compared with the corners").lent(3, 3),
    ]
}

/// 27 comes first and 28 last, and the projection's own before both.
#[rustfmt::skip]
fn numbers() -> Vec<RingCase> {
    let points = "a point before 27";
    let built = "27 before a number of the building";
    let last = "28 before a point";
    let parallels = &[(LAT1, 0.5), (LAT2, -0.5)];
    let of = |kind| case((9, 27, 0), kind, &[FLAT], NOWHERE, points).lent(0, 0);
    vec![
        of(b'C'),
        of(b'P'),
        of(b'G'),
        case((9, 27, 0), b'C', &[], TRIANGLE, "another kind measured"),
        case((9, 27, 0), b'P', &[], TRIANGLE, "another kind measured"),
        case((9, 27, 0), b'G', &[FLAT], TRIANGLE, "another kind measured"),
        case((9, 27, 0), b'C', &[], TRIANGLE, "26 before 27").within(between(1.0, 2.0)),
        case((9, 27, 0), b'L', &[], &NOWHERE[..2], points),
        case((9, 27, 0), b'E', &[], NOWHERE, points).listed(3, 4),
        case((9, 16, 0), b'E', &[], NOWHERE, last).lent(0, 0),
        case((9, 18, 0), b'S', &[SMALL_OPPOSITE], THROUGH, last).lent(0, 0),
        case((9, 26, 0), b'L', &[], THROUGH, last).within(but(-0.25, 0.25)).lent(0, 0),
        case((9, 28, 0), b'E', &[&[(FE, 1e200), (FN, 1e200)]], TRIANGLE, "an area that is not finite answered").lent(0, 0),
        case((9, 4, 0), b'C', &[&[(A, 0.0)]], NOWHERE, built),
        case((9, 11, 0), b'G', &[], TRIANGLE, built),
        case((9, 15, 0), b'A', &[parallels], &TRIANGLE[..2], built),
        case((9, 13, 0), b'L', &[&[(LAT0, BOUND)]], TRIANGLE, built).listed(0, 3),
        case((9, 25, 0), b'P', &[], NOWHERE, built).within(between(f64::NAN, 1.0)),
        case((9, 25, 0), b'S', &[], NOWHERE, "a point before 25").within(between(-4.0, 1.0)),
    ]
}

/// Every corner and every midpoint that is tested is judged.
#[rustfmt::skip]
fn areas_of_use() -> Vec<RingCase> {
    let all = between(-1.0, 1.0);
    let midpoint = "a midpoint not judged";
    let step = 1.0 / 1024.0;
    let across = &[[-0.5, 0.0], [0.5, 0.0], [0.5, 0.25]];
    let deep = &[[-step, 0.0], [2.0 - step, 0.0], [0.5, 0.5]];
    vec![
        case((10, 0, 3), b'S', &[], TRIANGLE, "a ring inside refused").within(all),
        case((10, 0, 3), b'E', &[], TRIANGLE, "a corner at an edge outside").within([0.0, 0.5, 0.0, 0.5]),
        case((10, 26, 0), b'L', &[], TRIANGLE, "a corner not judged").within(between(-1.0, 0.25)),
        case((10, 26, 0), b'A', &[CONE], TRIANGLE, "a corner not judged").within([-1.0, 1.0, 0.25, 1.0]),
        case((10, 26, 0), b'E', &[], across, midpoint).within(but(-0.25, 0.25)),
        case((10, 26, 0), b'A', &[CONE], across, midpoint).within(but(-0.25, 0.25)),
        case((10, 26, 0), b'E', &[&[(LON0, 1.0)]], across, "the distance from lon0 judged").within(but(-0.1, 0.1)),
        case((10, 0, 3072), b'S', &[OPPOSITE], deep, "a midpoint at depth 10 judged").within(but(-1e-9, 1e-9)),
    ]
}

/// How many corners there may be.
#[rustfmt::skip]
fn lists() -> Vec<RingCase> {
    let closed = &[[0.0, 0.0], [0.5, 0.0], [0.5, 0.5], [0.0, 0.0]];
    let short = "the shorter list taken";
    let so_many = |numbers, count, why| case(numbers, b'S', &[], COUNTER, why).listed(count, count);
    vec![
        so_many((11, 0, 3), 3, "3 corners refused"),
        so_many((11, 0, 4096), 4096, "4,096 corners refused"),
        so_many((11, 27, 0), 4097, "4,097 corners passed"),
        so_many((11, 27, 0), 2, "2 corners passed"),
        so_many((11, 27, 0), 1, "a corner passed"),
        so_many((11, 27, 0), 0, "no corners passed"),
        case((11, 27, 0), b'S', &[], COUNTER, short).listed(4, 3),
        case((11, 27, 0), b'S', &[], COUNTER, short).listed(3, 4),
        case((11, 27, 0), b'S', &[], COUNTER, short).listed(0, 4),
        case((11, 0, 4), b'S', &[], closed, "the first corner at the end left out"),
        case((11, 0, 4), b'E', &[FLAT], closed, "the first corner at the end left out"),
        case((11, 0, 3), b'L', &[FLAT], &[[0.25, 0.5]; 3], "corners that are one left out"),
    ]
}

/// Nothing is written before all is known.
#[rustfmt::skip]
fn refusals() -> Vec<RingCase> {
    let written = "a refusal has written the buffers";
    let through = &[[0.5, 0.5], [-0.5, 0.0], [0.5, 0.0]];
    vec![
        case((12, 28, 0), b'L', &[FLAT, &[(FE, 1e200), (FN, -1e200)]], TRIANGLE, written),
        case((12, 18, 0), b'S', &[SMALL_OPPOSITE], through, written),
        case((12, 26, 0), b'L', &[FLAT], through, written).within(but(-0.1, 0.1)),
        case((12, 17, 0), b'E', &[], &[[0.5, 0.5], [-0.5, 0.0], [0.5, 2.0]], written),
    ]
}

/// Each kind, and Albers on a sphere.
#[rustfmt::skip]
fn kinds() -> Vec<RingCase> {
    let refused = "a kind refused";
    let sphere = "Albers on a sphere refused";
    let parallels = &[(LAT1, 0.5), (LAT2, -0.5)];
    vec![
        case((13, 0, 3), b'L', &[FLAT], TRIANGLE, refused),
        case((13, 0, 3), b'S', &[FLAT], TRIANGLE, refused),
        case((13, 0, 3), b'A', &[FLAT, CONE], TRIANGLE, refused),
        case((13, 0, 3), b'E', &[FLAT], TRIANGLE, refused),
        case((13, 0, 3), b'A', &[CONE], TRIANGLE, sphere),
        case((13, 0, 3), b'A', &[CONE, &[(F, -0.0)]], TRIANGLE, sphere),
        case((13, 15, 0), b'A', &[parallels], TRIANGLE, "15 lost"),
        case((13, 0, 7), b'L', &[EARTH, &[(LAT0, 0.6)]], CATCHMENT, refused),
        case((13, 0, 7), b'A', &[EARTH, CONE], CATCHMENT, sphere),
        case((13, 0, 5), b'E', &[EARTH], CATCHMENT, refused),
    ]
}
