//! Rings: inputs on which two readings of the rule would differ, by number and count; any ring, bit
//! for bit, by the rule written a second time; which places of the buffers are written; and what is
//! refused, in which order.

mod common;

use common::{EARTH, Edges, KINDS, NANS, Random, Settings, build, build_in, next_down, next_up};
use lenthuc::{Projection, RING_CORNERS, RING_ROOM, Refusal, Ring, RingArea};
use std::collections::BTreeSet;
use std::f64::consts::{FRAC_PI_4, PI};
use std::sync::Arc;

/// The kinds that keep areas, and so have rings.
const WITH_RINGS: [u8; 4] = *b"LSAE";

/// Settings of which a is 1 and the others are 0, and the same with the Earth's a.
const UNIT: Settings = [1.0, 0.0, 0.0, 0.0, 0.0, 0.0, 0.0, 0.0];
const GLOBE: Settings = [6378137.0, 0.0, 0.0, 0.0, 0.0, 0.0, 0.0, 0.0];

/// The same about the meridian -π, which has the meridian 0 opposite it.
const ABOUT_180: Settings = [6378137.0, 0.0, -PI, 0.0, 0.0, 0.0, 0.0, 0.0];

/// A small ring on `EARTH`, counterclockwise, all of whose edges are cut at least once.
const CATCHMENT: [(f64, f64); 4] = [(0.29, 0.69), (0.31, 0.692), (0.308, 0.71), (0.292, 0.708)];

type Corner = (f64, f64);

fn on(kind: u8, settings: Settings) -> Box<dyn Projection> {
    build(kind, settings).expect("a map")
}

fn within(edges: Edges, kind: u8, settings: Settings) -> Box<dyn Projection> {
    build_in(edges, kind, settings).expect("a map with an area")
}

/// What a buffer holds before: NaN of many patterns, so that any place that is written is noticed.
fn unwritten(places: usize) -> Vec<f64> {
    (0..places)
        .map(|place| f64::from_bits(NANS[place % NANS.len()]))
        .collect()
}

fn patterns(numbers: &[f64]) -> Vec<u64> {
    numbers.iter().map(|number| number.to_bits()).collect()
}

/// A ring's area and points with so many places of the two buffers. Of a refusal the buffers are as
/// they were; else the places after the points are.
fn measured(
    map: &dyn Projection,
    lon: &[f64],
    lat: &[f64],
    places: [usize; 2],
) -> Result<Ring, Refusal> {
    let [mut easting, mut northing] = places.map(unwritten);
    let answer = map.ring_area(lon, lat, &mut easting, &mut northing);
    let points = answer.map_or(0, |ring| ring.points);
    for (buffer, places) in [&easting, &northing].into_iter().zip(places) {
        let before = unwritten(places);
        assert_eq!(patterns(&buffer[points..]), patterns(&before[points..]));
    }
    let pairs = easting.into_iter().zip(northing).take(points);
    answer.map(|RingArea { area, .. }| Ring {
        area,
        points: pairs.collect(),
    })
}

/// The ring of corners, with buffers that are long enough; `Projection::ring` gives the same.
fn ring(map: &dyn Projection, corners: &[Corner]) -> Result<Ring, Refusal> {
    let (lon, lat): (Vec<_>, Vec<_>) = corners.iter().copied().unzip();
    let answer = measured(map, &lon, &lat, [RING_ROOM * corners.len(); 2]);
    assert_eq!(bits(&map.ring(corners)), bits(&answer));
    answer
}

/// A number, 0 if answered, the area's pattern, and those of the points.
fn bits(answer: &Result<Ring, Refusal>) -> (u8, u64, Vec<(u64, u64)>) {
    match answer {
        Ok(ring) => {
            let point = |&(x, y): &Corner| (x.to_bits(), y.to_bits());
            (
                0,
                ring.area.to_bits(),
                ring.points.iter().map(point).collect(),
            )
        }
        Err(refusal) => (refusal.number(), 0, Vec::new()),
    }
}

/// How many points a ring has, or its number.
fn count(map: &dyn Projection, corners: &[Corner]) -> Result<usize, u8> {
    ring(map, corners)
        .map(|ring| ring.points.len())
        .map_err(Refusal::number)
}

/// The rule, written a second time: by single points.
fn by_the_rule(map: &dyn Projection, corners: &[Corner]) -> Result<Ring, Refusal> {
    let project = |&(lon, lat): &Corner| map.forward(lon, lat);
    let projected: Vec<_> = corners.iter().map(project).collect::<Result<_, _>>()?;
    let mut points = Vec::new();
    for i in 0..corners.len() {
        let next = (i + 1) % corners.len();
        points.push(projected[i]);
        let ends = [corners[i], corners[next]];
        cut(map, ends, [projected[i], projected[next]], 0, &mut points)?;
    }
    let mut sum = 0.0;
    for (i, (x, y)) in points.iter().enumerate() {
        let (next_x, next_y) = points[(i + 1) % points.len()];
        sum += x * next_y - next_x * y;
    }
    let area = 0.5 * sum;
    match area.is_finite() {
        true => Ok(Ring { area, points }),
        false => Err(Refusal::RingResult),
    }
}

/// Adds the cut points of an edge, by its ends and what they are on the map.
fn cut(
    map: &dyn Projection,
    ends: [Corner; 2],
    projected: [Corner; 2],
    depth: u32,
    points: &mut Vec<Corner>,
) -> Result<(), Refusal> {
    if depth == 10 {
        return Ok(());
    }
    let half_sum = |[p, q]: [Corner; 2]| ((p.0 + q.0) * 0.5, (p.1 + q.1) * 0.5);
    let midpoint = half_sum(ends);
    let there = map.forward(midpoint.0, midpoint.1)?;
    let between = half_sum(projected);
    let (dx, dy) = (there.0 - between.0, there.1 - between.1);
    if (dx * dx + dy * dy).sqrt() <= 0.5 {
        return Ok(());
    }
    let first = [projected[0], there];
    cut(map, [ends[0], midpoint], first, depth + 1, points)?;
    points.push(there);
    let second = [there, projected[1]];
    cut(map, [midpoint, ends[1]], second, depth + 1, points)
}

/// The root of the sum is compared with 0.5, and not the sum with 0.25: the number after 0.25 has the
/// root 0.5.
#[test]
fn left_uncut_by_the_root() {
    let a = f64::from_bits(0x4022_7aa6_7c56_57b3);
    let map = on(b'S', [a, 0.0, 0.0, 0.25, 0.0, 0.0, 0.0, 0.0]);
    let corners = [(-0.76, 0.16), (0.79, -0.59), (-0.76, 0.16)];
    assert_eq!(count(&*map, &corners), Ok(3));
}

/// An edge at depth 10 is not tested: the place opposite the origin, its midpoint, refuses nothing. As a
/// midpoint at depth 9 it does.
#[test]
fn not_tested_at_depth_10() {
    let map = on(b'S', ABOUT_180);
    let corners = |off: f64| [(-off, 0.0), (2.0 - off, 0.0), (0.5, 0.5)];
    assert_eq!(count(&*map, &corners(1.0 / 1024.0)), Ok(3072));
    assert_eq!(count(&*map, &corners(2.0 / 1024.0)), Err(18));
}

/// Edge by edge, a midpoint before its halves and the first half before the second.
#[test]
fn in_working_order() {
    let map = within([2.5, 1.5, -1.0, 1.0], b'S', ABOUT_180);
    // longitude 0 is opposite the origin, in the first half; longitude 2 is outside, in the second
    assert_eq!(
        count(&*map, &[(-1.0, 0.0), (3.0, 0.0), (1.0, 0.5)]),
        Err(18)
    );
    assert_eq!(
        count(&*map, &[(3.0, 0.0), (-1.0, 0.0), (1.0, 0.5)]),
        Err(26)
    );
    // a corner that is outside comes before both
    assert_eq!(
        count(&*map, &[(-1.0, 0.0), (3.0, 0.0), (2.0, 0.5)]),
        Err(26)
    );
}

/// The first half is worked out whole before the second is begun: not level by level.
#[test]
fn in_working_order_by_depth() {
    let map = within([3.0, 2.0, -1.0, 1.0], b'S', ABOUT_180);
    assert_eq!(
        count(&*map, &[(-0.5, 0.0), (3.5, 0.0), (1.0, 0.5)]),
        Err(18)
    );
}

/// Each corner gives its own first number, in its turn; and the last corner comes before the first edge.
#[test]
fn corners_in_their_turn() {
    let map = on(b'S', GLOBE);
    let (opposite, beyond, nan) = ((PI, 0.0), (0.0, 2.0), (0.0, f64::NAN));
    let (sound, other) = ((0.1, 0.1), (0.2, 0.3));
    assert_eq!(count(&*map, &[opposite, sound, beyond]), Err(18));
    assert_eq!(count(&*map, &[beyond, sound, opposite]), Err(17));
    assert_eq!(count(&*map, &[sound, nan, beyond]), Err(16));
    assert_eq!(count(&*map, &[sound, other, beyond]), Err(17));
    // the first edge's midpoint is opposite the origin
    let edge = [(PI - 0.5, 0.0), (PI + 0.5, 0.0)];
    assert_eq!(count(&*map, &[edge[0], edge[1], sound]), Err(18));
    assert_eq!(count(&*map, &[edge[0], edge[1], beyond]), Err(17));
}

/// Longitudes are taken as they are: from 3.1 to -3.1 an edge runs through 0.
#[test]
fn no_short_way() {
    let map = within(
        [3.0, -3.0, -1.0, 1.0],
        b'E',
        [6378137.0, 0.0, PI, 0.0, 0.0, 0.0, 0.0, 0.0],
    );
    assert_eq!(
        count(&*map, &[(3.1, 0.1), (-3.1, 0.1), (-3.1, 0.2)]),
        Err(26)
    );
    let across = [(3.1, 0.1), (3.18, 0.1), (3.18, 0.2)];
    let area = |map: &dyn Projection| ring(map, &across).expect("a ring across").area;
    assert!((1.6e11..1.63e11).contains(&area(&*map)), "{}", area(&*map));
    // about the meridian 0 the same ring lies across the map's edge
    assert!(!(1e11..2e11).contains(&area(&*on(b'E', GLOBE))));
}

/// A half sum that overflows: of longitudes it is no number, and on the map the edge is cut.
#[test]
fn sums_that_overflow() {
    let map = on(b'E', UNIT);
    let far = [(1.6e308, 0.0), (1.7e308, 0.0), (0.0, 0.5)];
    assert!(far.iter().all(|&(lon, lat)| map.forward(lon, lat).is_ok()));
    assert_eq!(count(&*map, &far), Err(16));
    let equator = [(0.0, 0.0), (0.1, 0.0), (0.2, 0.0)];
    assert_eq!(count(&*map, &equator), Ok(3));
    let offset = on(b'E', [1.0, 0.0, 0.0, 0.0, 0.0, 0.0, 1.2e308, 0.0]);
    assert_eq!(count(&*offset, &equator), Ok(3072));
}

/// The terms have whole coordinates, with the offsets: large ones leave no finite area.
#[test]
fn areas_that_are_no_number() {
    for kind in WITH_RINGS {
        let mut settings = EARTH;
        (settings[6], settings[7]) = (1e200, 1e200);
        assert_eq!(count(&*on(kind, settings), &CATCHMENT), Err(28));
    }
}

/// An area of 0 may have either sign: half of the least negative number is -0.
#[test]
fn areas_of_zero() {
    let map = on(b'L', [1e-160, 0.0, 0.0, 0.0, 0.0, 0.0, 0.0, 0.0]);
    let area = |size: f64| {
        let clockwise = [(0.0, 0.0), (0.0, size), (size, 0.0)];
        ring(&*map, &clockwise).expect("a small ring").area
    };
    let found: BTreeSet<u64> = (0..200).map(|i| area(i as f64 * 2e-4).to_bits()).collect();
    assert!(found.contains(&0.0_f64.to_bits()) && found.contains(&(-0.0_f64).to_bits()));
}

/// Any ring on any map that has rings: every number, every bit of the area and of the points.
#[test]
fn are_the_rule() {
    let mut random = Random(31);
    for kind in WITH_RINGS {
        let mut numbers = BTreeSet::new();
        let mut cut = 0;
        for _ in 0..600 {
            let mut settings = EARTH;
            settings[0] = 10.0_f64.powf(5.0 + random.within(3.0));
            if random.bits() % 3 == 0 {
                settings[1] = 0.0;
            }
            for (place, size) in [(2, 3.0), (3, 1.5), (4, 1.5), (5, 1.5), (6, 1e6), (7, 1e6)] {
                settings[place] = random.within(size);
            }
            if random.bits() % 20 == 0 {
                (settings[6], settings[7]) = (1e155, random.within(1e156));
            }
            let size = 10.0_f64.powf(-2.0 + random.within(2.0));
            let edges = [(); 4].map(|()| random.within(1.5));
            let built = match random.bits() % 4 {
                0 => build_in(edges, kind, settings),
                _ => build(kind, settings),
            };
            let Ok(map) = built else {
                continue;
            };
            let (lon, lat) = (random.within(4.0), random.within(1.5));
            let corners: Vec<_> = (0..3 + random.bits() % 6)
                .map(|_| match random.bits() % 50 {
                    0 => (random.input(b'F'), random.input(b'F')),
                    _ => (lon + random.within(size), lat + random.within(size)),
                })
                .collect();
            let expected = by_the_rule(&*map, &corners);
            let answer = ring(&*map, &corners);
            assert_eq!(bits(&answer), bits(&expected), "{map:?} {corners:?}");
            numbers.insert(bits(&answer).0);
            cut += usize::from(answer.is_ok_and(|ring| ring.points.len() > corners.len()));
        }
        let met = [0, 16, 17, 26, 28].map(|number| numbers.contains(&number));
        assert_eq!(met, [true; 5], "{numbers:?}");
        assert!(cut > 50, "{cut}");
    }
}

/// A rectangle of longitudes and latitudes has the area that it has on the ellipsoid, but for half a
/// metre along its edges.
#[test]
fn of_a_rectangle() {
    let (west, east, south, north) = (0.25, 0.35, 0.65, 0.72);
    let corners = [(west, south), (east, south), (east, north), (west, north)];
    for f in [EARTH[1], 0.0] {
        let [a, e2] = [EARTH[0], f * (2.0 - f)];
        let zone = |lat: f64| match f == 0.0 {
            true => 2.0 * lat.sin(),
            false => {
                let (s, e) = (lat.sin(), e2.sqrt());
                (1.0 - e2) * (s / (1.0 - e2 * s * s) + (e * s).atanh() / e)
            }
        };
        let exact = a * a / 2.0 * (zone(north) - zone(south)) * (east - west);
        for kind in WITH_RINGS {
            if kind == b'S' && f != 0.0 {
                continue; // its areas are those of a sphere
            }
            let mut settings = EARTH;
            (settings[1], settings[6], settings[7]) = (f, 0.0, 0.0);
            let area = ring(&*on(kind, settings), &corners)
                .expect("a rectangle")
                .area;
            assert!((area / exact - 1.0).abs() < 3e-6, "{kind} {area} {exact}");
        }
    }
}

/// The spherical form keeps areas on a sphere alone. On the Earth's ellipsoid they are 0.4 % too large
/// at the equator, and 0.9 % too small at a pole.
#[test]
fn of_the_spherical_form() {
    for (lat, off) in [(0.0, 0.0045), (1.57, -0.0089)] {
        let corners = [
            (0.3, lat),
            (0.31, lat),
            (0.31, lat - 1e-3),
            (0.3, lat - 1e-3),
        ];
        let mut settings = EARTH;
        (settings[3], settings[6], settings[7]) = (0.5, 0.0, 0.0);
        let [spherical, exact] = [b'S', b'L'].map(|kind| ring(&*on(kind, settings), &corners));
        let ratio = spherical.expect("a ring").area / exact.expect("the same").area;
        assert!((ratio - 1.0 - off).abs() < 2e-4, "{lat} {ratio}");
    }
}

/// The sign says which way round the corners are given. The points are the same.
#[test]
fn turned_round() {
    for kind in WITH_RINGS {
        let map = on(kind, EARTH);
        let there = ring(&*map, &CATCHMENT).expect("a catchment");
        let turned: Vec<_> = CATCHMENT.into_iter().rev().collect();
        let back = ring(&*map, &turned).expect("the same");
        assert!(there.area > 0.0 && back.area < 0.0);
        assert!((there.area + back.area).abs() < 1e-9 * there.area);
        let sorted = |ring: &Ring| {
            let mut points = bits(&Ok(ring.clone())).2;
            points.sort_unstable();
            points
        };
        assert_eq!(sorted(&there), sorted(&back));
        assert!(there.points.len() > CATCHMENT.len());
    }
}

/// A last corner that repeats the first adds an edge of no length: one point, and nothing to the area.
#[test]
fn with_a_repeated_corner() {
    for kind in WITH_RINGS {
        let map = on(kind, EARTH);
        let open = ring(&*map, &CATCHMENT).expect("a catchment");
        let mut corners = CATCHMENT.to_vec();
        corners.push(CATCHMENT[0]);
        let closed = ring(&*map, &corners).expect("the same");
        assert_eq!(closed.area.to_bits(), open.area.to_bits());
        assert_eq!(closed.points.len(), open.points.len() + 1);
        assert_eq!(closed.points.last(), open.points.first());
    }
}

/// 3 and 4,096 corners are a ring, and 2 and 4,097 are none.
#[test]
fn the_ends_of_the_corners() {
    let circle = |count: usize| -> Vec<Corner> {
        let turn = |i| 8.0 * FRAC_PI_4 * i as f64 / count as f64;
        (0..count)
            .map(|i| (0.3 + 1e-3 * turn(i).cos(), 0.7 + 1e-3 * turn(i).sin()))
            .collect()
    };
    for kind in WITH_RINGS {
        let map = on(kind, EARTH);
        for refused in [0, 1, 2, RING_CORNERS + 1, RING_CORNERS + 2, 100_000] {
            assert_eq!(map.ring(&circle(refused)), Err(Refusal::RingForm));
        }
        assert!(count(&*map, &circle(3)).is_ok());
        assert_eq!(count(&*map, &circle(RING_CORNERS)), Ok(RING_CORNERS));
    }
}

/// The constants are the header's.
#[test]
fn the_header() {
    let header = include_str!("../../c/lenthuc.h");
    for (name, value) in [("CORNERS", RING_CORNERS), ("ROOM", RING_ROOM)] {
        assert!(header.contains(&format!("#define LENTHUC_RING_{name} {value}\n")));
    }
}

/// Lists of unequal lengths, of any length, whatever is in them and however much room there is.
#[test]
fn of_unequal_lengths() {
    let lengths = [0, 1, 2, 3, 4, RING_CORNERS, RING_CORNERS + 1, 1_000_000];
    for kind in KINDS {
        let map = on(kind, EARTH);
        for number in [0.3, f64::NAN] {
            let list = vec![number; 1_000_000];
            for (lons, lats) in lengths.into_iter().flat_map(|n| lengths.map(|m| (n, m))) {
                if lons == lats && (3..=RING_CORNERS).contains(&lons) {
                    continue;
                }
                for places in [[0, 0], [7, 9]] {
                    let refused = measured(&*map, &list[..lons], &list[..lats], places);
                    assert_eq!(refused, Err(Refusal::RingForm), "{lons} {lats}");
                }
            }
        }
    }
}

/// A kind that does not keep areas refuses every ring, before anything of it is looked at.
#[test]
fn of_other_kinds() {
    for kind in *b"CPG" {
        for map in [on(kind, EARTH), within([2.0, 3.0, -1.0, -0.5], kind, EARTH)] {
            for corners in [CATCHMENT, [(f64::NAN, f64::NAN); 4], [(0.0, 2.0); 4]] {
                assert_eq!(count(&*map, &corners), Err(27));
                let (lon, lat) = (
                    corners.map(|corner| corner.0),
                    corners.map(|corner| corner.1),
                );
                let refused = measured(&*map, &lon, &lat, [0, 0]);
                assert_eq!(refused, Err(Refusal::RingForm));
            }
        }
    }
}

/// Each buffer is as long as the points or longer, and the other's length is no matter.
#[test]
fn of_short_buffers() {
    let (lon, lat) = (
        CATCHMENT.map(|corner| corner.0),
        CATCHMENT.map(|corner| corner.1),
    );
    for kind in WITH_RINGS {
        let map = on(kind, EARTH);
        let expected = ring(&*map, &CATCHMENT);
        let points = expected.as_ref().expect("a catchment").points.len();
        for places in [[points, points], [points + 1, points], [points, 9 * points]] {
            assert_eq!(bits(&measured(&*map, &lon, &lat, places)), bits(&expected));
        }
        for short in [0, 1, 4, points - 1] {
            for places in [[short, short], [short, 9 * points], [points, short]] {
                let refused = measured(&*map, &lon, &lat, places);
                assert_eq!(refused, Err(Refusal::RingResult), "{places:?}");
            }
        }
    }
}

/// A point that is refused comes before a short buffer, if it is the last midpoint of all.
#[test]
fn of_points_before_buffers() {
    let map = on(b'S', GLOBE);
    // the last edge's midpoint is opposite the origin
    let (lon, lat) = ([PI + 0.5, 1.0, PI - 0.5], [0.0, 0.5, 0.0]);
    let refused = measured(&*map, &lon, &lat, [0, 0]);
    assert_eq!(refused, Err(Refusal::Antipode));
    let refused = measured(&*map, &[0.1, 0.2, f64::NAN], &[0.1; 3], [0, 0]);
    assert_eq!(refused, Err(Refusal::ForwardInput));
}

/// A midpoint that is tested refuses a ring even where its edge would be left uncut.
#[test]
fn of_midpoints_that_are_no_points() {
    let corners = [(0.4, 0.1), (-0.4, 0.1), (-0.4, 0.2), (0.4, 0.2)];
    let crossing = [0.3, -0.3, -1.0, 1.0];
    assert_eq!(count(&*on(b'E', UNIT), &corners), Ok(4));
    assert_eq!(count(&*within(crossing, b'E', UNIT), &corners), Err(26));
}

/// An area of use holds corners and midpoints or refuses them, and changes no bit of a ring inside.
#[test]
fn in_an_area() {
    for kind in WITH_RINGS {
        let around = within([0.28, 0.32, 0.68, 0.72], kind, EARTH);
        assert_eq!(
            bits(&ring(&*around, &CATCHMENT)),
            bits(&ring(&*on(kind, EARTH), &CATCHMENT))
        );
        let part = within([0.28, 0.32, 0.68, 0.7], kind, EARTH);
        assert_eq!(count(&*part, &CATCHMENT), Err(26));
    }
}

/// Every NaN and infinity at every place, and latitudes at the bound and beyond it.
#[test]
fn of_bad_corners() {
    let infinities = [f64::INFINITY, f64::NEG_INFINITY];
    for kind in WITH_RINGS {
        let map = on(kind, EARTH);
        for place in 0..CATCHMENT.len() {
            for x in NANS.map(f64::from_bits).into_iter().chain(infinities) {
                let mut corners = CATCHMENT;
                corners[place].0 = x;
                assert_eq!(count(&*map, &corners), Err(16));
                let mut corners = CATCHMENT;
                corners[place].1 = x;
                assert_eq!(count(&*map, &corners), Err(16));
            }
            for (lat, number) in [(next_up(common::BOUND), 17), (-2.0, 17), (f64::MAX, 17)] {
                let mut corners = CATCHMENT;
                corners[place].1 = lat;
                assert_eq!(count(&*map, &corners), Err(number));
            }
        }
    }
    let pole = [(0.0, 1.5), (1.0, 1.5), (0.5, common::BOUND)];
    assert!(count(&*on(b'E', GLOBE), &pole).is_ok());
    let pole = [(0.0, 1.5), (1.0, 1.5), (0.5, next_down(common::BOUND))];
    assert!(count(&*on(b'L', EARTH), &pole).is_ok());
}

/// Albers measures on a sphere as on an ellipsoid.
#[test]
fn of_albers_on_a_sphere() {
    let mut settings = EARTH;
    settings[1] = 0.0;
    let map = on(b'A', settings);
    assert_eq!(
        bits(&ring(&*map, &CATCHMENT)),
        bits(&by_the_rule(&*map, &CATCHMENT))
    );
    assert!(ring(&*map, &CATCHMENT).is_ok());
}

/// What points to a projection measures as it does.
#[test]
#[allow(clippy::needless_borrows_for_generic_args)] // the borrows are what is tested
fn by_pointers() {
    fn by_value(map: impl Projection) -> (u8, u64, Vec<(u64, u64)>) {
        ring(&map, &CATCHMENT).map_or_else(
            |refusal| (refusal.number(), 0, vec![]),
            |ring| bits(&Ok(ring)),
        )
    }
    for kind in KINDS {
        let map = on(kind, EARTH);
        let expected = bits(&ring(&*map, &CATCHMENT));
        assert_eq!(expected.0, if WITH_RINGS.contains(&kind) { 0 } else { 27 });
        let shared: Arc<dyn Projection> = Arc::from(on(kind, EARTH));
        assert_eq!(by_value(&*map), expected);
        assert_eq!(by_value(&&map), expected);
        assert_eq!(by_value(&shared), expected);
        assert_eq!(by_value(Box::new(&shared)), expected);
        assert_eq!(by_value(shared), expected);
        assert_eq!(by_value(map), expected);
    }
}

/// Threads that share a map get what one thread gets.
#[test]
fn by_several_threads() {
    let map = &*on(b'A', EARTH);
    let expected = &bits(&ring(map, &CATCHMENT));
    std::thread::scope(|scope| {
        for _ in 0..4 {
            scope.spawn(|| {
                (0..50).for_each(|_| assert_eq!(&bits(&ring(map, &CATCHMENT)), expected))
            });
        }
    });
}
