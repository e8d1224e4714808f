//! The readings of 02's area of a catchment ring, tried on `ring.rs`.

use oracle::area::WIDEST;
use oracle::fixed::{root, sin};
use oracle::ring::{KINDS, Meant, Pair, Ring, RingAnswer, Rule};
use oracle::ring_cases::{RingCase, ring_cases};
use oracle::ring_sample::ring_sample;
use oracle::rings::{Rings, SHAPES, turn};
use std::collections::BTreeSet;

/// The cases of a reading, which get the number and have the points and the area that it says.
fn reading(number: usize) -> Vec<RingCase> {
    let mut cases = ring_cases();
    cases.retain(|case| case.reading == number);
    assert!(!cases.is_empty());
    for case in &cases {
        let text = case.ring.text();
        let answer = Meant.answer(&case.ring);
        let (number, points) = (answer.number, answer.points);
        assert_eq!((number, points), (case.number, case.points), "{text}");
        if let Some(area) = case.area {
            assert_eq!(answer.area, area.to_bits(), "{text}");
        }
        untouched(&case.ring, &answer);
    }
    cases
}

/// A refusal has no area and no points, and no place past the last point is touched.
fn untouched(ring: &Ring, answer: &RingAnswer) {
    let text = ring.text();
    if answer.number != 0 {
        assert_eq!((answer.area, answer.points), (0, 0), "{text}");
    }
    for (buffer, length) in answer.buffers.iter().zip(ring.buffers) {
        assert_eq!(buffer.len(), length, "{text}");
        let mut rest = buffer.iter().enumerate().skip(answer.points);
        assert!(rest.all(|(place, &bits)| bits == place as u64), "{text}");
    }
}

/// Tries so many rings of every shape.
fn each_ring(count: usize, mut tried: impl FnMut(&Ring)) {
    let mut rings = Rings::new(1);
    for place in 0..count {
        tried(&rings.next(SHAPES[turn(place)]));
    }
}

/// The points of an answered ring.
fn points(answer: &RingAnswer) -> Vec<Pair> {
    let [eastings, northings] = &answer.buffers;
    let all = eastings.iter().zip(northings).take(answer.points);
    all.map(|(&e, &n)| [e, n].map(f64::from_bits)).collect()
}

#[test]
fn the_root_is_compared_with_half_a_metre() {
    reading(1);
    assert_eq!(root(0.25_f64.next_up()), 0.5);
    assert!(root(0.25_f64.next_up().next_up()) > 0.5);
    assert!(root(0.25_f64.next_down()) < 0.5);
}

#[test]
fn depth_10_is_neither_tested_nor_cut() {
    reading(2);
    each_ring(20_000, |ring| {
        let points = Meant.answer(ring).points;
        assert!(points <= 1024 * ring.lists[0], "{}", ring.text());
    });
}

#[test]
fn a_midpoint_can_refuse_uncut() {
    reading(3);
}

#[test]
fn the_first_point_in_working_order_refuses() {
    reading(4);
}

#[test]
fn each_corner_gives_its_own_number() {
    reading(5);
}

#[test]
fn a_midpoint_is_half_the_sum_of_the_numbers_as_given() {
    reading(6);
}

#[test]
fn the_area_is_half_the_sum() {
    reading(7);
}

/// The other way round it is the same, with the other sign, but for roundings.
#[test]
fn the_sign_is_kept() {
    let mut signs = BTreeSet::new();
    each_ring(20_000, |ring| {
        let answer = Meant.answer(ring);
        let points = points(&answer);
        let area = f64::from_bits(answer.area);
        let back: Vec<Pair> = points.iter().rev().copied().collect();
        let size: f64 = points.iter().map(|[e, n]| (e * n).abs()).sum();
        let other = Meant.area(&back);
        assert!(
            answer.number != 0 || (area + other).abs() <= 1e-12 * size,
            "{}",
            ring.text()
        );
        signs.insert((area > 0.0, area < 0.0));
    });
    assert_eq!(signs.len(), 3);
}

#[test]
fn the_buffers_hold_every_point_once() {
    reading(8);
    let mut answered = 0;
    each_ring(20_000, |ring| {
        let answer = Meant.answer(ring);
        untouched(ring, &answer);
        if answer.number == 0 {
            hold_all(ring, &points(&answer));
            answered += 1;
        }
    });
    assert!(answered > 0);
}

/// The first point is the first corner, and the others follow in ring order, with the cut points.
fn hold_all(ring: &Ring, points: &[Pair]) {
    let map = Meant.build(ring).expect("a projection");
    let mut points = points.iter();
    for place in 0..ring.lists[0] {
        let corner = map.forward(ring.corner(place));
        let same = |[e, n]: &Pair| [e.to_bits(), n.to_bits()] == [corner.p, corner.q];
        let met = match place {
            0 => points.next().is_some_and(same),
            _ => points.any(same),
        };
        assert!(met, "{}", ring.text());
    }
}

#[test]
fn the_number_27_comes_first_and_28_last() {
    reading(9);
}

#[test]
fn every_point_is_judged_by_the_area_of_use() {
    reading(10);
}

/// What holds every place changes nothing.
#[test]
fn the_widest_area_holds_every_ring() {
    each_ring(20_000, |ring| {
        let [mut without, mut within] = [(); 2].map(|()| ring.clone());
        (without.area, within.area) = (None, Some(WIDEST));
        assert_eq!(
            Meant.answer(&within),
            Meant.answer(&without),
            "{}",
            ring.text()
        );
    });
}

#[test]
fn from_3_to_4096_corners_pass() {
    reading(11);
}

/// Each number of the working comes up, with buffers that it leaves as they were.
#[test]
fn a_refusal_leaves_the_buffers() {
    let mut numbers = BTreeSet::new();
    for case in ring_cases().iter().filter(|case| case.number != 0) {
        untouched(&case.ring, &Meant.answer(&case.ring));
        numbers.insert(case.number);
    }
    assert_eq!(
        numbers,
        BTreeSet::from([4, 11, 13, 15, 16, 17, 18, 25, 26, 27, 28])
    );
}

#[test]
fn nothing_is_written_before_all_is_known() {
    reading(12);
}

#[test]
fn albers_on_a_sphere_is_a_kind_like_the_others() {
    reading(13);
}

/// The area of a ring of few corners.
fn area_of(kind: u8, settings: [f64; 8], corners: &[Pair]) -> f64 {
    let ring = Ring {
        kind,
        settings,
        area: None,
        lists: [corners.len(); 2],
        corners: corners.to_vec(),
        buffers: [4000; 2],
    };
    let answer = Meant.answer(&ring);
    assert_eq!(answer.number, 0);
    f64::from_bits(answer.area)
}

/// On a sphere what lies between two meridians and two parallels is known, each kind is equal-area,
/// and an edge is off by about half a metre where it is left uncut.
#[test]
fn the_area_is_in_square_metres() {
    let (a, west, south, wide) = (6371000.0, 0.2, 0.7, 0.02);
    let [east, north] = [west + wide, south + wide];
    let ground = a * a * wide * (sin(north) - sin(south));
    let corners = [[west, south], [east, south], [east, north], [west, north]];
    for kind in KINDS {
        let area = area_of(kind, [a, 0.0, 0.2, 0.6, 0.5, 0.9, 5e5, -1e6], &corners);
        let off = (area - ground).abs();
        assert!(off < 4.0 * 0.5 * a * wide, "{area} {ground}");
    }
}

/// The kinds that have formulas for an ellipsoid agree on it.
#[test]
fn the_kinds_agree() {
    let settings = [6378137.0, 1.0 / 298.25, 0.2, 0.6, 0.5, 0.9, 0.0, 0.0];
    let corners = [[0.1, 0.7], [0.13, 0.71], [0.12, 0.74]];
    let areas = b"LAE".map(|kind| area_of(kind, settings, &corners));
    let first = areas[0];
    assert!(first > 1e10);
    let near = |area: &f64| (area / first - 1.0).abs() < 1e-5;
    assert!(areas.iter().all(near), "{areas:?}");
}

/// And every stored one keeps to the limits of crates/replay.
#[test]
fn a_ring_is_read_as_it_is_written() {
    let mut bytes = 0;
    for (ring, _) in ring_sample() {
        let text = ring.text();
        let read = Ring::read(&text).expect("a ring");
        assert_eq!(read.text(), text);
        assert_eq!(Meant.answer(&read), Meant.answer(&ring), "{text}");
        assert!(ring.corners.len() <= 64, "{text}");
        assert!(ring.lists.iter().all(|&length| length <= 4100), "{text}");
        assert!(ring.buffers.iter().all(|&length| length <= 8192), "{text}");
        bytes += text.len();
    }
    assert!(bytes < 120_000);
}
