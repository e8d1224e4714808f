//! Areas of use: what they hold, to the last bit of each edge; that nothing else changes; and what
//! is refused, in which order.

mod common;

use common::{
    BOUND, Edges, KINDS, NANS, Random, Settings, WAYS, area, bits, build, build_in, column, holds,
    next_down, next_up, project,
};
use lenthuc::{
    Area, CassiniSoldner, EqualEarth, LambertAzimuthalEqualArea, Outcome, Projection, Refusal,
    UNIT_SPHERE, WGS84, normalize_longitude,
};
use std::f64::consts::{FRAC_PI_2, PI};

/// A map of the Earth about the meridian `lon0`, on which every kind can be built.
const fn about(lon0: f64) -> Settings {
    [
        6378137.0,
        1.0 / 298.257223563,
        lon0,
        0.5,
        0.4,
        0.6,
        0.0,
        0.0,
    ]
}

/// Settings of which a is 1 and the others are 0.
const UNIT: Settings = [1.0, 0.0, 0.0, 0.0, 0.0, 0.0, 0.0, 0.0];

/// The area that holds every place.
const WIDEST: Edges = [-PI, PI, -BOUND, BOUND];

/// The number of a point, 0 if answered, by the letters of its way and kind, with an area.
fn number(name: &[u8; 2], edges: Edges, settings: Settings, u: f64, v: f64) -> u8 {
    let [way, kind] = *name;
    let map = build_in(edges, kind, settings).expect("a map with an area");
    bits(project(&*map, way, u, v)).0
}

/// The number of the place on Equal Earth.
fn on_equal_earth(edges: Edges, lon: f64, lat: f64) -> u8 {
    number(b"FE", edges, UNIT, lon, lat)
}

/// Normalising is the operations that its definition has, for every number.
#[test]
fn normalising() {
    let source = |lon: f64| {
        let normalized = (lon + PI).rem_euclid(2.0 * PI) - PI;
        match normalized == -PI && 0.0 < lon {
            true => PI,
            false => normalized,
        }
    };
    let mut random = Random(11);
    let small = [0.0, -0.0, 0.1, -0.1, 1e-300, PI, -PI, 3.0 * PI, -3.0 * PI];
    let near: Vec<_> = (0..20_000).map(|_| random.within(10.0)).collect();
    let any = (0..20_000).map(|_| f64::from_bits(random.bits()));
    for lon in any.chain(near).chain(small).filter(|lon| lon.is_finite()) {
        let normalized = normalize_longitude(lon);
        assert_eq!(normalized.to_bits(), source(lon).to_bits(), "{lon:e}");
        assert!(normalized.abs() <= PI);
        let again = normalize_longitude(normalized);
        assert_eq!(again.to_bits(), normalized.to_bits(), "{lon:e}");
    }
    for lon in NANS.map(f64::from_bits) {
        assert!(normalize_longitude(lon).is_nan());
    }
    assert!(normalize_longitude(f64::INFINITY).is_nan());
    assert!(normalize_longitude(f64::NEG_INFINITY).is_nan());
}

/// The place is normalised, and the edges are not.
#[test]
fn edges_are_compared_as_they_are() {
    let normalized = normalize_longitude(0.1);
    assert_eq!(normalized.to_bits(), 0x3fb9_9999_9999_99a0);
    assert_eq!(on_equal_earth([-1.0, 0.1, -1.0, 1.0], 0.1, 0.5), 26);
    assert_eq!(on_equal_earth([-1.0, normalized, -1.0, 1.0], 0.1, 0.5), 0);
    assert_eq!(on_equal_earth([0.3, 1.0, -1.0, 1.0], 0.3, 0.5), 26);
    let normalized = normalize_longitude(0.3);
    assert_eq!(on_equal_earth([normalized, 1.0, -1.0, 1.0], 0.3, 0.5), 0);
    // normalising leaves these as they are
    assert_eq!(on_equal_earth([-0.5, 0.25, -1.0, 1.0], 0.25, 0.5), 0);
    assert_eq!(on_equal_earth([-0.5, 0.25, -1.0, 1.0], -0.5, 0.5), 0);
    // one turn more is the same place
    assert_eq!(
        on_equal_earth([0.2, 0.4, -1.0, 1.0], 0.3 + 2.0 * PI, 0.5),
        0
    );
    assert_eq!(
        on_equal_earth([0.2, 0.4, -1.0, 1.0], 0.3 - 8.0 * PI, 0.5),
        0
    );
}

/// The longitude is the place's own, not its distance from the map's meridian.
#[test]
fn longitudes_are_not_from_the_origin() {
    for kind in KINDS {
        let name = &[b'F', kind];
        let edges = [-0.5, 0.5, -1.0, 1.0];
        assert_eq!(number(name, edges, about(1.0), 1.25, 0.5), 26);
        assert_eq!(number(name, edges, about(1.0), 0.25, 0.5), 0);
    }
}

/// The formula gets the longitude as it was given. Of one so large the normalised one is another.
#[test]
fn the_formula_gets_the_longitude_as_given() {
    for kind in KINDS {
        let plain = build(kind, about(1.0)).expect("a map");
        let normalized = normalize_longitude(1e300);
        let edges = [normalized, normalized, -1.0, 1.0];
        let map = build_in(edges, kind, about(1.0)).expect("a meridian");
        let expected = bits(plain.forward(1e300, 0.5));
        assert_eq!(bits(map.forward(1e300, 0.5)), expected);
        assert_eq!(expected.0, 0);
        assert_ne!(bits(map.forward(normalized, 0.5)), expected);
    }
}

/// Inside the answers have the bits that they have without an area, and outside they are 26: every
/// kind, both ways, on areas of which half cross the 180 degree line.
#[test]
fn nothing_else_changes() {
    let mut random = Random(12);
    for (kind, lon0) in KINDS.into_iter().zip([0.3, -3.0, PI, 0.0, 3.1, -1.0, 2.0]) {
        let plain = build(kind, about(lon0)).expect("a map");
        let mut counts = [[0; 3]; 2];
        for _ in 0..300 {
            let edges = any_edges(&mut random);
            let map = build_in(edges, kind, about(lon0)).expect("an area");
            for (way, counts) in WAYS.into_iter().zip(&mut counts) {
                for _ in 0..20 {
                    let (u, v) = place(&mut random, way, lon0);
                    let without = project(&*plain, way, u, v);
                    let inside = match (way, without) {
                        (b'F', Err(Refusal::ForwardInput | Refusal::ForwardBeyond)) => true,
                        (b'F', _) => holds(edges, u, v),
                        (_, Ok((lon, lat))) => holds(edges, lon, lat),
                        (_, Err(_)) => true,
                    };
                    let expected = match inside {
                        true => without,
                        false => Err(Refusal::OutsideArea),
                    };
                    let answer = project(&*map, way, u, v);
                    assert_eq!(bits(answer), bits(expected), "{map:?} {u:e} {v:e}");
                    counts[match answer {
                        Ok(_) => 0,
                        Err(Refusal::OutsideArea) => 1,
                        Err(_) => 2,
                    }] += 1;
                }
            }
        }
        let often = counts.into_iter().flatten().all(|count| count > 100);
        assert!(often, "{kind} {counts:?}");
    }
}

/// Edges of an area: any longitudes, the 180 degree line among them, and latitudes in order.
fn any_edges(random: &mut Random) -> Edges {
    let mut longitude = || match random.bits() % 8 {
        0 => PI,
        1 => -PI,
        2 => normalize_longitude(random.within(PI)),
        _ => random.within(PI),
    };
    let (west, east) = (longitude(), longitude());
    let (a, b) = (random.within(BOUND), random.within(BOUND));
    [west, east, a.min(b), a.max(b)]
}

/// A point whose place is anywhere near the map's meridian, or any number, or beyond.
fn place(random: &mut Random, way: u8, lon0: f64) -> (f64, f64) {
    let (u, v) = (random.input(way), random.input(way));
    match way {
        b'F' => (lon0 + u, v),
        _ => (u, v),
    }
}

/// For a place, pairs of areas: one that has it on an edge, and the same with that edge moved past it
/// by one number. The last four cross the 180 degree line.
fn at_the_edges(lon: f64, lat: f64) -> [[Edges; 2]; 8] {
    let (low, high) = (lat - 0.1, lat + 0.1);
    let (above, below) = (next_up(lon), next_down(lon));
    [
        [[lon, lon + 0.1, low, high], [above, lon + 0.1, low, high]],
        [[lon - 0.1, lon, low, high], [lon - 0.1, below, low, high]],
        [[lon, lon, lat, high], [lon, lon, next_up(lat), high]],
        [[lon, lon, low, lat], [lon, lon, low, next_down(lat)]],
        [[lon, lon - 0.1, low, high], [above, lon - 0.1, low, high]],
        [[lon + 0.1, lon, low, high], [lon + 0.1, below, low, high]],
        [[1.0, -1.0, lat, high], [1.0, -1.0, next_up(lat), high]],
        [[1.0, -1.0, low, lat], [1.0, -1.0, low, next_down(lat)]],
    ]
}

/// Every edge belongs to the area, and a place that is one number past it does not, both ways.
#[test]
fn edges_to_the_last_bit() {
    let mut random = Random(13);
    for kind in KINDS {
        let plain = build(kind, about(3.0)).expect("a map");
        for _ in 0..200 {
            let given = (3.0 + random.within(0.03), 0.5 + random.within(0.03));
            let (x, y) = plain.forward(given.0, given.1).expect("a point");
            let back = plain.inverse(x, y).expect("its place");
            let (lon, lat) = (normalize_longitude(given.0), given.1);
            for (way, (u, v), (lon, lat)) in [(b'F', given, (lon, lat)), (b'I', (x, y), back)] {
                for [on, past] in at_the_edges(lon, lat) {
                    let expected = bits(project(&*plain, way, u, v));
                    let map = build_in(on, kind, about(3.0)).expect("an area");
                    assert_eq!(bits(project(&*map, way, u, v)), expected, "{map:?}");
                    let map = build_in(past, kind, about(3.0)).expect("an area");
                    let answer = project(&*map, way, u, v);
                    assert_eq!(answer, Err(Refusal::OutsideArea), "{map:?}");
                }
            }
        }
    }
}

/// West and east the same are one meridian, neither the whole turn nor a refusal.
#[test]
fn one_meridian() {
    let edges = [2.0, 2.0, -1.0, 1.0];
    assert_eq!(on_equal_earth(edges, 2.0, 0.5), 0);
    for lon in [1.0, 2.0 - 1e-15, 2.0 + 1e-15, 3.0, -2.0, PI, -PI, 0.0] {
        assert_eq!(on_equal_earth(edges, lon, 0.5), 26, "{lon}");
    }
}

/// -PI and PI are two numbers.
#[test]
fn the_180_degree_line() {
    let held = |west, east, lon| on_equal_earth([west, east, -1.0, 1.0], lon, 0.5) == 0;
    for (west, east, holds_pi, holds_minus_pi, holds_0) in [
        (-PI, -3.0, false, true, false),
        (3.0, PI, true, false, false),
        (PI, -PI, true, true, false),
        (-PI, PI, true, true, true),
        (3.0, -3.0, true, true, false),
        (PI, -3.0, true, true, false),
        (3.0, -PI, true, true, false),
        (PI, PI, true, false, false),
        (-PI, -PI, false, true, false),
        (1.0, -1.0, true, true, false),
        (0.0, -0.5, true, true, true),
    ] {
        for lon in [PI, 3.0 * PI] {
            assert_eq!(held(west, east, lon), holds_pi, "{west} {east} {lon}");
        }
        for lon in [-PI, -3.0 * PI] {
            assert_eq!(held(west, east, lon), holds_minus_pi, "{west} {east} {lon}");
        }
        assert_eq!(held(west, east, 0.0), holds_0, "{west} {east}");
    }
    assert!(!held(PI, -PI, 3.1) && !held(PI, -PI, -3.1));
}

/// +0 and -0 are one number.
#[test]
fn zeros() {
    for (west, east) in [(0.0, -0.0), (-0.0, 0.0), (0.0, 0.0), (-0.0, -0.0)] {
        let edges = [west, east, -1.0, 1.0];
        assert_eq!(on_equal_earth(edges, 0.0, 0.5), 0);
        assert_eq!(on_equal_earth(edges, -0.0, 0.5), 0);
        assert_eq!(on_equal_earth(edges, 0.5, 0.5), 26);
        assert_eq!(on_equal_earth(edges, PI, 0.5), 26);
        let edges = [-1.0, 1.0, west, east];
        assert_eq!(on_equal_earth(edges, 0.5, 0.0), 0);
        assert_eq!(on_equal_earth(edges, 0.5, -0.0), 0);
        assert_eq!(on_equal_earth(edges, 0.5, 5e-324), 26);
    }
}

/// The ends of what an edge may be, and one number beyond them.
#[test]
fn edges_that_are_refused() {
    let refused = |edges| build_in(edges, b'E', UNIT).err() == Some(Refusal::AreaEdges);
    let sound = [-1.0, 1.0, -0.5, 0.5];
    assert!(!refused(sound));
    let ends = [(0, PI), (1, PI), (2, BOUND), (3, BOUND)];
    for (place, end) in ends {
        for sign in [1.0, -1.0] {
            let at = |x: f64| {
                let mut edges = sound;
                // the other latitude is out of the way
                (edges[2], edges[3]) = (-BOUND, BOUND);
                edges[place] = sign * x;
                edges
            };
            assert!(!refused(at(end)), "{place} {sign}");
            assert!(refused(at(next_up(end))), "{place} {sign}");
            assert!(refused(at(f64::INFINITY)), "{place} {sign}");
            assert!(refused(at(f64::MAX)), "{place} {sign}");
        }
        for nan in NANS.map(f64::from_bits) {
            let mut edges = sound;
            edges[place] = nan;
            assert!(refused(edges), "{place}");
        }
    }
    assert!(refused([f64::NAN; 4]));
    // a parallel, and a south that is one number above its north
    assert!(!refused([-1.0, 1.0, 0.5, 0.5]));
    assert!(refused([-1.0, 1.0, next_up(0.5), 0.5]));
    assert!(refused([-1.0, 1.0, -0.5, next_down(-0.5)]));
    // a west above its east never is
    for (west, east) in [(1.0, -1.0), (PI, -PI), (next_up(0.5), 0.5)] {
        assert!(!refused([west, east, -0.5, 0.5]));
    }
}

/// Every type gives the number, and stays as it was.
#[test]
fn refused_by_every_type() {
    for kind in KINDS {
        let refused = build_in([f64::NAN; 4], kind, about(0.0)).err();
        assert_eq!(refused, Some(Refusal::AreaEdges));
        assert!(build_in(WIDEST, kind, about(0.0)).is_ok());
    }
    let world = EqualEarth::new(WGS84, 0.0, 0.0, 0.0).expect("the world");
    let before = bits(world.forward(0.2, 0.9));
    assert_eq!(world.with_area(area([4.0; 4])), Err(Refusal::AreaEdges));
    assert_eq!(bits(world.forward(0.2, 0.9)), before);
    assert_eq!(world.area(), None);
}

/// Forward: 16, 17, 26, 18, 19.
#[test]
fn the_order_forward() {
    let small = [-0.5, 0.5, -0.5, 0.5];
    for kind in KINDS {
        let name = &[b'F', kind];
        assert_eq!(number(name, small, about(0.0), f64::NAN, 1.0), 16);
        assert_eq!(number(name, small, about(0.0), 1.0, f64::INFINITY), 16);
        assert_eq!(number(name, small, about(0.0), 1.0, next_up(BOUND)), 17);
        assert_eq!(number(name, small, about(0.0), 1.0, BOUND), 26);
    }
    let half = [-PI, PI, -0.5, 0.5];
    for kind in *b"LS" {
        let name = &[b'F', kind];
        assert_eq!(number(name, small, UNIT, PI, 0.0), 26);
        assert_eq!(number(name, half, UNIT, PI, 0.0), 18);
    }
    // offsets so large that the results overflow
    let largest = [f64::MAX, 0.0, 0.0, 0.0, 0.5, 0.5, f64::MAX, f64::MAX];
    for kind in *b"SECP" {
        let name = &[b'F', kind];
        assert_eq!(number(name, small, largest, 1.0, 0.5), 26);
        assert_eq!(number(name, WIDEST, largest, 1.0, 0.5), 19);
    }
}

/// Back: 20 to 24 come before 26. No place is at hand there, so no area holds it or does not.
#[test]
fn the_order_back() {
    let nowhere = [3.0, 3.0, -1.5, -1.5];
    let ellipsoid = [1.0, 1.0 / 300.0, 0.0, 0.0, 0.0, 0.0, 0.0, 0.0];
    let near_1 = [1.0, 1.0 - 2.0_f64.powi(-53), 0.0, 0.0, 0.0, 0.0, 0.0, 0.0];
    let flattened = [1.0, 1.0 / 300.0, 0.0, 0.6, 0.5, 0.7, 0.0, 0.0];
    let atlas = [1.0, 0.0, 0.0, 0.6, 0.5, 0.7, 0.0, 0.0];
    for (name, settings, u, v, expected) in [
        (b"IC", UNIT, f64::NAN, 0.0, 20),
        (b"IP", ellipsoid, 0.0, FRAC_PI_2, 21),
        (b"IA", flattened, 0.0, 9.0, 22),
        (b"IA", atlas, 0.0, 9.0, 23),
        (b"IC", near_1, 0.1, 0.5, 23),
        (b"IC", UNIT, 0.0, 2.0, 24),
        (b"IC", UNIT, 0.1, 0.2, 26),
    ] {
        assert_eq!(number(name, nowhere, settings, u, v), expected);
    }
}

/// An inverse tests what it hands out: Lambert's centre and Cassini's pole too.
#[test]
fn places_that_no_formula_gives() {
    let small = [-0.5, 0.5, -0.5, 0.5];
    let mut settings = UNIT;
    (settings[2], settings[3]) = (2.25, 0.5);
    for kind in *b"LS" {
        let name = &[b'I', kind];
        assert_eq!(number(name, small, settings, 0.0, 0.0), 26);
        assert_eq!(number(name, [2.25, 2.25, 0.5, 0.5], settings, 0.0, 0.0), 0);
        assert_eq!(number(name, [2.25, 2.25, 0.6, 0.7], settings, 0.0, 0.0), 26);
    }
    let map = CassiniSoldner::new(UNIT_SPHERE, 2.25, 0.0, 0.0, 0.0).expect("a map");
    let pole = map.inverse(0.0, FRAC_PI_2).expect("the pole");
    assert_eq!(pole, (2.25, FRAC_PI_2));
    for (edges, expected) in [
        ([2.25, 2.25, 1.0, FRAC_PI_2], Ok(pole)),
        (
            [2.25, 2.25, 1.0, next_down(FRAC_PI_2)],
            Err(Refusal::OutsideArea),
        ),
        ([-0.5, 0.5, 1.0, BOUND], Err(Refusal::OutsideArea)),
    ] {
        let map = map.with_area(area(edges)).expect("an area");
        assert_eq!(map.inverse(0.0, FRAC_PI_2), expected);
    }
}

/// A latitude between π/2 and the bound lies outside an area that ends at π/2.
#[test]
fn latitudes_past_the_pole() {
    for kind in KINDS {
        for sign in [1.0, -1.0] {
            for lat in [next_up(FRAC_PI_2), BOUND] {
                let name = &[b'F', kind];
                let to_the_pole = [-PI, PI, -FRAC_PI_2, FRAC_PI_2];
                assert_eq!(number(name, to_the_pole, about(0.1), 0.2, sign * lat), 26);
                let plain = build(kind, about(0.1)).expect("a map");
                let widest = build_in(WIDEST, kind, about(0.1)).expect("a map");
                let expected = bits(plain.forward(0.2, sign * lat));
                assert_eq!(bits(widest.forward(0.2, sign * lat)), expected);
                assert_ne!(expected.0, 17);
            }
        }
    }
}

/// No area is a state of its own. The widest area has the same answers, and is not the same.
#[test]
fn the_widest_area() {
    let mut random = Random(14);
    for kind in KINDS {
        let plain = build(kind, about(0.3)).expect("a map");
        let widest = build_in(WIDEST, kind, about(0.3)).expect("a map");
        for way in WAYS {
            for _ in 0..2000 {
                let (u, v) = (random.input(way), random.input(way));
                let expected = bits(project(&*plain, way, u, v));
                assert_eq!(bits(project(&*widest, way, u, v)), expected);
            }
        }
    }
    let plain = EqualEarth::new(WGS84, 0.3, 0.0, 0.0).expect("a map");
    let widest = plain.with_area(area(WIDEST)).expect("a map");
    assert_ne!(plain, widest);
    assert_eq!(widest.without_area(), plain);
    assert_eq!(plain.without_area(), plain);
}

/// A second area takes the first one's place, and without one everything is as before.
#[test]
fn one_area_at_a_time() {
    let new = |lon0| LambertAzimuthalEqualArea::new_spherical(WGS84, lon0, 0.5, 1.0, 2.0);
    let plain = new(3.0).expect("a map");
    let (east, west) = (area([2.9, 3.1, 0.4, 0.6]), area([-3.1, -2.9, 0.4, 0.6]));
    let first = plain.with_area(east).expect("an area");
    let second = first.with_area(west).expect("an area");
    assert_eq!(second, plain.with_area(west).expect("an area"));
    assert_eq!((first.area(), second.area()), (Some(east), Some(west)));
    assert_eq!(first.forward(3.0, 0.5), plain.forward(3.0, 0.5));
    assert_eq!(first.forward(-3.0, 0.5), Err(Refusal::OutsideArea));
    assert_eq!(second.forward(3.0, 0.5), Err(Refusal::OutsideArea));
    assert_eq!(second.forward(-3.0, 0.5), plain.forward(-3.0, 0.5));
    let without = second.without_area();
    assert_eq!((without, without.area()), (plain, None));
    assert!(without.is_spherical());
    assert_eq!(without.forward(3.0, 0.5), plain.forward(3.0, 0.5));
    assert_eq!(without.forward(-3.0, 0.5), plain.forward(-3.0, 0.5));
}

/// A column with an area is single calls with it, and 26 stops no other point.
#[test]
fn columns_are_single_calls() {
    let mut random = Random(15);
    for kind in KINDS {
        for edges in [[0.2, 1.1, -0.3, 1.3], [1.1, 0.2, -0.3, 1.3]] {
            let map = build_in(edges, kind, about(0.6)).expect("an area");
            for way in WAYS {
                let count = 1500;
                let [u, v] = [(); 2].map(|()| {
                    let inputs = (0..count).map(|_| random.input(way));
                    inputs.collect::<Vec<_>>()
                });
                let (mut p, mut q) = (vec![f64::NAN; count], vec![f64::NAN; count]);
                let mut outcomes = vec![Outcome::from(Refusal::Sphere); count];
                column(&*map, way, [&u, &v], [&mut p, &mut q], &mut outcomes).expect("one length");
                let mut outside = 0;
                for i in 0..count {
                    let found = (outcomes[i].number(), p[i].to_bits(), q[i].to_bits());
                    assert_eq!(found, bits(project(&*map, way, u[i], v[i])));
                    outside += usize::from(outcomes[i].refusal() == Some(Refusal::OutsideArea));
                }
                let answered = outcomes.iter().filter(|outcome| outcome.is_answered());
                let answered = answered.count();
                assert!(outside > 50 && answered > 50, "{outside} {answered}");
            }
        }
    }
}

/// A place on an edge, in the degrees that the edge was given in, lies inside.
#[test]
fn edges_in_degrees() {
    let mut random = Random(16);
    let world = EqualEarth::new(WGS84, 0.0, 0.0, 0.0).expect("the world");
    for _ in 0..5000 {
        // degrees of one to six decimals
        let decimals = 10.0_f64.powi(1 + (random.bits() % 6) as i32);
        let mut degrees = |size| (random.within(size) * decimals).round() / decimals;
        let [west, east] = [degrees(180.0), degrees(180.0)];
        let [a, b] = [degrees(90.0), degrees(90.0)];
        let area = Area::from_degrees(west, east, a.min(b), a.max(b));
        let map = world.with_area(area).expect("an area");
        for lon in [west, east] {
            for lat in [a, b] {
                let expected = bits(world.forward_degrees(lon, lat));
                assert_eq!(bits(map.forward_degrees(lon, lat)), expected, "{area:?}");
            }
        }
    }
    let all = Area::from_degrees(-180.0, 180.0, -90.0, 90.0);
    assert_eq!(all, area([-PI, PI, -FRAC_PI_2, FRAC_PI_2]));
}

/// Normalised edges stay so, and what is no edge stays one that is refused.
#[test]
fn normalized_areas() {
    let mut random = Random(17);
    for _ in 0..5000 {
        let edges = any_edges(&mut random);
        let normalized = area(edges).normalized();
        let [west, east, south, north] = edges;
        let expected = [
            normalize_longitude(west),
            normalize_longitude(east),
            south,
            north,
        ];
        assert_eq!(normalized, area(expected));
        assert_eq!(normalized.normalized(), normalized);
    }
    let world = EqualEarth::new(WGS84, 0.0, 0.0, 0.0).expect("the world");
    let refused = |area| world.with_area(area) == Err(Refusal::AreaEdges);
    for (west, east) in [(0.0, 360.0), (-190.0, 190.0), (170.0, 190.0), (-180.1, 0.0)] {
        assert!(refused(Area::from_degrees(west, east, -90.0, 90.0)));
    }
    for x in [f64::NAN, f64::INFINITY, f64::NEG_INFINITY, f64::MAX] {
        for place in 0..4 {
            let mut edges = [-1.0, 1.0, -1.0, 1.0];
            edges[place] = x;
            assert!(refused(area(edges).normalized()), "{place} {x}");
            let [west, east, south, north] = edges;
            assert!(refused(Area::from_degrees(west, east, south, north)));
        }
    }
    assert!(refused(area([next_up(PI), 0.0, 0.0, 0.0]).normalized()));
    assert!(refused(area([0.0, -next_up(PI), 0.0, 0.0]).normalized()));
}
