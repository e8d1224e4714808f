//! The second inverse: inputs on which two readings of its rule would differ; its limits, to the bit;
//! the order of its numbers; the first inverse's answer wherever it is not 30; and columns.

mod common;

use common::{
    BOUND, Bits, EARTH, NANS, ON_MAP_KINDS, Random, Settings, bits, build_on_map, holds, next_down,
    next_up,
};
use lenthuc::{
    Answer, EqualEarth, InverseOnMap, LambertAzimuthalEqualArea, Outcome, Projection, Refusal,
    UnequalLengths, WGS84,
};
use std::f64::consts::{FRAC_PI_2, PI};
use std::sync::Arc;

/// The limits of Lambert's quotients, of Equal Earth's scaled northing, and of its longitude.
const QUOTIENT: f64 = 1.0 + 1e-12;
const NORTHING: f64 = 1.3173627591574 + 1e-12;
const LONGITUDE: f64 = PI + 1e-12;

const OFF: Answer = Err(Refusal::OffTheMap);

/// The map of a kind by a, f, lon0 and lat0.
fn of(kind: u8, [a, f, lon0, lat0]: [f64; 4]) -> Box<dyn InverseOnMap> {
    let settings = [a, f, lon0, lat0, 0.0, 0.0, 0.0, 0.0];
    build_on_map(kind, settings, None).expect("a map")
}

/// The second inverse's answer, which is 30, or the first's bit for bit.
fn clicked(map: &dyn InverseOnMap, x: f64, y: f64) -> Answer {
    let answer = map.inverse_on_map(x, y);
    let first = map.inverse(x, y);
    assert!(
        answer == OFF || bits(answer) == bits(first),
        "{map:?} {x:e} {y:e}: {answer:?} {first:?}"
    );
    answer
}

/// A number and those next to it, some on either side.
fn about(x: f64) -> impl Iterator<Item = f64> {
    (-20..=20_i64).map(move |steps| f64::from_bits(x.to_bits().wrapping_add_signed(steps)))
}

#[test]
fn limits() {
    assert_eq!(QUOTIENT.to_bits(), 0x3ff0_0000_0000_1198);
    assert_eq!(NORTHING.to_bits(), 0x3ff5_13ea_f8f8_dbc3);
    assert_eq!(LONGITUDE.to_bits(), 0x4009_21fb_5444_35e4);
}

/// L's rho is the one that the inverse forms; S's is the plain distance, at a pole as well.
#[test]
fn by_the_inverses_rho() {
    let oblique = of(b'L', [1.0, 1.0 / 300.0, 0.0, 0.5]);
    assert!(clicked(&*oblique, 1.999, 0.0).is_ok());
    assert_eq!(clicked(&*oblique, 0.0, 1.999), OFF);
    for lat0 in [0.5, FRAC_PI_2, -FRAC_PI_2] {
        let spherical = of(b'S', [1.0, 1.0 / 300.0, 0.0, lat0]);
        for x in [1.999, 1.996] {
            let answers = [(x, 0.0), (0.0, x), (-x, 0.0), (0.0, -x)]
                .map(|(x, y)| clicked(&*spherical, x, y).is_ok());
            assert_eq!(answers, [x == 1.996; 4], "{lat0} {x}");
        }
    }
}

/// About a pole L's quotient is q over qp, and the map ends at the other pole and not at the equator.
#[test]
fn by_the_polar_quotient() {
    for lat0 in [FRAC_PI_2, -FRAC_PI_2] {
        let map = of(b'L', [1.0, 0.0, 0.0, lat0]);
        for (x, y) in [(1.5, 0.0), (0.0, -1.9), (2.0, 0.0), (0.0, 2.0)] {
            let (_, lat) = clicked(&*map, x, y).expect("a place beyond the equator");
            assert!(lat * lat0 < 0.0);
        }
        assert_eq!(clicked(&*map, 2.00001, 0.0), OFF);
        assert_eq!(clicked(&*map, 0.0, -2.00001), OFF);
    }
}

/// What equals a limit is answered, and what is a step above it refused: the tests written a second time,
/// of numbers next to the limits.
#[test]
fn to_the_bit() {
    let tried = |map: &dyn InverseOnMap, (x, y): (f64, f64), off: bool| {
        assert_eq!(clicked(map, x, y) == OFF, off, "{map:?} {x:e} {y:e}");
        usize::from(off)
    };
    let sphere = of(b'S', [1.0, 0.0, 0.0, 0.5]);
    let edge = 2.0 * QUOTIENT;
    assert!(clicked(&*sphere, edge, 0.0).is_ok());
    assert_eq!(clicked(&*sphere, next_up(edge), 0.0), OFF);
    let mut refused = 0;
    let mut random = Random(61);
    let mut around = |rho: f64| {
        let angle = random.within(PI);
        let (x, y) = (rho * angle.cos(), rho * angle.sin());
        ((x, y), (x * x + y * y).sqrt())
    };
    for rho in (0..200).flat_map(|_| about(edge)) {
        let (click, rho) = around(rho);
        refused += tried(&*sphere, click, rho / 2.0 > QUOTIENT);
    }
    let poles = [FRAC_PI_2, -FRAC_PI_2].map(|lat0| of(b'L', [1.0, 0.0, 0.0, lat0]));
    for rho in (0..200).flat_map(|_| about((2.0 + 2.0 * QUOTIENT).sqrt())) {
        let (click, rho) = around(rho);
        refused += tried(&*poles[0], click, (1.0 - rho * rho / 2.0).abs() > QUOTIENT);
        refused += tried(&*poles[1], click, (rho * rho / 2.0 - 1.0).abs() > QUOTIENT);
    }
    let world = of(b'E', [1.0, 0.0, 0.0, 0.0]);
    for y in about(NORTHING) {
        refused += tried(&*world, (0.25, y), y > NORTHING);
        refused += tried(&*world, (0.25, -y), y > NORTHING);
    }
    // on the equator the longitude is a product
    let longitude = |x: f64| 3.0_f64.sqrt() / 2.0 * x * 1.340264;
    for x in about(LONGITUDE / longitude(1.0)) {
        refused += tried(&*world, (x, 0.0), longitude(x) > LONGITUDE);
        refused += tried(&*world, (-x, 0.0), longitude(x) > LONGITUDE);
    }
    // of 24,764, about half
    assert!((10_000..15_000).contains(&refused), "{refused}");
}

/// The centre rule comes before the test: a map smaller than its centre's tolerance.
#[test]
fn at_the_centre() {
    for (kind, lat0) in [(b'S', 0.5), (b'L', 0.5), (b'L', FRAC_PI_2)] {
        let map = of(kind, [1e-12, 0.0, 0.25, lat0]);
        let (lon, lat) = clicked(&*map, 5e-10, 0.0).expect("the centre");
        assert_eq!(lon, 0.25);
        assert!((lat - lat0).abs() < 1e-15, "{lat}");
        assert_eq!(clicked(&*map, 1.1e-9, 0.0), OFF);
    }
    let map = of(b'S', [1e-12, 0.0, 0.25, 0.5]);
    assert_eq!(clicked(&*map, 1e-9, 0.0), OFF);
    assert!(clicked(&*map, next_down(1e-9), 0.0).is_ok());
}

/// Equal Earth's longitude is the one from the origin, before lon0 is added and the sum normalised.
#[test]
fn from_the_origin() {
    let longitude = 3.0_f64.sqrt() / 2.0 * 2.0 * 1.340264;
    for lon0 in [3.0, -3.0, 0.0, 100.0] {
        let map = of(b'E', [1.0, 0.0, lon0, 0.0]);
        for x in [2.0, -2.0] {
            let (lon, _) = clicked(&*map, x, 0.0).expect("a place");
            let turns = (lon - lon0 - longitude * x / 2.0) / (2.0 * PI);
            assert!((turns - turns.round()).abs() < 1e-12);
        }
        assert_eq!(clicked(&*map, 2.8, 0.0), OFF);
        assert_eq!(clicked(&*map, -2.8, 0.0), OFF);
    }
}

/// The northing is tested before it is clamped; between the clamp's bound and the limit it is answered as
/// the map's edge.
#[test]
fn before_the_clamp() {
    let map = of(b'E', [1.0, 0.0, 0.0, 0.0]);
    let edge = 1.3173627591574;
    let [at, above] = [edge, NORTHING].map(|y| clicked(&*map, 0.25, y));
    assert!(at.is_ok() && bits(at) == bits(above));
    assert_eq!(clicked(&*map, 0.25, next_up(NORTHING)), OFF);
    assert_eq!(bits(map.inverse(0.25, 9.0)), bits(at));
}

/// Infinity is above a limit, and NaN is not.
#[test]
fn of_overflow() {
    let far = [1.0, 0.0, 0.0, 0.0, 0.0, 0.0, -1.7e308, 0.0];
    let map = build_on_map(b'E', far, None).expect("the world");
    assert_eq!(clicked(&*map, 1.7e308, 0.0), OFF);
    assert_eq!(map.inverse(1.7e308, 0.0), Err(Refusal::InverseResult));
    let flat = of(b'E', [1.0, 1.0 - 2.0_f64.powi(-53), 0.0, 0.0]);
    assert_eq!(clicked(&*flat, 9.0, 2.0), Err(Refusal::StepsUsedUp));
    let large = of(b'L', [1.7e308, 0.0, 0.0, 0.0]);
    let answer = clicked(&*large, 1.7e308, 1.7e308);
    assert_eq!(answer, Err(Refusal::InverseResult));
}

/// 20, then 30, then the area's 26. That 30 comes before 23 is shown above.
#[test]
fn in_their_order() {
    let not_finite = NANS
        .into_iter()
        .map(f64::from_bits)
        .chain([f64::INFINITY, f64::NEG_INFINITY]);
    for x in not_finite {
        for kind in ON_MAP_KINDS {
            for edges in [None, Some([2.0, 3.0, -1.0, -0.5])] {
                let map = build_on_map(kind, EARTH, edges).expect("a map of the Earth");
                for (x, y) in [(x, 0.0), (0.0, x), (x, 1e300), (1e300, x), (x, x)] {
                    assert_eq!(clicked(&*map, x, y), Err(Refusal::InverseInput));
                }
            }
        }
    }
    // 30 before 26: an area that does not hold the place which the first inverse would hand out
    for kind in ON_MAP_KINDS {
        let nowhere = [2.0, 2.0, -1.5, -1.5];
        let map = build_on_map(kind, EARTH, Some(nowhere)).expect("an area");
        for (x, y) in [(4e7, 0.0), (0.0, 4e7), (-4e7, -4e7)] {
            assert_eq!(clicked(&*map, x, y), OFF);
            assert_eq!(map.inverse(x, y), Err(Refusal::OutsideArea));
        }
        assert_eq!(clicked(&*map, 6e5, -1e5), Err(Refusal::OutsideArea));
    }
}

/// Maps of the Earth, about poles and elsewhere, on an ellipsoid and on a sphere.
fn maps() -> impl Iterator<Item = (u8, Settings)> {
    let origins = [0.7, -1.2, 0.0, FRAC_PI_2, -FRAC_PI_2];
    ON_MAP_KINDS.into_iter().flat_map(move |kind| {
        origins.into_iter().flat_map(move |lat0| {
            [EARTH[1], 0.0].map(|f| {
                let mut settings = EARTH;
                settings[1] = f;
                settings[3] = lat0;
                (kind, settings)
            })
        })
    })
}

/// Clicks on the map and in a frame around it: what is answered projects back to the click, by the first
/// inverse's place, and what is refused does not.
#[test]
fn refused_where_nothing_projects_back() {
    let mut random = Random(62);
    for (kind, settings) in maps() {
        let map = build_on_map(kind, settings, None).expect("a map of the Earth");
        let (mut on, mut off) = (0, 0);
        for _ in 0..2000 {
            let (x, y) = match kind {
                b'E' => (random.within(2e7), random.within(1e7)),
                _ => (random.within(1.6e7), random.within(1.6e7)),
            };
            let (lon, lat) = map.inverse(x, y).expect("a place");
            // opposite the origin there may be no way back
            let distance = map.forward(lon, lat).map(|(p, q)| (p - x).hypot(q - y));
            let answer = clicked(&*map, x, y);
            match distance {
                Ok(metres) if metres < 1.0 => {
                    assert!(answer.is_ok(), "{map:?} {x} {y}");
                    on += 1;
                }
                Ok(metres) if metres < 1000.0 => (),
                _ => {
                    assert_eq!(answer, OFF, "{map:?} {x} {y}");
                    off += 1;
                }
            }
        }
        assert!(on > 500 && off > 300 && on + off > 1980, "{on} {off}");
    }
}

/// On maps of which a third of the settings are any patterns, where they can be built, and with areas:
/// the first inverse's answers but for 30, and places inside the limits.
#[test]
fn the_first_elsewhere() {
    let mut random = Random(63);
    let mut counts = [0; 31];
    for kind in ON_MAP_KINDS {
        for _ in 0..3000 {
            let mut settings = EARTH;
            for setting in &mut settings {
                if random.bits() % 3 == 0 {
                    *setting = f64::from_bits(random.bits());
                }
            }
            let edges = [(); 4].map(|()| random.within(1.5));
            let edges = (random.bits() % 3 == 0).then_some(edges);
            let Ok(map) = build_on_map(kind, settings, edges) else {
                continue;
            };
            for _ in 0..20 {
                let size = settings[0] * 2.5;
                let mut input = || match random.bits() % 8 {
                    0 => f64::from_bits(random.bits()),
                    1 => random.input(b'I'),
                    _ => random.within(size),
                };
                let (x, y) = (input(), input());
                let answer = clicked(&*map, x, y);
                counts[usize::from(bits(answer).0)] += 1;
                if let Ok((lon, lat)) = answer {
                    assert!(lon.abs() <= PI && lat.abs() <= BOUND);
                    assert!(edges.is_none_or(|edges| holds(edges, lon, lat)));
                }
            }
        }
    }
    for number in [0, 20, 26, 30] {
        assert!(counts[number] > 1000, "{counts:?}");
    }
}

/// What a column of points has before: results that are NaN, and an outcome that no point has.
fn unwritten(count: usize) -> (Vec<f64>, Vec<f64>, Vec<Outcome>) {
    let nan = vec![f64::NAN; count];
    let outcomes = vec![Outcome::from(Refusal::Sphere); count];
    (nan.clone(), nan, outcomes)
}

fn column(map: &dyn InverseOnMap, x: &[f64], y: &[f64]) -> Vec<Bits> {
    let (mut p, mut q, mut outcomes) = unwritten(x.len());
    map.inverse_on_map_column(x, y, &mut p, &mut q, &mut outcomes)
        .expect("equal lengths");
    let answer = |i: usize| (outcomes[i].number(), p[i].to_bits(), q[i].to_bits());
    (0..x.len()).map(answer).collect()
}

/// Columns, points and degrees are what single calls give, with refused points in their midst.
#[test]
fn columns_are_single_calls() {
    let mut random = Random(64);
    for (kind, settings) in maps() {
        for edges in [None, Some([-1.0, 1.5, -1.0, 1.2])] {
            let map = build_on_map(kind, settings, edges).expect("a map of the Earth");
            let mut inputs = || -> Vec<f64> {
                let size = [1.2e7, 2e7][random.bits() as usize % 2];
                let mut input = || match random.bits() % 8 {
                    0 => random.input(b'I'),
                    _ => random.within(size),
                };
                (0..500).map(|_| input()).collect()
            };
            let (x, y) = (inputs(), inputs());
            let points: Vec<_> = x.iter().copied().zip(y.iter().copied()).collect();
            let single: Vec<_> = points
                .iter()
                .map(|&(x, y)| map.inverse_on_map(x, y))
                .collect();
            let expected: Vec<_> = single.iter().copied().map(bits).collect();
            assert_eq!(column(&*map, &x, &y), expected);
            let by_points = map.inverse_on_map_points(&points).into_iter().map(bits);
            assert!(by_points.eq(expected.iter().copied()));
            for (&(x, y), answer) in points.iter().zip(&single) {
                let in_degrees = answer.map(|(lon, lat)| (lon.to_degrees(), lat.to_degrees()));
                assert_eq!(bits(map.inverse_on_map_degrees(x, y)), bits(in_degrees));
            }
            let off = single.iter().filter(|&&answer| answer == OFF).count();
            assert!((20..480).contains(&off), "{off}");
            assert!(single.iter().any(Result::is_ok));
        }
    }
}

#[test]
fn of_no_points() {
    for kind in ON_MAP_KINDS {
        let map = build_on_map(kind, EARTH, None).expect("a map of the Earth");
        assert_eq!(column(&*map, &[], &[]), []);
        assert_eq!(map.inverse_on_map_points(&[]), []);
    }
}

/// One of the five lengths is another one: no bit of what is lent changes.
#[test]
fn of_unequal_lengths() {
    let lent = NANS.map(f64::from_bits);
    for kind in ON_MAP_KINDS {
        let map = build_on_map(kind, EARTH, None).expect("a map of the Earth");
        for (length, other) in [(5, 4), (5, 6), (5, 0), (0, 1), (1, 0), (0, 8)] {
            for odd in 0..5 {
                let mut lengths = [length; 5];
                lengths[odd] = other;
                let [x, y, mut p, mut q] =
                    [0, 1, 2, 3].map(|place| lent[..lengths[place]].to_vec());
                let (.., mut outcomes) = unwritten(lengths[4]);
                let said = map.inverse_on_map_column(&x, &y, &mut p, &mut q, &mut outcomes);
                assert_eq!(said, Err(UnequalLengths));
                for (column, length) in [p, q].into_iter().zip(&lengths[2..]) {
                    let patterns: Vec<_> = column.into_iter().map(f64::to_bits).collect();
                    assert_eq!(patterns, NANS[..*length]);
                }
                assert_eq!(outcomes, unwritten(lengths[4]).2);
            }
        }
    }
}

/// A function that takes any second inverse takes what points to one, and pointers to these.
#[test]
#[allow(clippy::needless_borrows_for_generic_args)] // the borrows are what is tested
fn by_pointers() {
    fn by_value(map: impl InverseOnMap) -> Vec<Bits> {
        let (x, y) = ([2e5, 4e7, f64::NAN], [-3e5, 0.0, 0.0]);
        let mut said = column(&map, &x, &y);
        said.extend([0, 1, 2].map(|i| bits(map.inverse_on_map(x[i], y[i]))));
        said.extend([0, 1, 2].map(|i| bits(map.inverse_on_map_degrees(x[i], y[i]))));
        let points = map.inverse_on_map_points(&[(x[0], y[0]), (x[1], y[1])]);
        said.extend(points.into_iter().map(bits));
        // it projects as well
        said.push(bits(map.forward(0.2, 0.6)));
        said
    }
    for kind in ON_MAP_KINDS {
        let map = build_on_map(kind, EARTH, None).expect("a map of the Earth");
        let expected = by_value(&*map);
        let numbers: Vec<_> = expected.iter().map(|answer| answer.0).collect();
        assert_eq!(numbers, [0, 30, 20, 0, 30, 20, 0, 30, 20, 0, 30, 0]);
        assert_eq!(by_value(&map), expected);
        assert_eq!(by_value(&&*map), expected);
        let shared: Arc<dyn InverseOnMap> = Arc::from(map);
        assert_eq!(by_value(Arc::clone(&shared)), expected);
        assert_eq!(by_value(Box::new(shared)), expected);
    }
    let world = EqualEarth::new(WGS84, 0.0, 0.0, 0.0).expect("the world");
    assert_eq!(by_value(&world), by_value(world));
    let lambert = LambertAzimuthalEqualArea::new(WGS84, 0.0, 0.5, 0.0, 0.0).expect("a map");
    assert_eq!(by_value(Box::new(lambert)), by_value(Arc::new(lambert)));
}
