//! Each refusal by an input that has it, and the refusals as errors.

mod common;

use common::{
    EARTH, KINDS, ON_MAP_KINDS, Random, Settings, WAYS, build, build_in, build_on_map, next_up,
    project,
};
use lenthuc::{Ellipsoid, Refusal, UnequalLengths, nearest, nearest_into, travel_charge};
use std::collections::HashSet;
use std::error::Error;
use std::f64::consts::{FRAC_PI_2, PI};

/// Places in `Settings`.
const A: usize = 0;
const F: usize = 1;
const LON0: usize = 2;
const LAT0: usize = 3;
const LAT1: usize = 4;
const LAT2: usize = 5;
const FE: usize = 6;
const FN: usize = 7;

/// Settings by name. The others are 0, and a is 1.
fn settings(named: &[(usize, f64)]) -> Settings {
    let mut settings = [0.0; 8];
    settings[A] = 1.0;
    for &(place, value) in named {
        settings[place] = value;
    }
    settings
}

/// What building a kind is refused for.
fn built(kind: u8, named: &[(usize, f64)]) -> Option<Refusal> {
    build(kind, settings(named)).err()
}

/// What a point is refused for, of a kind that can be built.
fn projected(name: &[u8; 2], named: &[(usize, f64)], u: f64, v: f64) -> Option<Refusal> {
    let [way, kind] = *name;
    let map = build(kind, settings(named)).expect("a projection");
    project(&*map, way, u, v).err()
}

#[test]
fn of_ellipsoids() {
    let bad = [f64::NAN, f64::INFINITY, f64::NEG_INFINITY, -1.0];
    for x in bad.into_iter().chain([0.0, -0.0]) {
        assert_eq!(Ellipsoid::from_a_f(x, 0.5), Err(Refusal::SemiMajorAxis));
        assert_eq!(Ellipsoid::from_a_rf(x, 300.0), Err(Refusal::SemiMajorAxis));
        assert_eq!(Ellipsoid::sphere(x), Err(Refusal::SemiMajorAxis));
    }
    for x in bad.into_iter().chain([0.0, 1.0]) {
        assert_eq!(
            Ellipsoid::from_a_rf(1.0, x),
            Err(Refusal::InverseFlattening)
        );
    }
    for x in bad.into_iter().chain([1.0]) {
        assert_eq!(Ellipsoid::from_a_f(1.0, x), Err(Refusal::Flattening));
    }
    // in the order of the checks
    assert_eq!(
        Ellipsoid::from_a_rf(0.0, 1.0),
        Err(Refusal::InverseFlattening)
    );
    assert_eq!(Ellipsoid::from_a_f(0.0, 1.0), Err(Refusal::SemiMajorAxis));
}

#[test]
fn of_settings() {
    let bound = FRAC_PI_2 + 1e-12;
    let near_1 = 1.0 - 2.0_f64.powi(-53);
    for kind in KINDS {
        assert_eq!(built(kind, &[(LON0, f64::INFINITY)]), Some(Refusal::Lon0));
        assert_eq!(built(kind, &[(FE, f64::NAN)]), Some(Refusal::FalseEasting));
        assert_eq!(built(kind, &[(FN, f64::NAN)]), Some(Refusal::FalseNorthing));
    }
    for kind in *b"LSACPG" {
        let refused = built(kind, &[(LAT0, f64::NAN)]);
        assert_eq!(refused, Some(Refusal::LatitudeSetting));
        let refused = built(kind, &[(LAT0, next_up(bound))]);
        assert_eq!(refused, Some(Refusal::LatitudeSettingBeyond));
    }
    assert_eq!(built(b'G', &[]), Some(Refusal::Sphere));
    assert_eq!(built(b'G', &[(F, -0.0)]), Some(Refusal::Sphere));
    assert_eq!(built(b'L', &[(F, near_1)]), Some(Refusal::PolarQ));
    assert_eq!(built(b'L', &[(LAT0, bound)]), Some(Refusal::OriginNearPole));
    let lat0 = FRAC_PI_2 - 1e-9;
    assert_eq!(built(b'S', &[(LAT0, lat0)]), Some(Refusal::OriginNearPole));
    for f in [1.0 / 300.0, 0.0, -0.0] {
        let opposite = [(F, f), (LAT1, 0.5), (LAT2, -0.5)];
        assert_eq!(built(b'A', &opposite), Some(Refusal::ConeConstant));
    }
}

/// The scale of the largest maps there are overflows.
#[test]
fn of_lamberts_scale() {
    let f = f64::from_bits(0x3cc2_03af_9ee7_5617);
    let largest = [(A, f64::MAX), (F, f), (LAT0, -1.0)];
    assert_eq!(built(b'L', &largest), Some(Refusal::OriginScale));
    assert_eq!(built(b'S', &largest), Some(Refusal::OriginScale));
}

/// Latitude by latitude: not finite, then beyond.
#[test]
fn of_latitudes_in_their_order() {
    let refused = built(b'A', &[(LAT0, 3.0), (LAT1, f64::NAN)]);
    assert_eq!(refused, Some(Refusal::LatitudeSettingBeyond));
    let refused = built(b'A', &[(LAT1, 3.0), (LAT2, f64::NAN)]);
    assert_eq!(refused, Some(Refusal::LatitudeSettingBeyond));
    let refused = built(b'A', &[(LAT1, f64::NAN), (LAT2, 3.0)]);
    assert_eq!(refused, Some(Refusal::LatitudeSetting));
}

#[test]
fn of_points() {
    let ellipsoid = [(F, 1.0 / 300.0)];
    let atlas = [(LAT0, 0.6), (LAT1, 0.5), (LAT2, 0.7)];
    let flattened = [ellipsoid[0], atlas[0], atlas[1], atlas[2]];
    let near_1 = [(F, 1.0 - 2.0_f64.powi(-53))];
    let cases = [
        (projected(b"FE", &[], f64::NAN, 0.0), Refusal::ForwardInput),
        (
            projected(b"FE", &[], 0.0, f64::INFINITY),
            Refusal::ForwardInput,
        ),
        (projected(b"FC", &[], 0.0, 1.6), Refusal::ForwardBeyond),
        (projected(b"FS", &[], PI, 0.0), Refusal::Antipode),
        (projected(b"FE", &near_1, 0.1, 0.5), Refusal::ForwardResult),
        (
            projected(b"IG", &ellipsoid, f64::NAN, 0.0),
            Refusal::InverseInput,
        ),
        (
            projected(b"IP", &ellipsoid, 0.0, FRAC_PI_2),
            Refusal::StepAtPole,
        ),
        (projected(b"IA", &flattened, 0.0, 9.0), Refusal::StepsUsedUp),
        (projected(b"IA", &atlas, 0.0, 9.0), Refusal::InverseResult),
        (projected(b"IC", &near_1, 0.1, 0.5), Refusal::InverseResult),
        (projected(b"IC", &[], 0.0, 2.0), Refusal::InverseBeyond),
    ];
    for (refused, expected) in cases {
        assert_eq!(refused, Some(expected));
    }
}

#[test]
fn of_areas() {
    for kind in KINDS {
        let refused = build_in([-1.0, 1.0, 0.5, -0.5], kind, EARTH).err();
        assert_eq!(refused, Some(Refusal::AreaEdges));
        let map = build_in([0.2, 0.4, 0.6, 0.8], kind, EARTH).expect("an area");
        assert!(map.forward(0.3, 0.7).is_ok());
        assert_eq!(map.forward(0.5, 0.7), Err(Refusal::OutsideArea));
        let everywhere = build(kind, EARTH).expect("a map of the Earth");
        let (x, y) = everywhere.forward(0.5, 0.7).expect("a point");
        assert_eq!(map.inverse(x, y), Err(Refusal::OutsideArea));
    }
}

#[test]
fn of_rings() {
    let corners = [(0.2, 0.6), (0.3, 0.6), (0.2, 0.7)];
    for kind in KINDS {
        let map = build(kind, EARTH).expect("a map of the Earth");
        assert_eq!(map.ring(&corners[1..]), Err(Refusal::RingForm));
        let (lon, lat) = (
            corners.map(|corner| corner.0),
            corners.map(|corner| corner.1),
        );
        let short = map.ring_area(&lon, &lat, &mut [], &mut []);
        if b"LSAE".contains(&kind) {
            assert!(map.ring(&corners).is_ok());
            assert_eq!(short, Err(Refusal::RingResult));
        } else {
            assert_eq!(map.ring(&corners), Err(Refusal::RingForm));
            assert_eq!(short, Err(Refusal::RingForm));
        }
    }
}

#[test]
fn of_nearest_schools() {
    let (home, school) = ((0.0, 0.0), (300.0, 400.0));
    assert_eq!(nearest(home, &[school], &[65_535]), Ok(vec![0]));
    for (home, schools) in [
        (home, vec![]),
        (home, vec![school; 257]),
        (home, vec![school, (f64::NAN, 400.0)]),
        ((0.0, -2e8), vec![school]),
    ] {
        assert_eq!(
            nearest(home, &schools, &[0; 300]),
            Err(Refusal::NearestInput)
        );
    }
    let unequal = nearest_into(home, &[300.0, 0.0], &[400.0], &[0; 2], &mut [0; 2]);
    assert_eq!(unequal, Err(Refusal::NearestInput));
    let short = nearest_into(home, &[300.0], &[400.0], &[0], &mut []);
    assert_eq!(short, Err(Refusal::NearestInput));
    let fewer_rolls = nearest_into(home, &[300.0; 2], &[400.0; 2], &[0], &mut [0; 2]);
    assert_eq!(fewer_rolls, Err(Refusal::NearestInput));
}

#[test]
fn of_travel_charges() {
    let (dx, dy) = (300.0, -400.0);
    assert_eq!(travel_charge(dx, dy, 40, 2).map(|bill| bill.charge), Ok(40));
    for (dx, dy, rate, children) in [
        (dx, dy, 1_000_001, 2),
        (dx, dy, 40, 0),
        (dx, dy, 40, 61),
        (f64::NAN, dy, 40, 2),
        (dx, f64::NEG_INFINITY, 40, 2),
        (1e6, dy, 40, 2),
    ] {
        let refused = travel_charge(dx, dy, rate, children);
        assert_eq!(refused, Err(Refusal::ChargeInput));
    }
}

#[test]
fn of_clicks_off_the_map() {
    for kind in ON_MAP_KINDS {
        let map = build_on_map(kind, EARTH, None).expect("a map of the Earth");
        assert_eq!(map.inverse_on_map(6e5, -1e5), map.inverse(6e5, -1e5));
        for (x, y) in [(4e7, 0.0), (0.0, -4e7)] {
            assert_eq!(map.inverse_on_map(x, y), Err(Refusal::OffTheMap));
            assert!(map.inverse(x, y).is_ok());
        }
    }
}

/// Each kind refuses by the numbers that its documents list, and by no others: with an area by 25 and 26
/// too, and without one never. A second inverse has the first's and 30.
#[test]
fn of_each_kind_alone() {
    let mut random = Random(8);
    for kind in KINDS {
        let building: &[u8] = match kind {
            b'L' | b'S' => &[4, 5, 6, 7, 8, 9, 10, 12, 13, 14],
            b'A' => &[4, 5, 6, 7, 8, 9, 10, 15],
            b'E' => &[4, 5, 6, 9, 10],
            b'G' => &[4, 5, 6, 7, 8, 9, 10, 11],
            _ => &[4, 5, 6, 7, 8, 9, 10],
        };
        let forward: &[u8] = match kind {
            b'L' | b'S' => &[16, 17, 18, 19],
            _ => &[16, 17, 19],
        };
        let inverse: &[u8] = match kind {
            b'A' | b'E' => &[20, 22, 23, 24],
            b'P' => &[20, 21, 22, 23, 24],
            _ => &[20, 23, 24],
        };
        for _ in 0..5000 {
            let mut settings = EARTH;
            for setting in &mut settings {
                if random.bits() % 5 == 0 {
                    *setting = f64::from_bits(random.bits());
                }
            }
            let edges = [(); 4].map(|()| random.within(1.7));
            let has_area = random.bits() % 2 == 0;
            let built = match has_area {
                true => build_in(edges, kind, settings),
                false => build(kind, settings),
            };
            let map = match built {
                Ok(map) => map,
                Err(refusal) => {
                    let known = building.contains(&refusal.number());
                    let of_the_area = has_area && refusal == Refusal::AreaEdges;
                    assert!(known || of_the_area, "{kind} {refusal:?}");
                    continue;
                }
            };
            let check = |refusal: Refusal, numbers: &[u8]| {
                let of_the_area = has_area && refusal == Refusal::OutsideArea;
                let known = numbers.contains(&refusal.number()) || of_the_area;
                assert!(known, "{map:?} {refusal:?}");
            };
            for (way, numbers) in WAYS.into_iter().zip([forward, inverse]) {
                let (u, v) = (random.input(way), random.input(way));
                if let Err(refusal) = project(&*map, way, u, v) {
                    check(refusal, numbers);
                }
            }
            if ON_MAP_KINDS.contains(&kind) {
                let map = build_on_map(kind, settings, has_area.then_some(edges)).expect("it");
                let (u, v) = (random.input(b'I'), random.input(b'I'));
                match map.inverse_on_map(u, v) {
                    Ok(_) | Err(Refusal::OffTheMap) => (),
                    Err(refusal) => check(refusal, inverse),
                }
            }
        }
    }
}

/// Numbers name refusals and refusals have numbers, 3 to 31, and no other number is one.
#[test]
fn by_number() {
    for number in 0..=u8::MAX {
        let named = Refusal::from_number(number);
        assert_eq!(named.is_some(), (3..=31).contains(&number), "{number}");
        assert_eq!(named.map(Refusal::number), named.map(|_| number));
    }
}

#[test]
fn as_errors() {
    let messages: HashSet<_> = (3..=31)
        .filter_map(Refusal::from_number)
        .map(|refusal| refusal.to_string())
        .collect();
    assert_eq!(messages.len(), 29, "each has its own message");
    assert!(messages.iter().all(|message| message.len() > 20));
    let boxed: Box<dyn Error + Send + Sync> = Box::new(Refusal::Antipode);
    assert_eq!(boxed.downcast_ref(), Some(&Refusal::Antipode));
    let boxed: Box<dyn Error + Send + Sync> = Box::new(UnequalLengths);
    let words = "the columns have unequal lengths: nothing is read or written";
    assert_eq!(boxed.to_string(), words);
}
