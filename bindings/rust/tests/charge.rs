//! The travel charge: inputs on which two readings of the rule would differ; any way, by the rule written
//! a second time; how shares go; and what is refused.

mod common;

use common::{NANS, Random, next_down, next_up};
use lenthuc::{CHARGE_CHILDREN, Refusal, TravelCharge, nearest, travel_charge};
use std::f64::consts::PI;

/// The largest distance, in metres.
const FARTHEST: f64 = 1e6;

/// The largest rate.
const DEAREST: u64 = 1_000_000;

const REFUSED: Result<u64, Refusal> = Err(Refusal::ChargeInput);

/// The charge, after a look at its shares: they add up to it, never rise, and differ by at most one among
/// the children; the others are 0. No other shares are so.
fn charge(dx: f64, dy: f64, rate: u64, children: u64) -> Result<u64, Refusal> {
    let TravelCharge { charge, shares } = travel_charge(dx, dy, rate, children)?;
    let (own, others) = shares.split_at(children as usize);
    assert_eq!(own.iter().sum::<u64>(), charge);
    assert!(own.is_sorted_by(|one, next| one >= next), "{own:?}");
    assert!(own[0] - own[own.len() - 1] <= 1, "{own:?}");
    assert!(others.iter().all(|&share| share == 0), "{others:?}");
    Ok(charge)
}

/// How many kilometres are charged.
fn kilometres(dx: f64, dy: f64) -> Result<u64, Refusal> {
    charge(dx, dy, 1, 1)
}

/// The rule's distance.
fn distance(dx: f64, dy: f64) -> f64 {
    (dx * dx + dy * dy).sqrt()
}

/// The rule's kilometres, counted up from none.
fn counted(distance: f64) -> u64 {
    let reaches = |&k: &u64| distance <= 1000.0 * k as f64;
    (0..=1000)
        .find(reaches)
        .expect("a distance up to the limit")
}

/// The rule's charge.
fn rule(dx: f64, dy: f64, rate: u64, children: u64) -> Result<u64, Refusal> {
    let far = distance(dx, dy);
    let fits = rate <= DEAREST && (1..=60).contains(&children) && far <= FARTHEST;
    if fits {
        Ok(counted(far) * rate)
    } else {
        REFUSED
    }
}

/// 5,200 m are six started kilometres.
#[test]
fn of_a_stop() {
    let bill = travel_charge(4800.0, -2000.0, 40, 7).expect("a charge");
    assert_eq!(bill.charge, 240);
    assert_eq!(bill.shares[..7], [35, 35, 34, 34, 34, 34, 34]);
    assert_eq!(bill.shares[7..], [0; 53]);
}

#[test]
fn of_readings() {
    for (dx, dy, expected) in [
        // no way costs nothing, nor does one whose square vanishes
        (0.0, 0.0, 0),
        (-0.0, 0.0, 0),
        (1e-200, 0.0, 0),
        (1e-200, -1e-200, 0),
        (2.0_f64.powi(-538), 0.0, 0),
        // the shortest way that costs anything
        (2.0_f64.powi(-537), 0.0, 1),
        (0.0, -0.001, 1),
        // a whole kilometre is not the next one
        (1000.0, 0.0, 1),
        (0.0, -1000.0, 1),
        (-600.0, 800.0, 1),
        (next_down(1000.0), 0.0, 1),
        (next_up(1000.0), 0.0, 2),
        (1400.0, 0.0, 2),
        // by the root as it rounds, whatever the sum
        (1000.0, 1e-5, 2),
        (5000.0, 6e-5, 5),
        // the farthest
        (FARTHEST, 0.0, 1000),
        (6e5, -8e5, 1000),
        (FARTHEST, 0.001, 1000),
        (next_down(FARTHEST), 0.0, 1000),
        (999_000.0, 0.0, 999),
    ] {
        assert_eq!(kilometres(dx, dy), Ok(expected), "{dx} {dy}");
        assert_eq!(kilometres(dy, dx), Ok(expected), "{dy} {dx}");
        assert_eq!(kilometres(-dx, dy), Ok(expected), "{dx} {dy}");
    }
    // the sums of two of them are above the square of their kilometres, and the root of one is too
    let sum = |dx: f64, dy: f64| dx * dx + dy * dy;
    assert!(sum(5000.0, 6e-5) > 25e6 && distance(5000.0, 6e-5) == 5000.0);
    assert!(sum(1000.0, 1e-5) > 1e6 && distance(1000.0, 1e-5) > 1000.0);
}

/// The numbers around each, on every side of the stop.
#[test]
fn of_every_whole_kilometre() {
    for k in 1..=1000 {
        let whole = 1000.0 * k as f64;
        let above = if k < 1000 { Ok(k + 1) } else { REFUSED };
        let cases = [
            (next_down(whole), Ok(k)),
            (whole, Ok(k)),
            (next_up(whole), above),
        ];
        for (far, expected) in cases {
            for (dx, dy) in [(far, 0.0), (-far, 0.0), (0.0, far), (-0.0, -far)] {
                assert_eq!(kilometres(dx, dy), expected, "{dx} {dy}");
            }
        }
        assert_eq!(kilometres(0.6 * whole, 0.8 * whole), Ok(k), "{k}");
    }
}

/// Ways about whole kilometres, which other formulas put on another side of them.
#[test]
fn by_no_other_formula() {
    type Formula = fn(f64, f64) -> u64;
    let formulas: [(&str, Formula); 7] = [
        ("one more than are done", |dx, dy| {
            (distance(dx, dy) / 1000.0).floor() as u64 + 1
        }),
        ("to the nearest", |dx, dy| {
            (distance(dx, dy) / 1000.0).round() as u64
        }),
        ("by whole metres", |dx, dy| {
            (distance(dx, dy).floor() / 1000.0).ceil() as u64
        }),
        ("by squares", |dx, dy| {
            let reaches = |&k: &u64| dx * dx + dy * dy <= (1e6 * (k * k) as f64);
            (0..).find(reaches).expect("kilometres")
        }),
        ("hypot", |dx, dy| counted(dx.hypot(dy))),
        ("the first square fused", |dx, dy| {
            counted(dx.mul_add(dx, dy * dy).sqrt())
        }),
        ("the second square fused", |dx, dy| {
            counted(dy.mul_add(dy, dx * dx).sqrt())
        }),
    ];
    let mut random = Random(51);
    let ways: Vec<_> = (0..4000)
        .map(|_| {
            let (angle, whole) = (random.within(PI), (random.bits() % 999 + 1) as f64);
            (1000.0 * whole * angle.cos(), 1000.0 * whole * angle.sin())
        })
        .collect();
    for &(dx, dy) in &ways {
        assert_eq!(kilometres(dx, dy), Ok(counted(distance(dx, dy))));
    }
    for (name, formula) in formulas {
        let differs = |&&(dx, dy): &&(f64, f64)| formula(dx, dy) != counted(distance(dx, dy));
        let others = ways.iter().filter(differs).count();
        assert!(others > 100, "{name} {others}");
    }
}

/// Every number of children and every charge up to three coins each: as if the coins were handed out one
/// by one, to each child in turn.
#[test]
fn of_every_remainder() {
    for children in 1..=CHARGE_CHILDREN {
        let mut expected = [0; CHARGE_CHILDREN];
        for coins in 0..=3 * children {
            let bill = travel_charge(1.0, 0.0, coins as u64, children as u64);
            let bill = bill.expect("a charge");
            assert_eq!((bill.charge, bill.shares), (coins as u64, expected));
            expected[coins % children] += 1;
        }
    }
}

/// The largest charge there is.
#[test]
fn of_the_most() {
    let bill = travel_charge(FARTHEST, 0.0, DEAREST, 60).expect("a charge");
    assert_eq!(bill.charge, 1_000_000_000);
    assert_eq!(bill.shares[..40], [16_666_667; 40]);
    assert_eq!(bill.shares[40..], [16_666_666; 20]);
}

/// Any way, rate and children, mostly such as have a charge.
#[test]
fn are_the_rule() {
    let mut random = Random(52);
    let (mut answered, mut refused) = (0, 0);
    for _ in 0..300_000 {
        let size = [2e3, 5e4, 7e5, 2e6][random.bits() as usize % 4];
        let [dx, dy] = [(); 2].map(|()| match random.bits() % 16 {
            0 => f64::from_bits(random.bits()),
            1 => 0.0,
            2 => (random.within(size) / 1000.0).round() * 1000.0,
            _ => random.within(size),
        });
        let rate = match random.bits() % 8 {
            0 => random.bits() >> (random.bits() % 64),
            _ => random.bits() % (DEAREST + 1),
        };
        let children = match random.bits() % 8 {
            0 => random.bits() >> (random.bits() % 64),
            _ => random.bits() % 60 + 1,
        };
        let found = charge(dx, dy, rate, children);
        let expected = rule(dx, dy, rate, children);
        assert_eq!(found, expected, "{dx} {dy} {rate} {children}");
        match found {
            Ok(_) => answered += 1,
            Err(_) => refused += 1,
        }
    }
    assert!(answered > 50_000 && refused > 50_000, "{answered}");
}

/// Each limit passes and the next number does not, whatever the others are. A number that has more than
/// 8, 16 or 32 bits is not what is left of it in so many.
#[test]
fn of_limits() {
    let more = [8, 16, 32, 63].map(|bits| 1_u64 << bits);
    let above = |limit| {
        more.map(|more| [more, more + 1, more + limit])
            .into_iter()
            .flatten()
    };
    let rates = [0, 1, 40, 999_999, DEAREST, DEAREST + 1, u64::MAX];
    let rates = rates.into_iter().chain(above(DEAREST));
    let children: Vec<_> = (0..=300).chain(above(60)).chain([u64::MAX]).collect();
    let ways = [(0.0, 0.0), (0.0, 1.0), (FARTHEST, 0.0), (FARTHEST, 0.01)];
    for rate in rates {
        for &children in &children {
            for (dx, dy) in ways.into_iter().chain([(f64::NAN, 0.0)]) {
                let found = charge(dx, dy, rate, children);
                let expected = rule(dx, dy, rate, children);
                assert_eq!(found, expected, "{dx} {dy} {rate} {children}");
            }
        }
    }
    for (dx, rate, children) in [
        (next_up(FARTHEST), DEAREST, 60),
        (FARTHEST, DEAREST + 1, 60),
        (FARTHEST, DEAREST, 61),
        (FARTHEST, DEAREST, 0),
    ] {
        assert_eq!(charge(dx, 0.0, rate, children), REFUSED);
    }
}

/// Every number that makes no distance or too long a one, as dx, as dy and as both; and two that do so
/// together alone.
#[test]
fn of_bad_distances() {
    let far = [next_up(FARTHEST), 1e8, 1e154, 1e155, f64::MAX];
    let bad = far
        .into_iter()
        .chain([f64::INFINITY])
        .flat_map(|x| [x, -x])
        .chain(NANS.map(f64::from_bits));
    for x in bad {
        for y in [0.0, -0.0, 1.0, -FARTHEST, x, f64::INFINITY, f64::NAN] {
            assert_eq!(kilometres(x, y), REFUSED, "{x} {y}");
            assert_eq!(kilometres(y, x), REFUSED, "{y} {x}");
        }
    }
    assert_eq!(kilometres(8e5, 0.0), Ok(800));
    assert_eq!(kilometres(8e5, -8e5), REFUSED);
}

/// Along the list of the nearest schools charges never fall, and rolls change none of them.
#[test]
fn of_listed_schools() {
    let mut random = Random(53);
    for _ in 0..200 {
        let home = (random.within(1e6), random.within(1e6));
        let school = |_| (home.0 + random.within(2e4), home.1 + random.within(2e4));
        let mut schools: Vec<_> = (0..50).map(school).collect();
        schools.extend_from_within(..);
        let rolls: Vec<_> = schools.iter().map(|_| random.bits() as u16).collect();
        let charges = |rolls: &[u16]| {
            let order = nearest(home, &schools, rolls).expect("an order");
            let each = order.into_iter().map(|i| {
                let (easting, northing) = schools[usize::from(i)];
                charge(easting - home.0, northing - home.1, 40, 3).expect("a charge")
            });
            each.collect::<Vec<_>>()
        };
        assert!(charges(&rolls).is_sorted());
        assert_eq!(charges(&rolls), charges(&[0; 100]));
    }
}

/// The constant is the header's, and the words' of the refusal.
#[test]
fn the_header() {
    let header = include_str!("../../c/lenthuc.h");
    let stated = format!("#define LENTHUC_CHARGE_CHILDREN {CHARGE_CHILDREN}\n");
    assert!(header.contains(&stated), "{stated}");
    let words = Refusal::ChargeInput.to_string();
    assert!(words.contains(&format!("more than {CHARGE_CHILDREN},")));
}

/// Threads get what one thread gets.
#[test]
fn by_several_threads() {
    let answers = || [1, 7, 60, 61].map(|children| travel_charge(4800.0, 2000.0, 41, children));
    let expected = &answers();
    assert_eq!(
        expected.map(|answer| answer.is_ok()),
        [true, true, true, false]
    );
    std::thread::scope(|scope| {
        for _ in 0..4 {
            scope.spawn(|| (0..500).for_each(|_| assert_eq!(&answers(), expected)));
        }
    });
}
