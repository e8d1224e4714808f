//! The readings of 02's travel charge, tried on `charge.rs`.

use oracle::charge::{
    CHARGE_INPUT, CHILDREN, ChargeAnswer, FARTHEST, HIGHEST, Meant, Rule, Shares, Stop,
};
use oracle::charge_cases::{ChargeCase, charge_cases};
use oracle::charge_sample::charge_sample;
use oracle::charges::{Charges, SHAPES, Shape, edges};
use oracle::fixed::root;
use oracle::patterns::SPECIALS;
use oracle::stored::Stored;
use oracle::whole;
use std::collections::BTreeSet;

/// The cases of a reading, which get the number, the charge and the shares that it says.
fn reading(number: usize) -> Vec<ChargeCase> {
    let mut cases = charge_cases();
    cases.retain(|case| case.reading == number);
    assert!(!cases.is_empty());
    for case in &cases {
        let text = case.stop.text();
        let answer = Meant.answer(&case.stop);
        assert_eq!(answer.number, case.number, "{text}");
        assert_eq!(answer.charge, case.charge, "{text}");
        let mut shares = [0; CHILDREN];
        shares[..case.shares.len()].copy_from_slice(&case.shares);
        assert_eq!(answer.shares, shares, "{text}");
    }
    cases
}

/// Tries the edges, and so many stops of every shape.
fn each_stop(count: usize, mut tried: impl FnMut(&Stop)) {
    edges().iter().for_each(&mut tried);
    let mut charges = Charges::new(1);
    for place in 0..count {
        tried(&charges.next(SHAPES[place % SHAPES.len()]));
    }
}

/// The same of those that are answered.
fn each_answered(count: usize, mut tried: impl FnMut(&Stop, &ChargeAnswer)) {
    let mut answered = 0;
    each_stop(count, |stop| {
        let answer = Meant.answer(stop);
        if answer.number == 0 {
            tried(stop, &answer);
            answered += 1;
        }
    });
    assert!(answered > count / 2);
}

#[test]
fn started_kilometres_are_charged() {
    reading(0);
}

/// What is refused, and nothing else, has a rate, a number of children or a distance that is; and then
/// all is zero.
#[test]
fn a_refusal_has_a_cause() {
    let mut causes = BTreeSet::new();
    each_stop(200_000, |stop| {
        let [dx, dy] = stop.offset;
        let found = [
            stop.rate > 1_000_000,
            stop.children == 0,
            stop.children > 60,
            root(dx * dx + dy * dy).is_nan(),
            root(dx * dx + dy * dy) > 1_000_000.0,
        ];
        let answer = Meant.answer(stop);
        let number = match found.contains(&true) {
            true => 31,
            false => 0,
        };
        assert_eq!(answer.number, number, "{}", stop.text());
        if number == 31 {
            let nothing = answer.charge == 0 && answer.shares == [0; 60];
            assert!(nothing, "{}", stop.text());
        }
        causes.extend(found.iter().position(|&cause| cause));
    });
    assert_eq!(causes.len(), 5);
}

#[test]
fn only_the_distance_has_a_limit() {
    reading(1);
    for distance in [FARTHEST, FARTHEST.next_down(), 0.0, f64::from_bits(1)] {
        assert!(!Meant.refuses_distance(distance), "{distance}");
    }
    for distance in [FARTHEST.next_up(), f64::MAX, f64::INFINITY, f64::NAN] {
        assert!(Meant.refuses_distance(distance), "{distance}");
    }
    let refused = |&&bits: &&u64| {
        let offset = [f64::from_bits(bits), 0.0];
        Meant.refuses_distance(Meant.distance(offset))
    };
    assert_eq!(SPECIALS.iter().filter(refused).count(), 8);
}

#[test]
fn distance_0_is_free() {
    let cases = reading(2);
    let free = |case: &&ChargeCase| Meant.distance(case.stop.offset) == 0.0;
    assert_eq!(cases.iter().filter(free).count(), 12);
}

/// The root is the whole-number one, and (5000, 6e-5) has a sum a step above 5 km's and 5 km's root.
#[test]
fn kilometres_go_by_the_rounded_root() {
    let cases = reading(3);
    let [dx, dy] = cases[0].stop.offset;
    assert_eq!(dx * dx + dy * dy, 25e6_f64.next_up());
    assert_eq!(root(dx * dx + dy * dy), 5000.0);
    each_answered(200_000, |stop, _| {
        let [dx, dy] = stop.offset;
        let distance = whole::root(dx * dx + dy * dy);
        assert_eq!(Meant.distance(stop.offset), distance, "{}", stop.text());
    });
}

#[test]
fn limits_pass() {
    reading(4);
    for (rate, refused) in [(0, false), (HIGHEST, false), (HIGHEST + 1, true)] {
        assert_eq!(Meant.refuses_rate(rate), refused, "{rate}");
    }
    for (children, refused) in [(0, true), (1, false), (60, false), (61, true)] {
        assert_eq!(Meant.refuses_children(children), refused, "{children}");
    }
}

/// 1,000×k is not below the distance, and 1,000×(k - 1) is; the quotient, rounded up, is the same.
#[test]
fn the_least_k_is_taken() {
    reading(5);
    each_answered(200_000, |stop, _| {
        let distance = Meant.distance(stop.offset);
        let k = Meant.kilometres(stop);
        let metres = |k: u64| (1000 * k) as f64;
        assert!(distance <= metres(k), "{}", stop.text());
        assert!(k == 0 || metres(k - 1) < distance, "{}", stop.text());
        assert_eq!((distance / 1000.0).ceil() as u64, k, "{}", stop.text());
    });
}

/// 02's three sentences, and what the children past the last have.
fn are_shares(shares: &Shares, charge: u64, children: u64) -> bool {
    let (of_children, past) = shares.split_at(children as usize);
    let [most, least] = [of_children[0], of_children[of_children.len() - 1]];
    of_children.is_sorted_by(|one, next| one >= next)
        && most - least <= 1
        && of_children.iter().sum::<u64>() == charge
        && past.iter().all(|&share| share == 0)
}

#[test]
fn the_larger_shares_come_first() {
    reading(6);
    each_answered(200_000, |stop, answer| {
        let ChargeAnswer { charge, shares, .. } = answer;
        assert_eq!(*charge, Meant.kilometres(stop) * stop.rate);
        assert!(
            are_shares(shares, *charge, stop.children),
            "{}",
            stop.text()
        );
    });
}

/// Coin by coin, from the first child on, again and again.
#[test]
fn each_coin_goes_to_the_next_child() {
    for children in 1..=CHILDREN {
        let mut shares = [0; CHILDREN];
        for charge in 0..2000 {
            assert_eq!(Meant.shares(charge, children as u64), shares, "{charge}");
            shares[charge as usize % children] += 1;
        }
    }
}

/// The quotient, and one coin more for as many as the remainder says.
#[test]
fn the_remainder_says_how_many_pay_more() {
    let mut rests = BTreeSet::new();
    each_answered(200_000, |stop, answer| {
        let Stop { children, .. } = *stop;
        let (each, rest) = (answer.charge / children, answer.charge % children);
        for place in 0..CHILDREN as u64 {
            let share = match place < children {
                true => each + u64::from(place < rest),
                false => 0,
            };
            assert_eq!(answer.shares[place as usize], share, "{}", stop.text());
        }
        rests.insert((children, rest));
    });
    assert_eq!(rests.len(), CHILDREN * (CHILDREN + 1) / 2);
}

/// Every shape is answered, and all but two are refused too.
#[test]
fn every_shape_is_answered() {
    let mut charges = Charges::new(1);
    for shape in SHAPES {
        let drawn = std::iter::repeat_with(|| charges.next(shape)).take(20_000);
        let numbers: BTreeSet<u8> = drawn.map(|stop| Meant.answer(&stop).number).collect();
        let expected: &[u8] = match shape {
            Shape::Town | Shape::Rest => &[0],
            _ => &[0, CHARGE_INPUT],
        };
        assert!(numbers.iter().eq(expected), "{shape:?}");
    }
}

#[test]
fn a_question_is_read_as_it_is_written() {
    let mut bytes = 0;
    for (stop, why) in charge_sample() {
        let question = stop.text();
        let read = Stop::read(&question).expect("a stop");
        assert_eq!(read.text(), question);
        let answer = Meant.answer(&stop);
        assert_eq!(Meant.answer(&read), answer, "{question}");
        let answer = answer.text();
        let stored = Stored {
            question,
            answer,
            why,
        };
        bytes += stored.to_string().len() + 1;
    }
    assert!(bytes <= 45_000, "{bytes}");
}

#[test]
fn another_form_is_not_read() {
    let text = charge_cases()[0].stop.text();
    assert!(Stop::read(&text).is_some());
    for other in [
        text.replace("travel_charge", "nearest"),
        format!("{text},0000000000000000"),
        text[..text.len() - 1].to_owned(),
        text[..text.len() - 17].to_owned(),
        text.replace('a', "A"),
        text.replace(",0", ", "),
    ] {
        assert!(Stop::read(&other).is_none(), "{other}");
    }
}

/// The answer's text has the number, the charge, and a print that every share changes.
#[test]
fn the_print_has_every_share() {
    let mut answer = ChargeAnswer {
        number: 0,
        charge: 5,
        shares: [0; CHILDREN],
    };
    answer.shares[57..].copy_from_slice(&[1, 4, 0]);
    assert_eq!(answer.text(), "0,0000000000000005,000000000000000c");
    for place in 0..CHILDREN {
        let mut other = answer.clone();
        other.shares[place] += 1;
        assert_ne!(other.text(), answer.text());
    }
}
