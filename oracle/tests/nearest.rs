//! The readings of 02's nearest schools, tried on `nearest.rs`.

use oracle::fixed::root;
use oracle::nearest::{LARGEST, MOST, Meant, NEAREST_INPUT, Nearest, NearestAnswer, Rule};
use oracle::nearest_cases::Reading::{self, Q5, Q8};
use oracle::nearest_cases::{NearestCase, nearest_cases};
use oracle::nearest_sample::nearest_sample;
use oracle::nearests::{LONGEST, Nearests, SHAPES};
use oracle::patterns::SPECIALS;
use oracle::stored::Stored;
use std::collections::BTreeSet;

/// The cases of a reading, which get the number and the order that it says.
fn reading(number: Reading) -> Vec<NearestCase> {
    let mut cases = nearest_cases();
    cases.retain(|case| case.reading == number);
    assert!(!cases.is_empty());
    for case in &cases {
        let text = case.asked.text();
        let answer = Meant.answer(&case.asked);
        assert_eq!(answer.number, case.number, "{text}");
        let mut list = case.asked.lent();
        list[..case.order.len()].copy_from_slice(&case.order);
        assert_eq!(answer.list, list, "{text}");
    }
    cases
}

/// Tries so many homes of every shape.
fn each_home(count: usize, mut tried: impl FnMut(usize, &Nearest)) {
    let mut nearests = Nearests::new(1);
    for place in 0..count {
        let shape = place % SHAPES.len();
        tried(shape, &nearests.next(SHAPES[shape]));
    }
}

/// The sums of a case.
fn sums(case: &NearestCase) -> Vec<f64> {
    Meant.sums(&case.asked)
}

#[test]
fn the_least_sum_is_first() {
    reading(Q5(0));
}

/// A school's place is the number of those with a smaller sum, of those with the same and a smaller roll,
/// and of those with both the same that come before it.
fn place_of(sums: &[f64], rolls: &[u16], school: usize) -> usize {
    let before = |&other: &usize| {
        let equal = sums[other] == sums[school];
        let same = equal && rolls[other] == rolls[school];
        sums[other] < sums[school]
            || (equal && rolls[other] < rolls[school])
            || (same && other < school)
    };
    (0..sums.len()).filter(before).count()
}

#[test]
fn each_school_stands_in_it_once_at_its_place() {
    let mut answered = 0;
    each_home(20_000, |_, asked| {
        let NearestAnswer { number, list } = Meant.answer(asked);
        let schools = asked.lists[0];
        let mut expected = asked.lent();
        if number == 0 {
            let (sums, rolls) = (Meant.sums(asked), asked.rolls());
            for school in 0..schools {
                expected[place_of(&sums, &rolls, school)] = school as u16;
            }
            answered += 1;
        }
        assert_eq!(list, expected, "{}", asked.text());
    });
    assert!(answered > 0);
}

/// What is refused, and nothing else, has a coordinate or a length that is.
#[test]
fn a_refusal_has_a_cause() {
    let mut causes = BTreeSet::new();
    each_home(20_000, |_, asked| {
        let [eastings, northings] = asked.eastings_and_northings();
        let mut all = asked.home.iter().chain(&eastings).chain(&northings);
        let sound = |x: &f64| (-LARGEST..=LARGEST).contains(x);
        let found = [
            eastings.is_empty(),
            eastings.len() > MOST,
            eastings.len() != northings.len(),
            asked.lent < eastings.len(),
            asked.rolled < eastings.len(),
            !all.all(sound),
        ];
        let refused = Meant.answer(asked).number == NEAREST_INPUT;
        assert_eq!(found.contains(&true), refused, "{}", asked.text());
        causes.extend(found.iter().position(|&cause| cause));
    });
    assert_eq!(causes.len(), 6);
}

/// No sum is NaN or has a sign, so that the order of the patterns is that of the numbers.
#[test]
fn a_sum_is_a_number() {
    let mut most = 0.0;
    each_home(20_000, |_, asked| {
        if Meant.answer(asked).number == 0 {
            for sum in Meant.sums(asked) {
                assert!(sum.is_sign_positive() && sum <= 8e16, "{}", asked.text());
                most = sum.max(most);
            }
        }
    });
    assert!(most > 1e16);
}

#[test]
fn every_coordinate_is_looked_at() {
    reading(Q5(1));
    for x in [LARGEST, LARGEST.next_down(), 0.0, f64::from_bits(1)] {
        assert!([x, -x].iter().all(|&x| !Meant.refuses_coordinate(x)), "{x}");
    }
    for x in [LARGEST.next_up(), f64::MAX, f64::INFINITY, f64::NAN] {
        assert!([x, -x].iter().all(|&x| Meant.refuses_coordinate(x)), "{x}");
    }
    let refused = |&&bits: &&u64| Meant.refuses_coordinate(f64::from_bits(bits));
    assert_eq!(SPECIALS.iter().filter(refused).count(), 8);
}

#[test]
fn sums_are_compared_and_not_roots() {
    let by_root = |case: &&NearestCase| case.why == "sorted by the root";
    let cases = reading(Q5(2));
    let mut met = 0;
    for case in cases.iter().filter(by_root) {
        let sums = sums(case);
        assert!(sums[1] < sums[0], "{}", case.asked.text());
        assert_eq!(root(sums[1]), root(sums[0]), "{}", case.asked.text());
        met += 1;
    }
    assert_eq!(met, 4);
}

#[test]
fn equal_sums_go_in_input_order() {
    let cases = reading(Q5(3));
    assert_eq!(sums(&cases[0]), [1.0; 2]);
    assert_eq!(sums(&cases[2]), [0.0; 2]);
}

#[test]
fn the_lent_list_is_long_enough_or_refused() {
    reading(Q5(4));
}

#[test]
fn nothing_is_written_before_all_is_looked_at() {
    reading(Q5(5));
}

/// School less home or home less school.
#[test]
fn each_difference_rounds() {
    reading(Q5(6));
    let mut answered = 0;
    each_home(20_000, |_, asked| {
        if Meant.answer(asked).number == 0 {
            let back = |place| Meant.sum(asked.school(place), asked.home);
            let turned: Vec<f64> = (0..asked.lists[0]).map(back).collect();
            assert_eq!(turned, Meant.sums(asked), "{}", asked.text());
            answered += 1;
        }
    });
    assert!(answered > 0);
}

#[test]
fn positions_are_counted_from_0() {
    reading(Q5(7));
}

#[test]
fn rolls_decide_between_equal_sums() {
    reading(Q8(0));
    reading(Q8(2));
    reading(Q8(4));
}

#[test]
fn rolls_are_enough_or_refused() {
    reading(Q8(3));
}

/// The list of a home before there were rolls.
fn by_sums(asked: &Nearest) -> Vec<u16> {
    let sums = Meant.sums(asked);
    let mut order: Vec<u16> = (0..asked.lists[0] as u16).collect();
    order.sort_by(|&one, &other| sums[usize::from(one)].total_cmp(&sums[usize::from(other)]));
    let mut list = asked.lent();
    list[..order.len()].copy_from_slice(&order);
    list
}

/// Zeros, or one number for all, give the list that was before; and so does any list of rolls where no
/// two sums are equal. Elsewhere rolls change it, but the sum at no place.
#[test]
fn without_equal_sums_or_rolls_the_list_is_as_before() {
    reading(Q8(1));
    let (mut alone, mut moved) = (0, 0);
    each_home(40_000, |_, asked| {
        let answer = Meant.answer(asked);
        if answer.number != 0 {
            return;
        }
        let before = by_sums(asked);
        for roll in [0, 1, u16::MAX] {
            let mut same = asked.clone();
            same.rolls.fill(roll);
            assert_eq!(Meant.answer(&same).list, before, "{}", same.text());
        }
        let sums = Meant.sums(asked);
        let mut distinct = sums.clone();
        distinct.sort_by(f64::total_cmp);
        distinct.dedup();
        if distinct.len() == sums.len() {
            assert_eq!(answer.list, before, "{}", asked.text());
            alone += usize::from(sums.len() > 1);
        }
        moved += usize::from(answer.list != before);
        for (&one, &other) in answer.list.iter().zip(&before).take(sums.len()) {
            assert_eq!(sums[usize::from(one)], sums[usize::from(other)]);
        }
    });
    assert!(alone > 1000 && moved > 1000, "{alone} {moved}");
}

/// Whatever stands behind the schools' own.
#[test]
fn further_rolls_are_not_read() {
    let mut tried = 0;
    each_home(20_000, |_, asked| {
        let answer = Meant.answer(asked);
        let mut other = asked.clone();
        other.rolled = asked.lists[0].max(1);
        if answer.number == 0 && asked.rolled > other.rolled {
            assert_eq!(Meant.answer(&other), answer, "{}", asked.text());
            tried += 1;
        }
    });
    assert!(tried > 100, "{tried}");
}

/// Both numbers come up in every shape, and lists of every length that is answered.
#[test]
fn every_shape_is_answered_and_refused() {
    let mut met = BTreeSet::new();
    let mut lengths = BTreeSet::new();
    each_home(100_000, |shape, asked| {
        let number = Meant.answer(asked).number;
        met.insert((shape, number));
        if number == 0 {
            lengths.insert(asked.lists[0]);
        }
        let longest = asked.lists.iter().chain([&asked.rolled, &asked.lent]).max();
        assert!(longest <= Some(&LONGEST), "{}", asked.text());
    });
    assert_eq!(met.len(), 2 * SHAPES.len());
    assert!(lengths.into_iter().eq(1..=MOST));
}

/// And every stored one keeps to the limits of crates/replay.
#[test]
fn a_question_is_read_as_it_is_written() {
    let mut bytes = 0;
    for (asked, why) in nearest_sample() {
        let question = asked.text();
        let read = Nearest::read(&question).expect("a home and schools");
        assert_eq!(read.text(), question);
        let answer = Meant.answer(&asked);
        assert_eq!(Meant.answer(&read), answer, "{question}");
        assert!(asked.schools.len() <= 64, "{question}");
        let lists = asked.lists.iter().chain([&asked.rolled, &asked.lent]);
        assert!(lists.into_iter().all(|&length| length <= 300), "{question}");
        let answer = answer.text();
        let stored = Stored {
            question,
            answer,
            why,
        };
        bytes += stored.to_string().len() + 1;
    }
    assert!(bytes <= 80_000, "{bytes}");
}

#[test]
fn another_form_is_not_read() {
    let text = nearest_cases()[0].asked.text();
    assert!(Nearest::read(&text).is_some());
    let pairless: String = text.split_inclusive(',').take(7).collect();
    let (rest, _) = text.rsplit_once(',').expect("a roll");
    for other in [
        text.replace("nearest", "ring"),
        format!("{text},0000000000000000"),
        text[..text.len() - 1].to_owned(),
        text.replace('f', "F"),
        pairless.trim_end_matches(',').to_owned(),
        rest.to_owned(),
        format!("{rest},0000000000010000"),
    ] {
        assert!(Nearest::read(&other).is_none(), "{other}");
    }
}

/// The answer's text has the number, and a print that every place of the list changes.
#[test]
fn the_print_has_every_place() {
    let answer = NearestAnswer {
        number: 0,
        list: vec![1, 0, 65533],
    };
    assert_eq!(answer.text(), "0,000000000004fffd");
    for place in 0..3 {
        let mut other = answer.clone();
        other.list[place] ^= 1;
        assert_ne!(other.text(), answer.text());
    }
}
