//! The readings of 02's rounds of the Albers inverse, tried on `rounds.rs` and on what is expected.

use oracle::expected::answer;
use oracle::fixed::{bits_of, root};
use oracle::inverses::{Inverses, SHAPES};
use oracle::line::Answer;
use oracle::lines::{Lines, SORTS};
use oracle::patterns::{Patterns, SPECIALS};
use oracle::round_cases::{handed_cases, line_cases};
use oracle::rounds::{Handed, Meant, Rule, USED_UP, defined_round};
use oracle::source::fixed::parts::{e2, validate_projected};
use oracle::sphere::{self, E, E2, Rule as _, Sphere};

/// The cases of a reading, lines and what is handed in, get the numbers that it says.
fn reading(number: usize) {
    let lines = line_cases().into_iter().map(|case| {
        let Answer { number, .. } = answer(&case.question);
        (case.reading, [number, case.number], case.question.text())
    });
    let handed = handed_cases().into_iter().map(|case| {
        let Answer { number, .. } = case.question.expected();
        (case.reading, [number, case.number], case.question.text())
    });
    let mut cases: Vec<_> = lines.chain(handed).collect();
    cases.retain(|(reading, ..)| *reading == number);
    assert!(!cases.is_empty());
    for (_, [got, said], text) in cases {
        assert_eq!(got, said, "{text}");
    }
}

/// Tries so many questions of every shape, as many with numbers replaced, and as many built ones.
fn each_question(count: usize, mut tried: impl FnMut(&Handed)) {
    let mut inverses = Inverses::new(20);
    let mut lines = Lines::new(b'I', b'A', 20);
    for place in 0..count {
        tried(&inverses.next(SHAPES[place % SHAPES.len()]));
        tried(&inverses.replaced());
        let line = lines.next(SORTS[place % SORTS.len()]);
        Handed::built(&line).iter().for_each(&mut tried);
    }
}

/// The same with another e and e2.
fn with(question: &Handed, e: f64, e2: f64) -> Handed {
    let mut other = *question;
    [other.numbers[E], other.numbers[E2]] = [e, e2];
    other
}

#[test]
fn two_quotients_are_meant() {
    reading(1);
}

/// Bit for bit, from any latitude.
#[test]
fn a_round_given_them_is_the_definitions() {
    let mut inverses = Inverses::new(21);
    let mut patterns = Patterns::new(7);
    for place in 0..600_000 {
        let [q, e, e2] = inverses.triple(SHAPES[place % SHAPES.len()]);
        let given = Meant.before(q, e, e2);
        let mut lat = match patterns.coin() {
            true => f64::from_bits(patterns.one()),
            false => Meant.start(q),
        };
        for _ in 0..3 {
            let rounds = [Meant.round(&given, lat), defined_round(q, e, e2, lat)];
            let bits = rounds.map(bits_of);
            assert_eq!(bits[0], bits[1], "{q:e} {e:e} {e2:e} {lat:e}");
            lat = rounds[0];
        }
    }
}

/// The rows of crates/albers_equal_area/specs/RoundCases.antt: q, e, e2 and the latitude, and the
/// round's pattern.
#[test]
fn a_round_of_the_rows_is_as_they_say() {
    const INFINITE: u64 = 0x7ff0_0000_0000_0000;
    const NOT_A_NUMBER: u64 = 0x7ff8_0000_0000_0000;
    let (e2, inf, nan) = (1.0 / 150.0, f64::INFINITY, f64::NAN);
    let rows = [
        ([0.0302734375, root(e2), e2, 0.1875], 0x3f8b_4e4e_2e85_d180),
        ([1.0, 1.5, 0.25, 0.5], 0x3fe3_9369_f7c2_b376),
        ([1.0, 0.5, 2.0, 0.5], 0x3fba_d225_a935_6210),
        ([1.0, 0.0, e2, 0.5], NOT_A_NUMBER),
        ([1.0, -0.0, e2, 0.5], NOT_A_NUMBER),
        ([1.0, 0.5, 1.0, 0.5], INFINITE),
        ([-1.0, 0.5, 1.0, 0.5], INFINITE | 1 << 63),
        ([0.0, 0.5, 1.0, 0.5], NOT_A_NUMBER),
        ([inf, 0.5, 0.25, 0.5], INFINITE),
        ([nan, 0.5, 0.25, 0.5], NOT_A_NUMBER),
        ([1.0, nan, 0.25, 0.5], NOT_A_NUMBER),
        ([1.0, 0.5, nan, 0.5], NOT_A_NUMBER),
    ];
    for ([q, e, e2, lat], bits) in rows {
        let given = Meant.round(&Meant.before(q, e, e2), lat);
        let both = [given, defined_round(q, e, e2, lat)].map(bits_of);
        assert_eq!(both, [bits; 2], "{q:e} {e:e} {e2:e} {lat:e}");
    }
}

#[test]
fn the_order_of_the_sum_stays() {
    reading(2);
}

/// Whether an e lies above 2^-1024 and up to 2^1021 in size.
fn has_half(e: f64) -> bool {
    e.abs() > LEAST && e.abs() <= MOST
}

const LEAST: f64 = f64::from_bits(1 << 50);
const MOST: f64 = f64::from_bits(0x7fc0_0000_0000_0000);

/// Of such an e by 0.5×(1/e) too, by 0.5/e where it has a double, and by e + e of each.
#[test]
fn the_half_reciprocal_may_be_formed_otherwise() {
    let mut patterns = Patterns::new(8);
    for _ in 0..1_000_000 {
        let e = f64::from_bits(patterns.one());
        let half = bits_of(Meant.half_over_e(e));
        assert_eq!(half, bits_of(1.0 / (e + e)), "{e:e}");
        if (2.0 * e).is_finite() {
            assert_eq!(half, bits_of(0.5 / e), "{e:e}");
        }
        if has_half(e) {
            assert_eq!(half, bits_of(0.5 * (1.0 / e)), "{e:e}");
        }
    }
}

/// Every ellipsoid has such an e: the nearest to a sphere, the flattest, and those that are drawn.
#[test]
fn of_an_ellipsoid_it_may() {
    for f in [5e-324, 1e-20, 1.0 / 300.0, 1.0_f64.next_down()] {
        assert!(has_half(root(e2(1.0, f))), "{f:e}");
    }
    let mut lines = Lines::new(b'I', b'A', 8);
    for place in 0..100_000 {
        let line = lines.next(SORTS[place % SORTS.len()]);
        if let Ok(Handed { numbers, .. }) = Handed::built(&line) {
            let fits = numbers[E2] == 0.0 || has_half(numbers[E]);
            assert!(fits, "{}", line.text());
        }
    }
}

/// Of an e that is handed in it may not: 2^-1024 has no reciprocal but its double has, and above
/// 2^1021 a half is rounded twice.
#[test]
fn of_what_is_handed_in_it_may_not() {
    let both = [0.5 * (1.0 / LEAST), 1.0 / (2.0 * LEAST)];
    assert_eq!(both, [f64::INFINITY, 2.0_f64.powi(1023)]);
    assert_eq!(Handed::of(0.0, LEAST, 0.0064).expected().number, 0);
    let mut patterns = Patterns::new(9);
    let large = std::iter::repeat_with(|| MOST * (1.0 + patterns.fraction()));
    let other = |e: &f64| 0.5 * (1.0 / e) != 1.0 / (2.0 * e);
    assert!(large.take(1000).filter(other).count() > 0);
}

#[test]
fn handed_in_numbers_count() {
    reading(3);
}

/// So it may be refused at once, but after 20 and not on a sphere.
#[test]
fn all_is_used_up_where_e_is_0_or_e2_is_1() {
    each_question(100_000, |question| {
        let [x, y] = question.point;
        let number = match validate_projected(x, y) {
            0 => USED_UP,
            number => number,
        };
        let [_, e, e2, ..] = question.numbers;
        let off = if e2 == 0.0 { 0.5 } else { e2 };
        for (e, e2) in [(0.0, off), (-0.0, off), (e, 1.0)] {
            let other = with(question, e, e2);
            assert_eq!(other.expected().number, number, "{}", other.text());
        }
    });
}

#[test]
fn the_definition_stays() {
    reading(4);
}

#[test]
fn a_sphere_has_no_rounds() {
    reading(5);
    let mut patterns = Patterns::new(9);
    each_question(100_000, |question| {
        let [x, y] = question.point;
        let any = [patterns.one(), patterns.choose(&SPECIALS)].map(f64::from_bits);
        for (e, e2) in any.map(|e| [(e, 0.0), (e, -0.0)]).concat() {
            let other = with(question, e, e2);
            let on_sphere = sphere::Meant.inverse(&Sphere::of(&other.numbers), x, y);
            let both = [other.expected(), Meant.inverse(&other)];
            assert_eq!(both, [on_sphere; 2], "{}", other.text());
        }
    });
}

#[test]
fn the_order_is_01s() {
    reading(0);
}

/// "every answer and refusal remains"
#[test]
fn all_is_the_sources() {
    each_question(200_000, |question| {
        let text = question.text();
        assert_eq!(Meant.inverse(question), question.expected(), "{text}");
    });
}

/// Any q is asked for by numbers that are handed in.
#[test]
fn the_q_is_the_one_that_is_asked_for() {
    let mut patterns = Patterns::new(10);
    for _ in 0..100_000 {
        let q = f64::from_bits(patterns.one());
        let question = Handed::of(q, 0.08, 0.0064);
        let [dx, dy] = question.offset();
        let formed = sphere::Meant.q_of(&Sphere::of(&question.numbers), dx, dy);
        assert_eq!(bits_of(formed), bits_of(q), "{q:e}");
    }
}

#[test]
fn a_question_is_read_as_it_is_written() {
    each_question(1000, |question| {
        let text = question.text();
        let read = Handed::read(&text).expect("a question");
        assert_eq!(read.text(), text);
        assert_eq!(text.len(), "albers_inverse".len() + 11 * 17);
        let longer = format!("{text},{:016x}", 0);
        for other in [&text[1..], &text[..text.len() - 17], &longer] {
            assert!(Handed::read(other).is_none(), "{other}");
        }
    });
}
