//! What crates/replay replays of 02's rounds of the Albers inverse: value lines and numbers handed in,
//! of each some of every sort or shape that are answered, some for each number, and 02's cases.

use crate::expected::{answer, on_sphere};
use crate::inverses::{Inverses, SHAPES};
use crate::line::Line;
use crate::lines::{Lines, SORTS, Sort};
use crate::round_cases::{RoundCase, handed_cases, line_cases};
use crate::rounds::Handed;

/// So many questions are tried for one.
const MOST: usize = 1_000_000;

/// So many are stored of a sort, and of a shape.
const OF_SORT: usize = 4;
const OF_SHAPE: usize = 2;

/// The numbers that a point gets on an ellipsoid, and by numbers that are handed in.
const OF_LINES: [u8; 3] = [20, 22, 24];
const OF_HANDED: [u8; 5] = [0, 20, 22, 23, 24];

/// The value lines. Those that are drawn are on an ellipsoid.
pub fn round_lines() -> Vec<(Line, &'static str)> {
    let mut lines = Lines::new(b'I', b'A', 10);
    let mut list = Vec::new();
    let gets = |line: &Line, number| !on_sphere(line) && answer(line).number == number;
    for sort in SORTS {
        list.extend(some(OF_SORT, || lines.next(sort), |line| gets(line, 0)));
    }
    for number in OF_LINES {
        let next = || lines.next(Sort::Edge);
        list.extend(some(1, next, |line| gets(line, number)));
    }
    with_cases(list, line_cases())
}

/// What is handed in.
pub fn round_sample() -> Vec<(Handed, &'static str)> {
    let mut inverses = Inverses::new(10);
    let mut list = Vec::new();
    let gets = |question: &Handed, number| question.expected().number == number;
    for shape in SHAPES {
        let next = || inverses.next(shape);
        list.extend(some(OF_SHAPE, next, |question| gets(question, 0)));
    }
    for number in OF_HANDED {
        let next = || inverses.replaced();
        list.extend(some(1, next, |question| gets(question, number)));
    }
    with_cases(list, handed_cases())
}

/// The first so many that fit.
fn some<Q>(count: usize, next: impl FnMut() -> Q, fits: impl Fn(&Q) -> bool) -> Vec<Q> {
    let drawn = std::iter::repeat_with(next).take(MOST);
    let list: Vec<_> = drawn.filter(fits).take(count).collect();
    assert_eq!(list.len(), count, "a sort, a shape or a number was not met");
    list
}

/// What is drawn, and then the cases.
fn with_cases<Q>(drawn: Vec<Q>, cases: Vec<RoundCase<Q>>) -> Vec<(Q, &'static str)> {
    let drawn = drawn.into_iter().map(|question| (question, ""));
    let cases = cases.into_iter().map(|case| (case.question, case.why));
    drawn.chain(cases).collect()
}
