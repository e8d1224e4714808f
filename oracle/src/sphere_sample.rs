//! The lines of Albers on a sphere that crates/replay replays, each way: some of each shape that are
//! answered, some for each number that they can give, and 02's cases.

use crate::expected::answer;
use crate::line::Line;
use crate::sphere_cases::sphere_cases;
use crate::spheres::{SHAPES, Spheres};

/// So many lines are tried for one.
const MOST: usize = 1_000_000;

/// So many lines are stored of a shape, and of a number.
const ANSWERED: usize = 6;
const REFUSED: usize = 3;

/// The numbers that lines on a sphere can give, that way.
pub fn numbers(way: u8) -> &'static [u8] {
    match way {
        b'F' => &[4, 6, 7, 8, 9, 10, 15, 16, 17, 19],
        _ => &[4, 6, 7, 8, 9, 10, 15, 20, 23],
    }
}

pub fn sphere_sample(way: u8) -> Vec<(Line, &'static str)> {
    let drawn = drawn(way).into_iter().map(|line| (line, ""));
    let cases = sphere_cases().into_iter().map(|case| (case.line, case.why));
    let of_way = cases.filter(|(line, _)| line.way == way);
    drawn.chain(of_way).collect()
}

fn drawn(way: u8) -> Vec<Line> {
    let mut spheres = Spheres::new(way, 2);
    let mut list = Vec::new();
    for shape in SHAPES {
        let lines = std::iter::repeat_with(|| spheres.next(shape)).take(MOST);
        list.extend(lines.filter(|line| answer(line).number == 0).take(ANSWERED));
    }
    for &number in numbers(way) {
        let mut shapes = SHAPES.into_iter().cycle();
        let mut next = || spheres.next(shapes.next().expect("endless"));
        let lines = std::iter::repeat_with(&mut next).take(MOST);
        list.extend(
            lines
                .filter(|line| answer(line).number == number)
                .take(REFUSED),
        );
    }
    let all = ANSWERED * SHAPES.len() + REFUSED * numbers(way).len();
    assert_eq!(list.len(), all, "a shape or a number was not met");
    list
}
