//! The nearest lists that crates/replay replays: of each shape some that are answered, of some shapes
//! some that are refused, long lists, lists of many schools, and 02's cases. All but those of many have
//! few schools, which a long list repeats.

use crate::nearest::{Meant, NEAREST_INPUT, Nearest, Rule};
use crate::nearest_cases::nearest_cases;
use crate::nearests::{Nearests, SHAPES, Shape};
use std::ops::RangeInclusive;

/// So many questions are tried for one.
const TRIED: usize = 1_000_000;

/// So many schools have most of the questions that are drawn.
const FEW: RangeInclusive<usize> = 3..=6;

/// Of how many places the long lists are.
const LONG: [usize; 6] = [16, 33, 64, 100, 255, 256];

/// The lists of many schools, and of how many.
const MANY: [(Shape, RangeInclusive<usize>); 4] = [
    (Shape::Town, 30..=32),
    (Shape::Circle, 40..=48),
    (Shape::Grid, 60..=64),
    (Shape::Campus, 40..=48),
];

/// The shapes that are refused for more than a short lent list.
const REFUSED: [Shape; 4] = [Shape::Huge, Shape::Any, Shape::Faulty, Shape::Lengths];

pub fn nearest_sample() -> Vec<(Nearest, &'static str)> {
    let mut drawn = Drawn::new();
    drawn.draw_all();
    let drawn = drawn.list.into_iter().map(|asked| (asked, ""));
    let cases = nearest_cases()
        .into_iter()
        .map(|case| (case.asked, case.why));
    drawn.chain(cases).collect()
}

/// Questions that are drawn.
struct Drawn {
    nearests: Nearests,
    list: Vec<Nearest>,
}

impl Drawn {
    fn new() -> Drawn {
        Drawn {
            nearests: Nearests::new(2),
            list: Vec::new(),
        }
    }

    fn draw_all(&mut self) {
        let few = |asked: &Nearest| FEW.contains(&asked.schools.len());
        for shape in SHAPES {
            self.draw(shape, 0, few);
            self.draw(shape, 0, few);
        }
        for shape in REFUSED {
            self.draw(shape, NEAREST_INPUT, few);
            self.draw(shape, NEAREST_INPUT, few);
        }
        for places in LONG {
            self.draw(Shape::Sizes, 0, |asked| {
                few(asked) && asked.lists == [places; 2]
            });
        }
        for (shape, many) in MANY {
            self.draw(shape, 0, |asked| many.contains(&asked.schools.len()));
        }
    }

    /// A question of a shape that gets a number and fits.
    fn draw(&mut self, shape: Shape, number: u8, fits: impl Fn(&Nearest) -> bool) {
        for _ in 0..TRIED {
            let asked = self.nearests.next(shape);
            if fits(&asked) && Meant.answer(&asked).number == number {
                return self.list.push(asked);
            }
        }
        panic!("{number} was not met by {shape:?}")
    }
}
