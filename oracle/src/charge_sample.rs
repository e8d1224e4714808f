//! The stops that crates/replay replays: of each shape some that are answered, of some shapes some that
//! are refused, and 02's cases.

use crate::charge::{CHARGE_INPUT, Meant, Rule, Stop};
use crate::charge_cases::charge_cases;
use crate::charges::{Charges, SHAPES, Shape};

/// So many stops are tried for one.
const TRIED: usize = 1_000_000;

/// So many of each shape are answered.
const ANSWERED: usize = 4;

/// The shapes that are refused for more than a rate or children drawn now and then, so many of each.
const REFUSED: [Shape; 8] = [
    Shape::Far,
    Shape::Huge,
    Shape::Sized,
    Shape::Any,
    Shape::Special,
    Shape::Free,
    Shape::Limits,
    Shape::Wide,
];
const OF_REFUSED: usize = 2;

pub fn charge_sample() -> Vec<(Stop, &'static str)> {
    let drawn = Drawn::new().all();
    let drawn = drawn.into_iter().map(|stop| (stop, ""));
    let cases = charge_cases().into_iter().map(|case| (case.stop, case.why));
    drawn.chain(cases).collect()
}

/// Stops that are drawn.
struct Drawn {
    charges: Charges,
    list: Vec<Stop>,
}

impl Drawn {
    fn new() -> Drawn {
        Drawn {
            charges: Charges::new(2),
            list: Vec::new(),
        }
    }

    fn all(mut self) -> Vec<Stop> {
        for shape in SHAPES {
            for _ in 0..ANSWERED {
                self.draw(shape, 0);
            }
        }
        for shape in REFUSED {
            for _ in 0..OF_REFUSED {
                self.draw(shape, CHARGE_INPUT);
            }
        }
        self.list
    }

    /// A stop of a shape that gets a number.
    fn draw(&mut self, shape: Shape, number: u8) {
        let mut drawn = std::iter::repeat_with(|| self.charges.next(shape)).take(TRIED);
        let stop = drawn.find(|stop| Meant.answer(stop).number == number);
        self.list
            .push(stop.unwrap_or_else(|| panic!("{number} was not met by {shape:?}")));
    }
}
