//! The lines with an area that crates/replay replays: of each kind and way some that are answered,
//! some outside, 25 of its causes in turn, and each other number with an area; then 02's cases.

use crate::area::{Area, AreaLine, Meant, OUTSIDE_AREA, Rule};
use crate::area_cases::area_cases;
use crate::areas::{Areas, CAUSES, Shape, refused_by};
use crate::cases::numbers;
use crate::expected::answer;
use crate::line::{KINDS, Line, WAYS};
use crate::lines::{Lines, Sort};

/// So many lines are tried for one.
const MOST: usize = 1_000_000;

/// Those whose projection is built with the area, and then those that it is handed in to.
pub fn area_sample() -> Vec<(AreaLine, &'static str)> {
    let mut list = of(false, Drawn::built);
    list.extend(of(true, Drawn::handed));
    list
}

/// Drawn lines of each kind and way, and the cases.
fn of(handed: bool, draw: fn(&mut Drawn, usize)) -> Vec<(AreaLine, &'static str)> {
    let mut list = Vec::new();
    let ways = KINDS.iter().flat_map(|&kind| WAYS.map(|way| (way, kind)));
    for (place, (way, kind)) in ways.enumerate() {
        let mut drawn = Drawn::new(way, kind, handed);
        draw(&mut drawn, place);
        list.extend(drawn.list.into_iter().map(|question| (question, "")));
    }
    let cases = area_cases()
        .into_iter()
        .map(|case| (case.question, case.why));
    list.extend(cases.filter(|(question, _)| question.handed == handed));
    list
}

/// Lines that are drawn of one way and kind.
struct Drawn {
    way: u8,
    kind: u8,
    handed: bool,
    lines: Lines,
    areas: Areas,
    tried: usize,
    list: Vec<AreaLine>,
}

impl Drawn {
    fn new(way: u8, kind: u8, handed: bool) -> Drawn {
        let seed = 4 + u64::from(handed);
        Drawn {
            way,
            kind,
            handed,
            lines: Lines::new(way, kind, seed),
            areas: Areas::new(way, kind, seed),
            tried: 0,
            list: Vec::new(),
        }
    }

    fn built(&mut self, place: usize) {
        for shape in [
            Shape::Around,
            Shape::Touching,
            Shape::Crossing,
            Shape::Thin,
            Shape::Ends,
            Shape::Moved,
            Shape::Degrees,
        ] {
            self.shaped(0, shape, 0);
        }
        for shape in [
            Shape::Beside,
            Shape::Touching,
            Shape::Crossing,
            Shape::Thin,
            Shape::Ends,
            Shape::Moved,
        ] {
            self.shaped(0, shape, OUTSIDE_AREA);
        }
        for cause in 3 * place..3 * place + 3 {
            self.refused(cause % CAUSES);
        }
        for number in numbers(self.way, self.kind) {
            self.other(number);
        }
    }

    /// Another number: of the settings before 25, of the input before 26, of the formula forward
    /// behind 26 and inverse before it.
    fn other(&mut self, number: u8) {
        match number {
            0..=15 => self.shaped(number, Shape::Faulty, number),
            18 | 19 => {
                self.shaped(number, Shape::Around, number);
                self.shaped(number, Shape::Beside, OUTSIDE_AREA);
            }
            _ => self.shaped(number, Shape::Beside, number),
        }
    }

    fn handed(&mut self, place: usize) {
        for shape in [Shape::Around, Shape::Touching, Shape::Crossing, Shape::Thin] {
            self.shaped(0, shape, 0);
        }
        for shape in [Shape::Beside, Shape::Touching, Shape::Moved] {
            self.shaped(0, shape, OUTSIDE_AREA);
        }
        let (high, low) = (f64::INFINITY, f64::NEG_INFINITY);
        self.with(0, [low, high, low, high]);
        self.with(0, [high, low, low, high]);
        self.with(0, [low, high, high, low]);
        self.with(0, [-4.0, 4.0, -2.0, 2.0]);
        self.refused(place % 4);
        self.refused(CAUSES - 1);
        let numbers = numbers(self.way, self.kind);
        let of_settings = numbers.iter().filter(|&&number| number <= 15).count();
        self.with(numbers[place % of_settings], [low, high, low, high]);
        let last = numbers[numbers.len() - 1];
        self.with(last, [low, high, low, high]);
    }

    /// A line that gets a number without an area, and another with an area of this shape.
    fn shaped(&mut self, without: u8, shape: Shape, with: u8) {
        let question = self.drawn(without, shape, with);
        self.list.push(question);
    }

    /// An answered line whose area is then refused.
    fn refused(&mut self, cause: usize) {
        let mut question = self.drawn(0, Shape::Around, 0);
        question.area = refused_by(cause, question.area);
        self.list.push(question);
    }

    /// A line that gets a number without an area, and this area.
    fn with(&mut self, without: u8, area: Area) {
        let (line, handed) = (self.line(without), self.handed);
        self.list.push(AreaLine { line, area, handed });
    }

    fn drawn(&mut self, without: u8, shape: Shape, with: u8) -> AreaLine {
        for _ in 0..MOST {
            let line = self.line(without);
            let question = self.areas.about(line, shape, self.handed);
            if Meant.answer(&question).number == with {
                return question;
            }
        }
        panic!("{with} was not met behind {without}")
    }

    fn line(&mut self, number: u8) -> Line {
        let sorts = match number {
            0 => [Sort::Realistic, Sort::Edge, Sort::Sized],
            _ => [Sort::Edge, Sort::Edge, Sort::Random],
        };
        for _ in 0..MOST {
            self.tried += 1;
            let line = self.lines.next(sorts[self.tried % sorts.len()]);
            if answer(&line).number == number {
                return line;
            }
        }
        panic!("{number} was not met")
    }
}
