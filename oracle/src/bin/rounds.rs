//! Compares the rounds of the Albers inverse, bit for bit: `rounds [LINES]`, so many of each part, a
//! million if none is named, after what crates/replay has stored. First 02's round, written a second
//! time, against the definition's; then ours and the second writing against the source: for any q, e
//! and e2, which numbers that are handed in ask for, with any number of a built one replaced, a quarter
//! as many, by value lines, and in columns. Ends in 1 where any differs, where a number that is to come
//! up does not, or where another does.

use oracle::cases;
use oracle::count::Count;
use oracle::expected;
use oracle::fixed::bits_of;
use oracle::inverses::{Inverses, SHAPES};
use oracle::line::{Answer, Columns, Line, U, V};
use oracle::lines::{Lines, SORTS};
use oracle::ours;
use oracle::patterns::Patterns;
use oracle::round_sample::{round_lines, round_sample};
use oracle::rounds::{Handed, Meant, Rule, defined_round};
use std::process::ExitCode;

const LINES: usize = 1_000_000;

/// One of so many lines is tried by a column, of so many points.
const STEP: usize = 31;
const POINTS: usize = 24;

/// The first few differences of a part are printed.
const SHOWN: usize = 5;

/// A part's name, what compares so many, and the numbers that are to come up, and no others are.
type Part = (&'static str, fn(&mut Tally, usize), Vec<u8>);

fn parts() -> [Part; 6] {
    let of_lines = [&[0][..], &cases::numbers(b'I', b'A')].concat();
    [
        ("stored", Tally::stored, vec![0, 20, 22, 23, 24]),
        ("single rounds", Tally::single, vec![0]),
        ("any q, e and e2", Tally::any, vec![0, 22, 23, 24]),
        ("handed in", Tally::handed, vec![0, 20, 22, 23, 24]),
        ("lines", Tally::lines, of_lines),
        ("in columns", Tally::columns, vec![0, 20, 22, 24]),
    ]
}

fn main() -> ExitCode {
    let count = match std::env::args().nth(1) {
        Some(text) => text.parse().expect("a number of lines"),
        None => LINES,
    };
    let (mut differences, mut amiss) = (0, 0);
    for (name, compare, to_come) in parts() {
        let mut tally = Tally::default();
        compare(&mut tally, count);
        println!("{name} {}", tally.text());
        differences += tally.differences;
        for what in tally.amiss(&to_come) {
            println!("{name} {what}");
            amiss += 1;
        }
    }
    println!("{differences} differences; {amiss} numbers that did not come up, or are not to");
    ExitCode::from(u8::from(differences + amiss > 0))
}

/// What was compared of one part.
#[derive(Default)]
struct Tally {
    differences: usize,
    numbers: Count,
}

impl Tally {
    fn stored(&mut self, _: usize) {
        for (line, _) in round_lines() {
            self.line(&line, ours::answer(&line));
        }
        for (question, _) in round_sample() {
            self.question(&question);
        }
    }

    /// From where the rounds start, and from any latitude.
    fn single(&mut self, count: usize) {
        let mut inverses = Inverses::new(1);
        let mut patterns = Patterns::new(1);
        for place in 0..count {
            let [q, e, e2] = inverses.triple(SHAPES[place % SHAPES.len()]);
            for lat in [Meant.start(q), f64::from_bits(patterns.one())] {
                let given = Meant.round(&Meant.before(q, e, e2), lat);
                let defined = Answer::pair(0.0, defined_round(q, e, e2, lat));
                let what = || format!("{q:e} {e:e} {e2:e} from {lat:e}");
                self.numbers.count(defined);
                self.hold(what, Answer::pair(0.0, given), defined);
            }
        }
    }

    fn any(&mut self, count: usize) {
        let mut inverses = Inverses::new(12);
        for place in 0..count {
            self.question(&inverses.next(SHAPES[place % SHAPES.len()]));
        }
    }

    fn handed(&mut self, count: usize) {
        let mut inverses = Inverses::new(13);
        for _ in 0..count / 4 {
            self.question(&inverses.replaced());
        }
    }

    fn lines(&mut self, count: usize) {
        let mut lines = Lines::new(b'I', b'A', 14);
        for place in 0..count {
            let line = lines.next(SORTS[place % SORTS.len()]);
            self.line(&line, ours::answer(&line));
            let built = Handed::built(&line).map(|question| question.numbers.map(bits_of));
            let ours = ours::albers(&line).map(|numbers| numbers.map(bits_of));
            if ours != built.ok() {
                self.differs(|| format!("{}: other numbers are built", line.text()));
            }
        }
    }

    /// Of those that are built on an ellipsoid.
    fn columns(&mut self, count: usize) {
        let mut lines = Lines::new(b'I', b'A', 15);
        let mut inverses = Inverses::new(15);
        let drawn = (0..count / STEP).map(|place| lines.next(SORTS[place % SORTS.len()]));
        for line in drawn {
            if Handed::built(&line).is_ok() && !expected::on_sphere(&line) {
                self.column(&line, &inverses.points(&line, POINTS));
            }
        }
    }

    fn column(&mut self, line: &Line, points: &[[f64; 2]]) {
        let [u, v] = [0, 1].map(|i| points.iter().map(|point| point[i]).collect::<Vec<_>>());
        let mut filled = Columns::new(points.len());
        ours::column(line, &u, &v, &mut filled);
        for (&[u, v], ours) in points.iter().zip(filled.answers()) {
            let mut line = *line;
            [line.fields[U], line.fields[V]] = [u, v];
            self.line(&line, ours);
        }
    }

    fn line(&mut self, line: &Line, ours: Answer) {
        let expected = expected::answer(line);
        let second =
            Handed::built(line).map_or_else(Answer::refused, |built| Meant.inverse(&built));
        self.numbers.count(expected);
        self.hold(|| line.text(), ours, expected);
        self.hold(
            || format!("{} a second time", line.text()),
            second,
            expected,
        );
    }

    fn question(&mut self, question: &Handed) {
        let (expected, second) = (question.expected(), Meant.inverse(question));
        self.numbers.count(expected);
        self.hold(
            || question.text(),
            ours::answer_by_numbers(question),
            expected,
        );
        self.hold(
            || format!("{} a second time", question.text()),
            second,
            expected,
        );
    }

    fn hold(&mut self, what: impl Fn() -> String, answer: Answer, expected: Answer) {
        if answer != expected {
            let (answer, expected) = (answer.text(), expected.text());
            self.differs(|| format!("{}: {answer}, not {expected}", what()));
        }
    }

    fn differs(&mut self, text: impl Fn() -> String) {
        self.differences += 1;
        if self.differences <= SHOWN {
            println!("{}", text());
        }
    }

    fn text(&self) -> String {
        let (total, differences) = (self.numbers.total(), self.differences);
        format!("{total}, {differences} differences;{}", self.numbers.text())
    }

    /// What is to come up and did not, and what came up and is not to.
    fn amiss(&self, to_come: &[u8]) -> Vec<String> {
        let came = self.numbers.numbers();
        let mut list = Vec::new();
        for number in to_come.iter().filter(|number| !came.contains(number)) {
            list.push(format!("{number} did not come up"));
        }
        for number in came.iter().filter(|number| !to_come.contains(number)) {
            list.push(format!("{number} came up"));
        }
        list
    }
}
