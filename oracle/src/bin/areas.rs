//! Compares ours with 02's area of use, line by line: `areas [LINES]`, so many of each way and kind,
//! 100,000 if none is named, after those that crates/replay has stored. Half are built with their
//! area, and half have it handed in. What is neither 25 nor 26 must be what ours answers without the
//! area; a projection that is built with an area must have the numbers of one that has it handed in;
//! by a flag that is not an area's there must be none; and columns are compared too. Ends in 1 where
//! any differs, or where a number that is to come up does not.

use oracle::area::{AREA_EDGES, AreaLine, Meant, OUTSIDE_AREA, Rule};
use oracle::area_sample::area_sample;
use oracle::areas::{Areas, SHAPES};
use oracle::count::Count;
use oracle::expected::answer;
use oracle::line::{Answer, Columns, KINDS, WAYS};
use oracle::lines::{SORTS, Sort};
use oracle::ours;
use std::process::ExitCode;

const LINES: usize = 100_000;

/// The sorts of the lines, in turn. Most random ones are refused for their settings.
const TURN: [Sort; 7] = [
    Sort::Realistic,
    Sort::Edge,
    Sort::Sized,
    Sort::Realistic,
    Sort::Edge,
    Sort::Sized,
    Sort::Random,
];

/// One of so many lines is tried by a column, of so many points, and with other flags.
const STEP: usize = 31;
const POINTS: usize = 24;
const FLAGS: [f64; 8] = [
    0.0,
    -0.0,
    -1.0,
    2.0,
    1.0_f64.next_up(),
    1.0_f64.next_down(),
    f64::INFINITY,
    f64::NAN,
];

/// The first few differences of a way and kind are printed.
const SHOWN: usize = 5;

fn main() -> ExitCode {
    let count = match std::env::args().nth(1) {
        Some(text) => text.parse().expect("a number of lines"),
        None => LINES,
    };
    let mut differences = compare_stored();
    let mut groups = Groups::default();
    let mut absent = 0;
    for kind in KINDS {
        for way in WAYS {
            let tally = compare(way, kind, count, &mut groups);
            let name = format!("{},{}", char::from(way), char::from(kind));
            println!("{name} {count} lines, {}", tally.text(way));
            differences += tally.differences;
            for number in tally.missing(way) {
                println!("{name} {number} did not come up");
                absent += 1;
            }
        }
    }
    groups.print();
    println!("{differences} differences; {absent} numbers that did not come up");
    ExitCode::from(u8::from(differences + absent > 0))
}

fn compare_stored() -> usize {
    let stored = area_sample();
    let mut tally = Tally::default();
    for (question, _) in &stored {
        tally.line(question, Meant.answer(question));
    }
    let differences = tally.differences;
    println!("stored {} lines, {differences} differences", stored.len());
    differences
}

fn compare(way: u8, kind: u8, count: usize, groups: &mut Groups) -> Tally {
    let mut areas = Areas::new(way, kind, 1);
    let mut tally = Tally::default();
    for place in 0..count {
        let shape = place / 2 % SHAPES.len();
        let sort = TURN[place / (2 * SHAPES.len()) % TURN.len()];
        let question = areas.next(sort, SHAPES[shape], place % 2 == 1);
        let meant = Meant.answer(&question);
        groups.count(sort, shape, meant);
        tally.line(&question, meant);
        if place % STEP == 0 {
            tally.flags(&question);
            tally.column(&question, &areas.points(&question, POINTS));
        }
    }
    tally
}

/// What was compared of one way and kind.
#[derive(Default)]
struct Tally {
    differences: usize,
    built: Count,
    handed: Count,
    /// Places outside that get 18 or 19 without the area.
    hidden: usize,
    points: usize,
}

impl Tally {
    fn line(&mut self, question: &AreaLine, meant: Answer) {
        match question.handed {
            true => self.handed.count(meant),
            false => self.built.count(meant),
        }
        let ours = ours::answer_with(question);
        self.hold(question, "", ours, meant);
        match meant.number {
            AREA_EDGES => (),
            OUTSIDE_AREA => {
                let without = answer(&question.line).number;
                self.hidden += usize::from(matches!(without, 18 | 19));
            }
            _ => {
                let without = ours::answer(&question.line);
                self.hold(question, " as without the area", ours, without);
            }
        }
        if !question.handed && !ours::same_numbers(question) {
            self.differs(&format!("{}: numbers of its own", question.text()));
        }
    }

    /// A flag that is not an area's is none.
    fn flags(&mut self, question: &AreaLine) {
        let without = answer(&question.line);
        for flag in FLAGS {
            let ours = ours::answer_flagged(&question.line, flag, &question.area);
            self.hold(question, &format!(" by the flag {flag}"), ours, without);
        }
    }

    fn column(&mut self, question: &AreaLine, points: &[[f64; 2]]) {
        let [u, v] = [0, 1].map(|i| points.iter().map(|point| point[i]).collect::<Vec<_>>());
        let mut filled = Columns::new(points.len());
        ours::column_with(question, &u, &v, &mut filled);
        for (&[u, v], ours) in points.iter().zip(filled.answers()) {
            let question = question.at(u, v);
            self.hold(&question, " in a column", ours, Meant.answer(&question));
        }
        self.points += points.len();
    }

    fn hold(&mut self, question: &AreaLine, how: &str, ours: Answer, theirs: Answer) {
        if ours != theirs {
            let (text, ours, theirs) = (question.text(), ours.text(), theirs.text());
            self.differs(&format!("{text}{how}: {ours}, not {theirs}"));
        }
    }

    fn differs(&mut self, text: &str) {
        self.differences += 1;
        if self.differences <= SHOWN {
            println!("{text}");
        }
    }

    fn text(&self, way: u8) -> String {
        let (points, differences) = (self.points, self.differences);
        let (built, handed) = (self.built.text(), self.handed.text());
        let counted = format!("{points} in columns, {differences} differences");
        let hidden = match way {
            b'F' => format!("; 26 before 18 or 19: {}", self.hidden),
            _ => String::new(),
        };
        format!("{counted}; built{built}; handed in{handed}{hidden}")
    }

    /// What is to come up and did not.
    fn missing(&self, way: u8) -> Vec<&'static str> {
        let (built, handed) = (&self.built, &self.handed);
        let mut list = vec![
            ("0, built", built.of(0)),
            ("25", built.of(AREA_EDGES)),
            ("26, built", built.of(OUTSIDE_AREA)),
            ("0, handed in", handed.of(0)),
            ("26, handed in", handed.of(OUTSIDE_AREA)),
        ];
        if way == b'F' {
            let behind = [18, 19].map(|number| built.of(number) + handed.of(number));
            list.push(("18 or 19", behind[0] + behind[1]));
            list.push(("26 before 18 or 19", self.hidden));
        }
        let missing = list.iter().filter(|(_, count)| *count == 0);
        missing.map(|(name, _)| *name).collect()
    }
}

/// The numbers by the sort of the line, and by the shape of the area.
#[derive(Default)]
struct Groups {
    sorts: [Count; SORTS.len()],
    shapes: [Count; SHAPES.len()],
}

impl Groups {
    fn count(&mut self, sort: Sort, shape: usize, answer: Answer) {
        let place = SORTS.iter().position(|other| *other == sort);
        self.sorts[place.expect("a sort")].count(answer);
        self.shapes[shape].count(answer);
    }

    fn print(&self) {
        println!("of lines or areas, how many are answered, 25, 26 and others");
        let sorts = SORTS.map(|sort| format!("{sort:?}"));
        let shapes = SHAPES.map(|shape| format!("{shape:?}"));
        let names = sorts.iter().chain(&shapes);
        for (name, count) in names.zip(self.sorts.iter().chain(&self.shapes)) {
            let [answered, refused, outside] = [0, AREA_EDGES, OUTSIDE_AREA].map(|n| count.of(n));
            let others = count.total() - answered - refused - outside;
            println!("{name:9} {answered:7} {refused:7} {outside:7} {others:7}");
        }
    }
}
