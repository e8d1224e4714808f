//! Compares ours with 02's second inverse, click by click: `on_map [CLICKS]`, so many of each kind that
//! has one, a million if none is named, and a hundredth as many of each other kind, after those that
//! crates/replay has stored. What is not 30 must be what ours answers by its first inverse; where the
//! kind has no second, ours must say so and write nothing. Columns are compared too, also of unequal
//! lengths, and both inverses where any numbers are handed in. Ends in 1 where any differs, where a
//! number that is to come up does not, or where another does.

use oracle::area::AREA_EDGES;
use oracle::cases;
use oracle::clicks::{Clicks, SHAPES, shapes, tested};
use oracle::count::Count;
use oracle::line::{Answer, Columns, KINDS as ALL, U, V};
use oracle::on_map::{Click, KINDS, Map, Meant, OFF_THE_MAP, Rule, text};
use oracle::on_map_sample::{OF_AREAS, on_map_sample};
use oracle::ours;
use oracle::patterns::Patterns;
use oracle::ring::Pair;
use std::process::ExitCode;

const CLICKS: usize = 1_000_000;

/// One of so many clicks is of a kind that has none, by kind.
const RARELY: usize = 100;

/// One of so many clicks is tried by a column, of so many points, and with numbers handed in.
const STEP: usize = 31;
const POINTS: usize = 24;

/// What a column of unequal lengths gets.
const UNEQUAL: u8 = 255;

/// So many numbers a projection has, and where they hold none this is given.
const PLACES: u64 = 36;
const NO_PROJECTION: u8 = 2;

/// What the first inverse may give where the second gives 30.
const BEHIND: [u8; 4] = [0, 23, 24, 26];

/// The first few differences of a kind are printed.
const SHOWN: usize = 5;

fn main() -> ExitCode {
    let count = match std::env::args().nth(1) {
        Some(text) => text.parse().expect("a number of clicks"),
        None => CLICKS,
    };
    let mut differences = compare_stored();
    let mut amiss = 0;
    for kind in ALL {
        let count = match KINDS.contains(&kind) {
            true => count,
            false => count / RARELY,
        };
        let tally = compare(kind, count);
        let name = char::from(kind);
        println!("{name} {count} clicks, {}", tally.text());
        tally.print_shapes(kind);
        differences += tally.differences;
        for what in tally.amiss(kind) {
            println!("{name} {what}");
            amiss += 1;
        }
    }
    println!("{differences} differences; {amiss} numbers that did not come up, or are not to");
    ExitCode::from(u8::from(differences + amiss > 0))
}

fn compare_stored() -> usize {
    let stored = on_map_sample();
    let mut tally = Tally::default();
    for (click, _) in &stored {
        tally.click(click, 0);
    }
    let differences = tally.differences;
    println!("stored {} clicks, {differences} differences", stored.len());
    differences
}

fn compare(kind: u8, count: usize) -> Tally {
    let mut clicks = Clicks::new(kind, 1);
    let mut patterns = Patterns::new(kind.into());
    let mut tally = Tally::default();
    for place in 0..count {
        let shape = place % shapes(kind).len();
        let click = clicks.next(SHAPES[shape]);
        tally.click(&click, shape);
        if place % STEP == 0 {
            tally.column(&click, &clicks.points(&click, POINTS));
            tally.unequal(&click, &mut patterns);
            tally.handed(&click, &mut patterns);
        }
    }
    tally
}

/// What was compared of one kind.
#[derive(Default)]
struct Tally {
    differences: usize,
    clicks: Count,
    /// Where the kind has no second inverse.
    missing: usize,
    /// The clicks by shape.
    shapes: [Count; SHAPES.len()],
    /// Clicks of which a number that is tested is the limit itself, and those where one lies between
    /// the edge and that.
    at_limit: usize,
    between: usize,
    points: usize,
    handed: usize,
}

impl Tally {
    fn click(&mut self, click: &Click, shape: usize) {
        let meant = Meant.answer(click);
        let ours = ours::on_map(click);
        self.hold(click, "", ours, meant);
        match meant {
            None => self.missing += 1,
            Some(answer) => {
                self.clicks.count(answer);
                self.shapes[shape].count(answer);
            }
        }
        if ours.is_some_and(|answer| answer.number != OFF_THE_MAP) {
            let first = Some(ours::first(click));
            self.hold(click, " by the first inverse", ours, first);
        }
        if click.build().is_ok() {
            self.limits(click);
        }
    }

    fn limits(&mut self, click: &Click) {
        let Some(map) = Meant.map(&click.line) else {
            return;
        };
        let [.., x, y] = click.line.fields;
        let fields: &[usize] = match map {
            Map::Lambert(_) => &[U],
            Map::EqualEarth(_) => &[U, V],
        };
        let numbers = fields.iter().map(|&field| tested(&map, field, [x, y]));
        for (number, edge) in numbers {
            let limit = Meant.limit(edge);
            self.at_limit += usize::from(number == limit);
            self.between += usize::from(edge < number && number < limit);
        }
    }

    fn column(&mut self, click: &Click, points: &[Pair]) {
        let [x, y] = [0, 1].map(|i| points.iter().map(|point| point[i]).collect::<Vec<_>>());
        let mut filled = Columns::new(points.len());
        let said = ours::on_map_column(click, &x, &y, &mut filled);
        let has_one = Meant.answer(click).is_some();
        if said != has_one.then_some(0) {
            self.differs(&format!("{} in a column: {said:?}", click.text()));
        }
        if has_one {
            for (&point, ours) in points.iter().zip(filled.answers()) {
                let click = click.at(point);
                let meant = Meant.answer(&click);
                self.hold(&click, " in a column", Some(ours), meant);
            }
            self.points += points.len();
        } else if !is_untouched(&filled) {
            self.differs(&format!("{} in a column: written", click.text()));
        }
    }

    /// A column of which one list is longer than the others.
    fn unequal(&mut self, click: &Click, patterns: &mut Patterns) {
        let mut lengths = [2; 5];
        lengths[patterns.below(5) as usize] += 1;
        let [x, y, p, q] = [0, 1, 2, 3].map(|i| vec![f64::NAN; lengths[i]]);
        let numbers = vec![u8::MAX; lengths[4]];
        let mut filled = Columns { p, q, numbers };
        let said = ours::on_map_column(click, &x, &y, &mut filled);
        let has_one = Meant.answer(click).is_some();
        if said != has_one.then_some(UNEQUAL) || !is_untouched(&filled) {
            let text = click.text();
            self.differs(&format!("{text} in unequal columns {lengths:?}: {said:?}"));
        }
    }

    /// With any numbers in the places of others the second answers as the first or gets 30, and there
    /// is one where the kind has one. What holds no projection gets 2 by both.
    fn handed(&mut self, click: &Click, patterns: &mut Patterns) {
        if click.build().is_err() {
            return;
        }
        let other = patterns.choose(&ALL);
        for kind in [click.line.kind, other] {
            let mut replaced = any_numbers(patterns);
            replaced.push((ours::KIND, ours::number_of_kind(kind)));
            let (second, first) = ours::both_replaced(click, &replaced);
            let off = second == Some(Answer::refused(OFF_THE_MAP));
            let fits = match KINDS.contains(&kind) {
                true => second == Some(first) || off && BEHIND.contains(&first.number),
                false => second.is_none(),
            };
            self.replaced(click, &replaced, fits, (second, first));
        }
        let none = [(ours::KIND, f64::from_bits(patterns.one()))];
        let (second, first) = ours::both_replaced(click, &none);
        let fits = first.number != NO_PROJECTION || second == Some(first);
        self.replaced(click, &none, fits, (second, first));
    }

    fn replaced(
        &mut self,
        click: &Click,
        replaced: &[(usize, f64)],
        fits: bool,
        (second, first): (Option<Answer>, Answer),
    ) {
        self.handed += 1;
        if !fits {
            let (said, second, first) = (click.text(), text(second), first.text());
            self.differs(&format!("{said} with {replaced:?}: {second} and {first}"));
        }
    }

    fn hold(&mut self, click: &Click, how: &str, ours: Option<Answer>, theirs: Option<Answer>) {
        if ours != theirs {
            let [ours, theirs] = [ours, theirs].map(text);
            self.differs(&format!("{}{how}: {ours}, not {theirs}", click.text()));
        }
    }

    fn differs(&mut self, text: &str) {
        self.differences += 1;
        if self.differences <= SHOWN {
            println!("{text}");
        }
    }

    fn text(&self) -> String {
        let Tally {
            differences,
            missing,
            at_limit,
            between,
            points,
            handed,
            ..
        } = self;
        let clicks = self.clicks.text();
        let counted = format!("{points} in columns, {handed} handed in, {differences} differences");
        let limits = format!("{at_limit} at a limit, {between} between it and the edge");
        format!("{counted};{clicks}; none: {missing}; {limits}")
    }

    fn print_shapes(&self, kind: u8) {
        for (shape, count) in shapes(kind).iter().zip(&self.shapes) {
            println!("  {shape:?}{}", count.text());
        }
    }

    /// What is to come up and did not, and what came up and is not to.
    fn amiss(&self, kind: u8) -> Vec<String> {
        let (came, to_come) = (self.clicks.numbers(), to_come(kind));
        let mut list = Vec::new();
        for number in to_come.iter().filter(|number| !came.contains(number)) {
            list.push(format!("{number} did not come up"));
        }
        for number in came.iter().filter(|number| !to_come.contains(number)) {
            list.push(format!("{number} came up"));
        }
        match KINDS.contains(&kind) {
            true if self.missing > 0 => list.push("none came up".to_owned()),
            true if self.at_limit == 0 => list.push("no limit came up".to_owned()),
            false if self.missing == 0 => list.push("none did not come up".to_owned()),
            _ => (),
        }
        list
    }
}

/// The numbers that a kind gives: where it has no second inverse, those of its building.
fn to_come(kind: u8) -> Vec<u8> {
    let mut numbers = cases::numbers(b'I', kind);
    match KINDS.contains(&kind) {
        true => numbers.extend([0, OFF_THE_MAP].into_iter().chain(OF_AREAS)),
        false => {
            numbers.retain(|&number| number <= 15);
            numbers.push(AREA_EDGES);
        }
    }
    numbers
}

/// One to three places among a projection's numbers, and what is put there.
fn any_numbers(patterns: &mut Patterns) -> Vec<(usize, f64)> {
    let some = 1 + patterns.below(3);
    let any = |_| {
        let place = 1 + patterns.below(PLACES - 1) as usize;
        (place, f64::from_bits(patterns.one()))
    };
    (0..some).map(any).collect()
}

/// Whether the columns are as they were made.
fn is_untouched(filled: &Columns) -> bool {
    let nan = |x: &f64| x.to_bits() == f64::NAN.to_bits();
    filled.p.iter().chain(&filled.q).all(nan) && filled.numbers.iter().all(|&n| n == u8::MAX)
}
