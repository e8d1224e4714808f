//! Compares ours with 02's nearest schools, home by home: `nearest [HOMES]`, so many of all shapes,
//! 2,000,000 if none is named, after those that crates/replay has stored. The number and every place of
//! the lent list are compared. Ends in 1 where any differs, where 0 or 29 does not come up, or where
//! another number does.

use oracle::count::Count;
use oracle::nearest::{Meant, NEAREST_INPUT, Nearest, NearestAnswer, Rule};
use oracle::nearest_sample::nearest_sample;
use oracle::nearests::{Nearests, SHAPES};
use oracle::ours;
use std::process::ExitCode;

const HOMES: usize = 2_000_000;

/// The numbers that are to come up, and no others are.
const TO_COME: [u8; 2] = [0, NEAREST_INPUT];

/// The first few differences are printed.
const SHOWN: usize = 5;

fn main() -> ExitCode {
    let count = match std::env::args().nth(1) {
        Some(text) => text.parse().expect("a number of homes"),
        None => HOMES,
    };
    let mut differences = compare_stored();
    let tally = compare(count);
    println!("{count} homes, {}", tally.text());
    tally.print_shapes();
    differences += tally.differences;
    let amiss = tally.amiss();
    for what in &amiss {
        println!("{what}");
    }
    let amiss = amiss.len();
    println!("{differences} differences; {amiss} numbers that did not come up, or are not to");
    ExitCode::from(u8::from(differences + amiss > 0))
}

fn compare_stored() -> usize {
    let stored = nearest_sample();
    let mut tally = Tally::default();
    for (asked, _) in &stored {
        tally.hold(asked, &Meant.answer(asked));
    }
    let differences = tally.differences;
    println!("stored {} homes, {differences} differences", stored.len());
    differences
}

fn compare(count: usize) -> Tally {
    let mut nearests = Nearests::new(1);
    let mut tally = Tally::default();
    for place in 0..count {
        let shape = place % SHAPES.len();
        let asked = nearests.next(SHAPES[shape]);
        tally.home(&asked, shape);
    }
    tally
}

/// What was compared.
#[derive(Default)]
struct Tally {
    differences: usize,
    homes: Count,
    /// The same by shape.
    shapes: [Count; SHAPES.len()],
    /// Schools of the answered homes, those of the largest list, those whose sum the school before has
    /// too, those of them whose roll it has as well, and places of all lent lists.
    schools: usize,
    most: usize,
    equal: usize,
    alike: usize,
    places: usize,
    /// Homes whose list is another by their rolls.
    moved: usize,
}

impl Tally {
    fn home(&mut self, asked: &Nearest, shape: usize) {
        let meant = Meant.answer(asked);
        let number = self.hold(asked, &meant);
        self.homes.number(number);
        self.shapes[shape].number(number);
        self.places += asked.lent;
        if meant.number == 0 {
            let schools = asked.lists[0];
            self.schools += schools;
            self.most = self.most.max(schools);
            let [equal, alike] = equal_sums(asked, &meant.list[..schools]);
            self.equal += equal;
            self.alike += alike;
            let mut without = asked.clone();
            without.rolls.fill(0);
            self.moved += usize::from(Meant.answer(&without) != meant);
        }
    }

    /// The number that ours gives.
    fn hold(&mut self, asked: &Nearest, meant: &NearestAnswer) -> u8 {
        let ours = ours::nearest(asked);
        if ours != *meant {
            self.differences += 1;
            if self.differences <= SHOWN {
                println!("{}: {}, not {}", asked.text(), ours.text(), meant.text());
            }
        }
        ours.number
    }

    fn text(&self) -> String {
        let Tally {
            schools,
            most,
            equal,
            alike,
            places,
            moved,
            differences,
            ..
        } = self;
        let counted = format!(
            "{schools} schools, at most {most} of a home, {equal} after an equal sum, {alike} of them \
             with an equal roll, {moved} lists that rolls change"
        );
        let homes = self.homes.text();
        format!("{counted}, {places} places of lent lists, {differences} differences;{homes}")
    }

    fn print_shapes(&self) {
        for (shape, count) in SHAPES.iter().zip(&self.shapes) {
            println!("  {shape:?}{}", count.text());
        }
    }

    /// What is to come up and did not, and what came up and is not to.
    fn amiss(&self) -> Vec<String> {
        let came = self.homes.numbers();
        let mut list = Vec::new();
        for number in TO_COME.iter().filter(|number| !came.contains(number)) {
            list.push(format!("{number} did not come up"));
        }
        for number in came.iter().filter(|number| !TO_COME.contains(number)) {
            list.push(format!("{number} came up"));
        }
        list
    }
}

/// How many schools of an order have the sum of the one before, and how many its roll as well.
fn equal_sums(asked: &Nearest, order: &[u16]) -> [usize; 2] {
    let both = |&place: &u16| {
        let place = usize::from(place);
        let sum = Meant.sum(asked.home, asked.school(place));
        (sum, asked.roll(place))
    };
    let listed: Vec<(f64, u16)> = order.iter().map(both).collect();
    let pairs = || listed.windows(2).map(|both| (both[0], both[1]));
    let equal = pairs().filter(|(one, other)| one.0 == other.0);
    [
        equal.count(),
        pairs().filter(|(one, other)| one == other).count(),
    ]
}
