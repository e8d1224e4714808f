//! Compares ours with 02's travel charge, stop by stop: `charges [STOPS]`, so many of all shapes,
//! 10,000,000 if none is named, after those that crates/replay has stored and a list of edges. The
//! number, the charge and all 60 shares are compared. Ends in 1 where any differs, where 0 or 31 does not
//! come up, where another number does, or where the edges lack a whole kilometre, an f64 next to one, or
//! a rest that coins can leave.

use oracle::charge::{CHARGE_INPUT, CHILDREN, Meant, Rule, Stop};
use oracle::charge_sample::charge_sample;
use oracle::charges::{Charges, KILOMETRES, SHAPES, edges};
use oracle::count::Count;
use oracle::ours;
use std::collections::BTreeSet;
use std::process::ExitCode;

const STOPS: usize = 10_000_000;

/// The numbers that are to come up, and no others are.
const TO_COME: [u8; 2] = [0, CHARGE_INPUT];

/// The first few differences are printed.
const SHOWN: usize = 5;

fn main() -> ExitCode {
    let count = match std::env::args().nth(1) {
        Some(text) => text.parse().expect("a number of stops"),
        None => STOPS,
    };
    let stored = compare_all(charge_sample().into_iter().map(|(stop, _)| stop));
    println!("stored {}", stored.text());
    let edges = compare_all(edges());
    println!("edges {}", edges.text());
    edges.print_distances();
    let drawn = compare_drawn(count);
    println!("drawn {}", drawn.text());
    drawn.print_distances();
    drawn.print_shapes();
    let amiss = [edges.missing(), drawn.amiss()].concat();
    for what in &amiss {
        println!("{what}");
    }
    let amiss = amiss.len();
    let differences = stored.differences + edges.differences + drawn.differences;
    println!("{differences} differences; {amiss} that did not come up, or are not to");
    ExitCode::from(u8::from(differences + amiss > 0))
}

fn compare_all(stops: impl IntoIterator<Item = Stop>) -> Tally {
    let mut tally = Tally::default();
    for stop in stops {
        tally.stop(&stop);
    }
    tally
}

fn compare_drawn(count: usize) -> Tally {
    let mut charges = Charges::new(1);
    let mut tally = Tally::default();
    for place in 0..count {
        let shape = place % SHAPES.len();
        let number = tally.stop(&charges.next(SHAPES[shape]));
        tally.shapes[shape].number(number);
    }
    tally
}

/// What was compared.
#[derive(Default)]
struct Tally {
    differences: usize,
    stops: Count,
    /// The same by shape.
    shapes: [Count; SHAPES.len()],
    /// The answered stops that are at distance 0, at a whole kilometre, and a step below or above one.
    here: usize,
    at: Met,
    below: Met,
    above: Met,
    /// Those that would be charged for more kilometres if squares were compared.
    by_squares: usize,
    /// How many children there were, and how many coins were left when all had the same.
    rests: BTreeSet<(u64, u64)>,
}

/// How many stops, and of which kilometres.
#[derive(Default)]
struct Met(usize, BTreeSet<u64>);

impl Met {
    fn meet(&mut self, k: u64) {
        self.0 += 1;
        self.1.insert(k);
    }

    /// Whether each kilometre was met, up to one.
    fn all_up_to(&self, last: u64) -> bool {
        (1..=last).eq(self.1.iter().copied())
    }

    fn text(&self) -> String {
        format!("{} of {} kilometres", self.0, self.1.len())
    }
}

impl Tally {
    /// The number that ours gives.
    fn stop(&mut self, stop: &Stop) -> u8 {
        let meant = Meant.answer(stop);
        let ours = ours::travel_charge(stop);
        if ours != meant {
            self.differences += 1;
            if self.differences <= SHOWN {
                println!("{}: {}, not {}", stop.text(), ours.text(), meant.text());
            }
        }
        self.stops.number(ours.number);
        if meant.number == 0 {
            let children = stop.children;
            self.rests.insert((children, meant.charge % children));
            self.distance(stop);
        }
        ours.number
    }

    fn distance(&mut self, stop: &Stop) {
        let distance = Meant.distance(stop.offset);
        let k = (distance / 1000.0).round() as u64;
        let metres = (1000 * k) as f64;
        if distance == 0.0 {
            self.here += 1;
        } else if distance == metres {
            self.at.meet(k);
        } else if distance == metres.next_down() {
            self.below.meet(k);
        } else if distance == metres.next_up() {
            self.above.meet(k);
        }
        let [dx, dy] = stop.offset;
        let started = (1000 * Meant.kilometres(stop)) as f64;
        self.by_squares += usize::from(started * started < dx * dx + dy * dy);
    }

    fn text(&self) -> String {
        let (stops, differences) = (self.stops.total(), self.differences);
        let (shares, numbers) = (stops * CHILDREN, self.stops.text());
        format!("{stops} stops, {shares} shares, {differences} differences;{numbers}")
    }

    fn print_distances(&self) {
        let (here, by_squares, rests) = (self.here, self.by_squares, self.rests.len());
        let [at, below, above] = [&self.at, &self.below, &self.above].map(Met::text);
        println!("  at distance 0: {here}; at a whole kilometre: {at}");
        println!("  a step below one: {below}; a step above one: {above}");
        println!("  charged for more by squares: {by_squares}; rests that were left: {rests}");
    }

    fn print_shapes(&self) {
        for (shape, count) in SHAPES.iter().zip(&self.shapes) {
            println!("  {shape:?}{}", count.text());
        }
    }

    /// What the edges are to have and lack. A step above the last kilometre is refused.
    fn missing(&self) -> Vec<String> {
        let rests_of = |children| (0..children).map(move |rest| (children, rest));
        let rests = (1..=CHILDREN as u64).flat_map(rests_of);
        let mut list = self.amiss();
        for (what, complete) in [
            ("distance 0", self.here > 0),
            ("a whole kilometre", self.at.all_up_to(KILOMETRES)),
            ("a step below one", self.below.all_up_to(KILOMETRES)),
            ("a step above one", self.above.all_up_to(KILOMETRES - 1)),
            ("a rest", rests.eq(self.rests.iter().copied())),
        ] {
            if !complete {
                list.push(format!("{what} did not come up"));
            }
        }
        list
    }

    /// The numbers that are to come up and did not, and those that came up and are not to.
    fn amiss(&self) -> Vec<String> {
        let came = self.stops.numbers();
        let mut list = Vec::new();
        for number in TO_COME.iter().filter(|number| !came.contains(number)) {
            list.push(format!("{number} did not come up"));
        }
        for number in came.iter().filter(|number| !TO_COME.contains(number)) {
            list.push(format!("{number} came up"));
        }
        list
    }
}
