//! Compares ours with 02's area of a catchment ring, ring by ring: `rings [RINGS]`, so many of all
//! shapes, 1,500,000 if none is named, after those that crates/replay has stored. The number, the
//! area, the number of points and every place of both buffers are compared by bits. Ends in 1 where
//! any differs, where a number that is to come up does not, or where another does.

use oracle::count::Count;
use oracle::line::KINDS;
use oracle::ours;
use oracle::ring::{KINDS as MEASURED, Meant, Ring, RingAnswer, Rule};
use oracle::ring_sample::ring_sample;
use oracle::rings::{Rings, SHAPES, turn};
use std::process::ExitCode;

const RINGS: usize = 1_500_000;

/// The numbers that are to come up, and no others are.
const TO_COME: [u8; 21] = [
    0, 4, 5, 6, 7, 8, 9, 10, 11, 12, 13, 14, 15, 16, 17, 18, 19, 25, 26, 27, 28,
];

/// The first few differences are printed.
const SHOWN: usize = 5;

fn main() -> ExitCode {
    let count = match std::env::args().nth(1) {
        Some(text) => text.parse().expect("a number of rings"),
        None => RINGS,
    };
    let mut differences = compare_stored();
    let tally = compare(count);
    println!("{count} rings, {}", tally.text());
    tally.print_groups();
    differences += tally.differences;
    let amiss = tally.amiss();
    for what in &amiss {
        println!("{what}");
    }
    let amiss = amiss.len();
    println!("{differences} differences; {amiss} numbers that did not come up, or are not to");
    ExitCode::from(u8::from(differences + amiss > 0))
}

fn compare_stored() -> usize {
    let stored = ring_sample();
    let mut tally = Tally::default();
    for (ring, _) in &stored {
        tally.hold(ring, &Meant.answer(ring));
    }
    let differences = tally.differences;
    println!("stored {} rings, {differences} differences", stored.len());
    differences
}

fn compare(count: usize) -> Tally {
    let mut rings = Rings::new(1);
    let mut tally = Tally::default();
    for place in 0..count {
        let shape = turn(place);
        let ring = rings.next(SHAPES[shape]);
        tally.ring(&ring, shape);
    }
    tally
}

/// What was compared.
#[derive(Default)]
struct Tally {
    differences: usize,
    rings: Count,
    /// The same by shape, and by kind.
    shapes: [Count; SHAPES.len()],
    kinds: [Count; KINDS.len()],
    /// Points of the answered rings, those of the largest, and places of all buffers.
    points: usize,
    most: usize,
    places: usize,
    in_area: usize,
}

impl Tally {
    fn ring(&mut self, ring: &Ring, shape: usize) {
        let meant = Meant.answer(ring);
        let number = meant.number;
        let kind = KINDS.iter().position(|&kind| kind == ring.kind);
        self.rings.number(number);
        self.shapes[shape].number(number);
        self.kinds[kind.expect("a kind")].number(number);
        self.points += meant.points;
        self.most = self.most.max(meant.points);
        self.places += ring.buffers.iter().sum::<usize>();
        self.in_area += usize::from(ring.area.is_some());
        self.hold(ring, &meant);
    }

    fn hold(&mut self, ring: &Ring, meant: &RingAnswer) {
        let ours = ours::ring(ring);
        if ours != *meant {
            self.differences += 1;
            if self.differences <= SHOWN {
                println!("{}: {}, not {}", ring.text(), ours.text(), meant.text());
            }
        }
    }

    fn text(&self) -> String {
        let Tally {
            points,
            most,
            places,
            in_area,
            differences,
            ..
        } = self;
        let counted = format!("{in_area} in an area, {points} points, at most {most} of a ring");
        let rings = self.rings.text();
        format!("{counted}, {places} places of buffers, {differences} differences;{rings}")
    }

    fn print_groups(&self) {
        for (kind, count) in KINDS.iter().zip(&self.kinds) {
            println!("  {}{}", char::from(*kind), count.text());
        }
        for (shape, count) in SHAPES.iter().zip(&self.shapes) {
            println!("  {shape:?}{}", count.text());
        }
    }

    /// What is to come up and did not, and what came up and is not to.
    fn amiss(&self) -> Vec<String> {
        let came = self.rings.numbers();
        let mut list = Vec::new();
        for number in TO_COME.iter().filter(|number| !came.contains(number)) {
            list.push(format!("{number} did not come up"));
        }
        for number in came.iter().filter(|number| !TO_COME.contains(number)) {
            list.push(format!("{number} came up"));
        }
        for (&kind, count) in KINDS.iter().zip(&self.kinds) {
            let name = char::from(kind);
            match (MEASURED.contains(&kind), count.of(0)) {
                (true, 0) => list.push(format!("{name} is never answered")),
                (false, 1..) => list.push(format!("{name} is answered")),
                _ => (),
            }
        }
        list
    }
}
