//! Compares ours with 02's Albers on a sphere, line by line: `spheres [LINES]`, so many each way, a
//! million if none is named, after those that crates/replay has stored. The numbers of a built one
//! are compared too, columns, and what is answered where other numbers are handed in: a sphere's e2
//! in an Albers of an ellipsoid, and another e2 in one of a sphere. Ends in 1 where any differs, where
//! a number that is to come up does not, or where 22 or 24 does.

use oracle::count::Count;
use oracle::expected::{Projection, answer};
use oracle::fixed::bits_of;
use oracle::line::{Answer, Columns, F, Line, U, V, WAYS};
use oracle::ours;
use oracle::patterns::Patterns;
use oracle::sphere::{E2, Numbers, Sphere};
use oracle::sphere_sample::{numbers, sphere_sample};
use oracle::spheres::{SHAPES, Spheres};
use std::process::ExitCode;

const LINES: usize = 1_000_000;

/// One of so many lines is tried by a column, of so many points, and with numbers handed in.
const STEP: usize = 31;
const POINTS: usize = 24;

/// The ellipsoids whose numbers are handed in with another e2, and what e2, in its place.
const FLATTENINGS: [f64; 6] = [0.0, -0.0, 5e-324, 1e-20, 1.0 / 300.0, 0.1];
const SQUARES: [f64; 10] = [
    0.0,
    -0.0,
    5e-324,
    -5e-324,
    1e-20,
    1e-15,
    1.0 / 150.0,
    0.5,
    1.0,
    f64::NAN,
];

/// The first few differences of a way are printed.
const SHOWN: usize = 5;

fn main() -> ExitCode {
    let count = match std::env::args().nth(1) {
        Some(text) => text.parse().expect("a number of lines"),
        None => LINES,
    };
    let mut differences = compare_stored();
    let mut amiss = 0;
    for way in WAYS {
        let tally = compare(way, count);
        let name = char::from(way);
        println!("{name},A {count} lines, {}", tally.text());
        tally.print_shapes();
        differences += tally.differences;
        for what in tally.amiss(way) {
            println!("{name},A {what}");
            amiss += 1;
        }
    }
    println!("{differences} differences; {amiss} numbers that did not come up, or are not to");
    ExitCode::from(u8::from(differences + amiss > 0))
}

fn compare_stored() -> usize {
    let stored = WAYS.map(sphere_sample).concat();
    let mut tally = Tally::default();
    for (line, _) in &stored {
        tally.hold(line, "", ours::answer(line), answer(line));
    }
    let differences = tally.differences;
    println!("stored {} lines, {differences} differences", stored.len());
    differences
}

fn compare(way: u8, count: usize) -> Tally {
    let mut spheres = Spheres::new(way, 1);
    let mut patterns = Patterns::new(u64::from(way));
    let mut tally = Tally::default();
    for place in 0..count {
        let shape = place % SHAPES.len();
        let line = spheres.next(SHAPES[shape]);
        tally.line(&line, shape);
        if place % STEP == 0 {
            tally.column(&line, &spheres.points(&line, POINTS));
            tally.handed(&line, &mut patterns);
        }
    }
    tally
}

/// What was compared of one way.
#[derive(Default)]
struct Tally {
    differences: usize,
    lines: Count,
    /// The same by shape.
    shapes: [Count; SHAPES.len()],
    points: usize,
    /// Where numbers are handed in, by the sphere's formulas and by the ellipsoid's.
    by_sphere: Count,
    by_ellipsoid: Count,
}

impl Tally {
    fn line(&mut self, line: &Line, shape: usize) {
        let expected = answer(line);
        self.lines.count(expected);
        self.shapes[shape].count(expected);
        self.hold(line, "", ours::answer(line), expected);
        if let Ok(Projection::Sphere(on)) = Projection::new(line.kind, &line.fields) {
            let ours = ours::albers(line).map(|numbers| bits(Sphere::of(&numbers)));
            if ours != Some(bits(on)) {
                self.differs(&format!("{}: other numbers are built", line.text()));
            }
        }
    }

    fn column(&mut self, line: &Line, points: &[[f64; 2]]) {
        let [u, v] = [0, 1].map(|i| points.iter().map(|point| point[i]).collect::<Vec<_>>());
        let mut filled = Columns::new(points.len());
        ours::column(line, &u, &v, &mut filled);
        for (&[u, v], ours) in points.iter().zip(filled.answers()) {
            let mut line = *line;
            [line.fields[U], line.fields[V]] = [u, v];
            self.hold(&line, " in a column", ours, answer(&line));
        }
        self.points += points.len();
    }

    /// Each e2 in the numbers that are built on each ellipsoid, and one time in four any number in
    /// the place of another.
    fn handed(&mut self, line: &Line, patterns: &mut Patterns) {
        for f in FLATTENINGS {
            let mut line = *line;
            line.fields[F] = f;
            let Some(built) = ours::albers(&line) else {
                continue;
            };
            for e2 in SQUARES {
                let mut numbers = built;
                numbers[E2] = e2;
                if patterns.below(4) == 0 {
                    numbers[patterns.below(9) as usize] = f64::from_bits(patterns.one());
                }
                self.by_numbers(&line, &numbers);
            }
        }
    }

    fn by_numbers(&mut self, line: &Line, numbers: &Numbers) {
        let [.., u, v] = line.fields;
        let map = Projection::albers(numbers);
        let expected = map.project(line.way, u, v);
        match map {
            Projection::Sphere(_) => self.by_sphere.count(expected),
            Projection::Source(_) => self.by_ellipsoid.count(expected),
        }
        let ours = ours::answer_handed(line, numbers);
        self.hold(line, &format!(" by {numbers:?}"), ours, expected);
    }

    fn hold(&mut self, line: &Line, how: &str, ours: Answer, theirs: Answer) {
        if ours != theirs {
            let (text, ours, theirs) = (line.text(), ours.text(), theirs.text());
            self.differs(&format!("{text}{how}: {ours}, not {theirs}"));
        }
    }

    fn differs(&mut self, text: &str) {
        self.differences += 1;
        if self.differences <= SHOWN {
            println!("{text}");
        }
    }

    fn text(&self) -> String {
        let (points, differences) = (self.points, self.differences);
        let (sphere, ellipsoid) = (self.by_sphere.text(), self.by_ellipsoid.text());
        let counted = format!("{points} in columns, {differences} differences");
        let lines = self.lines.text();
        format!("{counted};{lines}; handed in, a sphere's{sphere}; an ellipsoid's{ellipsoid}")
    }

    fn print_shapes(&self) {
        for (shape, count) in SHAPES.iter().zip(&self.shapes) {
            println!("  {shape:?}{}", count.text());
        }
    }

    /// What is to come up and did not, and what came up and is not to.
    fn amiss(&self, way: u8) -> Vec<String> {
        let (came, to_come) = (self.lines.numbers(), [&[0], numbers(way)].concat());
        let handed = self.by_sphere.numbers();
        let mut list = Vec::new();
        for number in to_come.iter().filter(|number| !came.contains(number)) {
            list.push(format!("{number} did not come up"));
        }
        for number in came.iter().chain(&handed) {
            if !to_come.contains(number) {
                list.push(format!("{number} came up"));
            }
        }
        if !handed.contains(&0) || self.by_ellipsoid.of(0) == 0 {
            list.push("0 did not come up where numbers are handed in".to_owned());
        }
        list
    }
}

/// The numbers of one that is built. Of e, which is none of them, 02 says nothing.
fn bits(on: Sphere) -> [u64; 8] {
    [on.a, on.e2, on.lon0, on.n, on.c, on.rho0, on.fe, on.fn_].map(bits_of)
}
