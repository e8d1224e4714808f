//! Times a column of an office's places, or of their projected coordinates, for each kind: ours,
//! the source with 01's functions, and the source with the platform's. The projection is built
//! once and takes 200,000 points. A figure is the median of the passes, in ns a point, the sides
//! taking turns. Ends in 1 where an answer of ours is not that of the source with 01's functions.
//! `columns growth` times ours for 1,000 to 1,000,000 points, `columns single` ours by a column, by
//! a call for each point, and by building and a call for each, `columns area` ours without an area of
//! use, with one that holds all the places, and with one that holds none, `columns sphere` Albers on
//! its ellipsoid and on a sphere: ours, and the same in Rust, which on a sphere is the oracle's,
//! `columns rounds` what 02's quotients cost the oracle's Albers inverse before its rounds and in each,
//! and `columns on_map` the first inverse, ours and the source's, and our second, on the map and off it.

use oracle::area::{AreaLine, BOUND, OUTSIDE_AREA, WIDEST};
use oracle::expected;
use oracle::line::{A, Answer, Columns, KINDS, Line, U, V, WAYS};
use oracle::lines::Lines;
use oracle::on_map::{self, Click, OFF_THE_MAP};
use oracle::ours;
use oracle::rounds::{Given, Handed, Meant, Rule};
use oracle::source::{fixed, platform};
use std::f64::consts::PI;
use std::hint::black_box;
use std::process::ExitCode;
use std::time::Instant;

const POINTS: usize = 200_000;
const PASSES: usize = 9;
const SIZES: [usize; 4] = [1_000, 10_000, 100_000, 1_000_000];

type Side = fn(&Line, &[f64], &[f64], &mut Columns);
const SIDES: [Side; 3] = [ours::column, fixed::door::column, platform::door::column];

fn main() -> ExitCode {
    match std::env::args().nth(1).as_deref() {
        None => sides(),
        Some("growth") => growth(),
        Some("single") => single(),
        Some("area") => area(),
        Some("sphere") => sphere(),
        Some("rounds") => rounds(),
        Some("on_map") => second(),
        Some(word) => panic!("no such measurement: {word}"),
    }
}

fn sides() -> ExitCode {
    println!("ns a point: ours, Rust, platform; ours / Rust");
    let mut differ = 0;
    for kind in KINDS {
        for way in WAYS {
            let points = Points::new(way, kind, POINTS);
            let filled = [0, 1].map(|side| points.filled(SIDES[side]));
            let pairs = filled[0].answers().zip(filled[1].answers());
            differ += pairs.filter(|(ours, rust)| ours != rust).count();
            let [ours, rust, platform] = points.medians(SIDES);
            let (w, k, ratio) = (char::from(way), char::from(kind), ours / rust);
            println!("{w},{k} {ours:7.1} {rust:7.1} {platform:7.1} {ratio:6.2}");
        }
    }
    if differ > 0 {
        println!("{differ} answers are not the source's");
    }
    ExitCode::from(u8::from(differ > 0))
}

fn growth() -> ExitCode {
    println!("ns a point of a column of {SIZES:?}");
    for kind in KINDS {
        for way in WAYS {
            let figures = SIZES.map(|size| Points::new(way, kind, size).medians([SIDES[0]])[0]);
            print_row(way, kind, figures);
        }
    }
    ExitCode::SUCCESS
}

fn print_row<const N: usize>(way: u8, kind: u8, figures: [f64; N]) {
    let (w, k) = (char::from(way), char::from(kind));
    let figures = figures.map(|ns| format!("{ns:7.1}"));
    println!("{w},{k} {}", figures.join(" "));
}

fn single() -> ExitCode {
    println!("ns a point of ours: by a column, by a call each, built anew for each");
    let mut differ = 0;
    for kind in KINDS {
        for way in WAYS {
            let points = Points::new(way, kind, POINTS);
            let sides = [ours::column, ours::one_by_one, ours::built_anew];
            let [column, call, anew] = sides.map(|side| points.filled(side));
            let others = column.answers().zip(call.answers().zip(anew.answers()));
            differ += others.filter(|(a, (b, c))| a != b || a != c).count();
            print_row(way, kind, points.medians(sides));
        }
    }
    if differ > 0 {
        println!("{differ} answers are not the column's");
    }
    ExitCode::from(u8::from(differ > 0))
}

fn area() -> ExitCode {
    println!(
        "ns a point of ours: without an area, with one that holds all, with one that holds none"
    );
    let mut differ = 0;
    for kind in KINDS {
        for way in WAYS {
            let points = Points::new(way, kind, POINTS);
            let sides: [Side; 3] = [ours::column, in_widest, in_none];
            let [without, all, none] = sides.map(|side| points.filled(side));
            let outside = none.numbers.iter().filter(|&&n| n == OUTSIDE_AREA).count();
            let pairs = without.answers().zip(all.answers());
            differ += pairs.filter(|(a, b)| a != b).count() + POINTS - outside;
            print_row(way, kind, points.medians(sides));
        }
    }
    if differ > 0 {
        println!("{differ} answers are not those of the area");
    }
    ExitCode::from(u8::from(differ > 0))
}

fn sphere() -> ExitCode {
    println!("ns a point of A: ours, Rust; ours / Rust");
    let mut differ = 0;
    for way in WAYS {
        let ellipsoid = Points::new(way, b'A', POINTS);
        let sphere = Points::of(Lines::on_spheres(way, 3).column(POINTS));
        for (name, points) in [("ellipsoid", ellipsoid), ("sphere", sphere)] {
            let sides: [Side; 2] = [ours::column, expected::column];
            let [ours, rust] = sides.map(|side| points.filled(side));
            let pairs = ours.answers().zip(rust.answers());
            differ += pairs.filter(|(ours, rust)| ours != rust).count();
            let [ours, rust] = points.medians(sides);
            let (w, ratio) = (char::from(way), ours / rust);
            println!("{w},A {name:9} {ours:7.1} {rust:7.1} {ratio:6.2}");
        }
    }
    if differ > 0 {
        println!("{differ} answers are not as expected");
    }
    ExitCode::from(u8::from(differ > 0))
}

fn rounds() -> ExitCode {
    println!("ns a point: ours, Rust; the oracle's, both quotients before the rounds, and in each");
    let points = Points::new(b'I', b'A', POINTS);
    let sides: [Side; 4] = [
        ours::column,
        fixed::door::column,
        before_rounds,
        in_each_round,
    ];
    let [ours, others @ ..] = sides.map(|side| points.filled(side));
    let differs = |other: &Columns| ours.answers().ne(other.answers());
    let differ = others.iter().filter(|other| differs(other)).count();
    print_row(b'I', b'A', points.medians(sides));
    if differ > 0 {
        println!("{differ} columns are not ours");
    }
    ExitCode::from(u8::from(differ > 0))
}

fn second() -> ExitCode {
    println!("ns a point: the first inverse, ours and Rust; our second, on the map and off it");
    let mut differ = 0;
    for kind in on_map::KINDS {
        let points = Points::new(b'I', kind, POINTS);
        let off = points.off();
        let [first, second] = [ours::column, by_second].map(|side| points.filled(side));
        let pairs = first.answers().zip(second.answers());
        let refused = off.filled(by_second).numbers;
        let refused = refused.iter().filter(|&&n| n == OFF_THE_MAP).count();
        let other = |(a, b): &(Answer, Answer)| a != b && b.number != OFF_THE_MAP;
        differ += pairs.filter(other).count() + POINTS - refused;
        let sides: [Side; 3] = [ours::column, fixed::door::column, by_second];
        let ([ours, rust, on], [off]) = (points.medians(sides), off.medians([by_second]));
        print_row(b'I', kind, [ours, rust, on, off]);
    }
    if differ > 0 {
        println!("{differ} answers are not those of a click");
    }
    ExitCode::from(u8::from(differ > 0))
}

fn by_second(line: &Line, u: &[f64], v: &[f64], filled: &mut Columns) {
    ours::on_map_column(&Click::new(*line), u, v, filled).expect("a second inverse");
}

fn before_rounds(line: &Line, u: &[f64], v: &[f64], filled: &mut Columns) {
    by_rule(&BeforeRounds, line, u, v, filled);
}

fn in_each_round(line: &Line, u: &[f64], v: &[f64], filled: &mut Columns) {
    by_rule(&InEachRound, line, u, v, filled);
}

fn by_rule(rule: &impl Rule, line: &Line, u: &[f64], v: &[f64], filled: &mut Columns) {
    let built = Handed::built(line).expect("a map");
    for (i, (&u, &v)) in u.iter().zip(v).enumerate() {
        let point = [u, v];
        let answer = rule.inverse(&Handed { point, ..built });
        filled.numbers[i] = answer.number;
        [filled.p[i], filled.q[i]] = [answer.p, answer.q].map(f64::from_bits);
    }
}

/// 02's rounds. What a round is given goes past the compiler, here and below.
struct BeforeRounds;
impl Rule for BeforeRounds {
    fn sum(&self, given: &Given, sine_over_w: f64, logarithm: f64) -> f64 {
        Meant.sum(&black_box(*given), sine_over_w, logarithm)
    }
}

/// The same with q in the place of its quotient, and both quotients worked out in each round.
struct InEachRound;
impl Rule for InEachRound {
    fn before(&self, q: f64, e: f64, e2: f64) -> Given {
        let (scaled_q, half_over_e) = (q, e);
        Given {
            e,
            e2,
            scaled_q,
            half_over_e,
        }
    }

    fn sum(&self, given: &Given, sine_over_w: f64, logarithm: f64) -> f64 {
        let given = black_box(*given);
        let again = Meant.before(given.scaled_q, given.e, given.e2);
        Meant.sum(&again, sine_over_w, logarithm)
    }
}

fn in_widest(line: &Line, u: &[f64], v: &[f64], filled: &mut Columns) {
    let (line, area, handed) = (*line, WIDEST, false);
    ours::column_with(&AreaLine { line, area, handed }, u, v, filled);
}

/// One place, which no office has.
fn in_none(line: &Line, u: &[f64], v: &[f64], filled: &mut Columns) {
    let area = [-PI, -PI, -BOUND, -BOUND];
    let (line, handed) = (*line, false);
    ours::column_with(&AreaLine { line, area, handed }, u, v, filled);
}

/// A map and a column of its points.
struct Points {
    line: Line,
    u: Vec<f64>,
    v: Vec<f64>,
}

impl Points {
    fn new(way: u8, kind: u8, count: usize) -> Points {
        Points::of(Lines::new(way, kind, 3).column(count))
    }

    /// Of lines with one map.
    fn of(lines: Vec<Line>) -> Points {
        let column = |field: usize| lines.iter().map(|line| line.fields[field]).collect();
        let (line, u, v) = (lines[0], column(U), column(V));
        Points { line, u, v }
    }

    /// So far to the east that they are off the map.
    fn off(&self) -> Points {
        let far = 9.0 * self.line.fields[A];
        let u = self.u.iter().map(|u| u + far).collect();
        let (line, v) = (self.line, self.v.clone());
        Points { line, u, v }
    }

    fn filled(&self, side: Side) -> Columns {
        let mut filled = Columns::new(self.u.len());
        side(&self.line, &self.u, &self.v, &mut filled);
        filled
    }

    /// The median pass of each side, in ns a point.
    fn medians<const N: usize>(&self, sides: [Side; N]) -> [f64; N] {
        let mut filled = Columns::new(self.u.len());
        let mut passes = [(); N].map(|()| Vec::with_capacity(PASSES));
        for _ in 0..PASSES {
            for (side, times) in sides.iter().zip(&mut passes) {
                let start = Instant::now();
                side(&self.line, &self.u, &self.v, black_box(&mut filled));
                times.push(start.elapsed().as_nanos() as f64 / self.u.len() as f64);
            }
        }
        passes.map(|mut times| {
            times.sort_by(f64::total_cmp);
            times[PASSES / 2]
        })
    }
}
