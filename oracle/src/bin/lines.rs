//! Compares ours with what is expected, line by line: `lines [LINES]`, a million of each way and kind
//! if none is named, a third each realistic, edge and random, and as many again of a map's size. Ends
//! in 1 where any differs. Then it writes, as a table, how the source differs between 01's functions
//! and the platform's. Lines of Albers on a sphere are not in the table: the source has none.

use oracle::cases;
use oracle::expected;
use oracle::line::{Answer, KINDS, Line, WAYS};
use oracle::lines::{Lines, SORTS};
use oracle::ours;
use oracle::source::platform;
use std::process::ExitCode;

const LINES: usize = 1_000_000;

/// The first few differences of a way and kind are printed.
const SHOWN: usize = 5;

/// How the platform's answers to the lines of one sort differ.
#[derive(Clone, Copy, Default)]
struct Other {
    numbers: usize,
    pairs: usize,
    farthest: f64,
    /// Lines of Albers on a sphere.
    left_out: usize,
}

fn main() -> ExitCode {
    let count: usize = match std::env::args().nth(1) {
        Some(text) => text.parse().expect("a number of lines"),
        None => LINES,
    };
    let each = count.div_ceil(3);
    let mut differences = 0;
    let (mut table, mut notes) = (String::new(), String::new());
    for kind in KINDS {
        for way in WAYS {
            let (ours, others) = compare(way, kind, each);
            differences += ours;
            table += &row(way, kind, others);
            notes += &note(way, kind, others);
        }
    }
    println!("{differences} differences");
    println!(
        "\nThe platform's functions: other numbers and other pairs, of {each} lines of a sort,"
    );
    println!("and the metres between the farthest two realistic pairs");
    println!("| | realistic | | | edge | | random | | sized | |");
    println!("|---|---|---|---|---|---|---|---|---|---|");
    print!("{table}");
    print!("{notes}");
    ExitCode::from(u8::from(differences > 0))
}

/// Prints a line for a way and kind, of each sort so many tried. Gives the number of differences,
/// and the platform's by sort.
fn compare(way: u8, kind: u8, each: usize) -> (usize, [Other; 4]) {
    let mut lines = Lines::new(way, kind, 1);
    let mut differences = 0;
    let mut numbers = [0; 25];
    let others = SORTS.map(|sort| {
        let mut other = Other::default();
        for line in std::iter::repeat_with(|| lines.next(sort)).take(each) {
            let (ours, theirs) = (ours::answer(&line), expected::answer(&line));
            numbers[usize::from(theirs.number)] += 1;
            if ours != theirs {
                differences += 1;
                if differences <= SHOWN {
                    println!("{}: {}, not {}", line.text(), ours.text(), theirs.text());
                }
            }
            match expected::on_sphere(&line) {
                true => other.left_out += 1,
                false => other.count(&line, theirs, platform::door::answer(&line)),
            }
        }
        other
    });
    let (w, k, count) = (char::from(way), char::from(kind), 4 * each);
    print!("{w},{k} {count} lines, {differences} differences; answers by number");
    let listed = cases::numbers(way, kind);
    for (number, count) in (0..).zip(numbers) {
        match number == 0 || listed.contains(&number) {
            true => print!(" {number}: {count}"),
            false if count > 0 => print!(" {number}, which cases.rs does not list: {count}"),
            false => (),
        }
    }
    println!();
    (differences, others)
}

impl Other {
    fn count(&mut self, line: &Line, fixed: Answer, platform: Answer) {
        if fixed.number != platform.number {
            self.numbers += 1;
        } else if fixed != platform {
            self.pairs += 1;
            self.farthest = self.farthest.max(distance(line, fixed, platform));
        }
    }
}

/// The metres between two answers: on the map, or along the sphere of radius a.
fn distance(line: &Line, one: Answer, other: Answer) -> f64 {
    let by = |p: u64, q: u64| f64::from_bits(p) - f64::from_bits(q);
    let (p, q) = (by(one.p, other.p), by(one.q, other.q));
    if line.way == b'F' {
        return p.hypot(q);
    }
    let turn = std::f64::consts::TAU;
    let east = p - turn * (p / turn).round();
    line.fields[0] * q.hypot(east * f64::from_bits(one.q).cos())
}

fn row(way: u8, kind: u8, others: [Other; 4]) -> String {
    let [realistic, rest @ ..] = others;
    let cells = |o: Other| format!("{} | {}", o.numbers, o.pairs);
    format!(
        "| {},{} | {} | {:.1e} | {} |\n",
        char::from(way),
        char::from(kind),
        cells(realistic),
        realistic.farthest,
        rest.map(cells).join(" | ")
    )
}

/// What the row leaves out, if anything.
fn note(way: u8, kind: u8, others: [Other; 4]) -> String {
    let left_out = others.map(|other| other.left_out);
    if left_out == [0; 4] {
        return String::new();
    }
    let (w, k) = (char::from(way), char::from(kind));
    let counts = left_out.map(|count| count.to_string()).join(", ");
    format!(
        "{w},{k} leaves out, by sort, {counts} lines on a sphere: the source refuses them all\n"
    )
}
