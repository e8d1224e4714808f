//! Compares ours with 01's functions, and with the source's parts that use these, pattern by
//! pattern: `compare [PATTERNS]`, ten million a function if none is named. Ends in 1 where any
//! differs. It counts where the platform's functions would answer otherwise.

use oracle::functions::{Arguments, ELLIPSOID, FUNCTIONS, Function, MACHINE, PARTS};
use oracle::patterns::{Patterns, edge_arguments};
use std::process::ExitCode;

const PATTERNS: usize = 10_000_000;

/// The first few differences of a function are printed.
const SHOWN: usize = 5;

fn main() -> ExitCode {
    let count = match std::env::args().nth(1) {
        Some(text) => text.parse().expect("a number of patterns"),
        None => PATTERNS,
    };
    let machine = total(&MACHINE, count);
    println!("the machine's root and remainder against whole numbers: {machine} differences");
    let lists = [&FUNCTIONS[..], &ELLIPSOID, &PARTS];
    let differences: usize = lists.iter().map(|list| total(list, count)).sum();
    let functions: usize = lists.iter().map(|list| list.len()).sum();
    println!("{functions} functions compared, {differences} differences");
    ExitCode::from(u8::from(machine + differences > 0))
}

fn total(functions: &[Function], count: usize) -> usize {
    functions.iter().map(|f| compare(f, count)).sum()
}

/// Prints a line for a function, and gives the number of its differences.
fn compare(function: &Function, count: usize) -> usize {
    let edges = edge_arguments(function.takes);
    let mut patterns = Patterns::new(1);
    let random = std::iter::repeat_with(|| patterns.arguments(function.takes)).take(count);
    let tried = edges.len() + count;
    let (mut differences, mut others) = (0, 0);
    for arguments in edges.into_iter().chain(random) {
        let (ours, theirs) = ((function.tried)(arguments), (function.expected)(arguments));
        if ours != theirs {
            differences += 1;
            if differences <= SHOWN {
                show(function.name, arguments, ours, theirs);
            }
        }
        if function
            .platform
            .is_some_and(|platform| platform(arguments) != theirs)
        {
            others += 1;
        }
    }
    print!(
        "{:27} {tried:9} patterns, {differences} differences",
        function.name
    );
    if function.platform.is_some() {
        print!("; the platform's {others}");
    }
    println!();
    differences
}

fn show(name: &str, [a, b, c, d]: Arguments, ours: u64, theirs: u64) {
    println!("{name} of {a:016x} {b:016x} {c:016x} {d:016x}: {ours:016x}, not {theirs:016x}");
}
