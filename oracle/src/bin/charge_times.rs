//! Times travel charges: ours, and a plain writing in Rust, with the machine's root and its quotient
//! rounded up. Both make the same tests and fill the same lent shares. Distances are of up to 20 km, as
//! a school's are; a line is a number of children, and the last is of stops that are refused. A figure
//! is the median of the passes over all stops, the sides taking turns. Ends in 1 where a bill of ours is
//! not the Rust's.

use oracle::charge::{CHARGE_INPUT, CHILDREN, FARTHEST, HIGHEST, Shares};
use oracle::ours;
use oracle::patterns::Patterns;
use std::hint::black_box;
use std::process::ExitCode;
use std::time::Instant;

const OF_CHILDREN: [u64; 6] = [1, 4, 10, 30, 60, 61];

/// How far a stop is from its school, on either axis, in metres.
const REACH: f64 = 1.4e4;

const STOPS: usize = 1 << 12;
const PASSES: usize = 1001;

/// dx, dy and the rate.
type Way = (f64, f64, u64);

/// What gives the number and the charge, and fills the shares.
type Side = fn(Way, u64, &mut Shares) -> (u8, u64);

const SIDES: [Side; 2] = [ours::travel_charge_into, plain];

fn main() -> ExitCode {
    println!("ns a stop: ours, Rust, ours / Rust");
    let mut patterns = Patterns::new(1);
    let way = |_| {
        let [dx, dy] = [(); 2].map(|()| REACH * patterns.unit());
        (dx, dy, patterns.below(1000))
    };
    let ways: Vec<Way> = (0..STOPS).map(way).collect();
    let differ: usize = OF_CHILDREN
        .map(|children| line(children, &ways))
        .iter()
        .sum();
    if differ > 0 {
        println!("{differ} bills are not the Rust's");
    }
    ExitCode::from(u8::from(differ > 0))
}

/// Prints the median pass of each side, and returns how many bills are not the Rust's.
fn line(children: u64, ways: &[Way]) -> usize {
    let mut times = SIDES.map(|_| Vec::with_capacity(PASSES));
    for _ in 0..PASSES {
        for (side, times) in SIDES.iter().zip(&mut times) {
            times.push(pass(*side, children, ways) / ways.len() as f64);
        }
    }
    let [ours, rust] = times.map(|mut list| {
        list.sort_by(f64::total_cmp);
        list[list.len() / 2]
    });
    println!(
        "{children:2} children {ours:7.1} {rust:7.1} {:5.2}",
        ours / rust
    );
    let differs = |&&way: &&Way| {
        let mut shares = [[u64::MAX; CHILDREN]; 2];
        let [one, other] = [0, 1].map(|i| SIDES[i](way, children, &mut shares[i]));
        one != other || shares[0] != shares[1]
    };
    ways.iter().filter(differs).count()
}

/// Every stop once, in ns.
fn pass(side: Side, children: u64, ways: &[Way]) -> f64 {
    let start = Instant::now();
    let mut shares = [0; CHILDREN];
    for &way in ways {
        black_box(side(black_box(way), black_box(children), &mut shares));
        black_box(&shares);
    }
    start.elapsed().as_nanos() as f64
}

fn plain((dx, dy, rate): Way, children: u64, shares: &mut Shares) -> (u8, u64) {
    let distance = (dx * dx + dy * dy).sqrt();
    let good = rate <= HIGHEST && (1..=CHILDREN as u64).contains(&children) && distance <= FARTHEST;
    if !good {
        *shares = [0; CHILDREN];
        return (CHARGE_INPUT, 0);
    }
    let charge = (distance / 1000.0).ceil() as u64 * rate;
    let (share, rest) = (charge / children, charge % children);
    let (paid, past) = shares.split_at_mut(children as usize);
    past.fill(0);
    let (larger, others) = paid.split_at_mut(rest as usize);
    larger.fill(share + 1);
    others.fill(share);
    (0, charge)
}
