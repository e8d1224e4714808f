//! Times a call of each function: ours, the same in Rust, and the platform's. Every side is called
//! through a pointer, so none is inlined into the loop; the row `identity` is what that costs.
//!
//! Two measures, in ns: `free`, where calls do not depend on each other and a processor overlaps
//! them, and `waiting`, where each argument waits for the answer before it.

use oracle::fixed::{T, f64_of};
use oracle::patterns::Patterns;
use oracle::{fixed, ours};
use std::f64::consts::PI;
use std::hint::black_box;
use std::time::Instant;

/// Calls in a pass over the arguments, and passes, of which the median counts.
const CALLS: usize = 4096;
const PASSES: usize = 301;

type Call<A> = extern "C" fn(f64) -> A;

/// What a function answers.
trait Answer: Copy {
    fn bits(self) -> u64;
}

impl Answer for f64 {
    fn bits(self) -> u64 {
        self.to_bits()
    }
}

impl Answer for bool {
    fn bits(self) -> u64 {
        self.into()
    }
}

/// A function of one f64 as a C function.
macro_rules! call {
    ($function:expr, $answer:ty) => {{
        extern "C" fn call(x: f64) -> $answer {
            $function(x)
        }
        call as Call<$answer>
    }};
    ($function:expr) => {
        call!($function, f64)
    };
}

/// A line for a function: its arguments, and the platform's function.
macro_rules! line {
    ($name:ident, $arguments:expr, $platform:expr, $answer:ty) => {
        line::<$answer>(
            stringify!($name),
            $arguments,
            [
                ours::$name,
                call!(fixed::$name, $answer),
                call!($platform, $answer),
            ],
        )
    };
    ($name:ident, $arguments:expr, $platform:expr) => {
        line!($name, $arguments, $platform, f64)
    };
}

fn main() {
    println!("ns a call: ours, Rust, platform; ours / Rust");
    println!("{:11} {:^27}   {:^27}", "", "free", "waiting");
    // lengths, sines, angles, and the quotient that Albers and the authalic sums take ln of
    let lengths = (0.0, 2.0);
    let sines = (-1.0, 1.0);
    let angles = (-PI, PI);
    let quotients = (0.8, 1.25);
    line(
        "identity",
        sines,
        [ours::identity, call!(|x| x), call!(|x| x)],
    );
    line!(root, lengths, f64::sqrt);
    line!(sin, angles, f64::sin);
    line!(cos, angles, f64::cos);
    line!(tan, angles, f64::tan);
    line!(atan, (-3.0, 3.0), f64::atan);
    line!(asin, sines, f64::asin);
    line(
        "atan2",
        sines,
        [
            call!(|y: f64| ours::atan2(y, y + 0.5)),
            call!(|y: f64| fixed::atan2(y, y + 0.5)),
            call!(|y: f64| y.atan2(y + 0.5)),
        ],
    );
    line!(ln, quotients, f64::ln);
    line!(powf_3_2, lengths, |d: f64| d.powf(1.5));
    line!(rem_euclid, (-T, 2.0 * T), |x: f64| x.rem_euclid(T));
    line!(abs, sines, f64::abs);
    line!(signum, sines, f64::signum);
    line(
        "clamp",
        angles,
        [
            call!(|x| ours::clamp(x, -1.0, 1.0)),
            call!(|x| fixed::clamp(x, -1.0, 1.0)),
            call!(|x: f64| x.clamp(-1.0, 1.0)),
        ],
    );
    line!(max_zero, sines, |x: f64| x.max(0.0));
    line!(is_finite, sines, f64::is_finite, bool);
    line!(is_negative, sines, f64::is_sign_negative, bool);
    line!(is_nan, sines, f64::is_nan, bool);
}

/// Prints both measures of a function's three sides, over uniform arguments between two bounds.
fn line<A: Answer>(name: &str, (low, high): (f64, f64), sides: [Call<A>; 3]) {
    let mut patterns = Patterns::new(3);
    let arguments: Vec<f64> = (0..CALLS)
        .map(|_| low + (high - low) * (patterns.unit() + 1.0) / 2.0)
        .collect();
    print!("{name:11}");
    for measure in [free::<A>, waiting::<A>] {
        let [ours, rust, platform] = medians(measure, &arguments, sides);
        let ratio = ours / rust;
        print!(" {ours:6.1} {rust:6.1} {platform:6.1} {ratio:5.2}   ");
    }
    println!();
}

/// The median pass of each side, in ns a call. The sides take turns, so that what else the machine
/// does falls on all.
fn medians<A>(measure: fn(Call<A>, &[f64]), arguments: &[f64], sides: [Call<A>; 3]) -> [f64; 3] {
    let mut passes = [(); 3].map(|()| Vec::with_capacity(PASSES));
    for _ in 0..PASSES {
        for (side, times) in sides.iter().zip(&mut passes) {
            let start = Instant::now();
            measure(black_box(*side), arguments);
            times.push(start.elapsed().as_nanos() as f64 / CALLS as f64);
        }
    }
    passes.map(|mut times| {
        times.sort_by(f64::total_cmp);
        times[PASSES / 2]
    })
}

fn free<A: Answer>(call: Call<A>, arguments: &[f64]) {
    for &x in arguments {
        black_box(call(x));
    }
}

fn waiting<A: Answer>(call: Call<A>, arguments: &[f64]) {
    let none = black_box(0);
    let mut answer = 0;
    for &x in arguments {
        answer = call(f64_of(x.to_bits() ^ (answer & none))).bits();
    }
    black_box(answer);
}
