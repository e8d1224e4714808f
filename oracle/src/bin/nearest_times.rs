//! Times nearest lists: ours, and Rust's stable sort by the same sums, each formed once, and rolls. Rust's
//! side looks at the same lengths and coordinates and fills the same lent list, by sorting positions or by
//! sorting sums with their rolls and positions on the stack. Towns of several sizes come first, of many
//! homes, so that no order is learnt, and then other shapes of 256 schools. A figure is the median of the
//! passes over all homes, the sides taking turns. Ends in 1 where an order of ours is not the Rust's.

use oracle::nearest::{LARGEST, MOST, Meant, NEAREST_INPUT, Rule, lent};
use oracle::ours;
use oracle::patterns::Patterns;
use oracle::ring::Pair;
use std::f64::consts::TAU;
use std::hint::black_box;
use std::process::ExitCode;
use std::time::Instant;

const SIZES: [usize; 8] = [8, 16, 32, 64, 100, 128, 200, MOST];

/// How many towns there are of a size, and schools of all their homes; and homes of another shape, each
/// with its own schools.
const TOWNS: usize = 8;
const OF_HOMES: usize = 1 << 17;
const ALONE: usize = 64;

/// Half the width of a town, in metres.
const REACH: f64 = 1e4;

/// So many schools, and at least so many passes, are timed.
const SCHOOLS: usize = 20_000_000;
const PASSES: usize = 101;

fn main() -> ExitCode {
    println!(
        "ns a home: ours, Rust by positions, Rust by sums, ours / the faster, ns a school of ours"
    );
    let mut differ = 0;
    let mut patterns = Patterns::new(1);
    for size in SIZES {
        differ += line(&format!("a town of {size}"), &towns(size, &mut patterns));
    }
    for (name, schools, rolls) in SHAPES {
        differ += line(name, &alone(schools, rolls, &mut patterns));
    }
    if differ > 0 {
        println!("{differ} orders are not the Rust's");
    }
    ExitCode::from(u8::from(differ > 0))
}

/// Eastings and northings, and rolls.
type Lists = ([Vec<f64>; 2], Vec<u16>);

/// Homes, each with the place of its schools, and schools.
struct Batch {
    homes: Vec<(Pair, usize)>,
    lists: Vec<Lists>,
}

impl Batch {
    /// The coordinates of schools, and their rolls.
    fn push(&mut self, schools: &[Pair], rolls: Vec<u16>) {
        let list = |i: usize| schools.iter().map(|school| school[i]).collect();
        self.lists.push(([list(0), list(1)], rolls));
    }

    fn schools(&self) -> usize {
        self.lists[0].1.len()
    }

    /// The lists at a place.
    fn lent(&self, place: usize) -> ([&[f64]; 2], &[u16]) {
        let (lists, rolls) = &self.lists[place];
        (lists.each_ref().map(|list| list.as_slice()), rolls)
    }
}

/// A place in a town.
fn place(patterns: &mut Patterns) -> Pair {
    [5e5, 5.4e6].map(|middle| middle + REACH * patterns.unit())
}

fn towns(size: usize, patterns: &mut Patterns) -> Batch {
    let homes = (0..OF_HOMES / size).map(|home| (place(patterns), home % TOWNS));
    let mut batch = Batch {
        homes: homes.collect(),
        lists: Vec::new(),
    };
    for _ in 0..TOWNS {
        let schools: Vec<Pair> = (0..size).map(|_| place(patterns)).collect();
        batch.push(&schools, any_rolls(size, patterns));
    }
    batch
}

/// The schools of a home.
type Schools = fn(Pair, &mut Patterns) -> Vec<Pair>;

/// The rolls of so many.
type Rolls = fn(usize, &mut Patterns) -> Vec<u16>;

const SHAPES: [(&str, Schools, Rolls); 11] = [
    ("256 in order", sorted, any_rolls),
    ("256 in reversed order", reversed, any_rolls),
    ("256 nearly in order", nearly_sorted, any_rolls),
    ("256 by twos", twos, any_rolls),
    ("256 at one place", equal, any_rolls),
    ("the same, rolls of 0", equal, no_rolls),
    ("the same, falling rolls", equal, falling_rolls),
    ("256 on a grid", grid, any_rolls),
    ("the same, rolls of 0", grid, no_rolls),
    ("256 on a circle", circle, any_rolls),
    ("256 in two clusters", clusters, any_rolls),
];

/// Of some dozens to some thousand pupils.
fn any_rolls(count: usize, patterns: &mut Patterns) -> Vec<u16> {
    let roll = |_| 20 + patterns.below(1500) as u16;
    (0..count).map(roll).collect()
}

fn no_rolls(count: usize, _: &mut Patterns) -> Vec<u16> {
    vec![0; count]
}

fn falling_rolls(count: usize, _: &mut Patterns) -> Vec<u16> {
    (0..count as u16).rev().collect()
}

fn alone(schools: Schools, rolls: Rolls, patterns: &mut Patterns) -> Batch {
    let mut batch = Batch {
        homes: Vec::new(),
        lists: Vec::new(),
    };
    for home in 0..ALONE {
        let at = place(patterns);
        batch.homes.push((at, home));
        let schools = schools(at, patterns);
        batch.push(&schools, rolls(schools.len(), patterns));
    }
    batch
}

fn sorted(home: Pair, patterns: &mut Patterns) -> Vec<Pair> {
    let mut schools: Vec<Pair> = (0..MOST).map(|_| place(patterns)).collect();
    schools.sort_by(|&one, &other| Meant.sum(home, one).total_cmp(&Meant.sum(home, other)));
    schools
}

fn reversed(home: Pair, patterns: &mut Patterns) -> Vec<Pair> {
    let mut schools = sorted(home, patterns);
    schools.reverse();
    schools
}

/// With eight pairs in each other's place.
fn nearly_sorted(home: Pair, patterns: &mut Patterns) -> Vec<Pair> {
    let mut schools = sorted(home, patterns);
    for _ in 0..8 {
        let [one, other] = [(); 2].map(|()| patterns.below(MOST as u64) as usize);
        schools.swap(one, other);
    }
    schools
}

/// Two schools at each place, far from each other in the list.
fn twos(_: Pair, patterns: &mut Patterns) -> Vec<Pair> {
    let places: Vec<Pair> = (0..MOST / 2).map(|_| place(patterns)).collect();
    [places.clone(), places].concat()
}

fn equal(_: Pair, patterns: &mut Patterns) -> Vec<Pair> {
    vec![place(patterns); MOST]
}

/// Whole kilometres from the home, up to five, so that most sums are equal to others.
fn grid([east, north]: Pair, patterns: &mut Patterns) -> Vec<Pair> {
    let mut metres = || 1e3 * (patterns.below(11) as f64 - 5.0);
    let school = |_| [east.round() + metres(), north.round() + metres()];
    (0..MOST).map(school).collect()
}

/// Five kilometres from the home, but for roundings.
fn circle([east, north]: Pair, patterns: &mut Patterns) -> Vec<Pair> {
    let school = |_| {
        let angle = TAU * patterns.fraction();
        [east + 5e3 * angle.cos(), north + 5e3 * angle.sin()]
    };
    (0..MOST).map(school).collect()
}

/// About the home, and eight kilometres from it.
fn clusters([east, north]: Pair, patterns: &mut Patterns) -> Vec<Pair> {
    let school = |_| {
        let far = patterns.choose(&[0.0, 8e3]);
        let [dx, dy] = [(); 2].map(|()| 500.0 * patterns.unit());
        [east + far + dx, north + dy]
    };
    (0..MOST).map(school).collect()
}

/// What fills a lent list.
type Side = fn(Pair, [&[f64]; 2], &[u16], &mut [u16]) -> u8;

const SIDES: [Side; 3] = [ours::nearest_into, by_positions, by_sums];

/// Prints the median pass of each side, and returns how many orders are not the Rust's.
fn line(name: &str, batch: &Batch) -> usize {
    let (homes, schools) = (batch.homes.len() as f64, batch.schools());
    let passes = PASSES.max(SCHOOLS / (batch.homes.len() * schools));
    let mut list = vec![0; schools];
    let mut times = SIDES.map(|_| Vec::with_capacity(passes));
    for _ in 0..passes {
        for (side, times) in SIDES.iter().zip(&mut times) {
            times.push(timed(|| pass(*side, batch, &mut list)) / homes);
        }
    }
    let [ours, positions, sums] = times.map(|mut list| {
        list.sort_by(f64::total_cmp);
        list[list.len() / 2]
    });
    let (ratio, each) = (ours / positions.min(sums), ours / schools as f64);
    println!("{name:24} {ours:9.1} {positions:9.1} {sums:9.1} {ratio:5.2} {each:6.1}");
    differing(batch)
}

/// Every home once.
fn pass(side: Side, batch: &Batch, list: &mut [u16]) {
    for &(home, place) in &batch.homes {
        let (lists, rolls) = batch.lent(place);
        black_box(side(
            black_box(home),
            black_box(lists),
            black_box(rolls),
            list,
        ));
        black_box(&*list);
    }
}

fn timed(work: impl FnOnce()) -> f64 {
    let start = Instant::now();
    work();
    start.elapsed().as_nanos() as f64
}

/// How many homes' lists are not the same by all sides.
fn differing(batch: &Batch) -> usize {
    let differs = |&&(home, place): &&(Pair, usize)| {
        let (lists, rolls) = batch.lent(place);
        let filled = SIDES.map(|side| {
            let mut list = lent(batch.schools() + 1);
            (side(home, lists, rolls, &mut list), list)
        });
        filled[0].0 != 0 || filled.iter().any(|other| *other != filled[0])
    };
    batch.homes.iter().filter(differs).count()
}

/// 29, if it is that.
fn refused(home: Pair, [eastings, northings]: [&[f64]; 2], rolls: &[u16], order: &[u16]) -> bool {
    let count = eastings.len();
    let far = |x: &f64| !x.is_finite() || x.abs() > LARGEST;
    count == 0
        || count > MOST
        || northings.len() != count
        || rolls.len() < count
        || order.len() < count
        || home.iter().any(far)
        || eastings.iter().any(far)
        || northings.iter().any(far)
}

fn by_positions(home: Pair, lists: [&[f64]; 2], rolls: &[u16], order: &mut [u16]) -> u8 {
    if refused(home, lists, rolls, order) {
        return NEAREST_INPUT;
    }
    match lists[0].len() {
        ..=16 => sort_positions::<16>(home, lists, rolls, order),
        17..=64 => sort_positions::<64>(home, lists, rolls, order),
        _ => sort_positions::<MOST>(home, lists, rolls, order),
    }
    0
}

/// With room for N sums on the stack.
fn sort_positions<const N: usize>(
    home: Pair,
    lists: [&[f64]; 2],
    rolls: &[u16],
    order: &mut [u16],
) {
    let [eastings, northings] = lists;
    let mut sums = [0.0; N];
    let order = &mut order[..eastings.len()];
    for (place, (&e, &n)) in eastings.iter().zip(northings).enumerate() {
        sums[place] = Meant.sum(home, [e, n]);
        order[place] = place as u16;
    }
    let sum = |&place: &u16| sums[usize::from(place)];
    let roll = |&place: &u16| rolls[usize::from(place)];
    order.sort_by(|one, other| {
        let by_sum = sum(one).total_cmp(&sum(other));
        by_sum.then_with(|| roll(one).cmp(&roll(other)))
    });
}

fn by_sums(home: Pair, lists: [&[f64]; 2], rolls: &[u16], order: &mut [u16]) -> u8 {
    if refused(home, lists, rolls, order) {
        return NEAREST_INPUT;
    }
    match lists[0].len() {
        ..=16 => sort_sums::<16>(home, lists, rolls, order),
        17..=64 => sort_sums::<64>(home, lists, rolls, order),
        _ => sort_sums::<MOST>(home, lists, rolls, order),
    }
    0
}

/// With room for N sums, their rolls and positions on the stack.
fn sort_sums<const N: usize>(home: Pair, lists: [&[f64]; 2], rolls: &[u16], order: &mut [u16]) {
    let [eastings, northings] = lists;
    let mut schools = [(0.0, 0, 0); N];
    let schools = &mut schools[..eastings.len()];
    for (place, (&e, &n)) in eastings.iter().zip(northings).enumerate() {
        schools[place] = (Meant.sum(home, [e, n]), rolls[place], place as u16);
    }
    schools.sort_by(|one: &(f64, u16, u16), other| {
        let by_sum = one.0.partial_cmp(&other.0).expect("numbers");
        by_sum.then_with(|| one.1.cmp(&other.1))
    });
    for (place, school) in order.iter_mut().zip(schools) {
        *place = school.2;
    }
}
