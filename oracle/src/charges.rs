//! Stops to try the travel charge on: in a town, at a whole kilometre or next to it, along an axis, in
//! any direction and by whole sides, so near or far that squares vanish or overflow, with rates and
//! children about their limits and beyond 32 bits, and of any patterns; and a list of edges.

use crate::charge::{CHILDREN, FARTHEST, HIGHEST, Meant, Rule, Stop};
use crate::fixed::{T, cos, root, sin};
use crate::nearests::small;
use crate::patterns::{Patterns, SPECIALS};
use crate::ring::Pair;

/// What a stop is like.
#[derive(Clone, Copy, Debug, PartialEq)]
pub enum Shape {
    /// Some kilometres away.
    Town,
    /// Along an axis, at a whole kilometre or few numbers from it.
    Axis,
    /// In any direction, at a whole kilometre or the number next to it.
    Turned,
    /// The same by whole sides, or few numbers from them.
    Sides,
    /// At a whole kilometre along an axis, and so little aside that the sum is at most few numbers above
    /// the kilometre's square.
    Aside,
    /// About the farthest.
    Far,
    /// So near that squares vanish.
    Tiny,
    /// So far that squares overflow, or nearly.
    Huge,
    /// Of any size.
    Sized,
    /// Any patterns.
    Any,
    /// With infinities, NaN and the like.
    Special,
    /// Within a kilometre, where the charge is the rate, and with any rest.
    Rest,
    /// At distance 0, with rates and children about their limits.
    Free,
    /// With rates and children about their limits.
    Limits,
    /// With rates and children of up to 64 bits.
    Wide,
}

pub const SHAPES: [Shape; 15] = [
    Shape::Town,
    Shape::Axis,
    Shape::Turned,
    Shape::Sides,
    Shape::Aside,
    Shape::Far,
    Shape::Tiny,
    Shape::Huge,
    Shape::Sized,
    Shape::Any,
    Shape::Special,
    Shape::Rest,
    Shape::Free,
    Shape::Limits,
    Shape::Wide,
];

/// Rates at their limits, and those that look sound where they are cut or have a sign.
const RATES: [u64; 14] = [
    0,
    1,
    2,
    HIGHEST - 1,
    HIGHEST,
    HIGHEST + 1,
    1 << 31,
    u32::MAX as u64,
    1 << 32,
    (1 << 32) + 1,
    (1 << 32) + HIGHEST,
    1 << 63,
    (1 << 63) + 1,
    u64::MAX,
];

/// The same of how many children there are.
const COUNTS: [u64; 20] = [
    0,
    1,
    2,
    3,
    59,
    60,
    61,
    62,
    128,
    255,
    256,
    257,
    256 + 60,
    1 << 32,
    (1 << 32) + 1,
    (1 << 32) + 60,
    1 << 63,
    (1 << 63) + 1,
    u64::MAX - 1,
    u64::MAX,
];

/// So many kilometres are the farthest.
pub const KILOMETRES: u64 = 1000;

/// A seeded source of stops.
pub struct Charges {
    patterns: Patterns,
}

impl Charges {
    pub fn new(seed: u64) -> Charges {
        Charges {
            patterns: Patterns::new(seed),
        }
    }

    pub fn next(&mut self, shape: Shape) -> Stop {
        let offset = match shape {
            Shape::Town => self.town(),
            Shape::Axis => self.axis(),
            Shape::Turned => self.turned(),
            Shape::Sides => self.sides(),
            Shape::Aside => self.aside(),
            Shape::Far => self.far(),
            Shape::Tiny => [(); 2].map(|()| small(&mut self.patterns)),
            Shape::Huge => self.huge(),
            Shape::Sized => self.sized(),
            Shape::Any => [(); 2].map(|()| f64::from_bits(self.patterns.one())),
            Shape::Special => self.special(),
            Shape::Rest => self.within(700.0),
            Shape::Free => self.free(),
            Shape::Limits | Shape::Wide => self.ordinary(),
        };
        let (rate, children) = match shape {
            Shape::Town => (self.patterns.below(500), 1 + self.patterns.below(8)),
            Shape::Rest => self.rest(),
            Shape::Free | Shape::Limits => (self.rate_at_limit(), self.count_at_limit()),
            Shape::Wide => (self.wide(), self.wide()),
            _ => (self.rate(), self.count()),
        };
        let offset = self.mixed(offset);
        Stop {
            offset,
            rate,
            children,
        }
    }

    /// The same distance in other directions.
    fn mixed(&mut self, [dx, dy]: Pair) -> Pair {
        let offset = self.patterns.choose(&[[dx, dy], [dy, dx]]);
        offset.map(|x| self.patterns.choose(&[x, -x]))
    }

    /// Mostly one that is answered.
    fn rate(&mut self) -> u64 {
        match self.patterns.below(32) {
            0 => self.rate_at_limit(),
            1..=10 => self.patterns.below(1000),
            _ => self.patterns.below(HIGHEST + 1),
        }
    }

    fn count(&mut self) -> u64 {
        match self.patterns.below(32) {
            0 => self.count_at_limit(),
            1..=10 => 1 + self.patterns.below(8),
            _ => 1 + self.patterns.below(CHILDREN as u64),
        }
    }

    fn rate_at_limit(&mut self) -> u64 {
        match self.patterns.below(4) {
            0 => HIGHEST - 8 + self.patterns.below(17),
            1 => self.patterns.below(100),
            _ => self.patterns.choose(&RATES),
        }
    }

    fn count_at_limit(&mut self) -> u64 {
        match self.patterns.below(4) {
            0 => self.patterns.below(70),
            1 => 1 + self.patterns.below(CHILDREN as u64),
            _ => self.patterns.choose(&COUNTS),
        }
    }

    /// Of up to 64 bits, or one that is answered and a bit more.
    fn wide(&mut self) -> u64 {
        match self.patterns.below(4) {
            0 => self.patterns.below(60) | 1 << self.patterns.below(64),
            1 => self.patterns.below(60),
            _ => self.patterns.bits() >> self.patterns.below(64),
        }
    }

    /// A rate that leaves any rest for any number of children.
    fn rest(&mut self) -> (u64, u64) {
        let children = 1 + self.patterns.below(CHILDREN as u64);
        let rest = self.patterns.below(children);
        let most = self.patterns.choose(&[1, 100, (HIGHEST - rest) / children]);
        let rounds = self.patterns.below(most + 1);
        (rounds * children + rest, children)
    }

    /// Two numbers of at most so many metres.
    fn within(&mut self, metres: f64) -> Pair {
        [(); 2].map(|()| metres * self.patterns.unit())
    }

    /// In metres of some decimals, half of the time.
    fn town(&mut self) -> Pair {
        let reach = self.patterns.choose(&[500.0, 1e4, 1e4, 1e5]);
        let offset = self.within(reach);
        if self.patterns.coin() {
            let decimals = 10.0_f64.powi(self.patterns.below(4) as i32);
            return offset.map(|x| (x * decimals).round() / decimals);
        }
        offset
    }

    fn kilometre(&mut self) -> f64 {
        let most = self.patterns.choose(&[10, KILOMETRES]);
        (1000 * self.patterns.below(most + 1)) as f64
    }

    fn axis(&mut self) -> Pair {
        let metres = self.kilometre();
        let other = match self.patterns.below(4) {
            0 => small(&mut self.patterns),
            1 => self.patterns.unit() * 1e-4,
            _ => 0.0,
        };
        [self.patterns.around(metres), other]
    }

    fn turned(&mut self) -> Pair {
        let metres = self.kilometre();
        if metres == 0.0 {
            // Next to 0 there is no distance: so small a square vanishes.
            return self.in_any_direction(metres);
        }
        let next = [metres.next_down(), metres, metres.next_up()];
        let distance = self.patterns.choose(&next);
        self.in_any_direction(distance)
    }

    /// So far away, to the last bit.
    fn in_any_direction(&mut self, distance: f64) -> Pair {
        loop {
            let angle = T * self.patterns.fraction();
            let offset = [distance * cos(angle), distance * sin(angle)];
            let offset = offset.map(|x| self.patterns.around(x));
            if Meant.distance(offset) == distance {
                return offset;
            }
        }
    }

    fn sides(&mut self) -> Pair {
        let sides = self.whole_sides();
        match self.patterns.coin() {
            true => sides,
            false => sides.map(|side| self.patterns.around(side)),
        }
    }

    /// Those of a triangle with a right angle, the third a whole kilometre.
    fn whole_sides(&mut self) -> Pair {
        loop {
            let [m, n] = [(); 2].map(|()| 1 + self.patterns.below(30));
            let (sides, longest) = ([2 * m * n, m.abs_diff(n) * (m + n)], m * m + n * n);
            let metres = 1000 * (1 + self.patterns.below(KILOMETRES));
            if sides
                .iter()
                .all(|side| (metres * side).is_multiple_of(longest))
            {
                return sides.map(|side| (metres * side / longest) as f64);
            }
        }
    }

    fn aside(&mut self) -> Pair {
        let metres = self.kilometre();
        beside(metres, 4.0 * self.patterns.fraction())
    }

    fn far(&mut self) -> Pair {
        let distance = self.patterns.around(FARTHEST);
        match self.patterns.below(4) {
            0 => [distance, 0.0],
            1 => [distance, self.patterns.unit() * 0.1],
            2 => self.within(1.5 * FARTHEST),
            _ => self.in_any_direction(distance),
        }
    }

    fn huge(&mut self) -> Pair {
        [(); 2].map(|()| self.patterns.choose(&LARGE) * 2.0 * self.patterns.unit())
    }

    fn sized(&mut self) -> Pair {
        let reach = 2.0_f64.powi(self.patterns.below(600) as i32 - 575);
        let other = self.patterns.choose(&[1.0, 0.1, 1e-8]);
        let [dx, dy] = self.within(reach);
        [dx, other * dy]
    }

    fn special(&mut self) -> Pair {
        let special = f64::from_bits(self.patterns.choose(&SPECIALS));
        let other = match self.patterns.below(4) {
            0 => f64::from_bits(self.patterns.choose(&SPECIALS)),
            1 => 0.0,
            _ => self.kilometre(),
        };
        [special, other]
    }

    fn free(&mut self) -> Pair {
        match self.patterns.below(4) {
            0 => [1e-162 * self.patterns.unit(), 0.0],
            _ => [0.0; 2],
        }
    }

    fn ordinary(&mut self) -> Pair {
        match self.patterns.below(4) {
            0 => self.axis(),
            1 => self.free(),
            _ => self.within(2e4),
        }
    }
}

/// Along an axis, and so little aside that the square of that is so many steps of the other square.
fn beside(metres: f64, steps: f64) -> Pair {
    let square = metres * metres;
    [metres, root(steps * (square.next_up() - square))]
}

/// The squares of these overflow, or nearly, or pass the limit.
const LARGE: [f64; 7] = [FARTHEST, 1e7, 1e100, 1e154, f64::MAX / 2.0, 1e155, 1e300];

/// At each whole kilometre and on either side of it, along both axes, in some directions and a little
/// aside; each rest of each number of children; rates and children at their limits, at distances of all
/// sorts; and pairs of specials.
pub fn edges() -> Vec<Stop> {
    [kilometres(), rests(), limits(), specials()].concat()
}

fn stop(offset: Pair, rate: u64, children: u64) -> Stop {
    Stop {
        offset,
        rate,
        children,
    }
}

fn kilometres() -> Vec<Stop> {
    let mut charges = Charges::new(3);
    let mut list = Vec::new();
    for k in 0..=KILOMETRES {
        let metres = (1000 * k) as f64;
        let mut offsets = Vec::new();
        for x in [metres.next_down(), metres, metres.next_up()] {
            offsets.extend([[x, 0.0], [0.0, x], [-x, -0.0], [0.0, -x]]);
            if k > 0 {
                offsets.extend([(); 4].map(|()| charges.in_any_direction(x)));
            }
        }
        offsets.extend([0.4, 0.6, 1.0, 2.0].map(|steps| beside(metres, steps)));
        let (rate, children) = (HIGHEST - k, 1 + k % CHILDREN as u64);
        list.extend(offsets.iter().map(|&offset| stop(offset, rate, children)));
    }
    list
}

fn rests() -> Vec<Stop> {
    let mut list = Vec::new();
    for children in 1..=CHILDREN as u64 {
        for rest in 0..children {
            for rounds in [0, 1, (HIGHEST - rest) / children] {
                list.push(stop([1.0, 0.0], rounds * children + rest, children));
            }
        }
    }
    list
}

fn limits() -> Vec<Stop> {
    let beyond = FARTHEST.next_up();
    let distances = [0.0, 1e-200, 1.0, 1000.0, FARTHEST, beyond, 1e200];
    let others = [f64::INFINITY, f64::NAN];
    let mut list = Vec::new();
    for dx in distances.into_iter().chain(others) {
        for rate in RATES {
            list.extend(COUNTS.map(|children| stop([dx, 0.0], rate, children)));
        }
    }
    list
}

fn specials() -> Vec<Stop> {
    let metres = [1e-162, 1.0, 1000.0, FARTHEST, FARTHEST.next_up(), 1e154];
    let specials = SPECIALS.map(f64::from_bits);
    let all = [specials.as_slice(), &metres, &metres.map(|x| -x)].concat();
    let pairs = |&dx: &f64| all.iter().map(move |&dy| stop([dx, dy], 7, 3));
    all.iter().flat_map(pairs).collect()
}
