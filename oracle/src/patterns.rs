//! The patterns that the functions are tried on: a list of edges, and an endless seeded mixture.

use crate::fixed::T;
use crate::functions::{Arguments, Takes};
use std::f64::consts::{FRAC_PI_4, SQRT_2};

const SIGN: u64 = 1 << 63;

/// Zeros, infinities, NaN of both signs and kinds, the ends of the normal and subnormal numbers.
pub const SPECIALS: [u64; 16] = [
    0,
    SIGN,
    0x7ff0_0000_0000_0000,
    0xfff0_0000_0000_0000,
    0x7ff8_0000_0000_0000,
    0xfff8_0000_0000_0000,
    0x7ff0_0000_0000_0001,
    0xffff_ffff_ffff_ffff,
    1,
    SIGN | 1,
    0x000f_ffff_ffff_ffff,
    0x800f_ffff_ffff_ffff,
    0x0010_0000_0000_0000,
    0x8010_0000_0000_0000,
    0x7fef_ffff_ffff_ffff,
    0xffef_ffff_ffff_ffff,
];

/// Where a function changes its formula: the source's tolerances, its bound on latitudes, 1/2, 1,
/// SQRT_2, 2, and the multiples of FRAC_PI_4 to just beyond T, which is eight of them.
const THRESHOLDS: [f64; 17] = [
    1e-15,
    1e-12,
    1e-10,
    2.0 * FRAC_PI_4 + 1e-12,
    0.5,
    1.0,
    SQRT_2,
    2.0,
    FRAC_PI_4,
    2.0 * FRAC_PI_4,
    3.0 * FRAC_PI_4,
    4.0 * FRAC_PI_4,
    5.0 * FRAC_PI_4,
    6.0 * FRAC_PI_4,
    7.0 * FRAC_PI_4,
    T,
    9.0 * FRAC_PI_4,
];

/// The specials, and each threshold with the f64 on either side of it, of both signs.
pub fn edges() -> Vec<u64> {
    let mut edges = SPECIALS.to_vec();
    for threshold in THRESHOLDS {
        for p in [-1, 0, 1].map(|step| threshold.to_bits().wrapping_add_signed(step)) {
            edges.extend([p, p | SIGN]);
        }
    }
    edges
}

/// All choices of edges as the arguments of a function: of three and more, the specials and the
/// thresholds alone.
pub fn edge_arguments(takes: Takes) -> Vec<Arguments> {
    let edges = match takes.count() {
        1 | 2 => edges(),
        _ => SPECIALS
            .into_iter()
            .chain(THRESHOLDS.map(f64::to_bits))
            .collect(),
    };
    let mut all = vec![[0; 4]];
    for at in 0..takes.count() {
        let with = |mut arguments: Arguments, edge| {
            arguments[at] = edge;
            arguments
        };
        all = all
            .iter()
            .flat_map(|&arguments| edges.iter().map(move |&edge| with(arguments, edge)))
            .collect();
    }
    all.retain(|arguments| takes.admits(arguments));
    all
}

/// A pattern's rank in the order of the numbers.
pub fn rank(x: f64) -> i64 {
    let bits = x.to_bits() as i64;
    bits ^ (((bits >> 63) as u64) >> 1) as i64
}

/// The number of a rank.
pub fn of_rank(rank: i64) -> f64 {
    let bits = rank ^ (((rank >> 63) as u64) >> 1) as i64;
    f64::from_bits(bits as u64)
}

/// A seeded source of patterns (SplitMix64).
pub struct Patterns(u64);

impl Patterns {
    pub fn new(seed: u64) -> Self {
        Patterns(seed)
    }

    /// 64 uniform bits.
    pub fn bits(&mut self) -> u64 {
        self.0 = self.0.wrapping_add(0x9e37_79b9_7f4a_7c15);
        let mut z = self.0;
        z = (z ^ (z >> 30)).wrapping_mul(0xbf58_476d_1ce4_e5b9);
        z = (z ^ (z >> 27)).wrapping_mul(0x94d0_49bb_1331_11eb);
        z ^ (z >> 31)
    }

    pub fn below(&mut self, n: u64) -> u64 {
        self.bits() % n
    }

    pub fn coin(&mut self) -> bool {
        self.below(2) == 0
    }

    pub fn choose<V: Copy>(&mut self, values: &[V]) -> V {
        values[self.below(values.len() as u64) as usize]
    }

    /// Uniform in [-1, 1).
    pub fn unit(&mut self) -> f64 {
        (self.bits() as i64 as f64) * 2.0_f64.powi(-63)
    }

    /// Uniform in [0, 1).
    pub fn fraction(&mut self) -> f64 {
        (self.bits() >> 11) as f64 * 2.0_f64.powi(-53)
    }

    /// At most eight numbers from x, half of the time at most one.
    pub fn around(&mut self, x: f64) -> f64 {
        let most = self.choose(&[1, 8]);
        let step = self.below(2 * most + 1) as i64 - most as i64;
        of_rank(rank(x) + step)
    }

    /// The same, of either sign.
    pub fn near(&mut self, x: f64) -> u64 {
        self.around(x).to_bits() ^ (self.bits() & SIGN)
    }

    /// A power of two, subnormal ones too.
    fn power_of_two(&mut self) -> f64 {
        let exponent = self.below(2098) as i32 - 1074;
        if exponent < -1022 {
            f64::from_bits(1 << (exponent + 1074))
        } else {
            f64::from_bits(((exponent + 1023) as u64) << 52)
        }
    }

    /// A threshold; a further multiple of FRAC_PI_4 or T; a power of two, or SQRT_2 times one.
    fn threshold(&mut self) -> f64 {
        let digits = self.below(53);
        let whole = (self.bits() >> (63 - digits)) as f64;
        match self.below(6) {
            0 | 1 => self.choose(&THRESHOLDS),
            2 => whole * FRAC_PI_4,
            3 => whole * T,
            4 => self.power_of_two(),
            _ => SQRT_2 * self.power_of_two(),
        }
    }

    /// The f64 nearest the square of a whole number of up to 54 digits, times a power of four: a
    /// root of 53 digits is exact there, and one of 54 nearly half-way between two.
    fn square(&mut self) -> f64 {
        let q = u128::from(self.bits() >> (10 + self.below(54)));
        let half_exponent = self.below(950) as i32 - 500;
        (q * q) as f64 * 4.0_f64.powi(half_exponent)
    }

    /// The pattern of one number.
    pub fn one(&mut self) -> u64 {
        match self.below(16) {
            0..=4 => self.bits(),
            5..=8 => {
                let x = self.threshold();
                self.near(x)
            }
            // what a map has: sines, angles, eccentricities, metres
            9..=12 => {
                let size = self.choose(&[1.0, FRAC_PI_4, 2.0 * T, 100.0, 2e7]);
                (self.unit() * size).to_bits()
            }
            13 => {
                let x = self.square();
                self.near(x)
            }
            14 => self.bits() & !(0x7ff << 52),
            _ => self.choose(&SPECIALS),
        }
    }

    /// The arguments of a function, one time in four the first two of nearly the same size.
    pub fn arguments(&mut self, takes: Takes) -> Arguments {
        loop {
            let mut all = [0; 4];
            for argument in &mut all[..takes.count()] {
                *argument = self.one();
            }
            if takes.count() > 1 && self.below(4) == 0 {
                all[0] = self.near(f64::from_bits(all[1]));
            }
            if takes.admits(&all) {
                return all;
            }
        }
    }
}
