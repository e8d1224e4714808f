//! Document 02's travel charge, from its words alone. Each step is a method of `Rule`, so that a test
//! can put a wrong reading in its place.

use crate::fixed::root;
use crate::line::pattern;
use crate::ring::Pair;
use crate::stored::question;

/// So many shares an answer holds, and no more children there may be.
pub const CHILDREN: usize = 60;

/// How high a rate may be.
pub const HIGHEST: u64 = 1_000_000;

/// How long a distance may be, in metres.
pub const FARTHEST: f64 = 1_000_000.0;

/// 02's number for all that is refused.
pub const CHARGE_INPUT: u8 = 31;

/// A stop: its dx and dy, the rate, and how many children there are.
#[derive(Clone, Copy, Debug)]
pub struct Stop {
    pub offset: Pair,
    pub rate: u64,
    pub children: u64,
}

/// The name of such a question.
const NAME: &str = "travel_charge";

impl Stop {
    /// The name, dx, dy, the rate, and the number of children.
    pub fn text(&self) -> String {
        let [dx, dy] = self.offset.map(f64::to_bits);
        question(NAME, &[dx, dy, self.rate, self.children])
    }

    /// The question of such a text; none where it has another form.
    pub fn read(text: &str) -> Option<Stop> {
        let (name, rest) = text.split_once(',')?;
        let read = |field: &str| pattern(field.as_bytes());
        let fields: Option<Vec<u64>> = rest.split(',').map(read).collect();
        let [dx, dy, rate, children] = fields?.try_into().ok()?;
        (name == NAME).then_some(Stop {
            offset: [dx, dy].map(f64::from_bits),
            rate,
            children,
        })
    }
}

pub type Shares = [u64; CHILDREN];

/// What stands in places for shares before the call: from the largest number down, so that none of them
/// holds a share.
pub fn before<const N: usize>() -> [u64; N] {
    std::array::from_fn(|place| u64::MAX - place as u64)
}

/// A number, 0 if answered, the charge, and the shares.
#[derive(Clone, Debug, PartialEq)]
pub struct ChargeAnswer {
    pub number: u8,
    pub charge: u64,
    pub shares: Shares,
}

impl ChargeAnswer {
    /// The shares in one number.
    fn print(&self) -> u64 {
        let shares = self.shares.iter();
        shares.fold(0_u64, |print, share| print.rotate_left(1) ^ share)
    }

    pub fn text(&self) -> String {
        format!("{},{:016x},{:016x}", self.number, self.charge, self.print())
    }
}

/// Coins are dealt out by rolls, so that it does not last long: the largest roll has 2^29 of them. No
/// charge has twice as many.
const ROLLS: u32 = 30;

/// What 02 says, step by step.
pub trait Rule {
    /// "Distance is the root of dx×dx + dy×dy": 01's root.
    fn distance(&self, [dx, dy]: Pair) -> f64 {
        root(dx * dx + dy * dy)
    }

    /// 31 "means a rate above 1,000,000"
    fn refuses_rate(&self, rate: u64) -> bool {
        rate > HIGHEST
    }

    /// "no children or more than 60"
    fn refuses_children(&self, children: u64) -> bool {
        children == 0 || children > CHILDREN as u64
    }

    /// "or a distance not finite or above 1,000,000 m"
    fn refuses_distance(&self, distance: f64) -> bool {
        !distance.is_finite() || distance > FARTHEST
    }

    fn refuses(&self, stop: &Stop) -> bool {
        self.refuses_rate(stop.rate)
            || self.refuses_children(stop.children)
            || self.refuses_distance(self.distance(stop.offset))
    }

    /// "kilometres are the least whole k with 1,000×k not below it": counted up from 0. An f64 has every
    /// such product.
    fn least(&self, distance: f64) -> u64 {
        let below = |k: u64| ((1000 * k) as f64) < distance;
        let mut k = 0;
        while below(k) {
            k += 1;
        }
        k
    }

    fn kilometres(&self, stop: &Stop) -> u64 {
        self.least(self.distance(stop.offset))
    }

    /// "The charge is k times the rate."
    fn charge(&self, stop: &Stop) -> u64 {
        self.kilometres(stop) * stop.rate
    }

    /// "Shares differ by at most one coin, the larger first, and add up to the charge", and the 60 are
    /// "zero past the last child": as long as there are coins for all, each child gets as many as the
    /// others; the rest goes coin by coin from the first child on.
    fn shares(&self, charge: u64, children: u64) -> Shares {
        let mut shares = [0; CHILDREN];
        let served = &mut shares[..children as usize];
        let mut left = charge;
        for roll in (0..ROLLS).rev().map(|power| 1 << power) {
            while left >= roll * children {
                for share in &mut *served {
                    *share += roll;
                    left -= roll;
                }
            }
        }
        for share in &mut served[..left as usize] {
            *share += 1;
        }
        shares
    }

    /// "the charge and all shares are then zero"
    fn refused(&self, _: &Stop) -> ChargeAnswer {
        ChargeAnswer {
            number: CHARGE_INPUT,
            charge: 0,
            shares: [0; CHILDREN],
        }
    }

    /// 31 is "checked first". "The answer holds the charge and 60 shares".
    fn answer(&self, stop: &Stop) -> ChargeAnswer {
        if self.refuses(stop) {
            return self.refused(stop);
        }
        let charge = self.charge(stop);
        ChargeAnswer {
            number: 0,
            charge,
            shares: self.shares(charge, stop.children),
        }
    }
}

/// 02 as it is meant.
pub struct Meant;

impl Rule for Meant {}
