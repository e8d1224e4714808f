//! Inverse points of Albers, to try 02's rounds on: of any q, e and e2, of an ellipsoid's with q on the
//! map, about its rim or off it, of such as no ellipsoid has, of built ones with any number in the place
//! of another, and the points of a column.

use crate::fixed::{ln, root};
use crate::line::Line;
use crate::lines::{Lines, SORTS};
use crate::offices::ELLIPSOIDS;
use crate::patterns::Patterns;
use crate::rounds::{Handed, TOLERANCE};
use crate::source::fixed::parts::e2;
use crate::sphere::{E, E2};
use crate::spheres::Spheres;

/// What q, e and e2 are like.
#[derive(Clone, Copy, Debug, PartialEq)]
pub enum Shape {
    /// Any patterns.
    Any,
    /// Of an ellipsoid like the Earth, q on its map or somewhat off it.
    Earth,
    /// The same of any ellipsoid, often a nearly round or a nearly flat one.
    Ellipsoid,
    /// Of either, q near a pole's, or near 2 in size.
    Rim,
    /// Of no ellipsoid: e and e2 each by itself, 0, 1, above, negative, tiny or not finite.
    Odd,
    /// The first round's change is near the tolerance, since the logarithm is 0 by a small e.
    Tolerance,
}

pub const SHAPES: [Shape; 6] = [
    Shape::Any,
    Shape::Earth,
    Shape::Ellipsoid,
    Shape::Rim,
    Shape::Odd,
    Shape::Tolerance,
];

/// For e and for e2. Up to 2^-1024 there is no reciprocal, though there may be one of the double, and
/// from 2^1021 on it loses digits.
const ODD: [f64; 19] = [
    0.0,
    5e-324,
    f64::from_bits(1 << 49),
    f64::from_bits(1 << 50),
    f64::MIN_POSITIVE,
    1e-162,
    1e-20,
    1e-8,
    1.0 / 150.0,
    0.08,
    0.5,
    1.0,
    1.5,
    2.0,
    1e10,
    f64::from_bits(0x7fc0_0000_0000_0000),
    f64::from_bits(0x7fe0_0000_0000_0000),
    f64::INFINITY,
    f64::NAN,
];

/// What is replaced, as a place among the numbers and then the point: e and e2 more often.
const OFTEN: [usize; 19] = [E, E, E, E, E2, E2, E2, E2, 0, 1, 2, 3, 4, 5, 6, 7, 8, 9, 10];

/// A seeded source of inverse points.
pub struct Inverses {
    /// The last q.
    q: f64,
    patterns: Patterns,
    lines: Lines,
    spheres: Spheres,
}

impl Inverses {
    pub fn new(seed: u64) -> Inverses {
        Inverses {
            q: 0.0,
            patterns: Patterns::new(seed),
            lines: Lines::new(b'I', b'A', seed),
            spheres: Spheres::new(b'I', seed),
        }
    }

    pub fn next(&mut self, shape: Shape) -> Handed {
        let [q, e, e2] = self.triple(shape);
        Handed::of(q, e, e2)
    }

    /// A q, an e and an e2. One time in eight it is the last q.
    pub fn triple(&mut self, shape: Shape) -> [f64; 3] {
        let [q, e, e2] = self.drawn(shape);
        if self.patterns.below(8) > 0 {
            self.q = q;
        }
        [self.q, e, e2]
    }

    fn drawn(&mut self, shape: Shape) -> [f64; 3] {
        match shape {
            Shape::Any => [(); 3].map(|()| f64::from_bits(self.patterns.one())),
            Shape::Earth => {
                let [e, e2] = self.earth();
                [2.1 * self.patterns.unit(), e, e2]
            }
            Shape::Ellipsoid => {
                let [e, e2] = self.ellipsoid();
                [2.1 * self.patterns.unit(), e, e2]
            }
            Shape::Rim => self.rim(),
            Shape::Odd => [self.odd_q(), self.odd(), self.odd()],
            Shape::Tolerance => self.tolerance(),
        }
    }

    /// The root of an e2, and e2.
    fn earth(&mut self) -> [f64; 2] {
        let [a, f] = self.patterns.choose(&ELLIPSOIDS[1..]);
        let any = self.patterns.fraction() / 100.0;
        let e2 = self.patterns.choose(&[e2(a, f), any]);
        [root(e2), e2]
    }

    fn ellipsoid(&mut self) -> [f64; 2] {
        let power = 2.0_f64.powi(-(self.patterns.below(60) as i32));
        let any = self.patterns.fraction();
        let e2 = self.patterns.choose(&[any, any * power, 1.0 - any * power]);
        [root(e2), e2]
    }

    fn rim(&mut self) -> [f64; 3] {
        let [e, e2] = match self.patterns.coin() {
            true => self.earth(),
            false => self.ellipsoid(),
        };
        let rim = self.patterns.choose(&[pole(e, e2), pole(e, e2), 2.0]);
        let off = self.patterns.choose(&[0.0, 0.0, 1e-12, 1e-8, -1e-8, 1e-4]);
        let q = self.patterns.near(rim * (1.0 - off));
        [f64::from_bits(q), e, e2]
    }

    fn odd(&mut self) -> f64 {
        let number = self.patterns.choose(&ODD);
        let near = f64::from_bits(self.patterns.near(number));
        self.patterns.choose(&[number, near])
    }

    /// One time in four so small that the largest e has a product with its sine.
    fn odd_q(&mut self) -> f64 {
        let digits = self.patterns.below(52);
        let small = f64::from_bits(self.patterns.bits() >> (12 + digits));
        let any = 2.1 * self.patterns.unit();
        let odd = self.odd();
        self.patterns.choose(&[any, any, small, odd])
    }

    fn tolerance(&mut self) -> [f64; 3] {
        let e2 = self.patterns.fraction();
        let e = self.patterns.choose(&[1e-20, -1e-20, 1e-300]);
        let per_q = (1.0 / (1.0 - e2) - 0.5) / 2.0;
        let q = self.patterns.near(TOLERANCE / per_q);
        [f64::from_bits(q), e, e2]
    }

    /// Of a built one, or of any q, e and e2, with one or two numbers replaced, the point's too: by any
    /// pattern, by an odd one, or by one nearby.
    pub fn replaced(&mut self) -> Handed {
        let shape = self.patterns.choose(&SHAPES);
        let mut question = match self.patterns.below(3) {
            0 => self.next(shape),
            _ => self.built(),
        };
        for _ in 0..1 + self.patterns.below(2) {
            let place = self.patterns.choose(&OFTEN);
            let Handed { numbers, point } = &mut question;
            let number = match numbers.get_mut(place) {
                Some(number) => number,
                None => &mut point[place - numbers.len()],
            };
            let (any, near) = (self.patterns.one(), self.patterns.near(*number));
            let odd = self.patterns.choose(&ODD).to_bits();
            *number = f64::from_bits(self.patterns.choose(&[any, odd, near]));
        }
        question
    }

    fn built(&mut self) -> Handed {
        loop {
            let sort = self.patterns.choose(&SORTS);
            if let Ok(question) = Handed::built(&self.lines.next(sort)) {
                return question;
            }
        }
    }

    /// Points for a column of a line's projection, drawn as on a sphere: at all latitudes, and off
    /// the map.
    pub fn points(&mut self, line: &Line, count: usize) -> Vec<[f64; 2]> {
        self.spheres.points(line, count)
    }
}

/// The q of a pole.
fn pole(e: f64, e2: f64) -> f64 {
    let logarithm = ln((1.0 - e) / (1.0 + e));
    (1.0 - e2) * (1.0 / (1.0 - e2) - 1.0 / (2.0 * e) * logarithm)
}
