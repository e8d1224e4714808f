//! Document 02's rounds of the Albers inverse, from its words and 01 alone, with 01's functions: what
//! never changes within one point is worked out before them. The rest of the inverse is as on the
//! sphere, which has no rounds. Each step is a method of `Rule`, so that a test can put a wrong
//! reading in its place.

use crate::expected::Projection;
use crate::fixed::{asin, cos, ln, root, sin};
use crate::line::{Answer, Line, pattern};
use crate::source::fixed::door::albers_numbers;
use crate::source::fixed::parts::validate_projected;
use crate::sphere::{self, E, Numbers, Rule as _, Sphere};
use crate::stored::question;

/// 01's "15 steps, strictly below 1e-14", and its number where they are used up.
pub const ROUNDS: usize = 15;
pub const TOLERANCE: f64 = 1e-14;
pub const USED_UP: u8 = 22;

/// An inverse point of an Albers of any numbers.
#[derive(Clone, Copy, Debug)]
pub struct Handed {
    pub numbers: Numbers,
    pub point: [f64; 2],
}

/// The name of such a question.
const NAME: &str = "albers_inverse";

impl Handed {
    /// One that has exactly this q: a and n are 1, c is q, and all else is 0.
    pub fn of(q: f64, e: f64, e2: f64) -> Handed {
        Handed {
            numbers: [1.0, e, e2, 0.0, 1.0, q, 0.0, 0.0, 0.0],
            point: [0.0; 2],
        }
    }

    /// That of a line of Albers which is built; else the number that refuses it.
    pub fn built(line: &Line) -> Result<Handed, u8> {
        let numbers = match Projection::new(b'A', &line.fields)? {
            Projection::Sphere(on) => on.numbers(root(on.e2)),
            Projection::Source(_) => albers_numbers(&line.fields)?,
        };
        let [.., u, v] = line.fields;
        let point = [u, v];
        Ok(Handed { numbers, point })
    }

    /// Of the point, from the cone's apex.
    pub fn offset(&self) -> [f64; 2] {
        let ([.., rho0, fe, fn_], [x, y]) = (self.numbers, self.point);
        [x - fe, rho0 - (y - fn_)]
    }

    /// The name, the numbers, and the point.
    pub fn text(&self) -> String {
        let fields = self.numbers.iter().chain(&self.point);
        let patterns: Vec<_> = fields.map(|x| x.to_bits()).collect();
        question(NAME, &patterns)
    }

    /// The question of such a text; none where it has another form.
    pub fn read(text: &str) -> Option<Handed> {
        let (name, rest) = text.split_once(',')?;
        let mut parts = rest.split(',');
        let mut fields = [0.0; 11];
        for field in &mut fields {
            *field = f64::from_bits(pattern(parts.next()?.as_bytes())?);
        }
        let [numbers @ .., x, y] = fields;
        let point = [x, y];
        let known = name == NAME && parts.next().is_none();
        known.then_some(Handed { numbers, point })
    }

    /// What ours is to answer.
    pub fn expected(&self) -> Answer {
        let [x, y] = self.point;
        Projection::albers(&self.numbers).project(b'I', x, y)
    }
}

/// What a round is given besides the latitude: two of the projection's numbers, and what is worked
/// out before.
#[derive(Clone, Copy, Debug)]
pub struct Given {
    pub e: f64,
    pub e2: f64,
    pub scaled_q: f64,
    pub half_over_e: f64,
}

/// What 02 says, in the order of its words.
pub trait Rule {
    /// "The quotients in a round that hold only q and the projection's numbers, as q/(1 - e2)".
    fn scaled_q(&self, q: f64, e2: f64) -> f64 {
        q / (1.0 - e2)
    }

    /// "and 1/(2e)".
    fn half_over_e(&self, e: f64) -> f64 {
        1.0 / (2.0 * e)
    }

    /// They "never change within one point, so work them out before the rounds".
    fn before(&self, q: f64, e: f64, e2: f64) -> Given {
        let scaled_q = self.scaled_q(q, e2);
        let half_over_e = self.half_over_e(e);
        Given {
            e,
            e2,
            scaled_q,
            half_over_e,
        }
    }

    /// (w×w)/(2 cos lat), which holds the latitude and stays.
    fn factor(&self, w: f64, lat: f64) -> f64 {
        w * w / (2.0 * cos(lat))
    }

    /// s/w, which does too.
    fn sine_over_w(&self, s: f64, w: f64) -> f64 {
        s / w
    }

    /// And so does this.
    fn logarithm(&self, e_s: f64) -> f64 {
        ln((1.0 - e_s) / (1.0 + e_s))
    }

    /// The definition's order, from left to right.
    fn sum(&self, given: &Given, sine_over_w: f64, logarithm: f64) -> f64 {
        given.scaled_q - sine_over_w + given.half_over_e * logarithm
    }

    /// "a round given them equals the definition's round bit for bit"
    fn round(&self, given: &Given, lat: f64) -> f64 {
        let s = sin(lat);
        let w = 1.0 - given.e2 * s * s;
        let (sine_over_w, logarithm) = (self.sine_over_w(s, w), self.logarithm(given.e * s));
        lat + self.factor(w, lat) * self.sum(given, sine_over_w, logarithm)
    }

    /// Where the rounds start. Its quotient is none of a round's.
    fn start(&self, q: f64) -> f64 {
        asin(q / 2.0)
    }

    /// Whether a round is the last.
    fn settled(&self, next: f64, lat: f64) -> bool {
        (next - lat).abs() < TOLERANCE
    }

    fn rounds(&self) -> usize {
        ROUNDS
    }

    /// The rounds from a latitude on.
    fn rounds_from(&self, given: &Given, mut lat: f64) -> Result<f64, u8> {
        for _ in 0..self.rounds() {
            let next = self.round(given, lat);
            if self.settled(next, lat) {
                return Ok(next);
            }
            lat = next;
        }
        Err(USED_UP)
    }

    /// "every answer and refusal remains": the source's rounds.
    fn latitude(&self, q: f64, e: f64, e2: f64) -> Result<f64, u8> {
        self.rounds_from(&self.before(q, e, e2), self.start(q))
    }

    /// Whether there are no rounds: where e2 is 0.
    fn on_sphere(&self, numbers: &Numbers) -> bool {
        sphere::Meant.applies(Sphere::of(numbers).e2)
    }

    /// 23 and 24, and the longitude normalised.
    fn place(&self, lon: f64, lat: f64) -> Answer {
        sphere::Meant.place(lon, lat)
    }

    /// As on the sphere but for the latitude: 22 comes after 20, and before 23 and 24.
    fn inverse(&self, question: &Handed) -> Answer {
        let Handed { numbers, point } = question;
        let (on, [x, y]) = (Sphere::of(numbers), *point);
        if self.on_sphere(numbers) {
            return sphere::Meant.inverse(&on, x, y);
        }
        let refused = validate_projected(x, y);
        if refused != 0 {
            return Answer::refused(refused);
        }
        let [dx, dy] = question.offset();
        let q = sphere::Meant.q_of(&on, dx, dy);
        match self.latitude(q, numbers[E], on.e2) {
            Ok(lat) => self.place(sphere::Meant.longitude(&on, dx, dy), lat),
            Err(number) => Answer::refused(number),
        }
    }
}

/// 02 as it is meant.
pub struct Meant;

impl Rule for Meant {}

/// The definition's round, which works out each quotient in its place.
pub fn defined_round(q: f64, e: f64, e2: f64, lat: f64) -> f64 {
    let s = sin(lat);
    let e_s = e * s;
    let w = 1.0 - e2 * s * s;
    let logarithm = ln((1.0 - e_s) / (1.0 + e_s));
    let sum = q / (1.0 - e2) - s / w + 1.0 / (2.0 * e) * logarithm;
    lat + w * w / (2.0 * cos(lat)) * sum
}
