//! Document 02's Albers on a sphere, from its words alone, with 01's functions. What 02 takes "as on
//! the ellipsoid" has the source's order of operations, and the checks are the source's own. Each
//! step is a method of `Rule`, so that a test can put a wrong reading in its place.

use crate::fixed::{asin, atan2, cos, root, signum, sin};
use crate::line::Answer;
use crate::source::fixed::parts::{
    e2, ensure_finite_lon_lat, ensure_finite_xy, normalize_longitude, validate_angle,
    validate_latitude_param, validate_lon_lat, validate_offset, validate_projected,
};

/// Parallels that differ by less count as one.
pub const ONE_PARALLEL: f64 = 1e-10;

/// An n below this in size is refused.
pub const NO_CONE: f64 = 1e-12;

/// 01's numbers for that, and for a false northing.
pub const CONE_CONSTANT: u8 = 15;
pub const FALSE_NORTHING: u8 = 10;

/// The numbers of an Albers, in the source's order: a, e, e2, lon0, n, c, rho0 and the offsets.
pub type Numbers = [f64; 9];

/// The places of e and e2 among them.
pub const E: usize = 1;
pub const E2: usize = 2;

/// One that is built on a sphere: all of these but e, which its formulas do not have.
#[derive(Clone, Copy, Debug)]
pub struct Sphere {
    pub a: f64,
    pub e2: f64,
    pub lon0: f64,
    pub n: f64,
    pub c: f64,
    pub rho0: f64,
    pub fe: f64,
    pub fn_: f64,
}

impl Sphere {
    /// Of any numbers, unchecked.
    pub fn of(numbers: &Numbers) -> Sphere {
        let [a, _, e2, lon0, n, c, rho0, fe, fn_] = *numbers;
        Sphere {
            a,
            e2,
            lon0,
            n,
            c,
            rho0,
            fe,
            fn_,
        }
    }

    /// Its numbers, with any e.
    pub fn numbers(&self, e: f64) -> Numbers {
        let Sphere {
            a,
            e2,
            lon0,
            n,
            c,
            rho0,
            fe,
            fn_,
        } = *self;
        [a, e, e2, lon0, n, c, rho0, fe, fn_]
    }
}

/// What 02 says, in the order of its words. "Opposite parallels that differ by 1e-10 or more now get
/// 15" is no step of its own: their n is 0, and 01's check is on n.
pub trait Rule {
    /// "For e2 exactly 0": -0 is 0.
    fn applies(&self, e2: f64) -> bool {
        e2 == 0.0
    }

    /// "q is 2 sin lat."
    fn q(&self, lat: f64) -> f64 {
        2.0 * sin(lat)
    }

    /// "when the parallels differ by less than 1e-10"
    fn one_parallel(&self, lat1: f64, lat2: f64) -> bool {
        (lat1 - lat2).abs() < ONE_PARALLEL
    }

    /// "n is half the sum of the parallels' sines, or sin lat1" where they are one.
    fn n(&self, lat1: f64, lat2: f64) -> f64 {
        if self.one_parallel(lat1, lat2) {
            sin(lat1)
        } else {
            (sin(lat1) + sin(lat2)) / 2.0
        }
    }

    /// 01's 15.
    fn refuses(&self, n: f64) -> bool {
        n.abs() < NO_CONE
    }

    /// "C is cos² lat1 + 2n sin lat1".
    fn c(&self, lat1: f64, n: f64) -> f64 {
        cos(lat1) * cos(lat1) + 2.0 * n * sin(lat1)
    }

    /// "rho is a×root(|C - nq|)/n".
    fn rho(&self, a: f64, c: f64, n: f64, q: f64) -> f64 {
        a * root((c - n * q).abs()) / n
    }

    /// 01's 6 to 10, the first that a setting gets, as on the ellipsoid; 0 where none does.
    fn settings(&self, fields: &[f64; 10]) -> u8 {
        let [_, _, lon0, lat0, lat1, lat2, fe, fn_, ..] = *fields;
        let numbers = [
            validate_angle(lon0),
            validate_latitude_param(lat0),
            validate_latitude_param(lat1),
            validate_latitude_param(lat2),
            validate_offset(fe),
            FALSE_NORTHING * u8::from(!fn_.is_finite()),
        ];
        let first = numbers.into_iter().find(|&number| number != 0);
        first.unwrap_or(0)
    }

    /// From the fields of a line whose a and f are an ellipsoid's.
    fn build(&self, fields: &[f64; 10]) -> Result<Sphere, u8> {
        let refused = self.settings(fields);
        if refused != 0 {
            return Err(refused);
        }
        let [a, f, lon0, lat0, lat1, lat2, fe, fn_, ..] = *fields;
        let n = self.n(lat1, lat2);
        if self.refuses(n) {
            return Err(CONE_CONSTANT);
        }
        let c = self.c(lat1, n);
        let rho0 = self.rho(a, c, n, self.q(lat0));
        let e2 = e2(a, f);
        Ok(Sphere {
            a,
            e2,
            lon0,
            n,
            c,
            rho0,
            fe,
            fn_,
        })
    }

    /// What theta is n times of, as on the ellipsoid.
    fn east_of_origin(&self, lon: f64, lon0: f64) -> f64 {
        normalize_longitude(lon - lon0)
    }

    /// As on the ellipsoid but for q, its checks too.
    fn forward(&self, on: &Sphere, lon: f64, lat: f64) -> Answer {
        let refused = validate_lon_lat(lon, lat);
        if refused != 0 {
            return Answer::refused(refused);
        }
        let rho = self.rho(on.a, on.c, on.n, self.q(lat));
        let theta = on.n * self.east_of_origin(lon, on.lon0);
        let x = on.fe + rho * sin(theta);
        let y = on.fn_ + on.rho0 - rho * cos(theta);
        match ensure_finite_xy(x, y) {
            0 => Answer::pair(x, y),
            refused => Answer::refused(refused),
        }
    }

    /// "That q" is "formed .. as on the ellipsoid", from the offsets of the apex.
    fn q_of(&self, on: &Sphere, dx: f64, dy: f64) -> f64 {
        let rho = root(dx * dx + dy * dy);
        (on.c - rho * rho * on.n * on.n / (on.a * on.a)) / on.n
    }

    /// "the inverse latitude is the arcsine of q/2", which beyond 1 is NaN.
    fn latitude(&self, q: f64) -> f64 {
        asin(q / 2.0)
    }

    /// "the longitude" is "formed .. as on the ellipsoid".
    fn longitude(&self, on: &Sphere, dx: f64, dy: f64) -> f64 {
        let theta = atan2(dx * signum(on.n), dy * signum(on.n));
        on.lon0 + theta / on.n
    }

    /// "and the latter normalised, as on the ellipsoid": "an arcsine beyond 1 gets 23".
    fn place(&self, lon: f64, lat: f64) -> Answer {
        match ensure_finite_lon_lat(lon, lat) {
            0 => Answer::pair(normalize_longitude(lon), lat),
            refused => Answer::refused(refused),
        }
    }

    fn inverse(&self, on: &Sphere, x: f64, y: f64) -> Answer {
        let refused = validate_projected(x, y);
        if refused != 0 {
            return Answer::refused(refused);
        }
        let dx = x - on.fe;
        let dy = on.rho0 - (y - on.fn_);
        let lat = self.latitude(self.q_of(on, dx, dy));
        self.place(self.longitude(on, dx, dy), lat)
    }

    fn project(&self, on: &Sphere, way: u8, u: f64, v: f64) -> Answer {
        match way {
            b'F' => self.forward(on, u, v),
            _ => self.inverse(on, u, v),
        }
    }
}

/// 02 as it is meant.
pub struct Meant;

impl Rule for Meant {}
