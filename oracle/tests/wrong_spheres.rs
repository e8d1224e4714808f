//! Wrong readings of 02's Albers on a sphere: each gives another answer to a line that crates/replay
//! has stored, and to one that `lines` or `spheres` draws.

use oracle::expected::{answer, answer_by};
use oracle::fixed::{asin, atan2, cos, root, signum, sin};
use oracle::line::{Answer, LAT0, LAT1, LAT2, Line, WAYS};
use oracle::lines::{Lines, SORTS};
use oracle::source::fixed::parts::{ensure_finite_lon_lat, normalize_longitude};
use oracle::sphere::{CONE_CONSTANT, Meant, NO_CONE, ONE_PARALLEL, Rule, Sphere};
use oracle::spheres::{SHAPES, Spheres};
use oracle::stored;
use std::f64::consts::FRAC_PI_2;

const WRONG: [(&str, &dyn Rule); 49] = [
    // which e2
    ("no sphere at all", &NoSphere),
    ("every ellipsoid is a sphere", &EverySphere),
    ("an e2 below 1e-15 is a sphere's", &TinySphere),
    ("f = -0 is none", &MinusZeroLeftOut),
    // n
    ("one parallel at 1e-10", &OneAtTheTolerance),
    ("one parallel below 1e-12", &OneBelow(1e-12)),
    ("one parallel below 1e-9", &OneBelow(1e-9)),
    (
        "one parallel by the difference without its size",
        &OneWithoutSize,
    ),
    ("one parallel by the sines", &OneBySines),
    ("one parallel only where they are equal", &OneWhereEqual),
    ("no opposite parallels are one", &OppositeNeverOne),
    ("n is the second sine of one parallel", &SecondSine),
    ("n is the mean of one parallel too", &MeanOfOne),
    ("n is the sum", &HalfLeftOut),
    ("n is the sine of the mean latitude", &SineOfMean),
    ("n is the ellipsoid's quotient", &QuotientOfSquares),
    // 15
    ("15 for every opposite pair", &OppositeRefused),
    ("15 only where n is 0", &OnlyZeroRefused),
    ("15 at 1e-12", &RefusedAtTheTolerance),
    ("15 below 1e-10", &RefusedBelow(1e-10)),
    ("15 without the size of n", &RefusedWithoutSize),
    ("15 left out", &NeverRefused),
    ("15 before 6 to 10", &RefusedFirst),
    ("15 after 16, 17 and 20", &RefusedAtThePoint),
    // C and rho
    ("C has the cosine unsquared", &CosineUnsquared),
    ("C has n for 2n", &OneN),
    ("C is of lat2", &OfSecond),
    ("C is 1 + n²", &OfOneParallel),
    ("rho without the size", &RhoWithoutSize),
    ("a negative C - nq is 0", &RhoFromZero),
    ("rho over the size of n", &RhoOverSize),
    ("a/n before the root", &RhoRegrouped),
    ("rho0 at lat1", &OriginAtParallel),
    ("q is sin lat", &QHalved),
    // the longitude forward
    ("the distance from lon0 is not normalised", &DistanceAsGiven),
    ("both longitudes are normalised first", &BothNormalised),
    // the inverse
    ("the arcsine is clamped", &Clamped(f64::INFINITY)),
    ("the arcsine is clamped within 1e-12", &Clamped(1e-12)),
    ("22 off the map", &RoundsOffTheMap),
    ("22 where the arcsine is 1", &RoundsAtThePole),
    ("24 where the arcsine is 1", &PoleRefused),
    ("the arcsine of q", &ArcsineOfQ),
    ("q of rho's square, never rooted", &NeverRooted),
    ("q of the square of rho n / a", &SquareOfQuotient),
    ("q of a quotient by a, twice", &QuotientTwice),
    ("the northing's offset is added last", &OffsetLast),
    ("signum left out", &SignumLeftOut),
    ("the longitude is not normalised", &LongitudeAsFormed),
    ("the longitude is normalised before lon0", &ThetaNormalised),
];

#[test]
fn a_stored_line_notices() {
    let stored = stored();
    assert_eq!(noticing(&stored, &Meant), 0);
    let mut unnoticed = Vec::new();
    for (name, rule) in WRONG {
        let lines = noticing(&stored, rule);
        println!("{lines} lines notice: {name}");
        if lines == 0 {
            unnoticed.push(name);
        }
    }
    assert!(unnoticed.is_empty(), "{unnoticed:?}");
}

/// How many of the lines a rule answers otherwise.
fn noticing(stored: &[(Line, String)], rule: &dyn Rule) -> usize {
    let other = |(line, answer): &&(Line, String)| answer_by(rule, line).text() != *answer;
    stored.iter().filter(other).count()
}

/// The stored lines of Albers.
fn stored() -> Vec<(Line, String)> {
    stored::read(&["F,A,", "I,A,"], |text| Line::read(text.as_bytes()))
}

#[test]
fn a_drawn_line_notices() {
    let mut unnoticed = WRONG.to_vec();
    for way in WAYS {
        let mut lines = Lines::new(way, b'A', 100);
        let mut spheres = Spheres::new(way, 100);
        for place in 0..200_000 {
            let drawn = [
                lines.next(SORTS[place % SORTS.len()]),
                spheres.next(SHAPES[place % SHAPES.len()]),
            ];
            for line in drawn {
                let meant = answer(&line);
                unnoticed.retain(|(_, rule)| answer_by(*rule, &line) == meant);
            }
        }
    }
    let names: Vec<_> = unnoticed.iter().map(|(name, _)| name).collect();
    assert!(names.is_empty(), "{names:?}");
}

struct NoSphere;
impl Rule for NoSphere {
    fn applies(&self, _: f64) -> bool {
        false
    }
}

struct EverySphere;
impl Rule for EverySphere {
    fn applies(&self, _: f64) -> bool {
        true
    }
}

struct TinySphere;
impl Rule for TinySphere {
    fn applies(&self, e2: f64) -> bool {
        e2.abs() < 1e-15
    }
}

struct MinusZeroLeftOut;
impl Rule for MinusZeroLeftOut {
    fn applies(&self, e2: f64) -> bool {
        e2.to_bits() == 0
    }
}

struct OneAtTheTolerance;
impl Rule for OneAtTheTolerance {
    fn one_parallel(&self, lat1: f64, lat2: f64) -> bool {
        (lat1 - lat2).abs() <= ONE_PARALLEL
    }
}

struct OneBelow(f64);
impl Rule for OneBelow {
    fn one_parallel(&self, lat1: f64, lat2: f64) -> bool {
        (lat1 - lat2).abs() < self.0
    }
}

struct OneWithoutSize;
impl Rule for OneWithoutSize {
    fn one_parallel(&self, lat1: f64, lat2: f64) -> bool {
        lat1 - lat2 < ONE_PARALLEL
    }
}

struct OneBySines;
impl Rule for OneBySines {
    fn one_parallel(&self, lat1: f64, lat2: f64) -> bool {
        (sin(lat1) - sin(lat2)).abs() < ONE_PARALLEL
    }
}

struct OneWhereEqual;
impl Rule for OneWhereEqual {
    fn one_parallel(&self, lat1: f64, lat2: f64) -> bool {
        lat1 == lat2
    }
}

struct OppositeNeverOne;
impl Rule for OppositeNeverOne {
    fn one_parallel(&self, lat1: f64, lat2: f64) -> bool {
        lat1 * lat2 >= 0.0 && Meant.one_parallel(lat1, lat2)
    }
}

struct SecondSine;
impl Rule for SecondSine {
    fn n(&self, lat1: f64, lat2: f64) -> f64 {
        match self.one_parallel(lat1, lat2) {
            true => sin(lat2),
            false => Meant.n(lat1, lat2),
        }
    }
}

struct MeanOfOne;
impl Rule for MeanOfOne {
    fn one_parallel(&self, _: f64, _: f64) -> bool {
        false
    }
}

struct HalfLeftOut;
impl Rule for HalfLeftOut {
    fn n(&self, lat1: f64, lat2: f64) -> f64 {
        match self.one_parallel(lat1, lat2) {
            true => sin(lat1),
            false => sin(lat1) + sin(lat2),
        }
    }
}

struct SineOfMean;
impl Rule for SineOfMean {
    fn n(&self, lat1: f64, lat2: f64) -> f64 {
        sin((lat1 + lat2) / 2.0)
    }
}

struct QuotientOfSquares;
impl Rule for QuotientOfSquares {
    fn n(&self, lat1: f64, lat2: f64) -> f64 {
        let squares = cos(lat1) * cos(lat1) - cos(lat2) * cos(lat2);
        match self.one_parallel(lat1, lat2) {
            true => sin(lat1),
            false => squares / (self.q(lat2) - self.q(lat1)),
        }
    }
}

struct OppositeRefused;
impl Rule for OppositeRefused {
    fn build(&self, fields: &[f64; 10]) -> Result<Sphere, u8> {
        let built = Meant.build(fields)?;
        match fields[LAT1] == -fields[LAT2] {
            true => Err(CONE_CONSTANT),
            false => Ok(built),
        }
    }
}

struct OnlyZeroRefused;
impl Rule for OnlyZeroRefused {
    fn refuses(&self, n: f64) -> bool {
        n == 0.0
    }
}

struct RefusedAtTheTolerance;
impl Rule for RefusedAtTheTolerance {
    fn refuses(&self, n: f64) -> bool {
        n.abs() <= NO_CONE
    }
}

struct RefusedBelow(f64);
impl Rule for RefusedBelow {
    fn refuses(&self, n: f64) -> bool {
        n.abs() < self.0
    }
}

struct RefusedWithoutSize;
impl Rule for RefusedWithoutSize {
    fn refuses(&self, n: f64) -> bool {
        n < NO_CONE
    }
}

struct NeverRefused;
impl Rule for NeverRefused {
    fn refuses(&self, _: f64) -> bool {
        false
    }
}

struct RefusedFirst;
impl Rule for RefusedFirst {
    fn settings(&self, fields: &[f64; 10]) -> u8 {
        match self.refuses(self.n(fields[LAT1], fields[LAT2])) {
            true => CONE_CONSTANT,
            false => Meant.settings(fields),
        }
    }
}

/// The point is looked at by the same projection with other parallels.
struct RefusedAtThePoint;
impl Rule for RefusedAtThePoint {
    fn build(&self, fields: &[f64; 10]) -> Result<Sphere, u8> {
        let mut other = *fields;
        [other[LAT1], other[LAT2]] = [0.5, 0.5];
        match Meant.build(fields) {
            Err(CONE_CONSTANT) => Meant.build(&other).map(|on| Sphere { n: 0.0, ..on }),
            built => built,
        }
    }

    fn project(&self, on: &Sphere, way: u8, u: f64, v: f64) -> Answer {
        match Meant.project(on, way, u, v) {
            input if matches!(input.number, 16 | 17 | 20) => input,
            _ if on.n == 0.0 => Answer::refused(CONE_CONSTANT),
            answer => answer,
        }
    }
}

struct CosineUnsquared;
impl Rule for CosineUnsquared {
    fn c(&self, lat1: f64, n: f64) -> f64 {
        cos(lat1) + 2.0 * n * sin(lat1)
    }
}

struct OneN;
impl Rule for OneN {
    fn c(&self, lat1: f64, n: f64) -> f64 {
        cos(lat1) * cos(lat1) + n * sin(lat1)
    }
}

struct OfSecond;
impl Rule for OfSecond {
    fn build(&self, fields: &[f64; 10]) -> Result<Sphere, u8> {
        let on = Meant.build(fields)?;
        let c = self.c(fields[LAT2], on.n);
        let rho0 = self.rho(on.a, c, on.n, self.q(fields[LAT0]));
        Ok(Sphere { c, rho0, ..on })
    }
}

struct OfOneParallel;
impl Rule for OfOneParallel {
    fn c(&self, _: f64, n: f64) -> f64 {
        1.0 + n * n
    }
}

struct RhoWithoutSize;
impl Rule for RhoWithoutSize {
    fn rho(&self, a: f64, c: f64, n: f64, q: f64) -> f64 {
        a * root(c - n * q) / n
    }
}

struct RhoFromZero;
impl Rule for RhoFromZero {
    fn rho(&self, a: f64, c: f64, n: f64, q: f64) -> f64 {
        a * root((c - n * q).max(0.0)) / n
    }
}

struct RhoOverSize;
impl Rule for RhoOverSize {
    fn rho(&self, a: f64, c: f64, n: f64, q: f64) -> f64 {
        Meant.rho(a, c, n, q).abs()
    }
}

struct RhoRegrouped;
impl Rule for RhoRegrouped {
    fn rho(&self, a: f64, c: f64, n: f64, q: f64) -> f64 {
        a / n * root((c - n * q).abs())
    }
}

struct OriginAtParallel;
impl Rule for OriginAtParallel {
    fn build(&self, fields: &[f64; 10]) -> Result<Sphere, u8> {
        let on = Meant.build(fields)?;
        let rho0 = self.rho(on.a, on.c, on.n, self.q(fields[LAT1]));
        Ok(Sphere { rho0, ..on })
    }
}

struct QHalved;
impl Rule for QHalved {
    fn q(&self, lat: f64) -> f64 {
        sin(lat)
    }
}

struct DistanceAsGiven;
impl Rule for DistanceAsGiven {
    fn east_of_origin(&self, lon: f64, lon0: f64) -> f64 {
        lon - lon0
    }
}

struct BothNormalised;
impl Rule for BothNormalised {
    fn east_of_origin(&self, lon: f64, lon0: f64) -> f64 {
        normalize_longitude(normalize_longitude(lon) - normalize_longitude(lon0))
    }
}

/// Where it is beyond 1 by at most so much.
struct Clamped(f64);
impl Rule for Clamped {
    fn latitude(&self, q: f64) -> f64 {
        let sine = q / 2.0;
        match sine.abs() - 1.0 <= self.0 {
            true => asin(sine.clamp(-1.0, 1.0)),
            false => Meant.latitude(q),
        }
    }
}

/// The source's rounds, which NaN does not end.
struct RoundsOffTheMap;
impl Rule for RoundsOffTheMap {
    fn place(&self, lon: f64, lat: f64) -> Answer {
        match lat.is_nan() {
            true => Answer::refused(22),
            false => Meant.place(lon, lat),
        }
    }
}

struct RoundsAtThePole;
impl Rule for RoundsAtThePole {
    fn place(&self, lon: f64, lat: f64) -> Answer {
        match lat.abs() == FRAC_PI_2 {
            true => Answer::refused(22),
            false => Meant.place(lon, lat),
        }
    }
}

struct PoleRefused;
impl Rule for PoleRefused {
    fn place(&self, lon: f64, lat: f64) -> Answer {
        match lat.abs() >= FRAC_PI_2 {
            true => Answer::refused(24),
            false => Meant.place(lon, lat),
        }
    }
}

struct ArcsineOfQ;
impl Rule for ArcsineOfQ {
    fn latitude(&self, q: f64) -> f64 {
        asin(q)
    }
}

struct NeverRooted;
impl Rule for NeverRooted {
    fn q_of(&self, on: &Sphere, dx: f64, dy: f64) -> f64 {
        (on.c - (dx * dx + dy * dy) * on.n * on.n / (on.a * on.a)) / on.n
    }
}

struct SquareOfQuotient;
impl Rule for SquareOfQuotient {
    fn q_of(&self, on: &Sphere, dx: f64, dy: f64) -> f64 {
        let quotient = root(dx * dx + dy * dy) * on.n / on.a;
        (on.c - quotient * quotient) / on.n
    }
}

struct QuotientTwice;
impl Rule for QuotientTwice {
    fn q_of(&self, on: &Sphere, dx: f64, dy: f64) -> f64 {
        let rho = root(dx * dx + dy * dy);
        (on.c - rho * rho * on.n * on.n / on.a / on.a) / on.n
    }
}

struct OffsetLast;
impl Rule for OffsetLast {
    fn inverse(&self, on: &Sphere, x: f64, y: f64) -> Answer {
        let other = Sphere {
            rho0: on.rho0 + on.fn_,
            fn_: 0.0,
            ..*on
        };
        Meant.inverse(&other, x, y)
    }
}

struct SignumLeftOut;
impl Rule for SignumLeftOut {
    fn longitude(&self, on: &Sphere, dx: f64, dy: f64) -> f64 {
        on.lon0 + atan2(dx, dy) / on.n
    }
}

struct LongitudeAsFormed;
impl Rule for LongitudeAsFormed {
    fn place(&self, lon: f64, lat: f64) -> Answer {
        match ensure_finite_lon_lat(lon, lat) {
            0 => Answer::pair(lon, lat),
            number => Answer::refused(number),
        }
    }
}

struct ThetaNormalised;
impl Rule for ThetaNormalised {
    fn longitude(&self, on: &Sphere, dx: f64, dy: f64) -> f64 {
        let theta = atan2(dx * signum(on.n), dy * signum(on.n));
        on.lon0 + normalize_longitude(theta / on.n)
    }
}
