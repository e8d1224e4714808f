//! Wrong readings of 02's rounds of the Albers inverse: each gives another answer to a question that
//! crates/replay has stored, and to one that `lines` or `inverses` draws. Some keep what they have
//! worked out, so the questions are asked in turn.

use oracle::area::BOUND;
use oracle::fixed::{asin, cos, ln, root, sin};
use oracle::inverses::{Inverses, SHAPES};
use oracle::line::{Answer, Line, U, V};
use oracle::lines::{Lines, SORTS};
use oracle::rounds::{Given, Handed, Meant, ROUNDS, Rule, TOLERANCE, USED_UP};
use oracle::source::fixed::parts::{normalize_longitude, validate_projected};
use oracle::sphere::{self, E, E2, Numbers, Rule as _, Sphere};
use oracle::stored;
use std::cell::Cell;

type Wrong = (&'static str, Box<dyn Rule>);

fn wrong() -> Vec<Wrong> {
    vec![
        // q/(1 - e2)
        of("q times the reciprocal of 1 - e2", TimesReciprocal),
        of("q over (1 - e)(1 + e)", OverFactors),
        of("q over 1 - e×e", OverSquare),
        of("q itself", Scaled(|q, _| q)),
        of("q/2", Scaled(|q, _| q / 2.0)),
        of("q×(1 - e2)", Scaled(|q, e2| q * (1.0 - e2))),
        of("q/(1 + e2)", Scaled(|q, e2| q / (1.0 + e2))),
        of("q itself where e2 is 1", ItselfAtOne),
        // 1/(2e)
        of("2/e", Half(|e| 2.0 / e)),
        of("1/e", Half(|e| 1.0 / e)),
        of("e/2", Half(|e| e / 2.0)),
        of("0.5/e", Half(|e| 0.5 / e)),
        of("0.5×(1/e)", Half(|e| 0.5 * (1.0 / e))),
        of("e without its sign", Half(|e| 1.0 / (2.0 * e.abs()))),
        of("0 where e is 0", ZeroWhere(|e, _| e == 0.0)),
        of(
            "0 where it is not finite",
            ZeroWhere(|_, half| !half.is_finite()),
        ),
        of("1/(2e) from the root of e2", HalfFromSquare),
        of("e from the root of e2", RootOfSquare),
        // the sum
        of("s/w last", SineLast),
        of("the last two first", LastTwoFirst),
        of("the last product fused", Fused),
        of("the logarithm over 2e", LogarithmOver),
        of("the factor on each term", FactorOnEach),
        of("the sum before the cosine", SumBeforeCosine),
        // what stays in the round
        of("w×(w/(2 cos lat))", Factor(|w, cos| w * (w / (2.0 * cos)))),
        of(
            "w×w times a reciprocal",
            Factor(|w, cos| w * w * (1.0 / (2.0 * cos))),
        ),
        of("w×w over cos lat", Factor(|w, cos| w * w / cos)),
        of("w over 2 cos lat", Factor(|w, cos| w / (2.0 * cos))),
        of("s times a reciprocal", SineTimesReciprocal),
        of(
            "a difference of logarithms",
            Logarithm(|x| ln(1.0 - x) - ln(1.0 + x)),
        ),
        of(
            "the logarithm turned about",
            Logarithm(|x| -ln((1.0 + x) / (1.0 - x))),
        ),
        of(
            "w from e s",
            W(|given, s| 1.0 - given.e * s * (given.e * s)),
        ),
        of(
            "w with s squared first",
            W(|given, s| 1.0 - given.e2 * (s * s)),
        ),
        // kept too long
        of("the last point's q/(1 - e2)", LastQ::default()),
        of("the first point's q/(1 - e2)", FirstQ::default()),
        of("q/(1 - e2) kept for an e2", QForSquare::default()),
        of("q/(1 - e2) kept for a q", QForQ::default()),
        of("the last projection's 1/(2e)", LastHalf::default()),
        of("the first projection's 1/(2e)", FirstHalf::default()),
        of("1/(2e) kept for an e2", HalfForSquare::default()),
        of("s/w of the first round", SineKept::default()),
        of(
            "(w×w)/(2 cos lat) of the first round",
            FactorKept::default(),
        ),
        of("the logarithm of the first round", LogarithmKept::default()),
        // the rounds
        of("14 rounds", Rounds(ROUNDS - 1)),
        of("16 rounds", Rounds(ROUNDS + 1)),
        of(
            "settled at 1e-14 itself",
            Settled(|change| change.abs() <= TOLERANCE),
        ),
        of(
            "settled below 1e-15",
            Settled(|change| change.abs() < 1e-15),
        ),
        of(
            "settled below 1e-12",
            Settled(|change| change.abs() < 1e-12),
        ),
        of(
            "settled by a change down",
            Settled(|change| change < TOLERANCE),
        ),
        of("settled where the change is no number", SettledByNaN),
        of("the latitude before the last round", BeforeTheLast),
        of("the last round's where all are used up", NeverUsedUp),
        of("started at the arcsine of q/(1 - e2)/2", StartedScaled),
        of("started at the arcsine of q", Started(asin)),
        of(
            "started at a clamped arcsine",
            Started(|q| asin((q / 2.0).clamp(-1.0, 1.0))),
        ),
        of("started at 0", Started(|_| 0.0)),
        of("q/2 at once where q is 0", ZeroAtOnce),
        of("a negative q mirrored", Mirrored),
        // the refusals
        of("22 before 20 where a quotient is not finite", UsedUpFirst),
        of(
            "22 where e is 0, on a sphere too",
            UsedUpWhere(|e, _| e == 0.0),
        ),
        of("22 where e is negative", UsedUpWhere(|e, _| e < 0.0)),
        of("22 where e is above 1", UsedUpWhere(|e, _| e > 1.0)),
        of("22 where e2 is negative", UsedUpWhere(|_, e2| e2 < 0.0)),
        of("22 where e2 is above 1", UsedUpWhere(|_, e2| e2 > 1.0)),
        of(
            "22 where 1 - e2 is nearly 0",
            UsedUpWhere(|_, e2| (1.0 - e2).abs() < 1e-12),
        ),
        of("22 where q is 2 or more in size", UsedUpBeyond),
        of("23 before 22", ResultFirst),
        of("24 before 23", BeyondFirst),
        of("23 left out", Passes(23)),
        of("24 left out", Passes(24)),
        // the sphere
        of("rounds on a sphere", OnSphere(|_, _| false)),
        of("rounds where e2 is -0", OnSphere(|_, e2| e2.to_bits() == 0)),
        of("no rounds below 1e-15", OnSphere(|_, e2| e2.abs() < 1e-15)),
        of("no rounds where e is 0", OnSphere(|e, _| e == 0.0)),
        of(
            "rounds where e is not 0",
            OnSphere(|e, e2| e == 0.0 && e2 == 0.0),
        ),
    ]
}

fn of(name: &'static str, rule: impl Rule + 'static) -> Wrong {
    (name, Box::new(rule))
}

#[test]
fn a_stored_question_notices() {
    let stored = questions();
    assert_eq!(noticing(&stored, &Meant), 0);
    let mut unnoticed = Vec::new();
    for (name, rule) in wrong() {
        let questions = noticing(&stored, &*rule);
        println!("{questions} questions notice: {name}");
        if questions == 0 {
            unnoticed.push(name);
        }
    }
    assert!(unnoticed.is_empty(), "{unnoticed:?}");
}

/// How many of the questions a rule answers otherwise.
fn noticing(stored: &[(Handed, String)], rule: &dyn Rule) -> usize {
    let other = |(question, answer): &&(Handed, String)| rule.inverse(question).text() != *answer;
    stored.iter().filter(other).count()
}

/// The stored lines whose projection is built, and what is handed in.
fn questions() -> Vec<(Handed, String)> {
    let lines = stored::read(&["I,A,"], |text| Line::read(text.as_bytes()));
    let built = |(line, answer)| Some((Handed::built(&line).ok()?, answer));
    let handed = stored::read(&["albers_inverse,"], Handed::read);
    lines.into_iter().filter_map(built).chain(handed).collect()
}

#[test]
fn a_drawn_question_notices() {
    let mut unnoticed = wrong();
    let mut lines = Lines::new(b'I', b'A', 100);
    let mut inverses = Inverses::new(100);
    for place in 0..100_000 {
        let mut drawn = vec![
            inverses.next(SHAPES[place % SHAPES.len()]),
            inverses.replaced(),
        ];
        let mut line = lines.next(SORTS[place % SORTS.len()]);
        for point in inverses.points(&line, 3) {
            [line.fields[U], line.fields[V]] = point;
            drawn.extend(Handed::built(&line));
        }
        for question in drawn {
            let meant = Meant.inverse(&question);
            unnoticed.retain(|(_, rule)| rule.inverse(&question) == meant);
        }
        if unnoticed.is_empty() {
            break;
        }
    }
    let names: Vec<_> = unnoticed.iter().map(|(name, _)| name).collect();
    assert!(names.is_empty(), "{names:?}");
}

struct TimesReciprocal;
impl Rule for TimesReciprocal {
    fn scaled_q(&self, q: f64, e2: f64) -> f64 {
        q * (1.0 / (1.0 - e2))
    }
}

struct OverFactors;
impl Rule for OverFactors {
    fn before(&self, q: f64, e: f64, e2: f64) -> Given {
        let scaled_q = q / ((1.0 - e) * (1.0 + e));
        Given {
            scaled_q,
            ..Meant.before(q, e, e2)
        }
    }
}

struct OverSquare;
impl Rule for OverSquare {
    fn before(&self, q: f64, e: f64, e2: f64) -> Given {
        let scaled_q = q / (1.0 - e * e);
        Given {
            scaled_q,
            ..Meant.before(q, e, e2)
        }
    }
}

/// Another quotient of q and e2.
struct Scaled(fn(f64, f64) -> f64);
impl Rule for Scaled {
    fn scaled_q(&self, q: f64, e2: f64) -> f64 {
        self.0(q, e2)
    }
}

struct ItselfAtOne;
impl Rule for ItselfAtOne {
    fn scaled_q(&self, q: f64, e2: f64) -> f64 {
        match e2 == 1.0 {
            true => q,
            false => Meant.scaled_q(q, e2),
        }
    }
}

/// Another quotient of e.
struct Half(fn(f64) -> f64);
impl Rule for Half {
    fn half_over_e(&self, e: f64) -> f64 {
        self.0(e)
    }
}

/// By e and the quotient.
struct ZeroWhere(fn(f64, f64) -> bool);
impl Rule for ZeroWhere {
    fn half_over_e(&self, e: f64) -> f64 {
        let half = Meant.half_over_e(e);
        match self.0(e, half) {
            true => 0.0,
            false => half,
        }
    }
}

/// As a projection would keep it that is built.
struct HalfFromSquare;
impl Rule for HalfFromSquare {
    fn before(&self, q: f64, e: f64, e2: f64) -> Given {
        let half_over_e = Meant.half_over_e(root(e2));
        Given {
            half_over_e,
            ..Meant.before(q, e, e2)
        }
    }
}

struct RootOfSquare;
impl Rule for RootOfSquare {
    fn before(&self, q: f64, _: f64, e2: f64) -> Given {
        Meant.before(q, root(e2), e2)
    }
}

struct SineLast;
impl Rule for SineLast {
    fn sum(&self, given: &Given, sine_over_w: f64, logarithm: f64) -> f64 {
        given.scaled_q + given.half_over_e * logarithm - sine_over_w
    }
}

struct LastTwoFirst;
impl Rule for LastTwoFirst {
    fn sum(&self, given: &Given, sine_over_w: f64, logarithm: f64) -> f64 {
        given.scaled_q + (given.half_over_e * logarithm - sine_over_w)
    }
}

struct Fused;
impl Rule for Fused {
    fn sum(&self, given: &Given, sine_over_w: f64, logarithm: f64) -> f64 {
        let difference = given.scaled_q - sine_over_w;
        given.half_over_e.mul_add(logarithm, difference)
    }
}

struct LogarithmOver;
impl Rule for LogarithmOver {
    fn sum(&self, given: &Given, sine_over_w: f64, logarithm: f64) -> f64 {
        given.scaled_q - sine_over_w + logarithm / (2.0 * given.e)
    }
}

/// The sine of a latitude, and w.
fn sine_and_w(given: &Given, lat: f64) -> (f64, f64) {
    let s = sin(lat);
    (s, 1.0 - given.e2 * s * s)
}

struct FactorOnEach;
impl Rule for FactorOnEach {
    fn round(&self, given: &Given, lat: f64) -> f64 {
        let (s, w) = sine_and_w(given, lat);
        let product = given.half_over_e * self.logarithm(given.e * s);
        let factor = self.factor(w, lat);
        lat + (factor * given.scaled_q - factor * (s / w) + factor * product)
    }
}

struct SumBeforeCosine;
impl Rule for SumBeforeCosine {
    fn round(&self, given: &Given, lat: f64) -> f64 {
        let (s, w) = sine_and_w(given, lat);
        let sum = self.sum(given, s / w, self.logarithm(given.e * s));
        lat + w * w * sum / (2.0 * cos(lat))
    }
}

/// Another factor of w and the cosine.
struct Factor(fn(f64, f64) -> f64);
impl Rule for Factor {
    fn factor(&self, w: f64, lat: f64) -> f64 {
        self.0(w, cos(lat))
    }
}

struct SineTimesReciprocal;
impl Rule for SineTimesReciprocal {
    fn sine_over_w(&self, s: f64, w: f64) -> f64 {
        s * (1.0 / w)
    }
}

struct Logarithm(fn(f64) -> f64);
impl Rule for Logarithm {
    fn logarithm(&self, e_s: f64) -> f64 {
        self.0(e_s)
    }
}

/// Another w of the sine.
struct W(fn(&Given, f64) -> f64);
impl Rule for W {
    fn round(&self, given: &Given, lat: f64) -> f64 {
        let s = sin(lat);
        let w = self.0(given, s);
        let sum = self.sum(given, s / w, self.logarithm(given.e * s));
        lat + self.factor(w, lat) * sum
    }
}

/// A number that is kept, and for what.
#[derive(Default)]
struct Kept(Cell<Option<(u64, f64)>>);

impl Kept {
    /// The first that was worked out, until it is forgotten.
    fn first(&self, number: f64) -> f64 {
        self.first_for(0.0, number)
    }

    /// The first of a stretch with one key.
    fn first_for(&self, key: f64, number: f64) -> f64 {
        let key = key.to_bits();
        match self.0.get() {
            Some((kept, first)) if kept == key => first,
            _ => {
                self.0.set(Some((key, number)));
                number
            }
        }
    }

    /// The one before this.
    fn last(&self, number: f64) -> f64 {
        let last = self.0.replace(Some((0, number)));
        last.map_or(number, |(_, last)| last)
    }

    fn forget(&self) {
        self.0.set(None);
    }
}

#[derive(Default)]
struct LastQ(Kept);
impl Rule for LastQ {
    fn scaled_q(&self, q: f64, e2: f64) -> f64 {
        self.0.last(q / (1.0 - e2))
    }
}

#[derive(Default)]
struct FirstQ(Kept);
impl Rule for FirstQ {
    fn scaled_q(&self, q: f64, e2: f64) -> f64 {
        self.0.first(q / (1.0 - e2))
    }
}

#[derive(Default)]
struct QForSquare(Kept);
impl Rule for QForSquare {
    fn scaled_q(&self, q: f64, e2: f64) -> f64 {
        self.0.first_for(e2, q / (1.0 - e2))
    }
}

#[derive(Default)]
struct QForQ(Kept);
impl Rule for QForQ {
    fn scaled_q(&self, q: f64, e2: f64) -> f64 {
        self.0.first_for(q, q / (1.0 - e2))
    }
}

#[derive(Default)]
struct LastHalf(Kept);
impl Rule for LastHalf {
    fn half_over_e(&self, e: f64) -> f64 {
        self.0.last(1.0 / (2.0 * e))
    }
}

#[derive(Default)]
struct FirstHalf(Kept);
impl Rule for FirstHalf {
    fn half_over_e(&self, e: f64) -> f64 {
        self.0.first(1.0 / (2.0 * e))
    }
}

#[derive(Default)]
struct HalfForSquare(Kept);
impl Rule for HalfForSquare {
    fn before(&self, q: f64, e: f64, e2: f64) -> Given {
        let half_over_e = self.0.first_for(e2, Meant.half_over_e(e));
        Given {
            half_over_e,
            ..Meant.before(q, e, e2)
        }
    }
}

#[derive(Default)]
struct SineKept(Kept);
impl Rule for SineKept {
    fn before(&self, q: f64, e: f64, e2: f64) -> Given {
        self.0.forget();
        Meant.before(q, e, e2)
    }

    fn sine_over_w(&self, s: f64, w: f64) -> f64 {
        self.0.first(s / w)
    }
}

#[derive(Default)]
struct FactorKept(Kept);
impl Rule for FactorKept {
    fn before(&self, q: f64, e: f64, e2: f64) -> Given {
        self.0.forget();
        Meant.before(q, e, e2)
    }

    fn factor(&self, w: f64, lat: f64) -> f64 {
        self.0.first(Meant.factor(w, lat))
    }
}

#[derive(Default)]
struct LogarithmKept(Kept);
impl Rule for LogarithmKept {
    fn before(&self, q: f64, e: f64, e2: f64) -> Given {
        self.0.forget();
        Meant.before(q, e, e2)
    }

    fn logarithm(&self, e_s: f64) -> f64 {
        self.0.first(Meant.logarithm(e_s))
    }
}

struct Rounds(usize);
impl Rule for Rounds {
    fn rounds(&self) -> usize {
        self.0
    }
}

struct Settled(fn(f64) -> bool);
impl Rule for Settled {
    fn settled(&self, next: f64, lat: f64) -> bool {
        self.0(next - lat)
    }
}

/// As NaN does where the test is turned about.
struct SettledByNaN;
impl Rule for SettledByNaN {
    fn settled(&self, next: f64, lat: f64) -> bool {
        let change = next - lat;
        change.is_nan() || change.abs() < TOLERANCE
    }
}

/// The latitudes of the rounds from the start on, all of them.
fn latitudes(q: f64, e: f64, e2: f64) -> Vec<f64> {
    let given = Meant.before(q, e, e2);
    let round = |lat: &f64| Some(Meant.round(&given, *lat));
    let all = std::iter::successors(Some(Meant.start(q)), round);
    all.take(ROUNDS + 1).collect()
}

struct BeforeTheLast;
impl Rule for BeforeTheLast {
    fn latitude(&self, q: f64, e: f64, e2: f64) -> Result<f64, u8> {
        let all = latitudes(q, e, e2);
        let last = all.windows(2).find(|pair| Meant.settled(pair[1], pair[0]));
        last.map(|pair| pair[0]).ok_or(USED_UP)
    }
}

struct NeverUsedUp;
impl Rule for NeverUsedUp {
    fn latitude(&self, q: f64, e: f64, e2: f64) -> Result<f64, u8> {
        let last = latitudes(q, e, e2)[ROUNDS];
        Ok(Meant.latitude(q, e, e2).unwrap_or(last))
    }
}

struct StartedScaled;
impl Rule for StartedScaled {
    fn latitude(&self, q: f64, e: f64, e2: f64) -> Result<f64, u8> {
        let given = Meant.before(q, e, e2);
        self.rounds_from(&given, self.start(given.scaled_q))
    }
}

struct Started(fn(f64) -> f64);
impl Rule for Started {
    fn start(&self, q: f64) -> f64 {
        self.0(q)
    }
}

struct ZeroAtOnce;
impl Rule for ZeroAtOnce {
    fn latitude(&self, q: f64, e: f64, e2: f64) -> Result<f64, u8> {
        match q == 0.0 {
            true => Ok(q / 2.0),
            false => Meant.latitude(q, e, e2),
        }
    }
}

struct Mirrored;
impl Rule for Mirrored {
    fn latitude(&self, q: f64, e: f64, e2: f64) -> Result<f64, u8> {
        match q < 0.0 {
            true => Meant.latitude(-q, e, e2).map(|lat| -lat),
            false => Meant.latitude(q, e, e2),
        }
    }
}

struct UsedUpFirst;
impl Rule for UsedUpFirst {
    fn inverse(&self, question: &Handed) -> Answer {
        let numbers = &question.numbers;
        let reciprocals = [
            self.half_over_e(numbers[E]),
            self.scaled_q(1.0, numbers[E2]),
        ];
        let finite = reciprocals.iter().all(|x| x.is_finite());
        match finite || self.on_sphere(numbers) {
            true => Meant.inverse(question),
            false => Answer::refused(USED_UP),
        }
    }
}

/// After 20, by e and e2.
struct UsedUpWhere(fn(f64, f64) -> bool);
impl Rule for UsedUpWhere {
    fn inverse(&self, question: &Handed) -> Answer {
        let ([_, e, e2, ..], [x, y]) = (question.numbers, question.point);
        match validate_projected(x, y) == 0 && self.0(e, e2) {
            true => Answer::refused(USED_UP),
            false => Meant.inverse(question),
        }
    }
}

struct UsedUpBeyond;
impl Rule for UsedUpBeyond {
    fn latitude(&self, q: f64, e: f64, e2: f64) -> Result<f64, u8> {
        match q.abs() >= 2.0 {
            true => Err(USED_UP),
            false => Meant.latitude(q, e, e2),
        }
    }
}

struct ResultFirst;
impl Rule for ResultFirst {
    fn inverse(&self, question: &Handed) -> Answer {
        let (on, [dx, dy]) = (Sphere::of(&question.numbers), question.offset());
        let lon = sphere::Meant.longitude(&on, dx, dy);
        match Meant.inverse(question) {
            Answer {
                number: USED_UP, ..
            } if !lon.is_finite() => Answer::refused(23),
            answer => answer,
        }
    }
}

struct BeyondFirst;
impl Rule for BeyondFirst {
    fn place(&self, lon: f64, lat: f64) -> Answer {
        match lat.abs() > BOUND {
            true => Answer::refused(24),
            false => Meant.place(lon, lat),
        }
    }
}

/// What this number refuses is answered.
struct Passes(u8);
impl Rule for Passes {
    fn place(&self, lon: f64, lat: f64) -> Answer {
        match Meant.place(lon, lat) {
            answer if answer.number == self.0 => Answer::pair(normalize_longitude(lon), lat),
            answer => answer,
        }
    }
}

/// By e and e2.
struct OnSphere(fn(f64, f64) -> bool);
impl Rule for OnSphere {
    fn on_sphere(&self, numbers: &Numbers) -> bool {
        self.0(numbers[E], numbers[E2])
    }
}
