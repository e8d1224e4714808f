//! Wrong readings of 02's second inverse: each gives another answer to a click that crates/replay has
//! stored, and to one that `clicks` draws. That 30 stands before or after 22 is not among them: the
//! rounds are used up only where nothing is above.

use oracle::area::{AREA_EDGES, OUTSIDE_AREA};
use oracle::clicks::{Clicks, shapes};
use oracle::fixed::{cos, root};
use oracle::line::{Answer, KINDS as ALL, LAT0, Line};
use oracle::on_map::{
    BEYOND, CENTRE, Click, EqualEarth, Form, KINDS, Lambert, Map, Meant, OFF_THE_MAP, POLAR, RIM,
    ROUNDS, Rule, SIDE, TOLERANCE, TOP, northing_of, share, slope_of, text,
};
use oracle::ring::Pair;
use oracle::source::fixed::parts::normalize_longitude;
use oracle::stored;
use std::f64::consts::FRAC_PI_2;

const WRONG: [(&str, &dyn Rule); 72] = [
    // which projections
    ("no kind has one", &Kinds(|_| false)),
    ("S has none", &Kinds(|kind| kind != b'S')),
    ("another kind by its first inverse", &OthersByFirst),
    ("another kind refused", &OthersRefused),
    ("a refused projection has none", &RefusedMissing(|_| true)),
    (
        "a refused projection of another kind has none",
        &RefusedMissing(|kind| !KINDS.contains(&kind)),
    ),
    ("nothing is off the map", &Above(|_, _| false)),
    // rho
    ("the plain distance", &Rho(|_, dx, dy| plain(dx, dy))),
    (
        "d taken the other way",
        &Rho(|d, dx, dy| plain(dx * d, dy / d)),
    ),
    (
        "the distance scaled along one axis",
        &Rho(|d, dx, dy| plain(dx / d, dy)),
    ),
    ("each coordinate by itself", &EachByItself),
    ("the false offsets left out", &OffsetsLeftOut),
    ("S by the formulas of L", &AsL(|_| true)),
    (
        "S at a pole by the polar form",
        &AsL(|lat0| (lat0.abs() - FRAC_PI_2).abs() < POLAR),
    ),
    ("L at a pole by rho/(2×radius)", &PolarByRadius),
    ("polar within 1e-6 of a pole", &PolarFurther),
    // the quotient
    ("rho over the radius", &Quotient(|on, rho| rho / on.radius)),
    ("rho over 2a", &Quotient(|on, rho| rho / (2.0 * on.a))),
    (
        "half of rho over the radius",
        &Quotient(|on, rho| rho / 2.0 / on.radius),
    ),
    (
        "the quotient after the clamp",
        &Quotient(|on, rho| Meant.quotient(on, rho).clamp(-1.0, 1.0)),
    ),
    (
        "rho²/(a²qp) for the polar quotient",
        &PolarQuotient(|on, rho| rho * rho / (on.a * on.a * on.q_p)),
    ),
    (
        "a polar quotient of a sphere",
        &PolarQuotient(|on, rho| 1.0 - rho * rho / (on.a * on.a * 2.0)),
    ),
    (
        "a polar quotient by rho/a",
        &PolarQuotient(|on, rho| 1.0 - rho / on.a * (rho / on.a) / on.q_p),
    ),
    (
        "the polar quotient after the clamp",
        &PolarQuotient(|on, rho| Meant.polar_quotient(on, rho).clamp(-1.0, 1.0)),
    ),
    ("rho² never rooted at a pole", &NeverRooted),
    (
        "the polar quotient without its size",
        &PolarOff(|quotient, limit| quotient > limit),
    ),
    (
        "the polar quotient below alone",
        &PolarOff(|quotient, limit| quotient < -limit),
    ),
    // the limits
    (
        "refused at the quotient's limit",
        &QuotientOff(|quotient, limit| quotient >= limit),
    ),
    (
        "refused at the polar quotient's limit",
        &PolarOff(|quotient, limit| quotient.abs() >= limit),
    ),
    (
        "refused at the northing's limit",
        &NorthingOff(|northing, limit| northing.abs() >= limit),
    ),
    (
        "refused at the longitude's limit",
        &LongitudeOff(|longitude, limit| longitude.abs() >= limit),
    ),
    (
        "the quotient's limit without 1e-12",
        &QuotientOff(|quotient, _| quotient > 1.0),
    ),
    (
        "the polar quotient's limit without 1e-12",
        &PolarOff(|quotient, _| quotient.abs() > 1.0),
    ),
    (
        "the northing's limit without 1e-12",
        &NorthingOff(|northing, _| northing.abs() > TOP),
    ),
    (
        "the longitude's limit without 1e-12",
        &LongitudeOff(|longitude, _| longitude.abs() > SIDE),
    ),
    ("1e-11 for 1e-12", &Limit(|edge| edge + 1e-11)),
    ("1e-13 for 1e-12", &Limit(|edge| edge + 1e-13)),
    (
        "a limit that is a product",
        &Limit(|edge| edge * (1.0 + BEYOND)),
    ),
    (
        "a limit a step further out",
        &Limit(|edge| (edge + BEYOND).next_up()),
    ),
    ("refused at the edge itself", &AtTheEdge),
    ("the difference against 1e-12", &Difference),
    // infinity and NaN
    (
        "an infinite number is none",
        &Above(|number, limit| number > limit && number.is_finite()),
    ),
    (
        "NaN is above",
        &Above(|number, limit| number.is_nan() || number > limit),
    ),
    // the centre
    ("the test before the centre rule", &Centre(|_, _| false)),
    ("the centre at 1e-9 itself", &Centre(|_, rho| rho <= CENTRE)),
    ("the centre below 1e-10", &Centre(|_, rho| rho < 1e-10)),
    (
        "the centre by the quotient",
        &Centre(|on, rho| Meant.quotient(on, rho) < CENTRE),
    ),
    ("the centre by the plain distance", &CentreByPlain),
    ("a centre of Equal Earth", &CentreOfEqualEarth),
    // Equal Earth
    (
        "the northing without its size",
        &NorthingOff(|northing, limit| northing > limit),
    ),
    ("the northing not tested", &NorthingOff(|_, _| false)),
    (
        "the northing after the clamp",
        &Northing(|on, y| Meant.clamped(Meant.northing(on, y))),
    ),
    (
        "the northing with its offset",
        &Northing(|on, y| y / on.scale),
    ),
    (
        "the longitude without its size",
        &LongitudeOff(|longitude, limit| longitude > limit),
    ),
    ("the longitude not tested", &LongitudeOff(|_, _| false)),
    (
        "the longitude with lon0 added",
        &Longitude(|on, x, psi| on.lon0 + Meant.longitude(on, x, psi)),
    ),
    (
        "the longitude normalised",
        &Longitude(|on, x, psi| normalize_longitude(on.lon0 + Meant.longitude(on, x, psi))),
    ),
    (
        "the longitude with the false easting",
        &Longitude(|on, x, psi| Meant.longitude(&EqualEarth { fe: 0.0, ..*on }, x, psi)),
    ),
    (
        "the longitude grouped otherwise",
        &Longitude(|on, x, psi| (x - on.fe) / on.scale * (share() * slope_of(psi) / cos(psi))),
    ),
    ("the longitude as on the equator", &Psi(|_| Some(0.0))),
    ("the longitude at the start of the rounds", &Psi(Some)),
    ("the longitude before the last round", &Psi(before_the_last)),
    ("the rounds from the northing itself", &Unclamped),
    (
        "the longitude not tested beyond the northing's edge",
        &EdgeUntested,
    ),
    // the order
    (
        "22 before the northing's 30, without the clamp",
        &RoundsFirst,
    ),
    ("30 after 23", &After(23)),
    ("30 after 26", &After(OUTSIDE_AREA)),
    ("30 before 20", &BeforeInput),
    ("30 before 25", &BeforeArea),
    // the results, and the area
    ("30 with the place on the edge", &WithPlace),
    ("26 left out", &AreaLost),
    ("26 before 22 and 23", &RefusalTested),
];

#[test]
fn a_stored_click_notices() {
    let stored = stored::read(&["on_map,", "on_map_in_area,"], Click::read);
    assert_eq!(noticing(&stored, &Meant), 0);
    let mut unnoticed = Vec::new();
    for (name, rule) in WRONG {
        let clicks = noticing(&stored, rule);
        println!("{clicks} clicks notice: {name}");
        if clicks == 0 {
            unnoticed.push(name);
        }
    }
    assert!(unnoticed.is_empty(), "{unnoticed:?}");
}

/// How many of the clicks a rule answers otherwise.
fn noticing(stored: &[(Click, String)], rule: &dyn Rule) -> usize {
    let other = |(click, answer): &&(Click, String)| text(rule.answer(click)) != *answer;
    stored.iter().filter(other).count()
}

#[test]
fn a_drawn_click_notices() {
    let mut unnoticed = WRONG.to_vec();
    for place in 0..20_000 {
        for kind in ALL {
            let mut clicks = Clicks::new(kind, 100 + place);
            for &shape in shapes(kind) {
                let click = clicks.next(shape);
                let meant = Meant.answer(&click);
                unnoticed.retain(|(_, rule)| rule.answer(&click) == meant);
            }
        }
        if unnoticed.is_empty() {
            break;
        }
    }
    let names: Vec<_> = unnoticed.iter().map(|(name, _)| name).collect();
    assert!(names.is_empty(), "{names:?}");
}

/// By the kind.
struct Kinds(fn(u8) -> bool);
impl Rule for Kinds {
    fn map(&self, line: &Line) -> Option<Map> {
        Meant.map(line).filter(|_| self.0(line.kind))
    }
}

struct OthersByFirst;
impl Rule for OthersByFirst {
    fn answer(&self, click: &Click) -> Option<Answer> {
        Meant.answer(click).or_else(|| Some(click.first()))
    }
}

struct OthersRefused;
impl Rule for OthersRefused {
    fn answer(&self, click: &Click) -> Option<Answer> {
        Meant.answer(click).or(Some(Answer::refused(OFF_THE_MAP)))
    }
}

/// By the kind.
struct RefusedMissing(fn(u8) -> bool);
impl Rule for RefusedMissing {
    fn answer(&self, click: &Click) -> Option<Answer> {
        match click.build().is_err() && self.0(click.line.kind) {
            true => None,
            false => Meant.answer(click),
        }
    }
}

/// By a number and its limit.
struct Above(fn(f64, f64) -> bool);
impl Rule for Above {
    fn above(&self, number: f64, limit: f64) -> bool {
        self.0(number, limit)
    }
}

fn plain(dx: f64, dy: f64) -> f64 {
    root(dx * dx + dy * dy)
}

/// Of the oblique form, by d and the offsets.
struct Rho(fn(f64, f64, f64) -> f64);
impl Rule for Rho {
    fn rho(&self, on: &Lambert, point: Pair) -> f64 {
        let [x, y] = point;
        match on.form {
            Form::Oblique => self.0(on.d, x - on.fe, y - on.fn_),
            _ => Meant.rho(on, point),
        }
    }
}

struct EachByItself;
impl Rule for EachByItself {
    fn rho(&self, on: &Lambert, [x, y]: Pair) -> f64 {
        let [east, north] = [[x, on.fn_], [on.fe, y]].map(|point| Meant.rho(on, point));
        east.max(north)
    }
}

struct OffsetsLeftOut;
impl Rule for OffsetsLeftOut {
    fn rho(&self, on: &Lambert, point: Pair) -> f64 {
        let (fe, fn_) = (0.0, 0.0);
        Meant.rho(&Lambert { fe, fn_, ..*on }, point)
    }
}

/// S as an L, by lat0.
struct AsL(fn(f64) -> bool);
impl Rule for AsL {
    fn map(&self, line: &Line) -> Option<Map> {
        let mut other = *line;
        if line.kind == b'S' && self.0(line.fields[LAT0]) {
            other.kind = b'L';
        }
        Meant.map(&other)
    }
}

struct PolarByRadius;
impl Rule for PolarByRadius {
    fn beyond_rim(&self, on: &Lambert, rho: f64) -> bool {
        self.quotient_off(self.quotient(on, rho))
    }
}

struct PolarFurther;
impl Rule for PolarFurther {
    fn map(&self, line: &Line) -> Option<Map> {
        let Some(Map::Lambert(mut on)) = Meant.map(line) else {
            return Meant.map(line);
        };
        let lat0 = line.fields[LAT0];
        if on.form == Form::Oblique && (lat0.abs() - FRAC_PI_2).abs() < 1e-6 {
            on.form = if lat0 < 0.0 { Form::South } else { Form::North };
        }
        Some(Map::Lambert(on))
    }
}

struct Quotient(fn(&Lambert, f64) -> f64);
impl Rule for Quotient {
    fn quotient(&self, on: &Lambert, rho: f64) -> f64 {
        self.0(on, rho)
    }
}

struct QuotientOff(fn(f64, f64) -> bool);
impl Rule for QuotientOff {
    fn quotient_off(&self, quotient: f64) -> bool {
        self.0(quotient, self.limit(RIM))
    }
}

struct PolarQuotient(fn(&Lambert, f64) -> f64);
impl Rule for PolarQuotient {
    fn polar_quotient(&self, on: &Lambert, rho: f64) -> f64 {
        self.0(on, rho)
    }
}

struct PolarOff(fn(f64, f64) -> bool);
impl Rule for PolarOff {
    fn polar_quotient_off(&self, quotient: f64) -> bool {
        self.0(quotient, self.limit(RIM))
    }
}

struct NeverRooted;
impl Rule for NeverRooted {
    fn lambert_off(&self, on: &Lambert, point: Pair) -> bool {
        let [x, y] = point;
        let (dx, dy) = (x - on.fe, y - on.fn_);
        let share = (dx * dx + dy * dy) / (on.a * on.a * on.q_p);
        match on.form {
            Form::North | Form::South if !self.at_centre(plain(dx, dy)) => {
                self.polar_quotient_off(1.0 - share)
            }
            _ => Meant.lambert_off(on, point),
        }
    }
}

struct Limit(fn(f64) -> f64);
impl Rule for Limit {
    fn limit(&self, edge: f64) -> f64 {
        self.0(edge)
    }
}

struct AtTheEdge;
impl Rule for AtTheEdge {
    fn limit(&self, edge: f64) -> f64 {
        edge
    }

    fn above(&self, number: f64, limit: f64) -> bool {
        number >= limit
    }
}

struct Difference;
impl Rule for Difference {
    fn limit(&self, edge: f64) -> f64 {
        edge
    }

    fn above(&self, number: f64, limit: f64) -> bool {
        number - limit > BEYOND
    }
}

/// By the map and rho.
struct Centre(fn(&Lambert, f64) -> bool);
impl Rule for Centre {
    fn lambert_off(&self, on: &Lambert, point: Pair) -> bool {
        let rho = self.rho(on, point);
        !self.0(on, rho) && self.beyond_rim(on, rho)
    }
}

struct CentreByPlain;
impl Rule for CentreByPlain {
    fn lambert_off(&self, on: &Lambert, point: Pair) -> bool {
        let [x, y] = point;
        let rho = self.rho(on, point);
        !self.at_centre(plain(x - on.fe, y - on.fn_)) && self.beyond_rim(on, rho)
    }
}

struct CentreOfEqualEarth;
impl Rule for CentreOfEqualEarth {
    fn equal_earth(&self, on: &EqualEarth, point: Pair, first: Answer) -> Answer {
        let [x, y] = point;
        match self.at_centre(plain(x - on.fe, y - on.fn_)) {
            true => first,
            false => Meant.equal_earth(on, point, first),
        }
    }
}

struct Northing(fn(&EqualEarth, f64) -> f64);
impl Rule for Northing {
    fn northing(&self, on: &EqualEarth, y: f64) -> f64 {
        self.0(on, y)
    }
}

struct NorthingOff(fn(f64, f64) -> bool);
impl Rule for NorthingOff {
    fn northing_off(&self, northing: f64) -> bool {
        self.0(northing, self.limit(TOP))
    }
}

struct Longitude(fn(&EqualEarth, f64, f64) -> f64);
impl Rule for Longitude {
    fn longitude(&self, on: &EqualEarth, x: f64, psi: f64) -> f64 {
        self.0(on, x, psi)
    }
}

struct LongitudeOff(fn(f64, f64) -> bool);
impl Rule for LongitudeOff {
    fn longitude_off(&self, longitude: f64) -> bool {
        self.0(longitude, self.limit(SIDE))
    }
}

/// From the clamped northing.
struct Psi(fn(f64) -> Option<f64>);
impl Rule for Psi {
    fn psi(&self, northing: f64) -> Option<f64> {
        Meant.psi(northing).and(self.0(northing))
    }
}

fn before_the_last(northing: f64) -> Option<f64> {
    let round = |psi: &f64| Some(psi - (northing_of(*psi) - northing) / slope_of(*psi));
    let rounds: Vec<_> = std::iter::successors(Some(northing), round)
        .take(ROUNDS + 1)
        .collect();
    let last = rounds
        .windows(2)
        .find(|both| (both[1] - both[0]).abs() < TOLERANCE);
    last.map(|both| both[0])
}

struct Unclamped;
impl Rule for Unclamped {
    fn clamped(&self, northing: f64) -> f64 {
        northing
    }
}

struct EdgeUntested;
impl Rule for EdgeUntested {
    fn equal_earth(&self, on: &EqualEarth, point: Pair, first: Answer) -> Answer {
        let northing = self.northing(on, point[1]);
        match northing.abs() >= TOP && !self.northing_off(northing) {
            true => first,
            false => Meant.equal_earth(on, point, first),
        }
    }
}

struct RoundsFirst;
impl Rule for RoundsFirst {
    fn equal_earth(&self, on: &EqualEarth, point: Pair, first: Answer) -> Answer {
        match self.psi(self.northing(on, point[1])) {
            None => Answer::refused(22),
            Some(_) => Meant.equal_earth(on, point, first),
        }
    }
}

/// 30 only where the first inverse does not give this number.
struct After(u8);
impl Rule for After {
    fn answer(&self, click: &Click) -> Option<Answer> {
        let first = click.first();
        match (Meant.answer(click), first.number == self.0) {
            (Some(_), true) => Some(first),
            (answer, _) => answer,
        }
    }
}

struct BeforeInput;
impl Rule for BeforeInput {
    fn inverse(&self, map: &Map, point: Pair, first: Answer) -> Answer {
        match map {
            Map::Lambert(on) => self.lambert(on, point, first),
            Map::EqualEarth(on) => self.equal_earth(on, point, first),
        }
    }
}

struct BeforeArea;
impl Rule for BeforeArea {
    fn answer(&self, click: &Click) -> Option<Answer> {
        let without = Meant.answer(&Click::new(click.line));
        match (Meant.answer(click), without) {
            (Some(refused), Some(off))
                if refused.number == AREA_EDGES && off.number == OFF_THE_MAP =>
            {
                without
            }
            (answer, _) => answer,
        }
    }
}

struct WithPlace;
impl Rule for WithPlace {
    fn answer(&self, click: &Click) -> Option<Answer> {
        let mut answer = Meant.answer(click)?;
        if answer.number == OFF_THE_MAP {
            let first = click.first();
            (answer.p, answer.q) = (first.p, first.q);
        }
        Some(answer)
    }
}

struct AreaLost;
impl Rule for AreaLost {
    fn within(&self, _: &Click, answer: Answer) -> Answer {
        answer
    }
}

/// The results of a refusal, which are +0, taken for a place.
struct RefusalTested;
impl Rule for RefusalTested {
    fn within(&self, click: &Click, answer: Answer) -> Answer {
        let place = Answer {
            number: 0,
            ..answer
        };
        match (answer.number, Meant.within(click, place)) {
            (22 | 23, outside) if outside.number != 0 => outside,
            _ => Meant.within(click, answer),
        }
    }
}
