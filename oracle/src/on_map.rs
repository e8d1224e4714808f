//! Document 02's second inverse, which refuses clicks off the map, from its words and 01 alone, with
//! 01's functions: what it tests has the source's order of operations, and what passes the test is the
//! source's own answer. Each step is a method of `Rule`, so that a test can put a wrong reading in its
//! place.

use crate::area::{self, Area, AreaLine, OUTSIDE_AREA, Rule as _};
use crate::expected::{self, Projection};
use crate::fixed::{clamp, cos, root, sin};
use crate::line::{Answer, Line, U, V};
use crate::ring::Pair;
use crate::source::fixed::parts::{authalic_latitude, authalic_q, e2, validate_projected};
use std::f64::consts::{FRAC_PI_2, PI};

/// The kinds that have a second inverse.
pub const KINDS: [u8; 3] = *b"LSE";

/// 02's number.
pub const OFF_THE_MAP: u8 = 30;

/// The edges: of a Lambert's quotient, and of Equal Earth's scaled northing and its longitude from the
/// origin.
pub const RIM: f64 = 1.0;
pub const TOP: f64 = 1.3173627591574;
pub const SIDE: f64 = PI;

/// A limit lies so far beyond its edge.
pub const BEYOND: f64 = 1e-12;

/// 01's "polar strictly within 1e-12 of a pole; centre strictly below 1e-9 m".
pub const POLAR: f64 = 1e-12;
pub const CENTRE: f64 = 1e-9;

/// 01's "15 steps, difference strictly below 1e-11".
pub const ROUNDS: usize = 15;
pub const TOLERANCE: f64 = 1e-11;

/// An inverse line, and the area of its projection.
#[derive(Clone, Copy, Debug)]
pub struct Click {
    pub line: Line,
    /// None where the projection has none.
    pub area: Option<Area>,
    /// Handed in to the built projection, unchecked; else the projection is built with it.
    pub handed: bool,
}

/// The names of such questions: without an area, with one, and with one that is handed in.
const NAMES: [&str; 3] = ["on_map", "on_map_in_area", "on_map_handed"];

/// The bytes of a value line.
const LINE: usize = 173;

impl Click {
    /// Without an area.
    pub fn new(line: Line) -> Click {
        let (area, handed) = (None, false);
        Click { line, area, handed }
    }

    /// A name, the sheet's line, and the edges if there are some.
    pub fn text(&self) -> String {
        let name = NAMES[usize::from(self.area.is_some()) + usize::from(self.handed)];
        let edges = self.area.iter().flatten();
        let edges: String = edges
            .map(|edge| format!(",{:016x}", edge.to_bits()))
            .collect();
        format!("{name},{}{edges}", self.line.text())
    }

    /// The click of such a text; none where it has another form.
    pub fn read(text: &str) -> Option<Click> {
        let (name, rest) = text.split_once(',')?;
        let (line, edges) = rest.split_at_checked(LINE)?;
        let line = Line::read(line.as_bytes())?;
        let read = |edge| u64::from_str_radix(edge, 16).ok().map(f64::from_bits);
        let edges: Option<Vec<f64>> = edges.split(',').skip(1).map(read).collect();
        let edges = edges?;
        let place = NAMES.iter().position(|other| *other == name)?;
        let area = match place {
            0 => None,
            _ => Some(*edges.first_chunk()?),
        };
        let handed = place == 2;
        let known = line.way == b'I' && edges.len() == 4 * place.min(1);
        known.then_some(Click { line, area, handed })
    }

    /// The same with another point.
    pub fn at(&self, [x, y]: Pair) -> Click {
        let mut other = *self;
        [other.line.fields[U], other.line.fields[V]] = [x, y];
        other
    }

    /// As `area` has it, if there is an area.
    pub fn in_area(&self) -> Option<AreaLine> {
        let Click { line, area, handed } = *self;
        area.map(|area| AreaLine { line, area, handed })
    }

    pub fn build(&self) -> Result<Projection, u8> {
        match self.in_area() {
            None => Projection::new(self.line.kind, &self.line.fields),
            Some(question) => area::Meant.build(&question),
        }
    }

    /// What the first inverse answers.
    pub fn first(&self) -> Answer {
        match self.in_area() {
            None => expected::answer(&self.line),
            Some(question) => area::Meant.answer(&question),
        }
    }
}

/// An answer as it is stored, or a word where the kind has no second inverse.
pub fn text(answer: Option<Answer>) -> String {
    answer.map_or("missing".to_owned(), |answer| answer.text())
}

/// A map that is built and has a second inverse, by what is tested.
#[derive(Clone, Copy, Debug)]
pub enum Map {
    Lambert(Lambert),
    EqualEarth(EqualEarth),
}

/// The formulas of a Lambert's inverse.
#[derive(Clone, Copy, Debug, PartialEq)]
pub enum Form {
    Oblique,
    North,
    South,
    Spherical,
}

impl Form {
    /// S has no polar form.
    fn of(kind: u8, lat0: f64) -> Form {
        match kind {
            b'S' => Form::Spherical,
            _ if (lat0 - FRAC_PI_2).abs() < POLAR => Form::North,
            _ if (lat0 + FRAC_PI_2).abs() < POLAR => Form::South,
            _ => Form::Oblique,
        }
    }
}

#[derive(Clone, Copy, Debug)]
pub struct Lambert {
    pub form: Form,
    pub a: f64,
    /// The pole's q.
    pub q_p: f64,
    /// That of the sphere which has the ellipsoid's area.
    pub radius: f64,
    /// The origin's scale, of the oblique form.
    pub d: f64,
    pub fe: f64,
    pub fn_: f64,
}

impl Lambert {
    /// Of settings that are built.
    pub fn of(kind: u8, fields: &[f64; 10]) -> Lambert {
        let [a, f, _, lat0, _, _, fe, fn_, ..] = *fields;
        let e2 = e2(a, f);
        let q_p = authalic_q(FRAC_PI_2, e2);
        let radius = a * root(q_p / 2.0);
        let beta0 = authalic_latitude(authalic_q(lat0, e2), q_p);
        let w = root(1.0 - e2 * sin(lat0) * sin(lat0));
        Lambert {
            form: Form::of(kind, lat0),
            a,
            q_p,
            radius,
            d: a * cos(lat0) / (w * radius * cos(beta0)),
            fe,
            fn_,
        }
    }
}

#[derive(Clone, Copy, Debug)]
pub struct EqualEarth {
    /// The radius of the sphere which has the ellipsoid's area.
    pub scale: f64,
    pub lon0: f64,
    pub fe: f64,
    pub fn_: f64,
}

impl EqualEarth {
    /// Of settings that are built.
    pub fn of(fields: &[f64; 10]) -> EqualEarth {
        let [a, f, lon0, _, _, _, fe, fn_, ..] = *fields;
        let e2 = e2(a, f);
        let share = match e2 == 0.0 {
            true => 1.0,
            false => root(0.5 * authalic_q(FRAC_PI_2, e2)),
        };
        let scale = a * share;
        EqualEarth {
            scale,
            lon0,
            fe,
            fn_,
        }
    }
}

/// Equal Earth's coefficients.
const A1: f64 = 1.340264;
const A2: f64 = -0.081106;
const A3: f64 = 0.000893;
const A4: f64 = 0.003796;

/// A parametric latitude's scaled northing.
pub fn northing_of(psi: f64) -> f64 {
    let psi2 = psi * psi;
    let psi6 = psi2 * psi2 * psi2;
    psi * (A1 + A2 * psi2 + psi6 * (A3 + A4 * psi2))
}

/// And its derivative.
pub fn slope_of(psi: f64) -> f64 {
    let psi2 = psi * psi;
    let psi6 = psi2 * psi2 * psi2;
    A1 + 3.0 * A2 * psi2 + psi6 * (7.0 * A3 + 9.0 * A4 * psi2)
}

/// Its sine is this share of the authalic latitude's.
pub fn share() -> f64 {
    root(3.0) / 2.0
}

/// What 02 says, in the order of its words, and then of the checks.
pub trait Rule {
    /// "give a second one for L, S and E": the others have none.
    fn map(&self, line: &Line) -> Option<Map> {
        let Line { kind, fields, .. } = line;
        match kind {
            b'L' | b'S' => Some(Map::Lambert(Lambert::of(*kind, fields))),
            b'E' => Some(Map::EqualEarth(EqualEarth::of(fields))),
            _ => None,
        }
    }

    /// The rho that the inverse forms.
    fn rho(&self, on: &Lambert, [x, y]: Pair) -> f64 {
        let (dx, dy) = (x - on.fe, y - on.fn_);
        let [dx, dy] = match on.form {
            Form::Oblique => [dx / on.d, on.d * dy],
            _ => [dx, dy],
        };
        root(dx * dx + dy * dy)
    }

    /// "rho/(2×radius), where the inverse forms it".
    fn quotient(&self, on: &Lambert, rho: f64) -> f64 {
        rho / (2.0 * on.radius)
    }

    /// "above 1 + 1e-12".
    fn quotient_off(&self, quotient: f64) -> bool {
        self.above(quotient, self.limit(RIM))
    }

    /// "the polar arcsine's quotient", before the clamp.
    fn polar_quotient(&self, on: &Lambert, rho: f64) -> f64 {
        let share = rho * rho / (on.a * on.a * on.q_p);
        match on.form {
            Form::South => share - 1.0,
            _ => 1.0 - share,
        }
    }

    /// "above that in size".
    fn polar_quotient_off(&self, quotient: f64) -> bool {
        self.above(quotient.abs(), self.limit(RIM))
    }

    /// "Equal Earth's scaled northing", before the clamp too.
    fn northing(&self, on: &EqualEarth, y: f64) -> f64 {
        (y - on.fn_) / on.scale
    }

    /// "above its limit + 1e-12 in size".
    fn northing_off(&self, northing: f64) -> bool {
        self.above(northing.abs(), self.limit(TOP))
    }

    /// "its longitude from the origin", to which lon0 is not yet added.
    fn longitude(&self, on: &EqualEarth, x: f64, psi: f64) -> f64 {
        share() * ((x - on.fe) / on.scale) * slope_of(psi) / cos(psi)
    }

    /// "above π + 1e-12 in size".
    fn longitude_off(&self, longitude: f64) -> bool {
        self.above(longitude.abs(), self.limit(SIDE))
    }

    /// "Each such limit is an f64, summed once."
    fn limit(&self, edge: f64) -> f64 {
        edge + BEYOND
    }

    /// Infinity is, and NaN is not.
    fn above(&self, number: f64, limit: f64) -> bool {
        number > limit
    }

    /// 01's centre.
    fn at_centre(&self, rho: f64) -> bool {
        rho < CENTRE
    }

    /// "The centre rule comes before this test."
    fn lambert_off(&self, on: &Lambert, point: Pair) -> bool {
        let rho = self.rho(on, point);
        !self.at_centre(rho) && self.beyond_rim(on, rho)
    }

    fn beyond_rim(&self, on: &Lambert, rho: f64) -> bool {
        match on.form {
            Form::Oblique | Form::Spherical => self.quotient_off(self.quotient(on, rho)),
            Form::North | Form::South => self.polar_quotient_off(self.polar_quotient(on, rho)),
        }
    }

    /// What the rounds start from.
    fn clamped(&self, northing: f64) -> f64 {
        clamp(northing, -TOP, TOP)
    }

    /// The parametric latitude after the last round; none where they are used up.
    fn psi(&self, northing: f64) -> Option<f64> {
        let mut psi = northing;
        for _ in 0..ROUNDS {
            let next = psi - (northing_of(psi) - northing) / slope_of(psi);
            if (next - psi).abs() < TOLERANCE {
                return Some(next);
            }
            psi = next;
        }
        None
    }

    /// "Elsewhere both agree": what is not off the map gets what the first inverse answers.
    fn lambert(&self, on: &Lambert, point: Pair, first: Answer) -> Answer {
        match self.lambert_off(on, point) {
            true => Answer::refused(OFF_THE_MAP),
            false => first,
        }
    }

    /// "or after the last round for the Equal Earth longitude".
    fn equal_earth(&self, on: &EqualEarth, [x, y]: Pair, first: Answer) -> Answer {
        let northing = self.northing(on, y);
        if self.northing_off(northing) {
            return Answer::refused(OFF_THE_MAP);
        }
        match self.psi(self.clamped(northing)) {
            Some(psi) if self.longitude_off(self.longitude(on, x, psi)) => {
                Answer::refused(OFF_THE_MAP)
            }
            _ => first,
        }
    }

    /// "New number 30 stands after 20".
    fn inverse(&self, map: &Map, point: Pair, first: Answer) -> Answer {
        let [x, y] = point;
        if validate_projected(x, y) != 0 {
            return first;
        }
        match map {
            Map::Lambert(on) => self.lambert(on, point, first),
            Map::EqualEarth(on) => self.equal_earth(on, point, first),
        }
    }

    /// "the second inherits its limits on places": 26 comes last.
    fn within(&self, click: &Click, answer: Answer) -> Answer {
        let [lon, lat] = [answer.p, answer.q].map(f64::from_bits);
        let holds = |question: AreaLine| area::Meant.holds(&question, lon, lat);
        match answer.number == 0 && !click.in_area().is_none_or(holds) {
            true => Answer::refused(OUTSIDE_AREA),
            false => answer,
        }
    }

    /// None where the kind has no second inverse. A projection that is refused gives its own number.
    fn answer(&self, click: &Click) -> Option<Answer> {
        let built = match click.build() {
            Ok(built) => built,
            Err(number) => return Some(Answer::refused(number)),
        };
        let map = self.map(&click.line)?;
        let [.., x, y] = click.line.fields;
        let first = built.project(b'I', x, y);
        Some(self.within(click, self.inverse(&map, [x, y], first)))
    }
}

/// 02 as it is meant.
pub struct Meant;

impl Rule for Meant {}
