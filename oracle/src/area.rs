//! Document 02's area of use, from its words alone: which areas are refused, which places lie
//! inside, and what a projection answers with one. Each step is a method of `Rule`, so that a test
//! can put a wrong reading in its place.

use crate::expected::Projection;
use crate::line::{Answer, Line, U, V};
use crate::source::fixed::parts::{normalize_longitude, validate_lon_lat};
use std::f64::consts::{FRAC_PI_2, PI};

/// 01's bound on latitudes.
pub const BOUND: f64 = FRAC_PI_2 + 1e-12;

/// 02's numbers: an area is refused, and a place lies outside.
pub const AREA_EDGES: u8 = 25;
pub const OUTSIDE_AREA: u8 = 26;

/// Four edges, in radians.
pub type Area = [f64; 4];

/// Their places.
pub const WEST: usize = 0;
pub const EAST: usize = 1;
pub const SOUTH: usize = 2;
pub const NORTH: usize = 3;

/// The area that holds every place.
pub const WIDEST: Area = [-PI, PI, -BOUND, BOUND];

/// A line, and the area of its projection.
#[derive(Clone, Copy, Debug)]
pub struct AreaLine {
    pub line: Line,
    pub area: Area,
    /// Handed in to the built projection, unchecked; else the projection is built with it.
    pub handed: bool,
}

impl AreaLine {
    /// A name, the sheet's line, and the edges.
    pub fn text(&self) -> String {
        let name = if self.handed { "handed" } else { "area" };
        let edges = self.area.map(|edge| format!(",{:016x}", edge.to_bits()));
        format!("{name},{}{}", self.line.text(), edges.concat())
    }

    /// The line of such a text; none where it has another form.
    pub fn read(text: &str) -> Option<AreaLine> {
        let (name, rest) = text.split_once(',')?;
        let (line, edges) = rest.split_at_checked(LINE)?;
        let mut edges = edges.split(',').skip(1);
        let mut area = [0.0; 4];
        for edge in &mut area {
            *edge = f64::from_bits(u64::from_str_radix(edges.next()?, 16).ok()?);
        }
        let line = Line::read(line.as_bytes())?;
        let handed = name == "handed";
        let known = (handed || name == "area") && edges.next().is_none();
        known.then_some(AreaLine { line, area, handed })
    }

    /// The same with another point.
    pub fn at(&self, u: f64, v: f64) -> AreaLine {
        let mut other = *self;
        (other.line.fields[U], other.line.fields[V]) = (u, v);
        other
    }
}

/// The bytes of a value line.
const LINE: usize = 173;

/// What 02 says, in the order of its words.
pub trait Rule {
    /// "West above east means that it crosses the line."
    fn crosses(&self, [west, east, ..]: &Area) -> bool {
        west > east
    }

    /// "A place's longitude is normalised before the test".
    fn tested(&self, lon: f64) -> f64 {
        normalize_longitude(lon)
    }

    /// "Edges belong to the area."
    fn holds(&self, question: &AreaLine, lon: f64, lat: f64) -> bool {
        let [west, east, south, north] = question.area;
        let lon = self.tested(lon);
        let longitudes = if self.crosses(&question.area) {
            west <= lon || lon <= east
        } else {
            west <= lon && lon <= east
        };
        longitudes && south <= lat && lat <= north
    }

    /// 25, "when an edge is not finite, a longitude edge lies outside [-π, π], a latitude edge
    /// exceeds the bound in size or south exceeds north".
    fn refuses(&self, area: &Area) -> bool {
        let [west, east, south, north] = *area;
        let finite = area.iter().all(|edge| edge.is_finite());
        let in_the_turn = [west, east].iter().all(|edge| (-PI..=PI).contains(edge));
        let beyond = [south, north].iter().any(|edge| edge.abs() > BOUND);
        !finite || !in_the_turn || beyond || south > north
    }

    /// 25 comes "after 15". An area that is handed in is not looked at.
    fn build(&self, question: &AreaLine) -> Result<Projection, u8> {
        let built = Projection::new(question.line.kind, &question.line.fields)?;
        if !question.handed && self.refuses(&question.area) {
            return Err(AREA_EDGES);
        }
        Ok(built)
    }

    /// 26 comes "after 17 forward". The formula gets the caller's longitude.
    fn forward(&self, built: &Projection, question: &AreaLine) -> Answer {
        let [.., lon, lat] = question.line.fields;
        let refused = validate_lon_lat(lon, lat);
        if refused != 0 {
            return Answer::refused(refused);
        }
        if !self.holds(question, lon, lat) {
            return Answer::refused(OUTSIDE_AREA);
        }
        built.project(b'F', lon, lat)
    }

    /// 26 comes "after 24 inverse": "an inverse hands out only places inside".
    fn inverse(&self, built: &Projection, question: &AreaLine) -> Answer {
        let [.., x, y] = question.line.fields;
        let answer = built.project(b'I', x, y);
        let [lon, lat] = [answer.p, answer.q].map(f64::from_bits);
        if answer.number == 0 && !self.holds(question, lon, lat) {
            return Answer::refused(OUTSIDE_AREA);
        }
        answer
    }

    fn answer(&self, question: &AreaLine) -> Answer {
        match self.build(question) {
            Err(number) => Answer::refused(number),
            Ok(built) if question.line.way == b'F' => self.forward(&built, question),
            Ok(built) => self.inverse(&built, question),
        }
    }
}

/// 02 as it is meant.
pub struct Meant;

impl Rule for Meant {}
