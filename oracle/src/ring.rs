//! Document 02's area of a catchment ring, from its words alone. A point of the ring is projected as
//! a forward line is, inside the area of use where the projection is built with one. Each step is a
//! method of `Rule`, so that a test can put a wrong reading in its place.

use crate::area::{self, Area, AreaLine, Rule as _};
use crate::expected::Projection;
use crate::fixed::root;
use crate::line::{Answer, Line, U, V};

/// The kinds that a ring is measured with.
pub const KINDS: [u8; 4] = *b"LSAE";

/// How many corners a ring may have.
pub const FEWEST: usize = 3;
pub const MOST: usize = 4096;

/// How often an edge is cut at most, and how far off its middle may lie uncut, in metres.
pub const DEEPEST: u32 = 10;
pub const OFF: f64 = 0.5;

/// 02's numbers: the lists or the kind are refused, and a buffer or the area is.
pub const NO_RING: u8 = 27;
pub const NO_AREA: u8 = 28;

/// A longitude and a latitude, or an easting and a northing.
pub type Pair = [f64; 2];

/// A ring, the projection that it is measured with, and the lengths of the lent buffers.
#[derive(Clone, Debug)]
pub struct Ring {
    pub kind: u8,
    /// As a line has them.
    pub settings: [f64; 8],
    /// The projection is built with it, if there is one.
    pub area: Option<Area>,
    /// How long the lists of longitudes and latitudes are.
    pub lists: [usize; 2],
    /// At least one. Where a list is longer, it has them again from the first.
    pub corners: Vec<Pair>,
    /// How long the buffers of eastings and northings are.
    pub buffers: [usize; 2],
}

impl Ring {
    /// A forward line with the projection's settings, and the lengths of the buffers for a point.
    fn line(&self) -> Line {
        let mut fields = [0.0; 10];
        fields[..U].copy_from_slice(&self.settings);
        [fields[U], fields[V]] = self.buffers.map(|length| f64::from_bits(length as u64));
        let (way, kind) = (b'F', self.kind);
        Line { way, kind, fields }
    }

    /// A name, that line, the edges of the area if there is one, the lengths of the lists, and the
    /// corners.
    pub fn text(&self) -> String {
        let (name, edges) = match self.area {
            None => ("ring", [].as_slice()),
            Some(ref area) => ("ring_in_area", area.as_slice()),
        };
        let bits = |x: &f64| x.to_bits();
        let lists = self.lists.map(|length| length as u64);
        let corners = self.corners.as_flattened().iter().map(bits);
        let all = edges.iter().map(bits).chain(lists).chain(corners);
        let fields: String = all.map(|field| format!(",{field:016x}")).collect();
        format!("{name},{}{fields}", self.line().text())
    }

    /// The ring of such a text; none where it has another form.
    pub fn read(text: &str) -> Option<Ring> {
        let (name, rest) = text.split_once(',')?;
        let (line, fields) = rest.split_at_checked(LINE)?;
        let line = Line::read(line.as_bytes())?;
        let read = |field| u64::from_str_radix(field, 16).ok();
        let fields: Option<Vec<u64>> = fields.split(',').skip(1).map(read).collect();
        let fields = fields?;
        let (area, rest) = match name {
            "ring" => (None, fields.as_slice()),
            "ring_in_area" => {
                let (area, rest) = fields.split_first_chunk()?;
                (Some(area.map(f64::from_bits)), rest)
            }
            _ => return None,
        };
        let (lists, rest) = rest.split_first_chunk::<2>()?;
        let (corners, none) = rest.as_chunks::<2>();
        let corners: Vec<Pair> = corners
            .iter()
            .map(|corner| corner.map(f64::from_bits))
            .collect();
        let known = line.way == b'F' && none.is_empty() && !corners.is_empty();
        let [settings @ .., eastings, northings] = line.fields;
        known.then_some(Ring {
            kind: line.kind,
            settings,
            area,
            lists: lists.map(|length| length as usize),
            corners,
            buffers: [eastings, northings].map(|length| length.to_bits() as usize),
        })
    }

    /// The corner at a place of the lists.
    pub fn corner(&self, place: usize) -> Pair {
        self.corners[place % self.corners.len()]
    }

    /// The two lists.
    pub fn lons_and_lats(&self) -> [Vec<f64>; 2] {
        [0, 1].map(|i| {
            let corners = (0..self.lists[i]).map(|place| self.corner(place));
            corners.map(|corner| corner[i]).collect()
        })
    }

    /// The two buffers before the call.
    pub fn lent(&self) -> [Vec<f64>; 2] {
        self.buffers.map(lent)
    }
}

/// A buffer before the call: each place holds its own number as a pattern.
pub fn lent(length: usize) -> Vec<f64> {
    (0..length as u64).map(f64::from_bits).collect()
}

/// The bytes of a value line.
const LINE: usize = 173;

/// A number, 0 if answered, the area as a pattern, the number of points, and what the buffers hold
/// after the call, as patterns.
#[derive(Clone, Debug, PartialEq)]
pub struct RingAnswer {
    pub number: u8,
    pub area: u64,
    pub points: usize,
    pub buffers: [Vec<u64>; 2],
}

impl RingAnswer {
    pub fn new(number: u8, area: f64, points: usize, buffers: &[Vec<f64>; 2]) -> RingAnswer {
        let bits = |buffer: &Vec<f64>| buffer.iter().map(|x| x.to_bits()).collect();
        RingAnswer {
            number,
            area: area.to_bits(),
            points,
            buffers: buffers.each_ref().map(bits),
        }
    }

    /// The buffers in one number, the eastings first.
    fn print(&self) -> u64 {
        let places = self.buffers.iter().flatten();
        places.fold(0_u64, |print, bits| print.rotate_left(1) ^ bits)
    }

    pub fn text(&self) -> String {
        let RingAnswer {
            number,
            area,
            points,
            ..
        } = self;
        format!("{number},{area:016x},{points:016x},{:016x}", self.print())
    }
}

/// A built projection, and the area that it is built with.
pub struct Map {
    built: Projection,
    with: Option<AreaLine>,
}

impl Map {
    pub fn forward(&self, [lon, lat]: Pair) -> Answer {
        match &self.with {
            None => self.built.project(b'F', lon, lat),
            Some(question) => area::Meant.forward(&self.built, &question.at(lon, lat)),
        }
    }

    /// The same, whatever the area.
    pub fn anywhere(&self, [lon, lat]: Pair) -> Answer {
        self.built.project(b'F', lon, lat)
    }
}

/// A place, and what it is projected to: a corner, or a midpoint.
#[derive(Clone, Copy, Debug)]
pub struct Point {
    pub place: Pair,
    pub image: Pair,
}

/// From one point to another.
pub type Edge = [Point; 2];

/// What 02 says, step by step.
pub trait Rule {
    /// A projection that is refused gives its own number, before any of a ring's.
    fn build(&self, ring: &Ring) -> Result<Map, u8> {
        let line = ring.line();
        let with = ring.area.map(|area| AreaLine {
            line,
            area,
            handed: false,
        });
        let built = match &with {
            None => Projection::new(line.kind, &line.fields)?,
            Some(question) => area::Meant.build(question)?,
        };
        Ok(Map { built, with })
    }

    /// "for kinds L, S, A and E"
    fn measures(&self, kind: u8) -> bool {
        KINDS.contains(&kind)
    }

    /// 27, "for lists of unequal length, fewer than 3 or more than 4,096 corners or another kind".
    fn refuses(&self, ring: &Ring) -> bool {
        let [lons, lats] = ring.lists;
        lons != lats || !(FEWEST..=MOST).contains(&lons) || !self.measures(ring.kind)
    }

    /// "The first point refused in that working order gives its own number."
    fn point(&self, map: &Map, place: Pair) -> Result<Point, u8> {
        match map.forward(place) {
            Answer { number: 0, p, q } => Ok(Point {
                place,
                image: [p, q].map(f64::from_bits),
            }),
            refused => Err(refused.number),
        }
    }

    /// "A midpoint is half the sum."
    fn half_sum(&self, one: f64, other: f64) -> f64 {
        (one + other) * 0.5
    }

    /// "the midpoint of its coordinates": "An edge runs straight in longitude and latitude."
    fn midpoint(&self, from: Pair, to: Pair) -> Pair {
        [0, 1].map(|i| self.half_sum(from[i], to[i]))
    }

    /// "the midpoint of its projected ends"
    fn midpoint_of_images(&self, from: Pair, to: Pair) -> Pair {
        [0, 1].map(|i| self.half_sum(from[i], to[i]))
    }

    /// "the root of dx×dx + dy×dy, from its projected midpoint to the midpoint of its projected ends"
    fn off(&self, middle: Pair, chord: Pair) -> f64 {
        let [dx, dy] = [0, 1].map(|i| chord[i] - middle[i]);
        root(dx * dx + dy * dy)
    }

    /// "A shallower edge is left uncut when" that "is at most 0.5 m."
    fn uncut(&self, middle: Pair, [from, to]: Edge) -> bool {
        self.off(middle, self.midpoint_of_images(from.image, to.image)) <= OFF
    }

    /// "An edge at depth 10 is neither tested nor cut."
    fn deepest(&self, depth: u32) -> bool {
        depth == DEEPEST
    }

    /// Where an edge is cut: "at the midpoint of its coordinates". None where it is left uncut.
    fn cut_point(&self, map: &Map, edge: Edge, depth: u32) -> Result<Option<Point>, u8> {
        if self.deepest(depth) {
            return Ok(None);
        }
        let [from, to] = edge;
        let middle = self.point(map, self.midpoint(from.place, to.place))?;
        Ok((!self.uncut(middle.image, edge)).then_some(middle))
    }

    /// The cut points of an edge, in ring order: "each half again, until depth 10", "its midpoint
    /// before its halves, first half first", "but no midpoint of an uncut edge".
    fn cut(&self, map: &Map, edge: Edge, depth: u32, cut: &mut Vec<Pair>) -> Result<(), u8> {
        let [from, to] = edge;
        if let Some(middle) = self.cut_point(map, edge, depth)? {
            self.cut(map, [from, middle], depth + 1, cut)?;
            cut.push(middle.image);
            self.cut(map, [middle, to], depth + 1, cut)?;
        }
        Ok(())
    }

    /// "Corners are projected first, in ring order".
    fn corners(&self, map: &Map, ring: &Ring) -> Result<Vec<Point>, u8> {
        let places = (0..ring.lists[0]).map(|place| ring.corner(place));
        places.map(|place| self.point(map, place)).collect()
    }

    /// "A corner's edge runs to the next corner, the last to the first, at depth 0."
    fn edges(&self, corners: &[Point]) -> Vec<Edge> {
        let next = corners.iter().cycle().skip(1);
        let edges = corners.iter().zip(next);
        edges.map(|(&corner, &next)| [corner, next]).collect()
    }

    /// "Corners and cut points", "in ring order": "then each edge in turn".
    fn points(&self, map: &Map, ring: &Ring) -> Result<Vec<Pair>, u8> {
        let corners = self.corners(map, ring)?;
        let mut points = Vec::new();
        for edge in self.edges(&corners) {
            points.push(edge[0].image);
            self.cut(map, edge, 0, &mut points)?;
        }
        Ok(points)
    }

    /// "easting×next northing - next easting×northing"
    fn term(&self, [easting, northing]: Pair, [next_easting, next_northing]: Pair) -> f64 {
        easting * next_northing - next_easting * northing
    }

    /// "the sum, from +0 in that order", "the first point following the last"
    fn sum(&self, points: &[Pair]) -> f64 {
        let next = points.iter().cycle().skip(1);
        let terms = points.iter().zip(next);
        terms.fold(0.0, |sum, (&point, &next)| sum + self.term(point, next))
    }

    /// "The area is half the sum", "sign kept".
    fn area(&self, points: &[Pair]) -> f64 {
        0.5 * self.sum(points)
    }

    /// "when a buffer is shorter than the points needed"
    fn too_short(&self, ring: &Ring, points: &[Pair]) -> bool {
        ring.buffers.iter().any(|&length| length < points.len())
    }

    /// "or the area is not finite"
    fn not_finite(&self, area: f64) -> bool {
        !area.is_finite()
    }

    /// The numbers in their order: 27 "before any point", and 28 "after all points".
    fn work(&self, ring: &Ring) -> Result<(f64, Vec<Pair>), u8> {
        let map = self.build(ring)?;
        if self.refuses(ring) {
            return Err(NO_RING);
        }
        let points = self.points(&map, ring)?;
        let area = self.area(&points);
        if self.too_short(ring, &points) || self.not_finite(area) {
            return Err(NO_AREA);
        }
        Ok((area, points))
    }

    /// The points "go in ring order into two lent buffers", and "places past the last point are never
    /// touched".
    fn fill(&self, points: &[Pair], buffers: &mut [Vec<f64>; 2]) {
        for (i, buffer) in buffers.iter_mut().enumerate() {
            for (place, point) in buffer.iter_mut().zip(points) {
                *place = point[i];
            }
        }
    }

    /// "The answer is the area and the number of points." "A refusal leaves both buffers unchanged".
    fn answer(&self, ring: &Ring) -> RingAnswer {
        let mut buffers = ring.lent();
        match self.work(ring) {
            Err(number) => RingAnswer::new(number, 0.0, 0, &buffers),
            Ok((area, points)) => {
                self.fill(&points, &mut buffers);
                RingAnswer::new(0, area, points.len(), &buffers)
            }
        }
    }
}

/// 02 as it is meant.
pub struct Meant;

impl Rule for Meant {}
