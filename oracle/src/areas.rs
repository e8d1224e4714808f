//! Lines with an area, to try a kind on, each way: areas about the place that a line is tested on,
//! at its very longitude and latitude, at the ends of what an edge may be, and beyond them.

use crate::area::{Area, AreaLine, BOUND, EAST, NORTH, SOUTH, WEST, WIDEST};
use crate::expected::answer;
use crate::fixed::T;
use crate::line::{Line, U, V};
use crate::lines::{Lines, Sort};
use crate::patterns::{Patterns, of_rank, rank};
use crate::source::fixed::parts::normalize_longitude;
use std::f64::consts::{FRAC_PI_2, PI};

/// What an area is like.
#[derive(Clone, Copy, Debug, PartialEq)]
pub enum Shape {
    /// About the place, and across the line where that is near.
    Around,
    /// Such a one to a side of the place.
    Beside,
    /// About the place, with edges at its own longitude and latitude or a step off.
    Touching,
    /// West above east.
    Crossing,
    /// One meridian, and often one parallel.
    Thin,
    /// Edges at the ends of what they may be, or a step off.
    Ends,
    /// An edge that normalising moves, and the place at it.
    Moved,
    /// Whole degrees, as an office writes them.
    Degrees,
    /// The world, halves of it, and its cut.
    Wide,
    /// About the place, with an edge that is refused.
    Faulty,
    /// Any four patterns.
    Random,
}

pub const SHAPES: [Shape; 11] = [
    Shape::Around,
    Shape::Beside,
    Shape::Touching,
    Shape::Crossing,
    Shape::Thin,
    Shape::Ends,
    Shape::Moved,
    Shape::Degrees,
    Shape::Wide,
    Shape::Faulty,
    Shape::Random,
];

/// The causes of 25: south above north, and those below.
pub const CAUSES: usize = FAULTS.len() + 1;

/// What makes an edge refused: the one that is set, and to what.
const FAULTS: [(usize, f64); 16] = [
    (WEST, f64::NAN),
    (EAST, f64::NAN),
    (SOUTH, f64::NAN),
    (NORTH, f64::NAN),
    (WEST, f64::NEG_INFINITY),
    (EAST, f64::INFINITY),
    (SOUTH, f64::NEG_INFINITY),
    (NORTH, f64::INFINITY),
    (WEST, (-PI).next_down()),
    (WEST, PI.next_up()),
    (EAST, (-PI).next_down()),
    (EAST, PI.next_up()),
    (SOUTH, (-BOUND).next_down()),
    (SOUTH, BOUND.next_up()),
    (NORTH, (-BOUND).next_down()),
    (NORTH, BOUND.next_up()),
];

/// An area made to be refused.
pub fn refused_by(cause: usize, mut area: Area) -> Area {
    let above = (SOUTH, area[NORTH].next_up());
    let (edge, value) = FAULTS.get(cause).copied().unwrap_or(above);
    area[edge] = value;
    area
}

/// A seeded source of lines with an area, of one way and kind.
pub struct Areas {
    lines: Lines,
    patterns: Patterns,
}

impl Areas {
    pub fn new(way: u8, kind: u8, seed: u64) -> Areas {
        let lines = Lines::new(way, kind, seed);
        let patterns = Patterns::new(seed << 24 | u64::from(way) << 16 | u64::from(kind));
        Areas { lines, patterns }
    }

    pub fn next(&mut self, sort: Sort, shape: Shape, handed: bool) -> AreaLine {
        let line = self.lines.next(sort);
        self.about(line, shape, handed)
    }

    /// An area for a line. `Shape::Moved` moves the place of a forward line to the edge.
    pub fn about(&mut self, mut line: Line, shape: Shape, handed: bool) -> AreaLine {
        let place = self.place(&line);
        let area = match shape {
            Shape::Around => self.around(place),
            Shape::Beside => self.beside(place),
            Shape::Touching => self.touching(place),
            Shape::Crossing => self.crossing(place),
            Shape::Thin => self.thin(place),
            Shape::Ends => self.ends(),
            Shape::Moved => self.moved(place, &mut line),
            Shape::Degrees => self.degrees(place),
            Shape::Wide => self.patterns.choose(&WIDE),
            Shape::Faulty => self.faulty(place),
            Shape::Random => [(); 4].map(|()| f64::from_bits(self.patterns.one())),
        };
        AreaLine { line, area, handed }
    }

    /// The longitude and latitude that the area of a line is tested on; any, where there is none.
    fn place(&mut self, line: &Line) -> [f64; 2] {
        let [.., u, v] = line.fields;
        let answer = answer(line);
        match (line.way, answer.number) {
            (b'F', _) if u.is_finite() && v.is_finite() => [normalize_longitude(u), v],
            (b'I', 0) => [answer.p, answer.q].map(f64::from_bits),
            _ => [PI * self.patterns.unit(), FRAC_PI_2 * self.patterns.unit()],
        }
    }

    /// How far an edge lies from a place.
    fn reach(&mut self) -> f64 {
        PI * self.patterns.choose(&[1.0, 0.1, 1e-3, 1e-9]) * self.patterns.fraction()
    }

    fn around(&mut self, [lon, lat]: [f64; 2]) -> Area {
        let [west, east, south, north] = [(); 4].map(|()| self.reach());
        [
            turned(lon - west),
            turned(lon + east),
            (lat - south).clamp(-BOUND, BOUND),
            (lat + north).clamp(-BOUND, BOUND),
        ]
    }

    fn beside(&mut self, [lon, lat]: [f64; 2]) -> Area {
        let (gap, width) = (self.reach(), self.reach());
        let far = gap + width;
        let [west, east, south, north] = self.around([lon, lat]);
        let clamped = |lat: f64| lat.clamp(-BOUND, BOUND);
        match self.patterns.below(4) {
            0 => [turned(lon + gap), turned(lon + far), south, north],
            1 => [turned(lon - far), turned(lon - gap), south, north],
            2 => [west, east, clamped(lat + gap), clamped(lat + far)],
            _ => [west, east, clamped(lat - far), clamped(lat - gap)],
        }
    }

    fn touching(&mut self, place: [f64; 2]) -> Area {
        let mut area = self.around(place);
        for _ in 0..1 + self.patterns.below(4) {
            let edge = self.patterns.below(4) as usize;
            area[edge] = self.step(place[edge / 2]);
        }
        area
    }

    /// A number, or the next one to either side.
    fn step(&mut self, x: f64) -> f64 {
        of_rank(rank(x) + self.patterns.choose(&[-1, 0, 0, 1]))
    }

    fn crossing(&mut self, [lon, lat]: [f64; 2]) -> Area {
        let [.., south, north] = self.around([lon, lat]);
        let [one, other] = [(); 2].map(|()| match self.patterns.below(4) {
            0 => PI * self.patterns.unit(),
            1 => self.step(lon),
            _ => {
                let reach = self.reach();
                (lon + self.patterns.choose(&[reach, -reach])).clamp(-PI, PI)
            }
        });
        [one.max(other), one.min(other), south, north]
    }

    fn thin(&mut self, [lon, lat]: [f64; 2]) -> Area {
        let [.., south, north] = self.around([lon, lat]);
        let random = PI * self.patterns.unit();
        let meridian = self.patterns.choose(&[lon, lon, lon, PI, -PI, random]);
        let [west, east] = [self.step(meridian); 2];
        if self.patterns.coin() {
            return [west, east, south, north];
        }
        let parallel = self.step(lat);
        [west, east, parallel, parallel]
    }

    fn ends(&mut self) -> Area {
        let mut end = |ends: &[f64]| {
            let end = self.patterns.choose(ends) * self.patterns.choose(&[1.0, -1.0]);
            self.step(end)
        };
        let [west, east] = [(); 2].map(|()| end(&[PI, PI, FRAC_PI_2, 0.0]));
        let [south, north] = [(); 2].map(|()| end(&[BOUND, BOUND, FRAC_PI_2, 0.0]));
        match self.patterns.below(8) {
            0 => [west, east, south, north],
            _ => [west, east, south.min(north), south.max(north)],
        }
    }

    fn moved(&mut self, [lon, lat]: [f64; 2], line: &mut Line) -> Area {
        let [west, east, south, north] = self.around([lon, lat]);
        let edge = if line.way == b'F' {
            let degrees = (180.0 * self.patterns.unit()).round();
            let decimal = (30.0 * self.patterns.unit()).round() / 10.0;
            line.fields[U] = self
                .patterns
                .choose(&[0.1, 0.3, decimal, degrees.to_radians()]);
            line.fields[U]
        } else {
            self.patterns.around(lon)
        };
        let reach = self.reach();
        match self.patterns.below(4) {
            0 => [edge, turned(edge + reach), south, north],
            1 => [turned(edge - reach), edge, south, north],
            2 => [edge, east, south, north],
            _ => [west, edge, south, north],
        }
    }

    fn degrees(&mut self, place: [f64; 2]) -> Area {
        let [lon, lat] = place.map(|x| x.to_degrees().floor());
        let mut off = || self.patterns.below(12) as f64;
        let longitudes = [lon + 3.0 - off(), lon - 2.0 + off()].map(|x| x.clamp(-180.0, 180.0));
        let latitudes = [lat + 2.0 - off(), lat - 1.0 + off()].map(|x| x.clamp(-90.0, 90.0));
        let [south, north] = latitudes;
        let [west, east] = longitudes;
        [west, east, south.min(north), south.max(north)].map(f64::to_radians)
    }

    fn faulty(&mut self, place: [f64; 2]) -> Area {
        let mut area = self.around(place);
        if self.patterns.below(4) > 0 {
            return refused_by(self.patterns.below(CAUSES as u64) as usize, area);
        }
        let edge = self.patterns.below(4) as usize;
        area[edge] = self.patterns.choose(&[4.0, -4.0, 7.0, 1e300, -f64::MAX]);
        area
    }

    /// Points for a column of a line's projection: its own, and so many about the area's edges. The
    /// inverse has their images.
    pub fn points(&mut self, question: &AreaLine, count: usize) -> Vec<[f64; 2]> {
        let [.., u, v] = question.line.fields;
        let mut points = vec![[u, v]];
        points.resize_with(count, || self.point(question));
        points
    }

    fn point(&mut self, question: &AreaLine) -> [f64; 2] {
        let [west, east, south, north] = question.area;
        let (middle, high) = (west.midpoint(east), south.midpoint(north));
        let (lon, lat) = (PI * self.patterns.unit(), FRAC_PI_2 * self.patterns.unit());
        let lon = self.patterns.choose(&[west, east, middle, middle, lon]);
        let lat = self.patterns.choose(&[south, north, high, high, lat]);
        let place = [self.step(lon), self.step(lat)];
        let mut forward = question.line;
        forward.way = b'F';
        [forward.fields[U], forward.fields[V]] = place;
        let image = answer(&forward);
        if question.line.way == b'F' || image.number != 0 {
            return place;
        }
        [image.p, image.q].map(f64::from_bits)
    }
}

const WIDE: [Area; 8] = [
    WIDEST,
    [-PI, PI, -FRAC_PI_2, FRAC_PI_2],
    [PI, -PI, -BOUND, BOUND],
    [-PI, -PI, -BOUND, BOUND],
    [PI, PI, -BOUND, BOUND],
    [0.0, PI, -BOUND, BOUND],
    [0.0, -0.0, -BOUND, BOUND],
    [-PI, PI, 0.0, BOUND],
];

/// A longitude at most a turn away, brought between -PI and PI.
fn turned(lon: f64) -> f64 {
    let turns = if lon > PI { -1.0 } else { f64::from(lon < -PI) };
    (lon + T * turns).clamp(-PI, PI)
}
