//! Rings to try all kinds on: what a planner draws, edges that are cut deep, edges whose middle is
//! off by half a metre, rings through the antipode and out of the area of use, lists and corners that
//! are refused, numbers so small or large that products vanish or overflow, and any patterns.

use crate::area::{Area, BOUND, WIDEST};
use crate::areas::{CAUSES, refused_by};
use crate::fixed::{T, cos, sin};
use crate::line::{A, FE, FN, KINDS as ALL, LAT0, LON0, Line};
use crate::lines::{Lines, Sort};
use crate::patterns::{Patterns, SPECIALS, of_rank, rank};
use crate::ring::{KINDS, MOST, Meant, OFF, Pair, Ring, Rule};
use crate::source::fixed::parts::normalize_longitude;
use std::f64::consts::{FRAC_PI_2, PI};

/// What a ring is like.
#[derive(Clone, Copy, Debug, PartialEq)]
pub enum Shape {
    /// Some kilometres of an office's map.
    Catchment,
    /// With an axis by which the middle of an edge is off by about half a metre.
    Tolerance,
    /// With the antipode at a midpoint.
    Antipode,
    /// The same, with midpoints outside the area of use, and often a corner that is refused.
    Order,
    /// Partly outside the area of use.
    Outside,
    /// With corners that are not finite or lie beyond the bound.
    Faulty,
    /// With corners that come again.
    Repeated,
    /// Of another kind.
    Kinds,
    /// With lists that are too short, too long or unequal.
    Lists,
    /// With large false offsets.
    Offsets,
    /// On an ellipsoid so small that products vanish.
    Tiny,
    /// With settings at an edge.
    Settings,
    /// With settings and corners of any size, or any patterns.
    Random,
    /// As large as a country.
    Country,
    /// With edges that are cut to depth 10.
    Deep,
}

pub const SHAPES: [Shape; 15] = [
    Shape::Catchment,
    Shape::Tolerance,
    Shape::Antipode,
    Shape::Order,
    Shape::Outside,
    Shape::Faulty,
    Shape::Repeated,
    Shape::Kinds,
    Shape::Lists,
    Shape::Offsets,
    Shape::Tiny,
    Shape::Settings,
    Shape::Random,
    Shape::Country,
    Shape::Deep,
];

/// The last of them, which have many points.
const LONG: usize = 2;

/// A ring in so many is one of those.
const RARELY: usize = 101;

/// The place among the shapes of the ring at a place.
pub fn turn(place: usize) -> usize {
    let short = SHAPES.len() - LONG;
    match place % RARELY {
        0 => short + place / RARELY % LONG,
        _ => place % short,
    }
}

/// A seeded source of rings.
pub struct Rings {
    /// Of each kind.
    lines: [Lines; 7],
    /// Of Albers on spheres.
    spheres: Lines,
    patterns: Patterns,
}

impl Rings {
    pub fn new(seed: u64) -> Rings {
        Rings {
            lines: ALL.map(|kind| Lines::new(b'F', kind, seed)),
            spheres: Lines::on_spheres(b'F', seed),
            patterns: Patterns::new(seed),
        }
    }

    pub fn next(&mut self, shape: Shape) -> Ring {
        let mut ring = match shape {
            Shape::Catchment => self.catchment(),
            Shape::Tolerance => self.tolerance(),
            Shape::Antipode => self.antipode(),
            Shape::Order => self.order(),
            Shape::Outside => self.outside(),
            Shape::Faulty => self.faulty(),
            Shape::Repeated => self.repeated(),
            Shape::Kinds => self.another_kind(),
            Shape::Lists => self.lists(),
            Shape::Offsets => self.offsets(),
            Shape::Tiny => self.tiny(),
            Shape::Settings => self.settings(),
            Shape::Random => self.random(),
            Shape::Country => self.country(),
            Shape::Deep => self.deep(),
        };
        ring.buffers = self.buffers(&ring);
        ring
    }

    /// The lengths of the buffers: mostly as many as there are points, or some more.
    fn buffers(&mut self, ring: &Ring) -> [usize; 2] {
        let patterns = &mut self.patterns;
        let points = points_of(ring).unwrap_or(ring.corners.len());
        let mut below = |most: usize| patterns.below(most as u64) as usize;
        match below(32) {
            0 => [points.saturating_sub(1), points],
            1 => [points, points.saturating_sub(1)],
            2 => [points.saturating_sub(1), points + below(4)],
            3 => [below(points + 1), below(points + 1)],
            4 => [ring.corners.len(); 2],
            5 => [0; 2],
            6..=15 => [points + below(8), points + below(8)],
            _ => [points; 2],
        }
    }

    /// A line of a kind. One in four of Albers is on a sphere.
    fn line(&mut self, kind: u8, sort: Sort) -> Line {
        if kind == b'A' && self.patterns.below(4) == 0 {
            return self.spheres.next(sort);
        }
        let place = ALL.iter().position(|&other| other == kind);
        self.lines[place.expect("a kind")].next(sort)
    }

    fn kind(&mut self) -> u8 {
        self.patterns.choose(&KINDS)
    }

    /// How many corners.
    fn count(&mut self) -> usize {
        let most = match self.patterns.below(4096) {
            0 => return self.patterns.choose(&[MOST - 1, MOST, MOST, MOST + 1]),
            1..=16 => 400,
            17..=1000 => 10,
            _ => 4,
        };
        3 + self.patterns.below(most) as usize
    }

    /// Corners about a place, one after another round it, either way, at most so far from it.
    fn about(&mut self, [lon, lat]: Pair, reach: f64) -> Vec<Pair> {
        let count = self.count();
        let turn = self.patterns.choose(&[T, -T]) / count as f64;
        let first = T * self.patterns.fraction();
        let wide = 1.0 / cos(lat).max(0.1);
        let mut corner = |place| {
            let angle = first + turn * (f64::from(place) + 0.9 * self.patterns.fraction());
            let far = reach * (0.25 + 0.75 * self.patterns.fraction());
            let north = lat + far * sin(angle);
            [
                lon + wide * far * cos(angle),
                north.clamp(-FRAC_PI_2, FRAC_PI_2),
            ]
        };
        (0..count as u32).map(&mut corner).collect()
    }

    /// The ring of a projection, without an area of use.
    fn ring(&self, kind: u8, settings: [f64; 8], corners: Vec<Pair>) -> Ring {
        Ring {
            kind,
            settings,
            area: None,
            lists: [corners.len(); 2],
            corners,
            buffers: [0; 2],
        }
    }

    /// A ring about the place of a line.
    fn of_line(&mut self, line: &Line, reach: f64) -> Ring {
        let [settings @ .., lon, lat] = line.fields;
        let corners = self.about([lon, lat], reach);
        self.ring(line.kind, settings, corners)
    }

    /// Sometimes with an area of use that holds the ring, or nearly.
    fn in_area(&mut self, mut ring: Ring) -> Ring {
        ring.area = match self.patterns.below(16) {
            0..=3 => Some(self.around(&ring.corners)),
            4 => Some(WIDEST),
            5 => Some(self.across(&ring.corners)),
            _ => None,
        };
        ring
    }

    /// The area about these places.
    fn around(&mut self, places: &[Pair]) -> Area {
        let gap = self.patterns.choose(&[0.0, 1e-9, 1e-3, 0.1]);
        let ends = |i: usize| {
            let all = places.iter().map(|place| place[i]);
            let low = all.clone().fold(f64::INFINITY, f64::min);
            [low - gap, all.fold(f64::NEG_INFINITY, f64::max) + gap]
        };
        let [west, east] = ends(0).map(normalize_longitude);
        let [south, north] = ends(1).map(|lat| lat.clamp(-BOUND, BOUND));
        [west, east, south, north]
    }

    /// The same, with an edge at a corner or a midpoint, or a step off.
    fn across(&mut self, corners: &[Pair]) -> Area {
        let mut area = self.around(corners);
        let place = match self.patterns.coin() {
            true => self.patterns.choose(corners),
            false => self.midpoint(corners, 4),
        };
        let edge = self.patterns.below(4) as usize;
        let [lon, lat] = place;
        let at = [normalize_longitude(lon), lat][edge / 2];
        area[edge] = of_rank(rank(at) + self.patterns.choose(&[-1, 0, 0, 1]));
        area
    }

    /// All but what lies about a midpoint.
    fn but_for_a_midpoint(&mut self, corners: &[Pair], deepest: u64) -> Area {
        let [lon, _] = self.midpoint(corners, deepest);
        let gap = self.patterns.choose(&[1e-9, 1e-3, 0.05]);
        let [west, east] = [lon + gap, lon - gap].map(normalize_longitude);
        [west, east, -BOUND, BOUND]
    }

    /// The midpoint of an edge, at most so deep.
    fn midpoint(&mut self, corners: &[Pair], deepest: u64) -> Pair {
        let first = self.patterns.below(corners.len() as u64) as usize;
        let (mut from, mut to) = (corners[first], corners[(first + 1) % corners.len()]);
        for _ in 0..self.patterns.below(deepest + 1) {
            let middle = Meant.midpoint(from, to);
            match self.patterns.coin() {
                true => from = middle,
                false => to = middle,
            }
        }
        Meant.midpoint(from, to)
    }

    /// In degrees of some decimals, half of the time.
    fn catchment(&mut self) -> Ring {
        let kind = self.kind();
        let line = self.line(kind, Sort::Realistic);
        let reach = self.patterns.choose(&[1e-4, 3e-4, 1e-3]);
        let mut ring = self.of_line(&line, reach);
        if self.patterns.coin() {
            let decimals = 10.0_f64.powi(3 + self.patterns.below(5) as i32);
            let typed = |x: f64| ((x.to_degrees() * decimals).round() / decimals).to_radians();
            for corner in &mut ring.corners {
                *corner = corner.map(typed);
            }
        }
        self.in_area(ring)
    }

    fn country(&mut self) -> Ring {
        let kind = self.kind();
        let line = self.line(kind, Sort::Realistic);
        let reach = self.patterns.choose(&[3e-3, 0.01, 0.03, 0.1]);
        let ring = self.of_line(&line, reach);
        self.in_area(ring)
    }

    /// A simple map about a place.
    fn map(&mut self, [lon, lat]: Pair) -> [f64; 8] {
        let patterns = &mut self.patterns;
        let f = patterns.choose(&[0.0, -0.0, 1.0 / 300.0, 1.0 / 300.0, 0.1]);
        let lon0 = lon + 0.5 * patterns.unit();
        let [lat0, lat1, lat2] = [(); 3].map(|()| (lat + 0.5 * patterns.unit()).clamp(-1.5, 1.5));
        let offset = patterns.choose(&[0.0, 0.0, 1.0, 5e5]);
        [1.0, f, lon0, lat0, lat1, lat2, offset, offset]
    }

    fn place(&mut self) -> Pair {
        [PI * self.patterns.unit(), 1.4 * self.patterns.unit()]
    }

    /// A ring on a simple map with the axis 1.
    fn simple(&mut self, reach: f64) -> Ring {
        let (kind, place) = (self.kind(), self.place());
        let settings = self.map(place);
        let corners = self.about(place, reach);
        self.ring(kind, settings, corners)
    }

    /// A catchment, or such a ring.
    fn either(&mut self, reach: f64) -> Ring {
        match self.patterns.coin() {
            true => self.catchment(),
            false => self.simple(reach),
        }
    }

    fn tolerance(&mut self) -> Ring {
        let reaches = [1.0, 0.3, 0.1, 0.01, 1e-3, 1e-4, 1e-6];
        let reach = self.patterns.choose(&reaches);
        let mut ring = self.simple(reach);
        let edge = self.patterns.below(ring.corners.len() as u64) as usize;
        let mut at_1 = ring.clone();
        [at_1.settings[FE], at_1.settings[FN]] = [0.0; 2];
        let axis = OFF / off(&at_1, edge).unwrap_or(OFF);
        ring.settings[A] = self.patterns.around(axis);
        if self.patterns.coin() {
            ring.settings[FE..].fill(0.0);
        }
        ring
    }

    /// An axis with which edges of such a length are cut about so deep.
    fn axis(&mut self, depth: i32, length: f64) -> f64 {
        (0.5 + self.patterns.fraction()) * 4.0_f64.powi(depth + 1) / (length * length)
    }

    /// A ring whose edges are cut about so deep, with the antipode at a midpoint that is at most so
    /// deep.
    fn through_antipode(&mut self, depth: i32, deepest: u64) -> Ring {
        let reach = self.patterns.choose(&[1.0, 0.3, 0.1]);
        let mut ring = self.simple(reach);
        ring.kind = self.patterns.choose(b"LS");
        ring.settings[A] = self.axis(depth, reach);
        let [lon, lat] = self.midpoint(&ring.corners, deepest);
        let half_turn = self.patterns.choose(&[PI, -PI]);
        [ring.settings[LON0], ring.settings[LAT0]] = [lon + half_turn, -lat];
        ring
    }

    fn antipode(&mut self) -> Ring {
        let depth = self.patterns.below(5) as i32;
        let ring = self.through_antipode(depth, 5);
        self.in_area(ring)
    }

    fn order(&mut self) -> Ring {
        let depth = 2 + self.patterns.below(3) as i32;
        let mut ring = self.through_antipode(depth, 2);
        if self.patterns.below(4) > 0 {
            ring.area = Some(self.but_for_a_midpoint(&ring.corners, 2));
        }
        match self.patterns.below(4) {
            0 => self.spoil(&mut ring),
            1 => {
                let place = self.patterns.below(ring.corners.len() as u64) as usize;
                let [lon0, lat0] = [ring.settings[LON0], ring.settings[LAT0]];
                ring.corners[place] = [lon0 + PI, -lat0];
            }
            _ => (),
        }
        ring
    }

    fn outside(&mut self) -> Ring {
        let mut ring = match self.patterns.coin() {
            true => self.catchment(),
            false => {
                let reach = self.patterns.choose(&[1.0, 0.1, 0.01]);
                let mut ring = self.simple(reach);
                let depth = self.patterns.below(4) as i32;
                ring.settings[A] = self.axis(depth, reach);
                ring
            }
        };
        let area = match self.patterns.below(8) {
            0 => {
                let cause = self.patterns.below(CAUSES as u64) as usize;
                refused_by(cause, self.around(&ring.corners))
            }
            1..=3 => self.but_for_a_midpoint(&ring.corners, 3),
            _ => self.across(&ring.corners),
        };
        ring.area = Some(area);
        ring
    }

    /// Makes a corner one that is refused, or nearly.
    fn spoil(&mut self, ring: &mut Ring) {
        let patterns = &mut self.patterns;
        let place = patterns.below(ring.corners.len() as u64) as usize;
        let corner = &mut ring.corners[place];
        match patterns.below(4) {
            0 => corner[patterns.below(2) as usize] = f64::from_bits(patterns.choose(&SPECIALS)),
            1 => corner[0] = patterns.choose(&[1.6e308, 1.7e308, -1.7e308, 1e300, f64::MAX]),
            2 => corner[1] = f64::from_bits(patterns.near(BOUND)),
            _ => corner[1] = patterns.choose(&[2.0, -2.0, 1e300]),
        }
    }

    fn faulty(&mut self) -> Ring {
        let mut ring = self.either(0.5);
        for _ in 0..1 + self.patterns.below(3) {
            self.spoil(&mut ring);
        }
        ring
    }

    fn repeated(&mut self) -> Ring {
        let mut ring = self.either(0.5);
        let corners = &mut ring.corners;
        match self.patterns.below(4) {
            0 => corners.push(corners[0]),
            1 => corners.truncate(1),
            2 => corners.extend_from_within(..),
            _ => {
                let place = self.patterns.below(corners.len() as u64) as usize;
                corners.insert(place, corners[place]);
            }
        }
        ring.lists = [corners.len().max(3); 2];
        ring
    }

    fn another_kind(&mut self) -> Ring {
        let kind = self.patterns.choose(b"CPG");
        let sort = self.patterns.choose(&[Sort::Realistic, Sort::Edge]);
        let line = self.line(kind, sort);
        let ring = self.of_line(&line, 1e-3);
        let mut ring = self.in_area(ring);
        if self.patterns.below(4) == 0 {
            self.spoil(&mut ring);
        }
        ring
    }

    fn lists(&mut self) -> Ring {
        let mut ring = self.either(0.1);
        let count = ring.corners.len();
        let other = self.patterns.below(6) as usize;
        ring.lists = match self.patterns.below(8) {
            0 => [count, count + 1],
            1 => [count - 1, count],
            2 => [count, other],
            3 => [2; 2],
            4 => [self.patterns.below(3) as usize; 2],
            5 if other == 0 => [MOST + 1 + self.patterns.below(3) as usize; 2],
            _ => [3; 2],
        };
        if self.patterns.below(4) == 0 {
            self.spoil(&mut ring);
        }
        ring
    }

    fn offsets(&mut self) -> Ring {
        let reach = self.patterns.choose(&[1.0, 0.1]);
        let mut ring = self.simple(reach);
        let depth = self.patterns.below(3) as i32;
        ring.settings[A] = self.axis(depth, reach);
        for field in [FE, FN] {
            let offset = self.patterns.choose(&OFFSETS);
            ring.settings[field] = f64::from_bits(self.patterns.near(offset));
        }
        ring
    }

    /// Half of the time about the origin.
    fn tiny(&mut self) -> Ring {
        let reach = self.patterns.choose(&[1.0, 0.1, 0.01]);
        let mut ring = self.simple(reach);
        let axis = self.patterns.choose(&TINY);
        ring.settings[A] = axis * (0.5 + self.patterns.fraction());
        [ring.settings[FE], ring.settings[FN]] = [0.0; 2];
        if self.patterns.coin() {
            ring.kind = self.patterns.choose(b"LS");
            let [lon, lat] = self.place();
            [ring.settings[LON0], ring.settings[LAT0]] = [lon, lat];
            ring.corners = self.about([lon, lat], reach);
            ring.lists = [ring.corners.len(); 2];
        }
        ring
    }

    fn settings(&mut self) -> Ring {
        let kind = self.patterns.choose(&ALL);
        let line = self.line(kind, Sort::Edge);
        let reach = self.patterns.choose(&[1e-9, 1e-5, 1e-3, 0.01]);
        let ring = self.of_line(&line, reach);
        self.in_area(ring)
    }

    fn random(&mut self) -> Ring {
        let kind = self.kind();
        let sort = self
            .patterns
            .choose(&[Sort::Random, Sort::Sized, Sort::Sized]);
        let line = self.line(kind, sort);
        let reach = self.patterns.choose(&[1.0, 1e-3, 1e-6, 1e-9]);
        let mut ring = self.of_line(&line, reach);
        if self.patterns.below(4) == 0 {
            let any = |_: Pair| [(); 2].map(|()| f64::from_bits(self.patterns.one()));
            ring.corners = ring.corners.into_iter().map(any).collect();
        }
        if self.patterns.below(8) == 0 {
            ring.area = Some([(); 4].map(|()| f64::from_bits(self.patterns.one())));
        }
        ring
    }

    /// Of few corners: on the Earth, through the antipode, on one so large that products overflow, or
    /// with offsets that do not let two eastings be added.
    fn deep(&mut self) -> Ring {
        let depth = 8 + self.patterns.below(4) as i32;
        let mut ring = match self.patterns.below(4) {
            0 => self.through_antipode(depth, 11),
            _ => self.simple(1.0),
        };
        ring.corners.truncate(3);
        ring.lists = [3; 2];
        let patterns = &mut self.patterns;
        match patterns.below(4) {
            0 => ring.settings[A] = 6378137.0,
            1 => ring.settings[A] = 1e154 * (0.5 + patterns.fraction()),
            2 => ring.settings[FE] = patterns.choose(&[1.7e308, -1.7e308]),
            _ => ring.settings[A] = self.axis(depth, 1.0),
        }
        if self.patterns.coin() {
            ring.area = Some(self.but_for_a_midpoint(&ring.corners, 11));
        }
        ring
    }
}

/// Their products with each other, or with a number of the map's size, are near the largest f64.
const OFFSETS: [f64; 9] = [0.0, 5e5, 1e7, 1e100, 1e153, 1.3e154, 1e155, 1e200, 1e300];

/// The products of their numbers are among the least f64, or vanish.
const TINY: [f64; 7] = [
    1e-155,
    1e-160,
    1e-161,
    1e-162,
    1e-170,
    1e-300,
    f64::MIN_POSITIVE,
];

/// How many points a ring has; none where 27 or a point refuses it.
fn points_of(ring: &Ring) -> Option<usize> {
    let map = Meant.build(ring).ok()?;
    if Meant.refuses(ring) {
        return None;
    }
    let points = Meant.points(&map, ring).ok()?;
    Some(points.len())
}

/// How far off the middle of a ring's edge is.
fn off(ring: &Ring, edge: usize) -> Option<f64> {
    let map = Meant.build(ring).ok()?;
    let image = |place| Meant.point(&map, place).ok().map(|point| point.image);
    let [from, to] = [edge, edge + 1].map(|place| ring.corner(place));
    let middle = image(Meant.midpoint(from, to))?;
    let chord = Meant.midpoint_of_images(image(from)?, image(to)?);
    Some(Meant.off(middle, chord)).filter(|&off| off > 0.0)
}
