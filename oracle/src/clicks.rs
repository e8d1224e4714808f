//! Clicks to try the second inverse on: points at a limit, between that and the edge, just inside, off
//! the map, at both edges at once and about the centre, numbers that overflow or are none, and what
//! `lines` has. Half of them have an area of use, built with the projection or handed in.

use crate::areas::{self, Areas};
use crate::expected::Projection;
use crate::fixed::{T, cos, sin};
use crate::line::{A, F, FE, FN, LAT0, LON0, Line, U, V};
use crate::lines::{Lines, Sort};
use crate::on_map::{BEYOND, CENTRE, Click, Form, KINDS, Map, Meant, POLAR, RIM, Rule, SIDE, TOP};
use crate::patterns::{Patterns, of_rank, rank};
use crate::ring::Pair;
use std::f64::consts::{FRAC_PI_2, PI};

/// What a click is like.
#[derive(Clone, Copy, Debug, PartialEq)]
pub enum Shape {
    /// One of `lines`.
    Of(Sort),
    /// The last point on the map, or one next to it.
    Limit,
    /// Beyond the edge, up to the limit.
    Between,
    /// At the edge or next to it, or not far inside.
    Inside,
    /// Off the map.
    Off,
    /// At an edge by the northing, and of Equal Earth by the easting too.
    Corner,
    /// About the centre, often on an ellipsoid that is as small as the tolerance.
    Centre,
    /// So large or small that a number overflows, vanishes or is none.
    Overflow,
}

/// Those of any kind, and then those of the kinds that have a second inverse.
pub const SHAPES: [Shape; 11] = [
    Shape::Of(Sort::Realistic),
    Shape::Of(Sort::Edge),
    Shape::Of(Sort::Random),
    Shape::Of(Sort::Sized),
    Shape::Limit,
    Shape::Between,
    Shape::Inside,
    Shape::Off,
    Shape::Corner,
    Shape::Centre,
    Shape::Overflow,
];

/// So many are of any kind.
const OF_LINES: usize = 4;

/// The shapes of a kind.
pub fn shapes(kind: u8) -> &'static [Shape] {
    match KINDS.contains(&kind) {
        true => &SHAPES,
        false => &SHAPES[..OF_LINES],
    }
}

/// What is tested of a point that is moved along a field, the larger the further out, and its edge.
pub fn tested(map: &Map, field: usize, point: Pair) -> (f64, f64) {
    let [x, y] = point;
    match map {
        Map::Lambert(on) => {
            let rho = Meant.rho(on, point);
            let number = match on.form {
                Form::Oblique | Form::Spherical => Meant.quotient(on, rho),
                Form::North => -Meant.polar_quotient(on, rho),
                Form::South => Meant.polar_quotient(on, rho),
            };
            (number, RIM)
        }
        Map::EqualEarth(on) => {
            let northing = Meant.northing(on, y);
            let psi = Meant.psi(Meant.clamped(northing)).unwrap_or(f64::NAN);
            match field {
                U => (Meant.longitude(on, x, psi).abs(), SIDE),
                _ => (northing.abs(), TOP),
            }
        }
    }
}

/// A seeded source of clicks of one kind.
pub struct Clicks {
    kind: u8,
    lines: Lines,
    areas: Areas,
    patterns: Patterns,
}

impl Clicks {
    pub fn new(kind: u8, seed: u64) -> Clicks {
        Clicks {
            kind,
            lines: Lines::new(b'I', kind, seed),
            areas: Areas::new(b'I', kind, seed),
            patterns: Patterns::new(seed << 8 | u64::from(kind)),
        }
    }

    pub fn next(&mut self, shape: Shape) -> Click {
        let line = self.line(shape);
        let (in_area, handed) =
            self.patterns
                .choose(&[(false, false), (false, false), (true, false), (true, true)]);
        if !in_area {
            return Click::new(line);
        }
        let around = self.patterns.choose(&areas::SHAPES);
        let area = Some(self.areas.about(line, around, handed).area);
        Click { line, area, handed }
    }

    /// Without an area.
    fn line(&mut self, shape: Shape) -> Line {
        let fields = match shape {
            Shape::Of(sort) => return self.lines.next(sort),
            Shape::Centre => self.small_map(),
            Shape::Overflow => self.large_map(),
            _ => self.map(),
        };
        let (way, kind) = (b'I', self.kind);
        let mut line = Line { way, kind, fields };
        [line.fields[U], line.fields[V]] = self.point(&line, shape);
        line
    }

    /// A map without a point.
    fn map(&mut self) -> [f64; 10] {
        let patterns = &mut self.patterns;
        let mut fields = [0.0; 10];
        fields[A] = patterns.choose(&AXES);
        fields[F] = match patterns.below(8) {
            0 => patterns.choose(&FLATTENINGS),
            1 => patterns.fraction(),
            _ => patterns.choose(&[0.0, -0.0, 1.0 / 298.257223563, 1.0 / 300.0]),
        };
        let any = PI * patterns.unit();
        fields[LON0] = patterns.choose(&[0.0, 0.0, 3.0, -3.0, PI, any, 7.0, 1e16, 1e300]);
        fields[LAT0] = self.latitude();
        for field in [FE, FN] {
            let patterns = &mut self.patterns;
            let offset = patterns.choose(&[0.0, 0.0, 0.0, 0.5, -3.0, 1e6]);
            fields[field] = fields[A] * offset;
        }
        fields
    }

    /// Of the origin: anywhere, at a pole or nearly there.
    fn latitude(&mut self) -> f64 {
        let patterns = &mut self.patterns;
        let off = patterns.choose(&[0.0, POLAR / 2.0, POLAR, 2e-12, 1e-8, 1e-7, 1e-4]);
        let pole = patterns.around(FRAC_PI_2 - off);
        let any = FRAC_PI_2 * patterns.unit();
        patterns.choose(&[any, any, 0.0, 0.5, pole, -pole, FRAC_PI_2, -FRAC_PI_2])
    }

    /// One whose edge often lies about the centre's tolerance.
    fn small_map(&mut self) -> [f64; 10] {
        let mut fields = self.map();
        let patterns = &mut self.patterns;
        fields[A] = patterns.choose(&[1e-12, 1e-10, 4e-10, 5e-10, 7e-10, 1e-9, 1.0, 6378137.0]);
        for field in [FE, FN] {
            fields[field] = patterns.choose(&[0.0, 0.0, 0.0, 1e-9, 1e-3]);
        }
        fields
    }

    fn large_map(&mut self) -> [f64; 10] {
        let mut fields = self.map();
        for field in [A, FE, FN] {
            if self.patterns.below(3) > 0 {
                fields[field] = self.large();
            }
        }
        fields[A] = fields[A].abs();
        if self.patterns.below(8) == 0 {
            [fields[A], fields[F]] = NO_SCALE;
        }
        fields
    }

    fn large(&mut self) -> f64 {
        let size = self.patterns.choose(&SIZES);
        f64::from_bits(self.patterns.near(size))
    }

    /// A point of a line's map. Where none is built, any.
    fn point(&mut self, line: &Line, shape: Shape) -> Pair {
        if Projection::new(line.kind, &line.fields).is_err() {
            return self.any();
        }
        let map = Meant.map(line).expect("a kind that has a second inverse");
        match shape {
            Shape::Centre => self.about_centre(&map),
            Shape::Overflow => self.huge(&map),
            Shape::Corner => self.corner(&map),
            _ => {
                let field = self.patterns.choose(&[U, V]);
                let point = self.inside(&map);
                self.moved_out(&map, point, field, shape)
            }
        }
    }

    /// A point that is far from both edges, often on an axis.
    fn inside(&mut self, map: &Map) -> Pair {
        let (origin, extent) = (origin(map), extent(map));
        [0, 1].map(|i| {
            let any = 0.7 * self.patterns.unit();
            origin[i] + extent[i] * self.patterns.choose(&[0.0, any])
        })
    }

    /// A point inside, moved along a field to where a shape's clicks lie.
    fn moved_out(&mut self, map: &Map, mut point: Pair, field: usize, shape: Shape) -> Pair {
        let (_, edge) = tested(map, field, point);
        let target = self.target(edge, shape);
        let i = field - U;
        let out = self.patterns.choose(&[16.0, -16.0]) * extent(map)[i];
        let last = last_within(map, point, field, origin(map)[i] + out, target);
        let next = of_rank(rank(last) + if out < 0.0 { -1 } else { 1 });
        point[i] = match shape {
            Shape::Limit => self.patterns.around(last),
            _ => self.patterns.choose(&[last, next]),
        };
        point
    }

    /// How large what is tested becomes.
    fn target(&mut self, edge: f64, shape: Shape) -> f64 {
        let patterns = &mut self.patterns;
        let part = patterns.fraction();
        match shape {
            Shape::Between => edge + BEYOND * part,
            Shape::Inside => {
                let short = patterns.choose(&[0.0, 0.0, BEYOND, 1e-9, 1e-3]);
                patterns.around(edge - short * part)
            }
            Shape::Off => edge * (1.0 + patterns.choose(&[2.0 * BEYOND, 1e-9, 1e-3, 1.0, 10.0])),
            _ => Meant.limit(edge),
        }
    }

    /// Of Equal Earth, the northing at an edge, and then the easting. Of a Lambert, on an axis at an
    /// edge, and then so little off the axis that the other square may vanish.
    fn corner(&mut self, map: &Map) -> Pair {
        let [first, second] = [(); 2].map(|()| {
            let shapes = [Shape::Limit, Shape::Limit, Shape::Between, Shape::Inside];
            self.patterns.choose(&shapes)
        });
        let point = self.moved_out(map, origin(map), V, first);
        if matches!(map, Map::EqualEarth(_)) {
            return self.moved_out(map, point, U, second);
        }
        let off = self.patterns.choose(&[1e-9, 1e-8, 3e-8, 1e-7, 1e-6]) * self.patterns.unit();
        let [x, y] = point;
        [x + extent(map)[0] * off, y]
    }

    /// Of a Lambert, at the tolerance by its rho.
    fn about_centre(&mut self, map: &Map) -> Pair {
        let patterns = &mut self.patterns;
        let off = patterns.choose(&[0.0, 1e-12, 0.5, 1.0, 1.0, 1.0, 1.0, 2.0]);
        let rho = patterns.around(CENTRE * off);
        let any = T * patterns.fraction();
        let turned = patterns.choose(&[0.0, FRAC_PI_2, PI, -FRAC_PI_2, any, any]);
        let d = match map {
            Map::Lambert(on) if on.form == Form::Oblique => on.d,
            _ => 1.0,
        };
        let [east, north] = origin(map);
        [east + rho * d * cos(turned), north + rho / d * sin(turned)]
    }

    /// Two numbers as large or small as the map's, or more so.
    fn huge(&mut self, map: &Map) -> Pair {
        let (origin, extent) = (origin(map), extent(map));
        [0, 1].map(|i| {
            let near = extent[i] * self.patterns.choose(&[0.25, 0.5, 1.0, 1.5]);
            let off = self.patterns.choose(&[near, -near]);
            let large = self.large();
            let large = self.patterns.choose(&[large, -large]);
            self.patterns
                .choose(&[0.0, origin[i], origin[i] + off, large, -origin[i]])
        })
    }

    /// Points for a column of a click's projection: its own, and so many others. Of a kind that has no
    /// second inverse, any.
    pub fn points(&mut self, click: &Click, count: usize) -> Vec<Pair> {
        let [.., x, y] = click.line.fields;
        let mut points = vec![[x, y]];
        points.resize_with(count, || {
            let shape = self.patterns.choose(&SHAPES[OF_LINES..]);
            match KINDS.contains(&self.kind) {
                true => self.point(&click.line, shape),
                false => self.any(),
            }
        });
        points
    }

    fn any(&mut self) -> Pair {
        [(); 2].map(|()| f64::from_bits(self.patterns.one()))
    }
}

fn origin(map: &Map) -> Pair {
    match map {
        Map::Lambert(on) => [on.fe, on.fn_],
        Map::EqualEarth(on) => [on.fe, on.fn_],
    }
}

/// How far the map reaches on its axes, of Equal Earth on the equator.
fn extent(map: &Map) -> Pair {
    match map {
        Map::Lambert(on) if on.form == Form::Oblique => {
            [2.0 * on.radius * on.d, 2.0 * on.radius / on.d]
        }
        Map::Lambert(on) => [2.0 * on.radius; 2],
        Map::EqualEarth(on) => [2.7 * on.scale, TOP * on.scale],
    }
}

/// The last coordinate, from a point's own towards another, at which what is tested is not above a
/// target: by halving.
fn last_within(map: &Map, point: Pair, field: usize, beyond: f64, target: f64) -> f64 {
    let i = field - U;
    let above = |value: f64| {
        let mut other = point;
        other[i] = value;
        tested(map, field, other).0 > target
    };
    let (mut within, mut outside) = (rank(point[i]), rank(beyond));
    while within.abs_diff(outside) > 1 {
        let middle = within.midpoint(outside);
        if above(of_rank(middle)) {
            outside = middle;
        } else {
            within = middle;
        }
    }
    of_rank(within)
}

/// Of offices and of 1, and some of other sizes.
const AXES: [f64; 10] = [
    1.0, 1.0, 1.0, 6378137.0, 6378137.0, 6370997.0, 0.7, 1e-6, 1e100, 1e-100,
];

/// e2 passes 1e-15 at 5e-16, and rounds to 1 from about 1 - 2^-27.
const FLATTENINGS: [f64; 10] = [
    5e-324,
    1e-20,
    5e-16,
    1e-12,
    0.1,
    0.5,
    0.99,
    1.0 - 1.0 / (1u64 << 26) as f64,
    1.0 - 1.0 / (1u64 << 27) as f64,
    1.0 - 1.0 / (1u64 << 53) as f64,
];

/// An a and f of which the sphere of the same area has a radius that overflows, by rounding.
pub const NO_SCALE: [f64; 2] = [f64::MAX, 1e-12];

/// Their squares, their doubles or they themselves are at an end.
const SIZES: [f64; 12] = [
    1.0,
    5e-324,
    f64::MIN_POSITIVE,
    1e-200,
    1e-154,
    1e154,
    1.3407807929942596e154,
    1e200,
    1e300,
    8.98846567431158e307,
    1.7e308,
    f64::MAX,
];
