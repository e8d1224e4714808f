//! Lines of Albers on a sphere, to try it on, each way: those that `lines` has, parallels at the
//! tolerances, places at the poles, and points about the rim of the map.

use crate::area::BOUND;
use crate::expected::answer;
use crate::line::{A, F, FE, FN, LAT0, LAT1, LAT2, LON0, Line, U, V};
use crate::lines::{Lines, Sort, ZEROS};
use crate::patterns::Patterns;
use crate::rounds::Handed;
use std::f64::consts::{FRAC_PI_2, FRAC_PI_4, PI};

/// What a line is like.
#[derive(Clone, Copy, Debug, PartialEq)]
pub enum Shape {
    /// One of `lines`.
    Of(Sort),
    /// Parallels that are nearly one, nearly opposite, or nearly the equator.
    Parallels,
    /// A place at a pole, and often a parallel or the origin too.
    Poles,
    /// Forward half a turn from lon0. Inverse near where the arcsine's argument is 1 in size, or
    /// further off the map.
    Rim,
}

pub const SHAPES: [Shape; 7] = [
    Shape::Of(Sort::Realistic),
    Shape::Of(Sort::Edge),
    Shape::Of(Sort::Random),
    Shape::Of(Sort::Sized),
    Shape::Parallels,
    Shape::Poles,
    Shape::Rim,
];

/// A seeded source of lines of one way.
pub struct Spheres {
    way: u8,
    lines: Lines,
    patterns: Patterns,
}

impl Spheres {
    pub fn new(way: u8, seed: u64) -> Spheres {
        let lines = Lines::on_spheres(way, seed);
        let patterns = Patterns::new(seed << 8 | u64::from(way));
        Spheres {
            way,
            lines,
            patterns,
        }
    }

    pub fn next(&mut self, shape: Shape) -> Line {
        match shape {
            Shape::Of(sort) => self.lines.next(sort),
            Shape::Parallels => self.parallels(),
            Shape::Poles => self.poles(),
            Shape::Rim => self.rim(),
        }
    }

    /// A map without a place.
    fn map(&mut self) -> [f64; 10] {
        let patterns = &mut self.patterns;
        let mut fields = [0.0; 10];
        fields[A] = patterns.choose(&[1.0, 1.0, 6371007.181, 1e-9, 1e100]);
        fields[F] = patterns.choose(&ZEROS);
        fields[LON0] = patterns.choose(&[0.0, 2.0, -PI, 1e16]);
        for field in [LAT0, LAT1, LAT2] {
            fields[field] = FRAC_PI_2 * patterns.unit();
        }
        for field in [FE, FN] {
            fields[field] = fields[A] * patterns.choose(&[0.0, 0.0, 0.5]);
        }
        fields
    }

    fn place(&mut self) -> [f64; 2] {
        [PI * self.patterns.unit(), FRAC_PI_2 * self.patterns.unit()]
    }

    /// The line of a map and a place. The inverse has its image, where there is one.
    fn line(&self, fields: [f64; 10], place: [f64; 2]) -> Line {
        let mut line = Line {
            way: b'F',
            kind: b'A',
            fields,
        };
        [line.fields[U], line.fields[V]] = place;
        let image = answer(&line);
        line.way = self.way;
        if self.way == b'I' && image.number == 0 {
            [line.fields[U], line.fields[V]] = [image.p, image.q].map(f64::from_bits);
        }
        line
    }

    /// A number near one of these, of either sign.
    fn near(&mut self, numbers: &[f64]) -> f64 {
        let number = self.patterns.choose(numbers);
        f64::from_bits(self.patterns.near(number))
    }

    fn parallels(&mut self) -> Line {
        let mut fields = self.map();
        if self.patterns.coin() {
            fields[LAT1] = self.near(&[1e-12, 2e-12, 5e-11, 1e-10, FRAC_PI_4]);
        }
        let lat1 = fields[LAT1];
        let off = self.near(&[0.0, 1e-13, 1e-12, 2e-12, 1e-10]);
        fields[LAT2] = self.patterns.choose(&[lat1, lat1, -lat1, -lat1, 0.0]) + off;
        let place = self.place();
        self.line(fields, place)
    }

    fn poles(&mut self) -> Line {
        let mut fields = self.map();
        for field in [LAT0, LAT1, LAT2] {
            if self.patterns.below(3) == 0 {
                fields[field] = self.pole();
            }
        }
        let [lon, _] = self.place();
        let lat = self.pole();
        let line = self.line(fields, [lon, lat]);
        self.stepped(line)
    }

    fn pole(&mut self) -> f64 {
        self.near(&[FRAC_PI_2, FRAC_PI_2 - 1e-8, FRAC_PI_2 - 1e-6, BOUND])
    }

    /// An inverse point or one next to it.
    fn stepped(&mut self, mut line: Line) -> Line {
        if line.way == b'I' && self.patterns.coin() {
            for field in [U, V] {
                line.fields[field] = self.patterns.around(line.fields[field]);
            }
        }
        line
    }

    fn rim(&mut self) -> Line {
        let fields = self.map();
        let [lon, lat] = self.place();
        if self.way == b'F' {
            let half_turn = self.near(&[PI]);
            return self.line(fields, [fields[LON0] + half_turn, lat]);
        }
        let pole = self.patterns.choose(&[FRAC_PI_2, -FRAC_PI_2]);
        let line = self.line(fields, [lon, pole]);
        let farther = self.patterns.choose(&[1.0, 1.0, 1.5, 3.0, 1e10]);
        let moved = from_apex(line, self.patterns.around(farther));
        self.stepped(moved)
    }

    /// Points for a column of a line's projection: its own, and so many others. The inverse has
    /// their images, or such as lie about the rim.
    pub fn points(&mut self, line: &Line, count: usize) -> Vec<[f64; 2]> {
        let [.., u, v] = line.fields;
        let mut points = vec![[u, v]];
        points.resize_with(count, || self.point(line));
        points
    }

    fn point(&mut self, line: &Line) -> [f64; 2] {
        let [lon, lat] = self.place();
        let pole = self.pole();
        let lat = self.patterns.choose(&[lat, lat, pole]);
        let other = self.line(line.fields, [lon, lat]);
        let farther = self.patterns.choose(&[0.5, 1.0, 1.0, 1.5]);
        let moved = match self.way {
            b'F' => other,
            _ => from_apex(other, farther),
        };
        let [.., u, v] = moved.fields;
        [u, v]
    }
}

/// An inverse line whose point is moved away from the apex, by so many times.
fn from_apex(mut line: Line, farther: f64) -> Line {
    let Ok(Handed { numbers, point }) = Handed::built(&line) else {
        return line;
    };
    let ([.., rho0, fe, fn_], [x, y]) = (numbers, point);
    let apex = fn_ + rho0;
    line.fields[U] = fe + farther * (x - fe);
    line.fields[V] = apex + farther * (y - apex);
    line
}
