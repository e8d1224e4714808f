//! Lines to try a kind on, each way: what an office writes, what lies at an edge, random bits, and
//! random bits of a map's size.

use crate::expected::{Projection, answer};
use crate::fixed::T;
use crate::line::{A, F, FE, FN, LAT0, LAT1, LAT2, LON0, Line, U, V};
use crate::offices::{ELLIPSOIDS, OFFICES, Office, SPHERES};
use crate::patterns::{Patterns, SPECIALS, of_rank, rank};
use std::f64::consts::{FRAC_PI_2, FRAC_PI_4, PI, SQRT_2};

/// What a line is like.
#[derive(Clone, Copy, Debug, PartialEq)]
pub enum Sort {
    Realistic,
    Edge,
    Random,
    Sized,
}

pub const SORTS: [Sort; 4] = [Sort::Realistic, Sort::Edge, Sort::Random, Sort::Sized];

/// A seeded source of lines of one way and kind.
pub struct Lines {
    way: u8,
    kind: u8,
    /// Whether each is on a sphere.
    spheres: bool,
    patterns: Patterns,
}

impl Lines {
    pub fn new(way: u8, kind: u8, seed: u64) -> Lines {
        let patterns = Patterns::new(seed << 16 | u64::from(way) << 8 | u64::from(kind));
        Lines {
            way,
            kind,
            spheres: false,
            patterns,
        }
    }

    /// Those of Albers on spheres.
    pub fn on_spheres(way: u8, seed: u64) -> Lines {
        Lines {
            spheres: true,
            ..Lines::new(way, b'A', seed)
        }
    }

    pub fn next(&mut self, sort: Sort) -> Line {
        match sort {
            Sort::Realistic => self.realistic(),
            Sort::Edge => self.edge(),
            Sort::Random => self.random(),
            Sort::Sized => self.sized(),
        }
    }

    fn line(&self, fields: [f64; 10]) -> Line {
        let (way, kind) = (self.way, self.kind);
        Line { way, kind, fields }
    }

    /// A place of an office's map. Half of the maps are moved to other longitudes, mirrored or not,
    /// and stand on another ellipsoid.
    fn realistic(&mut self) -> Line {
        let patterns = &mut self.patterns;
        let of_kind: Vec<_> = OFFICES.iter().filter(|o| o.kind == self.kind).collect();
        let mut map = Map::new(*patterns.choose(&of_kind));
        if patterns.coin() {
            map.east = patterns.below(360) as f64;
            map.north = patterns.choose(&[1.0, -1.0]);
            let sphere = self.kind != b'G';
            map.office.axes = patterns.choose(&ELLIPSOIDS[usize::from(!sphere)..]);
        }
        if self.spheres {
            let [a, _] = patterns.choose(&SPHERES);
            map.office.axes = [a, patterns.choose(&ZEROS)];
        }
        self.place(&map)
    }

    /// So many places of the first office's map, on the first sphere where each is on one.
    pub fn column(&mut self, count: usize) -> Vec<Line> {
        let mut of_kind = OFFICES.iter().filter(|o| o.kind == self.kind);
        let mut map = Map::new(*of_kind.next().expect("an office of each kind"));
        if self.spheres {
            map.office.axes = SPHERES[0];
        }
        (0..count).map(|_| self.place(&map)).collect()
    }

    /// A place of a map, in degrees of up to seven decimals. The inverse has its projected
    /// coordinates, three times in four in whole millimetres.
    fn place(&mut self, map: &Map) -> Line {
        let patterns = &mut self.patterns;
        let [west, south, east, north] = map.office.area;
        let decimals = 10.0_f64.powi(patterns.below(8) as i32);
        let mut degrees = |low: f64, high: f64| {
            let degrees = low + (high - low) * patterns.fraction();
            ((degrees * decimals).round() / decimals).clamp(low, high)
        };
        let mut fields = map.fields();
        fields[U] = map.longitude(degrees(west, east));
        fields[V] = map.latitude(degrees(south, north));
        if self.way == b'I' {
            let built = Projection::new(self.kind, &fields).expect("an office's map");
            let image = built.project(b'F', fields[U], fields[V]);
            let whole = patterns.below(4) > 0;
            for (field, bits) in [(U, image.p), (V, image.q)] {
                let metres = f64::from_bits(bits);
                let millimetres = (metres * 1e3).round();
                fields[field] = if whole { millimetres / 1e3 } else { metres };
            }
        }
        self.line(fields)
    }

    /// A simple map and place with up to three fields at an edge, and one time in four a field
    /// moved to where a stretch of equal answers ends.
    fn edge(&mut self) -> Line {
        let (often, flattenings) = self.of_edges();
        let patterns = &mut self.patterns;
        let mut fields = [0.0; 10];
        fields[A] = patterns.choose(&[1.0, 6378137.0]);
        fields[F] = patterns.choose(flattenings);
        fields[LON0] = patterns.choose(&[0.0, 2.0, -PI]);
        fields[LAT0] = patterns.choose(&[0.0, 0.5, -1.0, FRAC_PI_2, -FRAC_PI_2]);
        fields[LAT1] = patterns.unit();
        fields[LAT2] = patterns.unit();
        let [east, north] = match self.way {
            b'F' => [PI, FRAC_PI_2],
            _ => [2.0 * fields[A]; 2],
        };
        fields[U] = east * patterns.unit();
        fields[V] = north * patterns.unit();
        let parallels = self.kind == b'A' && patterns.coin();
        let some = 1 + patterns.below(3) as usize;
        let mut chosen = [(); 3].map(|()| patterns.choose(often));
        if parallels {
            chosen = [LAT1, LAT2, chosen[0]];
        }
        for &field in &chosen[..some] {
            fields[field] = self.edge_of(field, &fields);
        }
        let mut line = self.line(fields);
        if self.patterns.below(4) == 0 {
            let field = self.patterns.choose(often);
            let beyond = self.edge_of(field, &line.fields);
            line.fields[field] = self.patterns.around(end_of_stretch(&line, field, beyond));
        }
        line
    }

    /// The fields that are set to an edge, and the flattenings elsewhere.
    fn of_edges(&self) -> (&'static [usize], &'static [f64]) {
        match self.spheres {
            true => (&OFTEN_ON_SPHERES, &ZEROS),
            false => (&OFTEN, &[0.0, 1.0 / 300.0, 1.0 / 300.0, 0.1]),
        }
    }

    /// An edge of a field, among the others' values.
    fn edge_of(&mut self, field: usize, fields: &[f64; 10]) -> f64 {
        let patterns = &mut self.patterns;
        if patterns.below(16) == 0 {
            return f64::from_bits(patterns.choose(&SPECIALS));
        }
        let [a, _, lon0, lat0, lat1, _, fe, fn_, ..] = *fields;
        let forward = self.way == b'F';
        let near = |patterns: &mut Patterns, edges: &[f64]| {
            let edge = patterns.choose(edges);
            f64::from_bits(patterns.near(edge))
        };
        match field {
            A => {
                let axis = patterns.choose(&AXES);
                patterns.around(axis)
            }
            F => {
                let flattening = patterns.choose(&FLATTENINGS);
                patterns.around(flattening)
            }
            LON0 => near(patterns, &LONGITUDES),
            LAT0 | LAT1 => near(patterns, &LATITUDES),
            LAT2 => patterns.choose(&[lat1, -lat1]) + near(patterns, &LENGTHS[..4]),
            FE | FN => near(patterns, &OFFSETS),
            U if forward => lon0 + near(patterns, &LONGITUDES),
            V if forward && patterns.coin() => near(patterns, &LATITUDES),
            V if forward => near(patterns, &[lat0]),
            _ => {
                let offset = if field == U { fe } else { fn_ };
                let origin = if field == V && patterns.coin() {
                    lat0
                } else {
                    0.0
                };
                let length = near(patterns, &LENGTHS);
                offset + patterns.choose(&[1.0, a]) * (length - origin)
            }
        }
    }

    /// Ten times 64 uniform bits; a sphere's f is a zero.
    fn random(&mut self) -> Line {
        let mut fields = [(); 10].map(|()| f64::from_bits(self.patterns.bits()));
        if self.spheres {
            fields[F] = self.patterns.choose(&ZEROS);
        }
        self.line(fields)
    }

    /// Uniform signs, fractions, and exponents of a map's size.
    fn sized(&mut self) -> Line {
        let mut line = self.random();
        let spheres = self.spheres;
        let patterns = &mut self.patterns;
        let mut sized = |low: i32, high: i32| {
            let exponent = low + patterns.below((high - low) as u64) as i32;
            (1.0 + patterns.fraction()) * 2.0_f64.powi(exponent)
        };
        let fields = &mut line.fields;
        fields[A] = sized(-2, 25);
        if !spheres {
            fields[F] = sized(-55, 0);
        }
        for field in [LON0, LAT0, LAT1, LAT2, U, V] {
            fields[field] = sized(-40, 1).copysign(fields[field]);
        }
        for field in [FE, FN] {
            fields[field] = sized(-2, 25).copysign(fields[field]);
        }
        if self.way == b'I' {
            fields[U] = fields[FE] + fields[A] * fields[U];
            fields[V] = fields[FN] + fields[A] * fields[V];
        }
        line
    }
}

/// An office's map, moved east by so many degrees, and mirrored where north is -1.
struct Map {
    office: Office,
    east: f64,
    north: f64,
}

impl Map {
    fn new(office: Office) -> Map {
        let (east, north) = (0.0, 1.0);
        Map {
            office,
            east,
            north,
        }
    }

    fn longitude(&self, degrees: f64) -> f64 {
        let moved = degrees + self.east;
        let turns = if moved > 180.0 {
            -1.0
        } else {
            f64::from(moved < -180.0)
        };
        (moved + 360.0 * turns).to_radians()
    }

    fn latitude(&self, degrees: f64) -> f64 {
        (self.north * degrees).to_radians()
    }

    /// A line's fields but for its place.
    fn fields(&self) -> [f64; 10] {
        let [a, f] = self.office.axes;
        let [lon0, lats @ ..] = self.office.origin;
        let [lat0, lat1, lat2] = lats.map(|degrees| self.latitude(degrees));
        let [fe, fn_] = self.office.offsets;
        let lon0 = self.longitude(lon0);
        [a, f, lon0, lat0, lat1, lat2, fe, fn_, 0.0, 0.0]
    }
}

/// The fields, those more often that most edges concern.
const OFTEN: [usize; 15] = [A, F, F, LON0, LAT0, LAT0, LAT1, LAT2, FE, FN, U, U, V, V, V];

/// The same where f is not to be moved.
const OFTEN_ON_SPHERES: [usize; 13] = [A, LON0, LAT0, LAT0, LAT1, LAT2, FE, FN, U, U, V, V, V];

/// A sphere's f.
pub const ZEROS: [f64; 2] = [0.0, -0.0];

/// Their squares overflow or vanish.
const AXES: [f64; 8] = [
    1.0,
    f64::MIN_POSITIVE,
    1e-300,
    1e-160,
    1e-9,
    1.3407807929942596e154,
    1e300,
    f64::MAX,
];

/// e2 passes 1e-15 at 5e-16, and rounds to 1 from about 1 - 2^-27.
const FLATTENINGS: [f64; 13] = [
    5e-324,
    1e-300,
    1e-20,
    1e-16,
    5e-16,
    1e-12,
    1e-8,
    0.5,
    0.99,
    1.0 - 1.0 / (1u64 << 26) as f64,
    1.0 - 1.0 / (1u64 << 27) as f64,
    1.0 - 1.0 / (1u64 << 53) as f64,
    1.0,
];

const LONGITUDES: [f64; 12] = [
    0.0,
    1e-10,
    FRAC_PI_4,
    FRAC_PI_2,
    3.0 * FRAC_PI_4,
    PI,
    T,
    3.0 * PI,
    1e4,
    1e16,
    1e300,
    f64::MAX,
];

/// The equator with the polyconic's tolerance, and the pole with all that lie about it.
const LATITUDES: [f64; 11] = [
    0.0,
    1e-12,
    1e-10,
    FRAC_PI_4,
    FRAC_PI_2 - 1e-7,
    FRAC_PI_2 - 1e-8,
    FRAC_PI_2 - 1e-10,
    FRAC_PI_2 - 1e-12,
    FRAC_PI_2,
    FRAC_PI_2 + 1e-12,
    PI,
];

const OFFSETS: [f64; 5] = [0.0, 5e5, 1e16, 1e300, f64::MAX];

/// The tolerances, then where a map ends: Equal Earth's northing, a circle of radius 2, a pole.
const LENGTHS: [f64; 16] = [
    0.0,
    1e-12,
    1e-10,
    1e-9,
    1.0,
    SQRT_2,
    1.3173627591574,
    FRAC_PI_2 - 1e-12,
    FRAC_PI_2,
    2.0,
    2.7066299836960748,
    PI,
    3.0 * FRAC_PI_2,
    1e9,
    1e100,
    1e300,
];

/// The last value of a field, from the line's own towards another, that leaves the answer as it is:
/// by halving, so one such end where there are several.
fn end_of_stretch(line: &Line, field: usize, beyond: f64) -> f64 {
    let whole = answer(line);
    let same = |value: f64| {
        let mut other = *line;
        other.fields[field] = value;
        answer(&other) == whole
    };
    let (mut inside, mut outside) = (rank(line.fields[field]), rank(beyond));
    while inside.abs_diff(outside) > 1 {
        let middle = inside.midpoint(outside);
        if same(of_rank(middle)) {
            inside = middle;
        } else {
            outside = middle;
        }
    }
    of_rank(inside)
}
