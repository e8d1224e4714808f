//! What the tests share: any kind by its letter, what an area holds, and a seeded source of numbers.

// Each test is a program of its own and uses a part of this.
#![allow(dead_code)]

use lenthuc::{
    AlbersEqualArea, AmericanPolyconic, Answer, Area, CassiniSoldner, Ellipsoid, EqualEarth,
    GuamProjection, InverseOnMap, LambertAzimuthalEqualArea, Outcome, Projection, Refusal,
    UnequalLengths, normalize_longitude,
};
use std::f64::consts::FRAC_PI_2;

pub const WAYS: [u8; 2] = *b"FI";
pub const KINDS: [u8; 7] = *b"LSAECPG";

/// The kinds that have a second inverse.
pub const ON_MAP_KINDS: [u8; 3] = *b"LSE";

/// Quiet and signalling NaN of both signs, with several payloads.
pub const NANS: [u64; 8] = [
    0x7ff8_0000_0000_0000,
    0xfff8_0000_0000_0000,
    0x7ff8_0000_0000_0001,
    0x7fff_ffff_ffff_ffff,
    0xffff_ffff_ffff_ffff,
    0x7ff0_0000_0000_0001,
    0xfff0_0000_0000_0001,
    0x7ff4_dead_beef_cafe,
];

/// Settings in a sheet's order: a, f, lon0, lat0, lat1, lat2, fe, fn.
pub type Settings = [f64; 8];

/// A map of the Earth on which every kind can be built.
pub const EARTH: Settings = [
    6378137.0,
    1.0 / 298.257223563,
    0.3,
    0.7,
    0.5,
    0.9,
    500000.0,
    -200000.0,
];

/// Edges of an area: west, east, south, north.
pub type Edges = [f64; 4];

/// The largest latitude that is one.
pub const BOUND: f64 = FRAC_PI_2 + 1e-12;

/// A box of a map that may be refused, in the area of these edges if there are any.
macro_rules! boxed {
    ($map:expr, $edges:expr) => {
        match $edges {
            None => Box::new($map?),
            Some(edges) => Box::new($map?.with_area(area(edges))?),
        }
    };
}

/// The projection of a kind's letter.
pub fn build(kind: u8, settings: Settings) -> Result<Box<dyn Projection>, Refusal> {
    boxed(kind, settings, None)
}

/// The same with an area of use.
pub fn build_in(
    edges: Edges,
    kind: u8,
    settings: Settings,
) -> Result<Box<dyn Projection>, Refusal> {
    boxed(kind, settings, Some(edges))
}

/// The projection of a kind's letter that has a second inverse, with an area of use if one is given.
pub fn build_on_map(
    kind: u8,
    settings: Settings,
    edges: Option<Edges>,
) -> Result<Box<dyn InverseOnMap>, Refusal> {
    let [a, f, lon0, lat0, _, _, fe, fn_] = settings;
    let ellipsoid = Ellipsoid::from_a_f(a, f)?;
    let spherical = LambertAzimuthalEqualArea::new_spherical;
    Ok(match kind {
        b'L' => boxed!(
            LambertAzimuthalEqualArea::new(ellipsoid, lon0, lat0, fe, fn_),
            edges
        ),
        b'S' => boxed!(spherical(ellipsoid, lon0, lat0, fe, fn_), edges),
        b'E' => boxed!(EqualEarth::new(ellipsoid, lon0, fe, fn_), edges),
        _ => panic!("the kind {kind} has no second inverse"),
    })
}

fn boxed(
    kind: u8,
    settings: Settings,
    edges: Option<Edges>,
) -> Result<Box<dyn Projection>, Refusal> {
    if ON_MAP_KINDS.contains(&kind) {
        return Ok(Box::new(build_on_map(kind, settings, edges)?));
    }
    let [a, f, lon0, lat0, lat1, lat2, fe, fn_] = settings;
    let ellipsoid = Ellipsoid::from_a_f(a, f)?;
    Ok(match kind {
        b'A' => boxed!(
            AlbersEqualArea::new(ellipsoid, lon0, lat0, lat1, lat2, fe, fn_),
            edges
        ),
        b'C' => boxed!(CassiniSoldner::new(ellipsoid, lon0, lat0, fe, fn_), edges),
        b'P' => boxed!(
            AmericanPolyconic::new(ellipsoid, lon0, lat0, fe, fn_),
            edges
        ),
        b'G' => boxed!(GuamProjection::new(ellipsoid, lon0, lat0, fe, fn_), edges),
        _ => panic!("no kind has the letter {kind}"),
    })
}

/// The area of these edges, as they are.
pub fn area([west, east, south, north]: Edges) -> Area {
    Area {
        west,
        east,
        south,
        north,
    }
}

/// Whether an area of these edges holds a place: its longitude is normalised, the edges are not, and
/// the area crosses the 180 degree line exactly where east is below west.
pub fn holds([west, east, south, north]: Edges, lon: f64, lat: f64) -> bool {
    let lon = normalize_longitude(lon);
    let by_longitude = match east < west {
        true => west <= lon || lon <= east,
        false => west <= lon && lon <= east,
    };
    by_longitude && south <= lat && lat <= north
}

/// One point, by a way's letter.
pub fn project(map: &dyn Projection, way: u8, u: f64, v: f64) -> Answer {
    match way {
        b'F' => map.forward(u, v),
        b'I' => map.inverse(u, v),
        _ => panic!("no way has the letter {way}"),
    }
}

/// A column of points, by a way's letter.
pub fn column(
    map: &dyn Projection,
    way: u8,
    [u, v]: [&[f64]; 2],
    [p, q]: [&mut [f64]; 2],
    outcomes: &mut [Outcome],
) -> Result<(), UnequalLengths> {
    match way {
        b'F' => map.forward_column(u, v, p, q, outcomes),
        b'I' => map.inverse_column(u, v, p, q, outcomes),
        _ => panic!("no way has the letter {way}"),
    }
}

/// The next number above a finite one.
pub fn next_up(x: f64) -> f64 {
    if x < 0.0 {
        f64::from_bits(x.to_bits() - 1)
    } else {
        f64::from_bits(x.abs().to_bits() + 1)
    }
}

/// The next number below a finite one.
pub fn next_down(x: f64) -> f64 {
    -next_up(-x)
}

/// A number, 0 if answered, and the patterns of two results.
pub type Bits = (u8, u64, u64);

/// An answer as a sheet has it.
pub fn bits(answer: Answer) -> Bits {
    match answer {
        Ok((p, q)) => (0, p.to_bits(), q.to_bits()),
        Err(refusal) => (refusal.number(), 0, 0),
    }
}

/// A seeded source of numbers (SplitMix64).
pub struct Random(pub u64);

impl Random {
    pub fn bits(&mut self) -> u64 {
        self.0 = self.0.wrapping_add(0x9e37_79b9_7f4a_7c15);
        let mut z = self.0;
        z = (z ^ (z >> 30)).wrapping_mul(0xbf58_476d_1ce4_e5b9);
        z = (z ^ (z >> 27)).wrapping_mul(0x94d0_49bb_1331_11eb);
        z ^ (z >> 31)
    }

    /// Uniform in [-size, size).
    pub fn within(&mut self, size: f64) -> f64 {
        self.bits() as i64 as f64 * 2.0_f64.powi(-63) * size
    }

    /// An input of a map: mostly of the size that a way's inputs have, else any pattern or a NaN.
    pub fn input(&mut self, way: u8) -> f64 {
        let nan = NANS[self.bits() as usize % NANS.len()];
        match (self.bits() % 16, way) {
            (0, _) => f64::from_bits(nan),
            (1..4, _) => f64::from_bits(self.bits()),
            (_, b'F') => self.within(1.6),
            _ => self.within(6e6),
        }
    }
}
