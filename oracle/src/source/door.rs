//! The way into a build of the source: a projection by its kind's letter, and 01's number for an
//! error.

use super::ellipsoid::Ellipsoid;
use super::error::{Error, Result};
use super::projection::ProjectionImpl;
use super::projection::albers_equal_area::AlbersEqualArea;
use super::projection::american_polyconic::AmericanPolyconic;
use super::projection::azimuthal_equidistant::GuamProjection;
use super::projection::cassini_soldner::CassiniSoldner;
use super::projection::equal_earth::EqualEarth;
use super::projection::lambert_azimuthal_equal_area::LambertAzimuthalEqualArea;
use crate::line::{Answer, Columns, Line};

pub struct Projection(Box<dyn ProjectionImpl>);

impl Projection {
    /// Of a kind, from the first eight fields of a line; else 01's number.
    pub fn new(kind: u8, fields: &[f64; 10]) -> std::result::Result<Projection, u8> {
        build(kind, fields).map(Projection).map_err(number)
    }

    /// An Albers of any numbers, in the order of its fields.
    pub fn albers(numbers: &[f64; 9]) -> Projection {
        Projection(Box::new(AlbersEqualArea::handed(numbers)))
    }

    pub fn project(&self, way: u8, u: f64, v: f64) -> Answer {
        let result = match way {
            b'F' => self.0.forward(u, v),
            _ => self.0.inverse(u, v),
        };
        match result {
            Ok((p, q)) => Answer::pair(p, q),
            Err(error) => Answer::refused(number(error)),
        }
    }
}

/// The numbers of an Albers that is built, in the order of its fields; else 01's number.
pub fn albers_numbers(fields: &[f64; 10]) -> std::result::Result<[f64; 9], u8> {
    let [a, f, lon0, lat0, lat1, lat2, fe, fn_, ..] = *fields;
    let built = Ellipsoid::from_a_f(a, f)
        .and_then(|on| AlbersEqualArea::new(on, lon0, lat0, lat1, lat2, fe, fn_));
    built.map(|albers| albers.numbers()).map_err(number)
}

/// The answer to a line.
pub fn answer(line: &Line) -> Answer {
    let [.., u, v] = line.fields;
    match Projection::new(line.kind, &line.fields) {
        Ok(projection) => projection.project(line.way, u, v),
        Err(number) => Answer::refused(number),
    }
}

/// A column of points by one projection.
pub fn column(line: &Line, u: &[f64], v: &[f64], filled: &mut Columns) {
    let map = build(line.kind, &line.fields).ok().expect("a map");
    for (i, (&u, &v)) in u.iter().zip(v).enumerate() {
        let result = match line.way {
            b'F' => map.forward(u, v),
            _ => map.inverse(u, v),
        };
        filled.numbers[i] = 0;
        (filled.p[i], filled.q[i]) = result.unwrap_or_else(|error| {
            filled.numbers[i] = number(error);
            (0.0, 0.0)
        });
    }
}

fn build(kind: u8, fields: &[f64; 10]) -> Result<Box<dyn ProjectionImpl>> {
    let [a, f, lon0, lat0, lat1, lat2, fe, fn_, ..] = *fields;
    let on = Ellipsoid::from_a_f(a, f)?;
    Ok(match kind {
        b'L' => Box::new(LambertAzimuthalEqualArea::new(on, lon0, lat0, fe, fn_)?),
        b'S' => Box::new(LambertAzimuthalEqualArea::new_spherical(
            on, lon0, lat0, fe, fn_,
        )?),
        b'A' => Box::new(AlbersEqualArea::new(on, lon0, lat0, lat1, lat2, fe, fn_)?),
        b'E' => Box::new(EqualEarth::new(on, lon0, fe, fn_)?),
        b'C' => Box::new(CassiniSoldner::new(on, lon0, lat0, fe, fn_)?),
        b'P' => Box::new(AmericanPolyconic::new(on, lon0, lat0, fe, fn_)?),
        b'G' => Box::new(GuamProjection::new(on, lon0, lat0, fe, fn_)?),
        _ => panic!("no kind has this letter: {kind}"),
    })
}

/// How the source's messages end, and 01's number for each. The first that fits counts.
const ENDS: [(&str, u8); 25] = [
    (
        "inverse flattening must be a finite number greater than 1",
        3,
    ),
    ("semi-major axis must be a finite positive number", 4),
    ("flattening must be finite and in the range [0, 1)", 5),
    ("longitude of natural origin must be finite", 6),
    ("central meridian must be finite", 6),
    ("latitude of natural origin must be finite", 7),
    ("latitude of origin must be finite", 7),
    ("first standard parallel must be finite", 7),
    ("second standard parallel must be finite", 7),
    ("° is outside [-90°, 90°]", 8),
    ("false easting must be finite", 9),
    ("false northing must be finite", 10),
    ("the Guam projection is defined only for ellipsoids", 11),
    ("authalic radius is invalid", 12),
    ("polar origin must use the polar aspect", 13),
    ("origin scale is invalid", 14),
    ("standard parallels yield a zero cone constant", 15),
    ("geographic input coordinate must be finite", 16),
    ("° is outside the valid range [-90°, 90°]", 17),
    ("is undefined at the antipode", 18),
    ("inverse projection produced a non-finite result", 23),
    ("projection produced a non-finite result", 19),
    ("projected input coordinate must be finite", 20),
    ("American Polyconic inverse is undefined at the pole", 21),
    ("° outside [-90°, 90°]", 24),
];

/// 01's number for an error of the source.
pub fn number(error: Error) -> u8 {
    let message = match error {
        Error::NonConvergence { .. } => return 22,
        Error::InvalidDefinition(message) | Error::OutOfRange(message) => message,
        _ => panic!("no error of 01's"),
    };
    match ENDS.iter().find(|(end, _)| message.ends_with(end)) {
        Some(&(_, number)) => number,
        None => panic!("no message of 01's: {message}"),
    }
}
