//! What ours is to answer: what the source does with 01's functions, but for Albers on a sphere, of
//! which 02 says it and the source refuses every point.

use crate::line::{Answer, Columns, Line};
use crate::source::fixed::door;
use crate::source::fixed::parts::{e2, from_a_f};
use crate::sphere::{Meant, Numbers, Rule, Sphere};

pub enum Projection {
    Source(door::Projection),
    Sphere(Sphere),
}

impl Projection {
    /// Of a kind, from the first eight fields of a line; else the number that refuses it.
    pub fn new(kind: u8, fields: &[f64; 10]) -> Result<Projection, u8> {
        build(&Meant, kind, fields)
    }

    /// An Albers of any numbers, unchecked. It goes by its own e2.
    pub fn albers(numbers: &Numbers) -> Projection {
        let sphere = Sphere::of(numbers);
        match Meant.applies(sphere.e2) {
            true => Projection::Sphere(sphere),
            false => Projection::Source(door::Projection::albers(numbers)),
        }
    }

    pub fn project(&self, way: u8, u: f64, v: f64) -> Answer {
        match self {
            Projection::Source(map) => map.project(way, u, v),
            Projection::Sphere(on) => Meant.project(on, way, u, v),
        }
    }
}

/// The answer to a line.
pub fn answer(line: &Line) -> Answer {
    answer_by(&Meant, line)
}

/// The same by any reading of 02's sphere.
pub fn answer_by(rule: &dyn Rule, line: &Line) -> Answer {
    let [.., u, v] = line.fields;
    match build(rule, line.kind, &line.fields) {
        Ok(Projection::Source(map)) => map.project(line.way, u, v),
        Ok(Projection::Sphere(on)) => rule.project(&on, line.way, u, v),
        Err(number) => Answer::refused(number),
    }
}

/// A column of points by one projection.
pub fn column(line: &Line, u: &[f64], v: &[f64], filled: &mut Columns) {
    let Ok(Projection::Sphere(on)) = Projection::new(line.kind, &line.fields) else {
        return door::column(line, u, v, filled);
    };
    for (i, (&u, &v)) in u.iter().zip(v).enumerate() {
        let answer = Meant.project(&on, line.way, u, v);
        filled.numbers[i] = answer.number;
        [filled.p[i], filled.q[i]] = [answer.p, answer.q].map(f64::from_bits);
    }
}

fn build(rule: &dyn Rule, kind: u8, fields: &[f64; 10]) -> Result<Projection, u8> {
    if applies(rule, kind, fields) {
        return rule.build(fields).map(Projection::Sphere);
    }
    door::Projection::new(kind, fields).map(Projection::Source)
}

/// Whether 02's formulas are meant. Of what 4 or 5 refuses there is no e2.
fn applies(rule: &dyn Rule, kind: u8, fields: &[f64; 10]) -> bool {
    let [a, f, ..] = *fields;
    kind == b'A' && from_a_f(a, f) == 0 && rule.applies(e2(a, f))
}

/// Whether a line is of Albers on a sphere.
pub fn on_sphere(line: &Line) -> bool {
    applies(&Meant, line.kind, &line.fields)
}
