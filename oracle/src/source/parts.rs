//! The parts of a build that the kinds share, as functions of f64 and numbers of 01's.

use super::door::number;
use super::ellipsoid::{self, Ellipsoid};
use super::error::Result;
use super::projection;
use crate::line::Answer;

fn refusal<V>(result: Result<V>) -> u8 {
    result.err().map_or(0, number)
}

fn ellipsoid(a: f64, f: f64) -> Ellipsoid {
    Ellipsoid::from_a_f(a, f).ok().expect("an ellipsoid")
}

/// An ellipsoid as an answer: its a and f.
pub fn axes(ellipsoid: Ellipsoid) -> Answer {
    Answer::pair(ellipsoid.semi_major_axis(), ellipsoid.flattening())
}

/// What a constructor answers.
fn built(result: Result<Ellipsoid>) -> Answer {
    result.map_or_else(|error| Answer::refused(number(error)), axes)
}

pub fn built_from_a_rf(a: f64, rf: f64) -> Answer {
    built(Ellipsoid::from_a_rf(a, rf))
}

pub fn built_from_a_f(a: f64, f: f64) -> Answer {
    built(Ellipsoid::from_a_f(a, f))
}

pub fn built_sphere(radius: f64) -> Answer {
    built(Ellipsoid::sphere(radius))
}

pub fn from_a_rf(a: f64, rf: f64) -> u8 {
    built_from_a_rf(a, rf).number
}

pub fn from_a_f(a: f64, f: f64) -> u8 {
    built_from_a_f(a, f).number
}

pub fn inverse_flattening(a: f64, f: f64) -> f64 {
    ellipsoid(a, f).inverse_flattening()
}

pub fn b(a: f64, f: f64) -> f64 {
    ellipsoid(a, f).b()
}

pub fn e2(a: f64, f: f64) -> f64 {
    ellipsoid(a, f).e2()
}

pub fn e(a: f64, f: f64) -> f64 {
    ellipsoid(a, f).e()
}

pub fn n(a: f64, f: f64) -> f64 {
    ellipsoid(a, f).n()
}

pub fn ep2(a: f64, f: f64) -> f64 {
    ellipsoid(a, f).ep2()
}

pub fn n_radius(a: f64, f: f64, phi: f64) -> f64 {
    ellipsoid(a, f).n_radius(phi)
}

pub fn m_radius(a: f64, f: f64, phi: f64) -> f64 {
    ellipsoid(a, f).m_radius(phi)
}

pub fn deg_to_rad(deg: f64) -> f64 {
    ellipsoid::deg_to_rad(deg)
}

pub fn rad_to_deg(rad: f64) -> f64 {
    ellipsoid::rad_to_deg(rad)
}

pub fn validate_angle(value: f64) -> u8 {
    refusal(projection::validate_angle("central meridian", value))
}

pub fn validate_latitude_param(value: f64) -> u8 {
    refusal(projection::validate_latitude_param(
        "latitude of origin",
        value,
    ))
}

/// Of the false easting.
pub fn validate_offset(value: f64) -> u8 {
    refusal(projection::validate_offset("false easting", value))
}

pub fn validate_lon_lat(lon: f64, lat: f64) -> u8 {
    refusal(projection::validate_lon_lat(lon, lat))
}

pub fn validate_projected(x: f64, y: f64) -> u8 {
    refusal(projection::validate_projected(x, y))
}

pub fn ensure_finite_xy(x: f64, y: f64) -> u8 {
    refusal(projection::ensure_finite_xy("Guam", x, y))
}

pub fn ensure_finite_lon_lat(lon: f64, lat: f64) -> u8 {
    refusal(projection::ensure_finite_lon_lat("Guam", lon, lat))
}

pub fn normalize_longitude(lon: f64) -> f64 {
    projection::normalize_longitude(lon)
}

pub fn authalic_q(lat: f64, e2: f64) -> f64 {
    projection::authalic_q(lat, e2)
}

pub fn authalic_latitude(q: f64, q_p: f64) -> f64 {
    projection::authalic_latitude(q, q_p)
}

pub fn geodetic_from_authalic(beta: f64, e2: f64) -> f64 {
    projection::geodetic_from_authalic(beta, e2)
}

pub fn meridian_arc_coefficient(es: f64, i: usize) -> f64 {
    projection::meridian_arc_coefficients(es)[i]
}

pub fn meridian_arc(phi: f64, sin_phi: f64, cos_phi: f64, es: f64) -> f64 {
    let en = projection::meridian_arc_coefficients(es);
    projection::meridian_arc(phi, sin_phi, cos_phi, &en)
}

pub fn inverse_meridian_arc(ml: f64, es: f64) -> f64 {
    projection::inverse_meridian_arc(ml, &projection::meridian_arc_coefficients(es))
}
