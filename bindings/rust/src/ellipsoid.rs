//! Reference ellipsoids.

use crate::raw;
use crate::refusal::Refusal;

/// A reference ellipsoid.
///
/// The archive checks what it is made of. The inverse flattening, the semi-minor axis and the
/// eccentricity are worked out here, by the operations of the Rust that Lenthuc is a port of.
///
/// ```
/// use lenthuc::{Ellipsoid, Refusal, WGS84};
///
/// let clarke = Ellipsoid::from_a_rf(31706587.88, 294.2606764)?;
/// assert_eq!(clarke.semi_major_axis(), 31706587.88);
/// assert_eq!(format!("{:.4} {:.8}", WGS84.b(), WGS84.e2()), "6356752.3142 0.00669438");
/// assert_eq!(Ellipsoid::sphere(-1.0), Err(Refusal::SemiMajorAxis));
/// # Ok::<(), Refusal>(())
/// ```
#[derive(Clone, Copy, Debug, PartialEq)]
pub struct Ellipsoid {
    a: f64,
    f: f64,
}

impl Ellipsoid {
    /// From the semi-major axis and the inverse flattening.
    ///
    /// # Errors
    ///
    /// In this order:
    ///
    /// - 3, [`Refusal::InverseFlattening`]
    /// - 4, [`Refusal::SemiMajorAxis`]
    pub fn from_a_rf(a: f64, rf: f64) -> Result<Self, Refusal> {
        let (outcome, f) = raw::from_a_rf(a, rf);
        outcome.result().map(|()| Self { a, f })
    }

    /// From the semi-major axis and the flattening, (a - b) / a.
    ///
    /// # Errors
    ///
    /// In this order:
    ///
    /// - 4, [`Refusal::SemiMajorAxis`]
    /// - 5, [`Refusal::Flattening`]
    pub fn from_a_f(a: f64, f: f64) -> Result<Self, Refusal> {
        raw::from_a_f(a, f).result().map(|()| Self { a, f })
    }

    /// A sphere, which is an ellipsoid of flattening 0.
    ///
    /// # Errors
    ///
    /// - 4, [`Refusal::SemiMajorAxis`]
    pub fn sphere(radius: f64) -> Result<Self, Refusal> {
        Self::from_a_f(radius, 0.0)
    }

    /// The semi-major axis, a. Eastings and northings have its unit.
    #[must_use]
    pub const fn semi_major_axis(&self) -> f64 {
        self.a
    }

    /// The flattening, f.
    #[must_use]
    pub const fn flattening(&self) -> f64 {
        self.f
    }

    /// The inverse flattening, 1 / f, and 0 of a sphere. An f of 2^-1024 or less has an infinite
    /// one. It may differ in its last digit from what [`from_a_rf`](Ellipsoid::from_a_rf) was given,
    /// since both that and this are rounded.
    #[must_use]
    pub const fn inverse_flattening(&self) -> f64 {
        if self.f == 0.0 { 0.0 } else { 1.0 / self.f }
    }

    /// The semi-minor axis, a (1 - f).
    #[must_use]
    pub const fn b(&self) -> f64 {
        self.a * (1.0 - self.f)
    }

    /// The square of the first eccentricity, 2f - f².
    #[must_use]
    pub const fn e2(&self) -> f64 {
        2.0 * self.f - self.f * self.f
    }
}

/// The ellipsoid of WGS 84.
pub const WGS84: Ellipsoid = Ellipsoid {
    a: 6378137.0,
    f: 1.0 / 298.257223563,
};

/// GRS 1980, of ETRS89 and NAD83.
pub const GRS80: Ellipsoid = Ellipsoid {
    a: 6378137.0,
    f: 1.0 / 298.257222101,
};

/// Clarke 1866, of NAD27.
pub const CLARKE1866: Ellipsoid = Ellipsoid {
    a: 6378206.4,
    f: 1.0 / 294.978698214,
};

/// International 1924, or Hayford.
pub const INTL1924: Ellipsoid = Ellipsoid {
    a: 6378388.0,
    f: 1.0 / 297.0,
};

/// Bessel 1841.
pub const BESSEL1841: Ellipsoid = Ellipsoid {
    a: 6377397.155,
    f: 1.0 / 299.1528128,
};

/// Krassowsky 1940.
pub const KRASSOWSKY: Ellipsoid = Ellipsoid {
    a: 6378245.0,
    f: 1.0 / 298.3,
};

/// Airy 1830, of OSGB36.
pub const AIRY1830: Ellipsoid = Ellipsoid {
    a: 6377563.396,
    f: 1.0 / 299.3249646,
};

/// The sphere of radius 1.
pub const UNIT_SPHERE: Ellipsoid = Ellipsoid { a: 1.0, f: 0.0 };

/// The sphere that has the area of WGS 84's ellipsoid.
pub const WGS84_SPHERE: Ellipsoid = Ellipsoid {
    a: 6371007.181,
    f: 0.0,
};
