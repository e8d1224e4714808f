//! The second inverse, which refuses what is off the map.

use crate::outcome::Outcome;
use crate::projection::{Projection, each};
use crate::refusal::{Answer, UnequalLengths};
use std::sync::Arc;

/// A projection that has a second inverse: one that refuses an easting and northing off the map, as a
/// click in the frame around it has. [`inverse`](Projection::inverse) gives most of them a place, on the
/// map's edge or, of Equal Earth's easting, on the map's other side. Of all others the two give the
/// same, bit for bit. As [`Projection`] it is sealed.
///
/// [`LambertAzimuthalEqualArea`](crate::LambertAzimuthalEqualArea), in both its forms, and
/// [`EqualEarth`](crate::EqualEarth) have it; so have a reference, a [`Box`] and an [`Arc`] of one, and
/// `dyn InverseOnMap`. The other types have none:
///
/// ```compile_fail,E0599
/// use lenthuc::{CassiniSoldner, InverseOnMap, WGS84};
///
/// let map = CassiniSoldner::new(WGS84, 0.0, 0.0, 0.0, 0.0).unwrap();
/// let _ = map.inverse_on_map(0.0, 0.0);
/// ```
///
/// # What is off the map
///
/// What is above one of these limits, as the inverse forms it:
///
/// - Lambert: ρ / (2 radius), above 1 + 1e-12. The radius is that of the sphere that has the ellipsoid's
///   area. The spherical form's ρ is the distance from the origin; the other one's is the root of
///   (dx / d)² + (d dy)², by the origin's scale d. About a pole that one has the arcsine's quotient q / qp
///   instead, above 1 + 1e-12 in size. Where ρ is below 1e-9 it is the centre, which is answered before
///   the test.
/// - Equal Earth: the scaled northing, above 1.3173627591574 + 1e-12 in size; or the longitude from the
///   origin, before `lon0` is added, above π + 1e-12 in size.
///
/// A limit is one `f64`, summed once, and what equals it is on the map. An infinity is above it, and a
/// NaN is not.
pub trait InverseOnMap: Projection {
    /// The longitude and latitude of an easting and northing on the map. They are those of
    /// [`inverse`](Projection::inverse).
    ///
    /// # Errors
    ///
    /// In this order:
    ///
    /// - 20, [`Refusal::InverseInput`](crate::Refusal::InverseInput)
    /// - 30, [`Refusal::OffTheMap`](crate::Refusal::OffTheMap): but not yet of Equal Earth's longitude
    /// - 22, [`Refusal::StepsUsedUp`](crate::Refusal::StepsUsedUp): Equal Earth alone
    /// - 30, [`Refusal::OffTheMap`](crate::Refusal::OffTheMap): of Equal Earth's longitude
    /// - 23, [`Refusal::InverseResult`](crate::Refusal::InverseResult)
    /// - 24, [`Refusal::InverseBeyond`](crate::Refusal::InverseBeyond)
    /// - 26, [`Refusal::OutsideArea`](crate::Refusal::OutsideArea): with an [`Area`](crate::Area) alone
    fn inverse_on_map(&self, easting: f64, northing: f64) -> Answer;

    /// Takes a column of points back, as [`inverse_column`](Projection::inverse_column) does, by the
    /// second inverse.
    ///
    /// # Errors
    ///
    /// - 255, [`UnequalLengths`], and all five columns stay as they are
    fn inverse_on_map_column(
        &self,
        easting: &[f64],
        northing: &[f64],
        lon: &mut [f64],
        lat: &mut [f64],
        outcomes: &mut [Outcome],
    ) -> Result<(), UnequalLengths>;

    /// The same in degrees, made so as [`inverse_degrees`](Projection::inverse_degrees) makes them.
    ///
    /// # Errors
    ///
    /// Those of [`inverse_on_map`](InverseOnMap::inverse_on_map).
    fn inverse_on_map_degrees(&self, easting: f64, northing: f64) -> Answer {
        let (lon, lat) = self.inverse_on_map(easting, northing)?;
        Ok((lon.to_degrees(), lat.to_degrees()))
    }

    /// Takes points back, each an easting and northing, as a column of them, by the second inverse.
    #[must_use]
    fn inverse_on_map_points(&self, points: &[(f64, f64)]) -> Vec<Answer> {
        each(points, |u, v, p, q, outcomes| {
            self.inverse_on_map_column(u, v, p, q, outcomes)
        })
    }
}

/// What points to a projection has its second inverse.
macro_rules! pointers {
    ($($pointer:ty),*) => {$(
        impl<P: InverseOnMap + ?Sized> InverseOnMap for $pointer {
            fn inverse_on_map(&self, easting: f64, northing: f64) -> Answer {
                (**self).inverse_on_map(easting, northing)
            }

            fn inverse_on_map_column(
                &self,
                easting: &[f64],
                northing: &[f64],
                lon: &mut [f64],
                lat: &mut [f64],
                outcomes: &mut [Outcome],
            ) -> Result<(), UnequalLengths> {
                (**self).inverse_on_map_column(easting, northing, lon, lat, outcomes)
            }
        }
    )*};
}

pointers!(&P, Box<P>, Arc<P>);

/// The other types that have no second inverse:
///
/// ```compile_fail,E0277
/// fn has<P: lenthuc::InverseOnMap>() {}
/// has::<lenthuc::AlbersEqualArea>();
/// ```
///
/// ```compile_fail,E0277
/// fn has<P: lenthuc::InverseOnMap>() {}
/// has::<lenthuc::AmericanPolyconic>();
/// ```
///
/// ```compile_fail,E0277
/// fn has<P: lenthuc::InverseOnMap>() {}
/// has::<lenthuc::GuamProjection>();
/// ```
///
/// nor has a projection of any kind:
///
/// ```compile_fail,E0277
/// fn has<P: lenthuc::InverseOnMap>() {}
/// has::<Box<dyn lenthuc::Projection>>();
/// ```
///
/// and those that have one:
///
/// ```
/// fn has<P: lenthuc::InverseOnMap>() {}
/// has::<lenthuc::LambertAzimuthalEqualArea>();
/// has::<lenthuc::EqualEarth>();
/// has::<Box<dyn lenthuc::InverseOnMap>>();
/// ```
#[cfg(doctest)]
mod others {}
