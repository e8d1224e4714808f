//! What the projections have in common.

use crate::outcome::Outcome;
use crate::refusal::{Answer, Refusal, UnequalLengths};
use crate::ring::{self, Ring, RingArea};
use std::fmt::Debug;
use std::sync::Arc;

/// No other crate can name this trait, so every `Projection` is one of this crate's.
pub trait Sealed {}

/// A map projection. Angles are radians but where a name says degrees; lengths have the unit of the
/// ellipsoid's semi-major axis.
///
/// A projection is built once, by its constructor. A reference, a [`Box`] and an [`Arc`] of one
/// project too, and so does `dyn Projection`: a program may choose the kind as it runs.
///
/// ```
/// use lenthuc::{EqualEarth, LambertAzimuthalEqualArea, Projection, Refusal, WGS84};
///
/// fn map(of_the_world: bool) -> Result<Box<dyn Projection>, Refusal> {
///     Ok(if of_the_world {
///         Box::new(EqualEarth::new(WGS84, 0.0, 0.0, 0.0)?)
///     } else {
///         Box::new(LambertAzimuthalEqualArea::new(WGS84, 0.2, 0.9, 0.0, 0.0)?)
///     })
/// }
///
/// assert_eq!(map(false)?.forward(0.2, 0.9), Ok((0.0, 0.0)));
/// # Ok::<(), Refusal>(())
/// ```
///
/// The trait is sealed: its six types are this crate's, and no other crate can add one.
///
/// ```compile_fail,E0277
/// use lenthuc::{Answer, Outcome, Projection, Refusal, RingArea, UnequalLengths};
///
/// #[derive(Debug)]
/// struct Mine;
///
/// impl Projection for Mine {
///     fn forward(&self, lon: f64, lat: f64) -> Answer {
///         Ok((lon, lat))
///     }
///     fn inverse(&self, easting: f64, northing: f64) -> Answer {
///         Ok((easting, northing))
///     }
///     fn forward_column(
///         &self, _: &[f64], _: &[f64], _: &mut [f64], _: &mut [f64], _: &mut [Outcome],
///     ) -> Result<(), UnequalLengths> {
///         Ok(())
///     }
///     fn inverse_column(
///         &self, _: &[f64], _: &[f64], _: &mut [f64], _: &mut [f64], _: &mut [Outcome],
///     ) -> Result<(), UnequalLengths> {
///         Ok(())
///     }
///     fn ring_area(
///         &self, _: &[f64], _: &[f64], _: &mut [f64], _: &mut [f64],
///     ) -> Result<RingArea, Refusal> {
///         Ok(RingArea { area: 0.0, points: 0 })
///     }
/// }
/// ```
pub trait Projection: Sealed + Debug + Send + Sync {
    /// The easting and northing of a longitude and latitude. Any longitude may be given, not only
    /// one of [-π, π].
    ///
    /// # Errors
    ///
    /// In this order:
    ///
    /// - 16, [`Refusal::ForwardInput`](crate::Refusal::ForwardInput)
    /// - 17, [`Refusal::ForwardBeyond`](crate::Refusal::ForwardBeyond)
    /// - 26, [`Refusal::OutsideArea`](crate::Refusal::OutsideArea): with an [`Area`](crate::Area) alone
    /// - 18, [`Refusal::Antipode`](crate::Refusal::Antipode): Lambert alone
    /// - 19, [`Refusal::ForwardResult`](crate::Refusal::ForwardResult)
    fn forward(&self, lon: f64, lat: f64) -> Answer;

    /// The longitude and latitude of an easting and northing. They lie on the map: the longitude is
    /// in [-π, π], and the latitude in [-π/2 - 1e-12, π/2 + 1e-12]. And they lie inside the area of
    /// use, if there is one.
    ///
    /// # Errors
    ///
    /// In this order:
    ///
    /// - 20, [`Refusal::InverseInput`](crate::Refusal::InverseInput)
    /// - 21, [`Refusal::StepAtPole`](crate::Refusal::StepAtPole): polyconic alone
    /// - 22, [`Refusal::StepsUsedUp`](crate::Refusal::StepsUsedUp): Albers on an ellipsoid, Equal
    ///   Earth and polyconic
    /// - 23, [`Refusal::InverseResult`](crate::Refusal::InverseResult)
    /// - 24, [`Refusal::InverseBeyond`](crate::Refusal::InverseBeyond)
    /// - 26, [`Refusal::OutsideArea`](crate::Refusal::OutsideArea): with an [`Area`](crate::Area) alone
    fn inverse(&self, easting: f64, northing: f64) -> Answer;

    /// Projects a column of points: each place of the three last columns takes what
    /// [`forward`](Projection::forward) gives for that place of the first two. Where a point is
    /// refused its outcome says why, and its results are +0. A refused point does not stop the
    /// others. Allocates nothing.
    ///
    /// # Errors
    ///
    /// - 255, [`UnequalLengths`], and all five columns stay as they are
    ///
    /// ```
    /// use lenthuc::{EqualEarth, Outcome, Projection, Refusal, UnequalLengths, WGS84};
    ///
    /// let world = EqualEarth::new(WGS84, 0.0, 0.0, 0.0)?;
    /// let (lon, lat) = ([0.0, 1.0, 2.0], [0.5, f64::NAN, -0.5]);
    /// let (mut easting, mut northing) = ([9.0; 3], [9.0; 3]);
    /// let mut outcomes = [Outcome::default(); 3];
    /// world.forward_column(&lon, &lat, &mut easting, &mut northing, &mut outcomes)?;
    /// assert_eq!(outcomes.map(Outcome::is_answered), [true, false, true]);
    /// assert_eq!(outcomes[1].refusal(), Some(Refusal::ForwardInput));
    /// assert_eq!((easting[1], northing[1]), (0.0, 0.0));
    /// assert_eq!(Ok((easting[2], northing[2])), world.forward(2.0, -0.5));
    ///
    /// let few = world.forward_column(&lon[1..], &lat, &mut easting, &mut northing, &mut outcomes);
    /// assert_eq!(few, Err(UnequalLengths));
    /// # Ok::<(), Box<dyn std::error::Error>>(())
    /// ```
    fn forward_column(
        &self,
        lon: &[f64],
        lat: &[f64],
        easting: &mut [f64],
        northing: &mut [f64],
        outcomes: &mut [Outcome],
    ) -> Result<(), UnequalLengths>;

    /// Takes a column of points back, as [`forward_column`](Projection::forward_column) projects
    /// one: each place takes what [`inverse`](Projection::inverse) gives.
    ///
    /// # Errors
    ///
    /// - 255, [`UnequalLengths`], and all five columns stay as they are
    fn inverse_column(
        &self,
        easting: &[f64],
        northing: &[f64],
        lon: &mut [f64],
        lat: &mut [f64],
        outcomes: &mut [Outcome],
    ) -> Result<(), UnequalLengths>;

    /// The area of a ring, as the edge of a catchment is, by the longitudes and latitudes of its corners.
    /// [`Ring`] says what an edge is and where it is cut.
    ///
    /// The points, which are the corners and the cut points in ring order, go into the first places of
    /// `easting` and `northing`. The places after them stay as they are. A buffer of [`RING_ROOM`]
    /// places for each corner is always long enough; the two may have unequal lengths. Allocates
    /// nothing. [`ring`](Projection::ring) lends the buffers itself.
    ///
    /// # Errors
    ///
    /// In this order, and both buffers stay as they are:
    ///
    /// - 27, [`Refusal::RingForm`]: Cassini-Soldner, polyconic and Guam refuse every ring so
    /// - 16, 17, 26, 18 or 19, of the first point that [`forward`](Projection::forward) refuses: all
    ///   corners come first, then edge by edge the midpoint, the first half, the second half
    /// - 28, [`Refusal::RingResult`]
    ///
    /// ```
    /// use lenthuc::{LambertAzimuthalEqualArea, Projection, Refusal, RING_ROOM, WGS84};
    ///
    /// let map = LambertAzimuthalEqualArea::new(WGS84, 0.1, 0.9, 0.0, 0.0)?;
    /// let (lon, lat) = ([0.098, 0.102, 0.1], [0.899, 0.899, 0.902]);
    /// let (mut easting, mut northing) = ([9.0; 3 * RING_ROOM], [9.0; 3 * RING_ROOM]);
    /// let ring = map.ring_area(&lon, &lat, &mut easting, &mut northing)?;
    /// assert_eq!(ring.points, 12);
    /// assert_eq!(Ok((easting[0], northing[0])), map.forward(0.098, 0.899));
    /// assert_eq!((easting[12], northing[12]), (9.0, 9.0));
    ///
    /// let short = map.ring_area(&lon, &lat, &mut easting[..11], &mut northing);
    /// assert_eq!(short, Err(Refusal::RingResult));
    /// let two = map.ring_area(&lon[1..], &lat[1..], &mut easting, &mut northing);
    /// assert_eq!(two, Err(Refusal::RingForm));
    /// # Ok::<(), Refusal>(())
    /// ```
    ///
    /// [`RING_ROOM`]: crate::RING_ROOM
    fn ring_area(
        &self,
        lon: &[f64],
        lat: &[f64],
        easting: &mut [f64],
        northing: &mut [f64],
    ) -> Result<RingArea, Refusal>;

    /// The easting and northing of a longitude and latitude in degrees: those of
    /// [`forward`](Projection::forward) for the angles that [`f64::to_radians`] makes of them, which
    /// rounds once more. 90 and 180 degrees become the constants `FRAC_PI_2` and `PI`.
    ///
    /// ```
    /// use lenthuc::{GRS80, LambertAzimuthalEqualArea, Projection, Refusal};
    ///
    /// let [lon0, lat0] = [10.0, 52.0].map(f64::to_radians);
    /// let europe = LambertAzimuthalEqualArea::new(GRS80, lon0, lat0, 4321000.0, 3210000.0)?;
    /// let (easting, northing) = europe.forward_degrees(5.0, 50.0)?;
    /// assert_eq!(format!("{easting:.2} {northing:.2}"), "3962799.45 2999718.85");
    /// let (lon, lat) = europe.inverse_degrees(3962799.45, 2999718.85)?;
    /// assert_eq!(format!("{lon:.6} {lat:.6}"), "5.000000 50.000000");
    /// # Ok::<(), Refusal>(())
    /// ```
    ///
    /// # Errors
    ///
    /// Those of [`forward`](Projection::forward).
    fn forward_degrees(&self, lon: f64, lat: f64) -> Answer {
        self.forward(lon.to_radians(), lat.to_radians())
    }

    /// The longitude and latitude in degrees of an easting and northing: those of
    /// [`inverse`](Projection::inverse), made degrees by [`f64::to_degrees`], which rounds them once
    /// more. The longitude is then in [-180, 180], and the latitude in [-90 - 6e-11, 90 + 6e-11].
    ///
    /// # Errors
    ///
    /// Those of [`inverse`](Projection::inverse).
    fn inverse_degrees(&self, easting: f64, northing: f64) -> Answer {
        let (lon, lat) = self.inverse(easting, northing)?;
        Ok((lon.to_degrees(), lat.to_degrees()))
    }

    /// Projects points, each a longitude and latitude, as a column of them.
    ///
    /// ```
    /// use lenthuc::{CassiniSoldner, Projection, Refusal, UNIT_SPHERE};
    ///
    /// let map = CassiniSoldner::new(UNIT_SPHERE, 0.0, 0.0, 0.0, 0.0)?;
    /// let answers = map.forward_points(&[(0.0, 0.5), (0.0, 2.0)]);
    /// assert_eq!(answers, [Ok((0.0, 0.5)), Err(Refusal::ForwardBeyond)]);
    /// # Ok::<(), Refusal>(())
    /// ```
    #[must_use]
    fn forward_points(&self, points: &[(f64, f64)]) -> Vec<Answer> {
        each(points, |u, v, p, q, outcomes| {
            self.forward_column(u, v, p, q, outcomes)
        })
    }

    /// Takes points back, each an easting and northing, as a column of them.
    #[must_use]
    fn inverse_points(&self, points: &[(f64, f64)]) -> Vec<Answer> {
        each(points, |u, v, p, q, outcomes| {
            self.inverse_column(u, v, p, q, outcomes)
        })
    }

    /// The area and the points of a ring, by its corners, each a longitude and latitude:
    /// [`ring_area`](Projection::ring_area) with buffers that are always long enough. While it works
    /// they take up to 16 KiB for each corner, 64 MiB at most, of which only the part that the points
    /// fill need be touched.
    ///
    /// ```
    /// use lenthuc::{CassiniSoldner, EqualEarth, Projection, Refusal, WGS84};
    ///
    /// let corners = [(0.1, 0.8), (0.101, 0.8), (0.101, 0.801), (0.1, 0.801)];
    /// let ring = EqualEarth::new(WGS84, 0.0, 0.0, 0.0)?.ring(&corners)?;
    /// assert_eq!(format!("{:.1} km²", ring.area / 1e6), "28.3 km²");
    ///
    /// let cassini = CassiniSoldner::new(WGS84, 0.0, 0.0, 0.0, 0.0)?;
    /// assert_eq!(cassini.ring(&corners), Err(Refusal::RingForm));
    /// # Ok::<(), Refusal>(())
    /// ```
    ///
    /// # Errors
    ///
    /// Those of [`ring_area`](Projection::ring_area). 28, [`Refusal::RingResult`], can only mean that
    /// the area is not a finite number.
    fn ring(&self, corners: &[(f64, f64)]) -> Result<Ring, Refusal> {
        ring::with_buffers(corners, |lon, lat, easting, northing| {
            self.ring_area(lon, lat, easting, northing)
        })
    }
}

/// The answers to points by a function of columns.
pub(crate) fn each<C>(points: &[(f64, f64)], column: C) -> Vec<Answer>
where
    C: FnOnce(&[f64], &[f64], &mut [f64], &mut [f64], &mut [Outcome]) -> Result<(), UnequalLengths>,
{
    let (u, v): (Vec<_>, Vec<_>) = points.iter().copied().unzip();
    let (mut p, mut q) = (vec![0.0; u.len()], vec![0.0; u.len()]);
    let mut outcomes = vec![Outcome::default(); u.len()];
    column(&u, &v, &mut p, &mut q, &mut outcomes).expect("five columns of one length");
    let pairs = p.into_iter().zip(q);
    let answer = |(outcome, pair): (Outcome, _)| outcome.result().map(|()| pair);
    outcomes.into_iter().zip(pairs).map(answer).collect()
}

/// What points to a projection projects as it does.
macro_rules! pointers {
    ($($pointer:ty),*) => {$(
        impl<P: Projection + ?Sized> Sealed for $pointer {}

        impl<P: Projection + ?Sized> Projection for $pointer {
            fn forward(&self, lon: f64, lat: f64) -> Answer {
                (**self).forward(lon, lat)
            }

            fn inverse(&self, easting: f64, northing: f64) -> Answer {
                (**self).inverse(easting, northing)
            }

            fn forward_column(
                &self,
                lon: &[f64],
                lat: &[f64],
                easting: &mut [f64],
                northing: &mut [f64],
                outcomes: &mut [Outcome],
            ) -> Result<(), UnequalLengths> {
                (**self).forward_column(lon, lat, easting, northing, outcomes)
            }

            fn inverse_column(
                &self,
                easting: &[f64],
                northing: &[f64],
                lon: &mut [f64],
                lat: &mut [f64],
                outcomes: &mut [Outcome],
            ) -> Result<(), UnequalLengths> {
                (**self).inverse_column(easting, northing, lon, lat, outcomes)
            }

            fn ring_area(
                &self,
                lon: &[f64],
                lat: &[f64],
                easting: &mut [f64],
                northing: &mut [f64],
            ) -> Result<RingArea, Refusal> {
                (**self).ring_area(lon, lat, easting, northing)
            }
        }
    )*};
}

pointers!(&P, Box<P>, Arc<P>);
