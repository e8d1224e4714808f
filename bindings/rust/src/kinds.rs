//! The types of projections.

use crate::area::Area;
use crate::built::Built;
use crate::ellipsoid::Ellipsoid;
use crate::on_map::InverseOnMap;
use crate::outcome::Outcome;
use crate::projection::{Projection, Sealed};
use crate::raw::Way;
use crate::refusal::{Answer, Refusal, UnequalLengths};
use crate::ring::RingArea;
use crate::settings::{Kind, Settings};
use std::fmt;

/// What a type has besides its constructors: what it was built of, with the latitudes that are
/// named, its area of use, and `Debug` and `Projection`.
macro_rules! projection {
    ($name:ident: $($latitude:ident)*) => {
        impl $name {
            /// The ellipsoid.
            #[must_use]
            pub const fn ellipsoid(&self) -> Ellipsoid {
                self.0.settings().ellipsoid
            }

            /// The longitude `lon0`, in radians, as it was given.
            #[must_use]
            pub const fn lon0(&self) -> f64 {
                self.0.settings().lon0
            }

            $(
                #[doc = concat!("The latitude `", stringify!($latitude), "`, in radians, as it was given.")]
                #[must_use]
                pub const fn $latitude(&self) -> f64 {
                    self.0.settings().$latitude
                }
            )*

            /// The false easting.
            #[must_use]
            pub const fn false_easting(&self) -> f64 {
                self.0.settings().false_easting
            }

            /// The false northing.
            #[must_use]
            pub const fn false_northing(&self) -> f64 {
                self.0.settings().false_northing
            }

            /// The area of use, as it was given. None where there is none.
            #[must_use]
            pub const fn area(&self) -> Option<Area> {
                self.0.settings().area
            }

            /// The same projection with an area of use, in the place of one that it has. A point
            /// outside the area is refused, by 26, both ways. One inside it has the answer, bit for bit,
            /// that it has without an area.
            ///
            /// # Errors
            ///
            /// - 25, [`Refusal::AreaEdges`]
            pub fn with_area(self, area: Area) -> Result<Self, Refusal> {
                self.0.with_area(area).map(Self)
            }

            /// The same projection without an area of use.
            #[must_use]
            pub fn without_area(self) -> Self {
                Self(self.0.without_area())
            }
        }

        /// What it was built of, by name.
        impl fmt::Debug for $name {
            fn fmt(&self, f: &mut fmt::Formatter<'_>) -> fmt::Result {
                self.0.fmt(f)
            }
        }

        impl Sealed for $name {}

        impl Projection for $name {
            fn forward(&self, lon: f64, lat: f64) -> Answer {
                self.0.point(Way::Forward, lon, lat)
            }

            fn inverse(&self, easting: f64, northing: f64) -> Answer {
                self.0.point(Way::Inverse, easting, northing)
            }

            fn forward_column(
                &self,
                lon: &[f64],
                lat: &[f64],
                easting: &mut [f64],
                northing: &mut [f64],
                outcomes: &mut [Outcome],
            ) -> Result<(), UnequalLengths> {
                self.0.column(Way::Forward, [lon, lat], [easting, northing], outcomes)
            }

            fn inverse_column(
                &self,
                easting: &[f64],
                northing: &[f64],
                lon: &mut [f64],
                lat: &mut [f64],
                outcomes: &mut [Outcome],
            ) -> Result<(), UnequalLengths> {
                self.0.column(Way::Inverse, [easting, northing], [lon, lat], outcomes)
            }

            fn ring_area(
                &self,
                lon: &[f64],
                lat: &[f64],
                easting: &mut [f64],
                northing: &mut [f64],
            ) -> Result<RingArea, Refusal> {
                self.0.ring_area([lon, lat], [easting, northing])
            }
        }
    };
}

/// The second inverse of a type whose kinds have one.
macro_rules! inverse_on_map {
    ($name:ident) => {
        impl InverseOnMap for $name {
            fn inverse_on_map(&self, easting: f64, northing: f64) -> Answer {
                self.0.point(Way::InverseOnMap, easting, northing)
            }

            fn inverse_on_map_column(
                &self,
                easting: &[f64],
                northing: &[f64],
                lon: &mut [f64],
                lat: &mut [f64],
                outcomes: &mut [Outcome],
            ) -> Result<(), UnequalLengths> {
                self.0
                    .column(Way::InverseOnMap, [easting, northing], [lon, lat], outcomes)
            }
        }
    };
}

/// Lambert azimuthal equal-area (EPSG method 9820), or its spherical form (1027), about a pole or any
/// other origin.
///
/// A point is refused by number 16, 17, 18 or 19 [forward](Projection::forward), and by 20, 23 or 24
/// [back](Projection::inverse); with an [`Area`] also by 26, both ways. It has a [second
/// inverse](InverseOnMap), which refuses by 30 too. It keeps areas, and has [rings](Projection::ring):
/// one is refused by 27, by a point's number forward, or by 28.
#[derive(Clone, Copy, PartialEq)]
pub struct LambertAzimuthalEqualArea(Built);

impl LambertAzimuthalEqualArea {
    /// About the origin `lon0`, `lat0`, which has the false easting and northing.
    ///
    /// # Errors
    ///
    /// In this order:
    ///
    /// - 6, [`Refusal::Lon0`]
    /// - 7, [`Refusal::LatitudeSetting`]
    /// - 8, [`Refusal::LatitudeSettingBeyond`]
    /// - 9, [`Refusal::FalseEasting`]
    /// - 10, [`Refusal::FalseNorthing`]
    /// - 12, [`Refusal::PolarQ`]
    /// - 13, [`Refusal::OriginNearPole`]
    /// - 14, [`Refusal::OriginScale`]
    pub fn new(
        ellipsoid: Ellipsoid,
        lon0: f64,
        lat0: f64,
        false_easting: f64,
        false_northing: f64,
    ) -> Result<Self, Refusal> {
        let offsets = [false_easting, false_northing];
        let settings = Settings::new(Kind::Lambert, ellipsoid, [lon0, lat0], offsets);
        Built::new(settings).map(Self)
    }

    /// The same by the sphere's formulas, on the sphere that has the ellipsoid's area.
    ///
    /// # Errors
    ///
    /// Those of [`new`](LambertAzimuthalEqualArea::new), 12 to 14 too: they are of the ellipsoid's
    /// numbers.
    pub fn new_spherical(
        ellipsoid: Ellipsoid,
        lon0: f64,
        lat0: f64,
        false_easting: f64,
        false_northing: f64,
    ) -> Result<Self, Refusal> {
        let offsets = [false_easting, false_northing];
        let settings = Settings::new(Kind::LambertSpherical, ellipsoid, [lon0, lat0], offsets);
        Built::new(settings).map(Self)
    }

    /// Whether it is the spherical form. A Lambert on a sphere that [`new`] built is not.
    ///
    /// [`new`]: LambertAzimuthalEqualArea::new
    #[must_use]
    pub const fn is_spherical(&self) -> bool {
        matches!(self.0.settings().kind, Kind::LambertSpherical)
    }
}

projection!(LambertAzimuthalEqualArea: lat0);
inverse_on_map!(LambertAzimuthalEqualArea);

/// Albers equal-area conic (EPSG method 9822).
///
/// A point is refused by number 16, 17 or 19 [forward](Projection::forward), and by 20, 22, 23 or 24
/// [back](Projection::inverse); with an [`Area`] also by 26, both ways. It keeps areas, and has
/// [rings](Projection::ring): one is refused by 27, by a point's number forward, or by 28.
///
/// ```
/// use lenthuc::{AlbersEqualArea, CLARKE1866, Projection, Refusal};
///
/// let [lon0, lat0, lat1, lat2] = [-96.0, 23.0, 29.5, 45.5].map(f64::to_radians);
/// let states = AlbersEqualArea::new(CLARKE1866, lon0, lat0, lat1, lat2, 0.0, 0.0)?;
/// let (x, y) = states.forward_degrees(-75.0, 35.0)?;
/// // Snyder prints 1885472.7 and 1535925.0.
/// assert!((x - 1885472.7).abs() < 0.05 && (y - 1535925.0).abs() < 0.05);
///
/// let no_cone = AlbersEqualArea::new(CLARKE1866, lon0, lat0, lat1, -lat1, 0.0, 0.0);
/// assert_eq!(no_cone, Err(Refusal::ConeConstant));
/// # Ok::<(), Refusal>(())
/// ```
///
/// On a sphere it has the sphere's own formulas, and no rounds: a point off the map is refused by 23
/// there, never by 22 or 24.
///
/// ```
/// use lenthuc::{AlbersEqualArea, Projection, Refusal, UNIT_SPHERE};
///
/// let [lon0, lat0, lat1, lat2] = [-96.0, 23.0, 29.5, 45.5].map(f64::to_radians);
/// let atlas = AlbersEqualArea::new(UNIT_SPHERE, lon0, lat0, lat1, lat2, 0.0, 0.0)?;
/// let (x, y) = atlas.forward_degrees(-75.0, 35.0)?;
/// // Snyder prints 0.2952720 and 0.2416774.
/// assert!((x - 0.2952720).abs() < 5e-8 && (y - 0.2416774).abs() < 5e-8);
///
/// let (lon, lat) = atlas.inverse_degrees(x, y)?;
/// assert!((lon + 75.0).abs() < 1e-12 && (lat - 35.0).abs() < 1e-12);
/// assert_eq!(atlas.inverse(0.0, 9.0), Err(Refusal::InverseResult));
/// # Ok::<(), Refusal>(())
/// ```
#[derive(Clone, Copy, PartialEq)]
pub struct AlbersEqualArea(Built);

impl AlbersEqualArea {
    /// About the origin `lon0`, `lat0`, which has the false easting and northing,
    /// by the parallels `lat1` and `lat2`.
    ///
    /// # Errors
    ///
    /// In this order:
    ///
    /// - 6, [`Refusal::Lon0`]
    /// - 7, [`Refusal::LatitudeSetting`], then 8, [`Refusal::LatitudeSettingBeyond`], of `lat0`; then
    ///   both of `lat1`; then both of `lat2`
    /// - 9, [`Refusal::FalseEasting`]
    /// - 10, [`Refusal::FalseNorthing`]
    /// - 15, [`Refusal::ConeConstant`]
    pub fn new(
        ellipsoid: Ellipsoid,
        lon0: f64,
        lat0: f64,
        lat1: f64,
        lat2: f64,
        false_easting: f64,
        false_northing: f64,
    ) -> Result<Self, Refusal> {
        let offsets = [false_easting, false_northing];
        let settings = Settings {
            lat1,
            lat2,
            ..Settings::new(Kind::Albers, ellipsoid, [lon0, lat0], offsets)
        };
        Built::new(settings).map(Self)
    }
}

projection!(AlbersEqualArea: lat0 lat1 lat2);

/// Equal Earth (EPSG method 1078).
///
/// A point is refused by number 16, 17 or 19 [forward](Projection::forward), and by 20, 22, 23 or 24
/// [back](Projection::inverse); with an [`Area`] also by 26, both ways. It has a [second
/// inverse](InverseOnMap), which refuses by 30 too. It keeps areas, and has [rings](Projection::ring):
/// one is refused by 27, by a point's number forward, or by 28.
#[derive(Clone, Copy, PartialEq)]
pub struct EqualEarth(Built);

impl EqualEarth {
    /// About the meridian `lon0`, whose point on the equator has the false easting and northing.
    ///
    /// # Errors
    ///
    /// In this order:
    ///
    /// - 6, [`Refusal::Lon0`]
    /// - 9, [`Refusal::FalseEasting`]
    /// - 10, [`Refusal::FalseNorthing`]
    pub fn new(
        ellipsoid: Ellipsoid,
        lon0: f64,
        false_easting: f64,
        false_northing: f64,
    ) -> Result<Self, Refusal> {
        let offsets = [false_easting, false_northing];
        let settings = Settings::new(Kind::EqualEarth, ellipsoid, [lon0, 0.0], offsets);
        Built::new(settings).map(Self)
    }
}

projection!(EqualEarth:);
inverse_on_map!(EqualEarth);

/// Cassini-Soldner (EPSG method 9806).
///
/// A point is refused by number 16, 17 or 19 [forward](Projection::forward), and by 20, 23 or 24
/// [back](Projection::inverse); with an [`Area`] also by 26, both ways. It does not keep areas: every
/// [ring](Projection::ring) is refused by 27.
#[derive(Clone, Copy, PartialEq)]
pub struct CassiniSoldner(Built);

impl CassiniSoldner {
    /// About the origin `lon0`, `lat0`, which has the false easting and northing.
    ///
    /// # Errors
    ///
    /// In this order:
    ///
    /// - 6, [`Refusal::Lon0`]
    /// - 7, [`Refusal::LatitudeSetting`]
    /// - 8, [`Refusal::LatitudeSettingBeyond`]
    /// - 9, [`Refusal::FalseEasting`]
    /// - 10, [`Refusal::FalseNorthing`]
    pub fn new(
        ellipsoid: Ellipsoid,
        lon0: f64,
        lat0: f64,
        false_easting: f64,
        false_northing: f64,
    ) -> Result<Self, Refusal> {
        let offsets = [false_easting, false_northing];
        let settings = Settings::new(Kind::Cassini, ellipsoid, [lon0, lat0], offsets);
        Built::new(settings).map(Self)
    }
}

projection!(CassiniSoldner: lat0);

/// American polyconic (EPSG method 9818).
///
/// A point is refused by number 16, 17 or 19 [forward](Projection::forward), and by 20, 21, 22, 23 or
/// 24 [back](Projection::inverse); with an [`Area`] also by 26, both ways. It does not keep areas:
/// every [ring](Projection::ring) is refused by 27.
#[derive(Clone, Copy, PartialEq)]
pub struct AmericanPolyconic(Built);

impl AmericanPolyconic {
    /// About the origin `lon0`, `lat0`, which has the false easting and northing.
    ///
    /// # Errors
    ///
    /// In this order:
    ///
    /// - 6, [`Refusal::Lon0`]
    /// - 7, [`Refusal::LatitudeSetting`]
    /// - 8, [`Refusal::LatitudeSettingBeyond`]
    /// - 9, [`Refusal::FalseEasting`]
    /// - 10, [`Refusal::FalseNorthing`]
    pub fn new(
        ellipsoid: Ellipsoid,
        lon0: f64,
        lat0: f64,
        false_easting: f64,
        false_northing: f64,
    ) -> Result<Self, Refusal> {
        let offsets = [false_easting, false_northing];
        let settings = Settings::new(Kind::Polyconic, ellipsoid, [lon0, lat0], offsets);
        Built::new(settings).map(Self)
    }
}

projection!(AmericanPolyconic: lat0);

/// Guam projection (EPSG method 9831), for an island.
///
/// A point is refused by number 16, 17 or 19 [forward](Projection::forward), and by 20, 23 or 24
/// [back](Projection::inverse); with an [`Area`] also by 26, both ways. It does not keep areas: every
/// [ring](Projection::ring) is refused by 27.
#[derive(Clone, Copy, PartialEq)]
pub struct GuamProjection(Built);

impl GuamProjection {
    /// About the origin `lon0`, `lat0`, which has the false easting and northing.
    /// The ellipsoid must be no sphere.
    ///
    /// # Errors
    ///
    /// In this order:
    ///
    /// - 6, [`Refusal::Lon0`]
    /// - 7, [`Refusal::LatitudeSetting`]
    /// - 8, [`Refusal::LatitudeSettingBeyond`]
    /// - 9, [`Refusal::FalseEasting`]
    /// - 10, [`Refusal::FalseNorthing`]
    /// - 11, [`Refusal::Sphere`]
    pub fn new(
        ellipsoid: Ellipsoid,
        lon0: f64,
        lat0: f64,
        false_easting: f64,
        false_northing: f64,
    ) -> Result<Self, Refusal> {
        let offsets = [false_easting, false_northing];
        let settings = Settings::new(Kind::Guam, ellipsoid, [lon0, lat0], offsets);
        Built::new(settings).map(Self)
    }
}

projection!(GuamProjection: lat0);
