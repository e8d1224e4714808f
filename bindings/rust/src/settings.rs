//! What a projection is built of.

use crate::area::Area;
use crate::ellipsoid::Ellipsoid;
use crate::raw::Ordered;
use std::fmt;

/// A kind, by its letter.
#[derive(Clone, Copy, PartialEq)]
#[repr(u8)]
pub(crate) enum Kind {
    Lambert = b'L',
    LambertSpherical = b'S',
    Albers = b'A',
    EqualEarth = b'E',
    Cassini = b'C',
    Polyconic = b'P',
    Guam = b'G',
}

/// The settings of a projection. Those that its kind does not use are 0.
#[derive(Clone, Copy, PartialEq)]
pub(crate) struct Settings {
    pub(crate) kind: Kind,
    pub(crate) ellipsoid: Ellipsoid,
    pub(crate) lon0: f64,
    pub(crate) lat0: f64,
    pub(crate) lat1: f64,
    pub(crate) lat2: f64,
    pub(crate) false_easting: f64,
    pub(crate) false_northing: f64,
    pub(crate) area: Option<Area>,
}

impl Settings {
    /// The settings of a kind that has no parallels, without an area of use.
    pub(crate) fn new(
        kind: Kind,
        ellipsoid: Ellipsoid,
        [lon0, lat0]: [f64; 2],
        [false_easting, false_northing]: [f64; 2],
    ) -> Self {
        Self {
            kind,
            ellipsoid,
            lon0,
            lat0,
            lat1: 0.0,
            lat2: 0.0,
            false_easting,
            false_northing,
            area: None,
        }
    }

    /// The numbers among them but the area's, in the archive's order.
    pub(crate) fn ordered(&self) -> Ordered {
        [
            self.ellipsoid.semi_major_axis(),
            self.ellipsoid.flattening(),
            self.lon0,
            self.lat0,
            self.lat1,
            self.lat2,
            self.false_easting,
            self.false_northing,
        ]
    }
}

/// The type's name, those settings that its constructor takes, and the area of use if there is one.
impl fmt::Debug for Settings {
    fn fmt(&self, f: &mut fmt::Formatter<'_>) -> fmt::Result {
        let mut shown = f.debug_struct(match self.kind {
            Kind::Lambert | Kind::LambertSpherical => "LambertAzimuthalEqualArea",
            Kind::Albers => "AlbersEqualArea",
            Kind::EqualEarth => "EqualEarth",
            Kind::Cassini => "CassiniSoldner",
            Kind::Polyconic => "AmericanPolyconic",
            Kind::Guam => "GuamProjection",
        });
        shown.field("ellipsoid", &self.ellipsoid);
        shown.field("lon0", &self.lon0);
        if self.kind != Kind::EqualEarth {
            shown.field("lat0", &self.lat0);
        }
        if self.kind == Kind::Albers {
            shown.field("lat1", &self.lat1);
            shown.field("lat2", &self.lat2);
        }
        shown.field("false_easting", &self.false_easting);
        shown.field("false_northing", &self.false_northing);
        if let Kind::Lambert | Kind::LambertSpherical = self.kind {
            shown.field("spherical", &(self.kind == Kind::LambertSpherical));
        }
        if let Some(area) = &self.area {
            shown.field("area", area);
        }
        shown.finish()
    }
}
