//! Areas of use.

use crate::raw::{self, Edges};
use std::f64::consts::PI;

/// An area of use, by its edges in radians. A projection that has one answers the places inside it,
/// and no other.
///
/// It lies between `south` and `north`, and from `west` eastwards to `east`. Its edges belong to it.
///
/// - Where `east` is below `west` it crosses the 180° line: it holds the longitudes from `west` to π,
///   and from -π to `east`. Where the two are equal it is one meridian.
/// - -π and π are two numbers: an edge at -π does not hold π. From -π to π are all longitudes.
/// - A latitude between π/2 and π/2 + 1e-12, which a projection takes as well, lies outside an area
///   that ends at π/2.
///
/// Any edges may be written. A projection checks them when it is given the area: see
/// [`EqualEarth::with_area`](crate::EqualEarth::with_area), which every type has.
///
/// # Edges are normalised first
///
/// The longitude of a place is [normalised](normalize_longitude) before it is compared, and an edge is
/// not. Normalising rounds: of 0.1 it makes a number above 0.1. So the area from -1 to 0.1 does not
/// hold the longitude 0.1. [`from_degrees`](Area::from_degrees) and [`normalized`](Area::normalized)
/// normalise the edges.
///
/// ```
/// use lenthuc::{Area, EqualEarth, Projection, Refusal, WGS84, normalize_longitude};
///
/// assert_eq!(normalize_longitude(0.1).to_bits(), 0x3fb9_9999_9999_99a0);
///
/// let world = EqualEarth::new(WGS84, 0.0, 0.0, 0.0)?;
/// let area = Area { west: -1.0, east: 0.1, south: -1.0, north: 1.0 };
/// assert_eq!(world.with_area(area)?.forward(0.1, 0.5), Err(Refusal::OutsideArea));
/// let map = world.with_area(area.normalized())?;
/// assert_eq!(map.forward(0.1, 0.5), world.forward(0.1, 0.5));
/// # Ok::<(), Refusal>(())
/// ```
///
/// Neither way of a projection is exact: a place on an edge, taken forward and back, may come out
/// beside the edge and be refused.
#[derive(Clone, Copy, Debug, PartialEq)]
pub struct Area {
    /// The longitude where it begins.
    pub west: f64,
    /// The longitude where it ends, eastwards from `west`.
    pub east: f64,
    /// Its lowest latitude.
    pub south: f64,
    /// Its highest latitude.
    pub north: f64,
}

impl Area {
    /// The area of these edges in degrees, made radians by [`f64::to_radians`], and then
    /// [`normalized`](Area::normalized). So a place on an edge, given in the same degrees, lies inside.
    ///
    /// ```
    /// use lenthuc::{Area, CassiniSoldner, Projection, Refusal, WGS84};
    ///
    /// let map = CassiniSoldner::new(WGS84, 0.0, 0.0, 0.0, 0.0)?;
    /// let map = map.with_area(Area::from_degrees(-1.7, 3.3, 6.1, 7.2))?;
    /// assert!(map.forward_degrees(-1.7, 7.2).is_ok());
    /// assert_eq!(map.forward_degrees(-1.7001, 7.2), Err(Refusal::OutsideArea));
    ///
    /// let no_area = Area::from_degrees(0.0, 360.0, -90.0, 90.0);
    /// assert_eq!(map.with_area(no_area), Err(Refusal::AreaEdges));
    /// # Ok::<(), Refusal>(())
    /// ```
    #[must_use]
    pub fn from_degrees(west: f64, east: f64, south: f64, north: f64) -> Self {
        let [west, east, south, north] = [west, east, south, north].map(f64::to_radians);
        let area = Self {
            west,
            east,
            south,
            north,
        };
        area.normalized()
    }

    /// The same area, with `west` and `east` [normalised](normalize_longitude). Doing so again changes
    /// nothing. A `west` or `east` beyond π stays as it is, and a projection refuses it: normalised, 0
    /// and 2π would be one meridian, where all longitudes are meant.
    #[must_use]
    pub fn normalized(self) -> Self {
        Self {
            west: normalized_edge(self.west),
            east: normalized_edge(self.east),
            ..self
        }
    }

    /// The edges, in the archive's order.
    pub(crate) fn ordered(&self) -> Edges {
        [self.west, self.east, self.south, self.north]
    }
}

fn normalized_edge(lon: f64) -> f64 {
    if lon.abs() <= PI {
        normalize_longitude(lon)
    } else {
        lon
    }
}

/// A longitude brought into [-π, π] by whole turns, as a place's is before it is compared with an
/// [`Area`]. Doing so again changes nothing. Of a NaN and of an infinity it is NaN.
///
/// The archive works it out, and is proved to give the bits that the definition states.
///
/// ```
/// use lenthuc::normalize_longitude;
/// use std::f64::consts::PI;
///
/// assert_eq!(normalize_longitude(3.0 * PI), PI);
/// assert_eq!(normalize_longitude(-3.0 * PI), -PI);
/// assert_eq!(normalize_longitude(0.25), 0.25);
/// ```
#[must_use]
pub fn normalize_longitude(lon: f64) -> f64 {
    raw::normalize_longitude(lon)
}
