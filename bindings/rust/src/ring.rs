//! Rings, and their areas.

use crate::refusal::Refusal;

/// The most corners that a ring may have.
pub const RING_CORNERS: usize = 4096;

/// Places of a buffer for each corner that are always enough for a ring's points: an edge has at most
/// 1,023 cut points.
pub const RING_ROOM: usize = 1024;

/// The area of a ring, and how many points it has, which are in the buffers:
/// [`Projection::ring_area`](crate::Projection::ring_area) gives it.
#[derive(Clone, Copy, Debug, PartialEq)]
pub struct RingArea {
    /// The area, as [`Ring`] has it.
    pub area: f64,
    /// The number of its corners and cut points.
    pub points: usize,
}

/// A ring on a map that keeps areas, as the edge of a catchment is:
/// [`Projection::ring`](crate::Projection::ring) gives it.
///
/// - An edge runs from a corner to the next, and from the last to the first. It is straight in
///   longitude and latitude. It is no great circle, and not straight on the map. So it is cut at the
///   midpoint of its coordinates, and each half again, 10 times over at most. It is left uncut where
///   this midpoint, on the map, is at most 0.5 from the middle between its ends. The 0.5 has the unit
///   of the semi-major axis: so give that in metres.
/// - Longitudes are taken as they are: from 3.1 to -3.1 an edge runs through 0. Across the 180° line
///   write the eastern corners a turn higher, as 3.18 for -3.1. And take a `lon0` that is near: Albers
///   and Equal Earth tear the map along the meridian opposite it, and the area of a ring across that
///   means nothing.
/// - Corners and tested midpoints must lie inside the projection's [`Area`](crate::Area) of use, if it
///   has one.
/// - A ring whose last corner repeats the first is taken as it is, with an edge of no length.
/// - A hole is a ring of its own: measure each ring alone, and subtract in size.
/// - The area is summed of products of whole eastings and northings, so large false offsets cost it
///   digits: prefer a projection that has none.
/// - Lambert's spherical form keeps areas on a sphere alone: on the Earth's ellipsoid its areas are up
///   to 0.9 % off.
///
/// How near the area is to the one on the ground is not proved.
///
/// ```
/// use lenthuc::{LambertAzimuthalEqualArea, Projection, Refusal, WGS84};
///
/// // A ring across the 180° line, from 179° E to 179° W.
/// let [lon0, lat0] = [180.0, -17.0].map(f64::to_radians);
/// let map = LambertAzimuthalEqualArea::new(WGS84, lon0, lat0, 0.0, 0.0)?;
/// let corners = |east: f64| {
///     [(179.0, -17.5), (east, -17.5), (east, -16.5), (179.0, -16.5)]
///         .map(|(lon, lat)| (f64::to_radians(lon), f64::to_radians(lat)))
/// };
/// assert_eq!(format!("{:.0}", map.ring(&corners(181.0))?.area / 1e6), "23569");
///
/// // Written as -179° it is the strip that runs the other way, round the Earth.
/// assert_eq!(format!("{:.0}", map.ring(&corners(-179.0))?.area / 1e6), "-4218746");
/// # Ok::<(), Refusal>(())
/// ```
#[derive(Clone, Debug, PartialEq)]
pub struct Ring {
    /// The area of the polygon that the points make on the map, in the square of the unit of the
    /// semi-major axis. It is positive where the ring runs counterclockwise, easting to the right and
    /// northing up, and negative where it runs clockwise.
    pub area: f64,
    /// The eastings and northings of the corners and the cut points, in ring order. The first is not
    /// repeated.
    pub points: Vec<(f64, f64)>,
}

/// The ring of corners by a function of buffers.
pub(crate) fn with_buffers<M>(corners: &[(f64, f64)], measure: M) -> Result<Ring, Refusal>
where
    M: FnOnce(&[f64], &[f64], &mut [f64], &mut [f64]) -> Result<RingArea, Refusal>,
{
    // One corner over the limit is enough to refuse a ring, however many were given.
    let corners = &corners[..corners.len().min(RING_CORNERS + 1)];
    let (lon, lat): (Vec<_>, Vec<_>) = corners.iter().copied().unzip();
    let room = RING_ROOM * corners.len().min(RING_CORNERS);
    // Zeros of this size come from the system, which gives memory to what is touched alone.
    let (mut easting, mut northing) = (vec![0.0; room], vec![0.0; room]);
    let RingArea { area, points } = measure(&lon, &lat, &mut easting, &mut northing)?;
    let pairs = easting[..points].iter().zip(&northing[..points]);
    let points = pairs
        .map(|(&easting, &northing)| (easting, northing))
        .collect();
    Ok(Ring { area, points })
}
