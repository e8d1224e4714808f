//! Map projections for school planning, each with a proof.
//!
//! Every answer is computed by Lenthuc's archive, which is written in Rattle. There each function
//! is proved to give, for every input, the number and the bits that a definition states. This crate
//! is a thin, safe cover over it: types in the shape of the Rust library that Lenthuc is a port of.
//! The cover itself is tested, and not proved.
//!
//! ```
//! use lenthuc::{CassiniSoldner, Ellipsoid, Projection, Refusal};
//!
//! // IOGP 7-2's example, Trinidad 1903 / Trinidad Grid, in Clarke's links.
//! let clarke = Ellipsoid::from_a_rf(31706587.88, 294.2606764)?;
//! let lon0 = -(61.0 + 20.0 / 60.0_f64).to_radians();
//! let lat0 = (10.0 + 26.0 / 60.0 + 30.0 / 3600.0_f64).to_radians();
//! let trinidad = CassiniSoldner::new(clarke, lon0, lat0, 430000.0, 325000.0)?;
//!
//! let (easting, northing) = trinidad.forward_degrees(-62.0, 10.0)?;
//! assert_eq!(format!("{easting:.2} {northing:.2}"), "66644.94 82536.22");
//!
//! let (lon, lat) = trinidad.inverse_degrees(66644.94, 82536.22)?;
//! assert_eq!(format!("{lon:.6} {lat:.6}"), "-62.000000 10.000000");
//!
//! // What cannot be answered is refused.
//! assert_eq!(trinidad.forward(0.0, 2.0), Err(Refusal::ForwardBeyond));
//! # Ok::<(), Refusal>(())
//! ```
//!
//! Angles are radians but in the functions named for degrees. Eastings and northings have the unit
//! of the ellipsoid's semi-major axis, and a ring's area has its square. A travel charge goes by
//! metres.
//!
//! # One point, or many
//!
//! A projection is built once, by its constructor, and holds what the archive made of its settings.
//! A single call costs about what a place of a column costs. [`Projection::forward_column`] and
//! [`Projection::inverse_column`] take whole columns and allocate nothing;
//! [`Projection::forward_points`] and [`Projection::inverse_points`] take pairs and give a vector.
//! All give the same answers, bit for bit.
//!
//! # An area of use
//!
//! A projection may have an [`Area`]: it then refuses the places outside, both ways, and answers those
//! inside as it does without one. Any type takes it by
//! [`with_area`](LambertAzimuthalEqualArea::with_area), and gives it up by
//! [`without_area`](LambertAzimuthalEqualArea::without_area).
//!
//! ```
//! use lenthuc::{Area, LambertAzimuthalEqualArea, Projection, Refusal, WGS84};
//!
//! // An office that spans the 180° line, from 176° E to 178° W.
//! let [lon0, lat0] = [180.0, -17.0].map(f64::to_radians);
//! let map = LambertAzimuthalEqualArea::new(WGS84, lon0, lat0, 0.0, 0.0)?;
//! let office = map.with_area(Area::from_degrees(176.0, -178.0, -21.0, -12.0))?;
//!
//! // Homes on both sides of the line, and one on the wrong coast.
//! assert_eq!(office.forward_degrees(178.5, -18.1), map.forward_degrees(178.5, -18.1));
//! assert_eq!(office.forward_degrees(-179.9, -16.8), map.forward_degrees(-179.9, -16.8));
//! assert_eq!(office.forward_degrees(-175.2, -20.5), Err(Refusal::OutsideArea));
//!
//! // Nor is the wrong coast handed out.
//! let (easting, northing) = map.forward_degrees(-175.2, -20.5)?;
//! assert_eq!(office.inverse(easting, northing), Err(Refusal::OutsideArea));
//! # Ok::<(), Refusal>(())
//! ```
//!
//! The longitude of a place is normalised before it is compared, which rounds it; an edge is compared
//! as it is. So an edge that is not normalised may leave out the places on it: [`Area`] says more.
//! [`Area::from_degrees`] normalises.
//!
//! # Clicks beside the map
//!
//! A drawn map may have a frame, and a click in it is no place. [`Projection::inverse`] gives most such
//! clicks one all the same. [`InverseOnMap`] is a second inverse that refuses them, and answers the
//! others as the first does. Lambert and Equal Earth have it.
//!
//! ```
//! use lenthuc::{EqualEarth, InverseOnMap, Projection, Refusal, WGS84};
//!
//! let world = EqualEarth::new(WGS84, 0.0, 0.0, 0.0)?;
//!
//! // A click on the map.
//! let (lon, lat) = world.inverse_on_map_degrees(1.0e7, 5.0e6)?;
//! assert_eq!(format!("{lon:.2} {lat:.2}"), "118.21 40.71");
//! assert_eq!(world.inverse_degrees(1.0e7, 5.0e6), Ok((lon, lat)));
//!
//! // One in the frame east of it, which the first inverse takes for a place in the west.
//! assert_eq!(world.inverse_on_map(1.7e7, 5.0e6), Err(Refusal::OffTheMap));
//! let (lon, lat) = world.inverse_degrees(1.7e7, 5.0e6)?;
//! assert_eq!(format!("{lon:.2} {lat:.2}"), "-159.05 40.71");
//! # Ok::<(), Refusal>(())
//! ```
//!
//! # The area of a catchment
//!
//! [`Projection::ring`] takes the corners of a ring, longitudes and latitudes, and gives its area and
//! its points on the map. Lambert, Albers and Equal Earth keep areas and have rings; the others refuse
//! them. [`Projection::ring_area`] does the same with buffers that are lent, and allocates nothing.
//!
//! ```
//! use lenthuc::{LambertAzimuthalEqualArea, Projection, Refusal, WGS84};
//!
//! // A school's catchment, in degrees, on a map about it.
//! let corners = [(6.05, 49.58), (6.17, 49.57), (6.21, 49.63), (6.12, 49.67), (6.04, 49.64)];
//! let corners = corners.map(|(lon, lat): (f64, f64)| (lon.to_radians(), lat.to_radians()));
//! let [lon0, lat0] = [6.13, 49.62].map(f64::to_radians);
//! let map = LambertAzimuthalEqualArea::new(WGS84, lon0, lat0, 0.0, 0.0)?;
//!
//! let ring = map.ring(&corners)?;
//! assert_eq!(format!("{:.0} hectares", ring.area / 1e4), "9484 hectares");
//!
//! // Five corners, and the points where edges are cut: an edge that is straight in longitude and
//! // latitude is not so on the map.
//! assert_eq!(ring.points.len(), 9);
//! assert_eq!(Ok(ring.points[0]), map.forward_degrees(6.05, 49.58));
//!
//! // The sign says which way round the corners are given.
//! let clockwise: Vec<_> = corners.into_iter().rev().collect();
//! assert!(map.ring(&clockwise)?.area < 0.0);
//! # Ok::<(), Refusal>(())
//! ```
//!
//! [`Ring`] says what an edge is, how a ring across the 180° line is written, and what to do with
//! holes and false offsets.
//!
//! # The nearest schools
//!
//! [`nearest`](nearest()) takes a home and schools, eastings and northings on one map, and how many pupils
//! each school has. It gives the schools' positions, the nearest first, and of equally near ones the smaller
//! first. [`nearest_into`] does the same with a list that is lent, and allocates nothing.
//!
//! ```
//! use lenthuc::{LambertAzimuthalEqualArea, Projection, Refusal, WGS84, nearest};
//!
//! let [lon0, lat0] = [6.13, 49.62].map(f64::to_radians);
//! let map = LambertAzimuthalEqualArea::new(WGS84, lon0, lat0, 0.0, 0.0)?;
//!
//! // Schools and a home, in degrees.
//! let schools = [
//!     ("Lake", 6.19, 49.61),
//!     ("Mill", 6.12, 49.65),
//!     ("Hill", 6.11, 49.6),
//!     ("Hill High", 6.11, 49.6),
//! ];
//! let on_map = schools.map(|(_, lon, lat)| map.forward_degrees(lon, lat));
//! let on_map = on_map.into_iter().collect::<Result<Vec<_>, _>>()?;
//! let home = map.forward_degrees(6.13, 49.61)?;
//!
//! // The two schools of Hill stand at one place. The smaller one comes first.
//! let rolls = [310, 540, 420, 180];
//! let order = nearest(home, &on_map, &rolls)?;
//! let names: Vec<_> = order.into_iter().map(|i| schools[usize::from(i)].0).collect();
//! assert_eq!(names, ["Hill High", "Hill", "Lake", "Mill"]);
//! # Ok::<(), Refusal>(())
//! ```
//!
//! # The travel charge
//!
//! [`travel_charge`] gives what the way from a stop to a school costs, per started kilometre and in the
//! smallest coin, and the share of each child at the stop.
//!
//! ```
//! use lenthuc::{Refusal, nearest, travel_charge};
//!
//! // A stop and schools, in metres on one map. The nearest school is 5,200 from the stop.
//! let stop = (1200.0, -300.0);
//! let schools = [(-7000.0, 2700.0), (6000.0, 1700.0)];
//! let (easting, northing) = schools[usize::from(nearest(stop, &schools, &[0, 0])?[0])];
//!
//! // Six kilometres are started, at 0.40 each.
//! let children = ["Ada", "Ben", "Eve", "Ida", "Leo", "Mia", "Tom"];
//! let bill = travel_charge(easting - stop.0, northing - stop.1, 40, children.len() as u64)?;
//! assert_eq!(bill.charge, 240);
//! for (child, share) in children.iter().zip(bill.shares) {
//!     println!("{child} pays {}.{:02}", share / 100, share % 100);
//! }
//! assert_eq!(bill.shares[..8], [35, 35, 34, 34, 34, 34, 34, 0]);
//! # Ok::<(), Refusal>(())
//! ```
//!
//! # What to rely on
//!
//! - Any `f64` may be handed to any function, whatever its bits. Every call ends.
//! - An answer's coordinates are finite, and so is a ring's area.
//! - No call changes a projection, so threads can share one.
//! - The thread's floating-point environment must be the default one, as Rust demands of all code. A
//!   C library that was linked with `-ffast-math` may change it.
//!
//! # Linking
//!
//! The archive is `libcapi.a`, which `tools/archive` proves and writes into `target/staticlib`
//! at the top of Lenthuc's repository. The build looks there, or in the folder that the environment
//! variable `LENTHUC_ARCHIVE` names by an absolute path. The archive is for x86-64 Linux. It must
//! have the crate's version: one that lacks a function is refused by the build, and building a
//! projection, [`nearest`](nearest()) and [`travel_charge`] panic where the versions differ otherwise.

#![deny(missing_docs, unsafe_code, unsafe_op_in_unsafe_fn)]

mod area;
mod built;
mod charge;
mod ellipsoid;
mod kinds;
mod nearest;
mod on_map;
mod outcome;
mod projection;
#[allow(unsafe_code)]
mod raw;
mod refusal;
mod ring;
mod settings;

// The README's example is run with the others.
#[cfg(doctest)]
#[doc = include_str!("../README.md")]
mod readme {}

/// The seal has no method, so none can be called through a bound:
///
/// ```compile_fail,E0599
/// fn settings<P: lenthuc::Projection>(map: &P) {
///     let _ = map.settings();
/// }
/// ```
///
/// nor on a type:
///
/// ```compile_fail,E0599
/// let world = lenthuc::EqualEarth::new(lenthuc::WGS84, 0.0, 0.0, 0.0).unwrap();
/// let _ = world.settings();
/// ```
///
/// and no path leads to it:
///
/// ```compile_fail,E0603
/// use lenthuc::projection::Sealed;
/// ```
#[cfg(doctest)]
mod seal {}

pub use area::{Area, normalize_longitude};
pub use charge::{CHARGE_CHILDREN, TravelCharge, travel_charge};
pub use ellipsoid::{
    AIRY1830, BESSEL1841, CLARKE1866, Ellipsoid, GRS80, INTL1924, KRASSOWSKY, UNIT_SPHERE, WGS84,
    WGS84_SPHERE,
};
pub use kinds::{
    AlbersEqualArea, AmericanPolyconic, CassiniSoldner, EqualEarth, GuamProjection,
    LambertAzimuthalEqualArea,
};
pub use nearest::{NEAREST_SCHOOLS, nearest, nearest_into};
pub use on_map::InverseOnMap;
pub use outcome::Outcome;
pub use projection::Projection;
pub use refusal::{Answer, Refusal, UnequalLengths};
pub use ring::{RING_CORNERS, RING_ROOM, Ring, RingArea};
