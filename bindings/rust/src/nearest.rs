//! Schools by their distance from a home.

use crate::raw;
use crate::refusal::Refusal;

/// The most schools that [`nearest`](nearest()) and [`nearest_into`] take.
pub const NEAREST_SCHOOLS: usize = 256;

/// The positions of schools in the input, counted from 0, by their distance from a home, the nearest
/// first. Each school is there once. The home and the schools are eastings and northings on one map, in
/// any unit, the same for all. `rolls` has how many pupils each school has.
///
/// - The school that has the least `dx * dx + dy * dy` is first, where `dx` and `dy` are its coordinates
///   less the home's. Each operation rounds, and no root is taken.
/// - Of schools that have equal sums the one with the smaller roll is first, and only where rolls are equal
///   too do they stand in the order in which they are given. No roll moves a farther school ahead.
/// - Without rolls hand in zeros: `&[0; NEAREST_SCHOOLS]` serves any number of schools, since rolls past the
///   last school are not read.
/// - The distance is the straight one on the map, and not the way by road. How near it is to the one on
///   the ground depends on the map, and is not proved.
///
/// [`nearest_into`] does the same with a list that is lent.
///
/// ```
/// use lenthuc::{NEAREST_SCHOOLS, Refusal, nearest};
///
/// // Metres on a map: the schools are 2,500, 500, 500 and 150 from the home.
/// let home = (200.0, 100.0);
/// let schools = [(900.0, 2500.0), (-100.0, 500.0), (200.0, -400.0), (350.0, 100.0)];
///
/// // Of schools that are equally far the one with fewer pupils comes first.
/// let rolls = [90, 480, 260, 700];
/// assert_eq!(nearest(home, &schools, &rolls)?, [3, 2, 1, 0]);
///
/// // Without rolls the first given does.
/// assert_eq!(nearest(home, &schools, &[0; NEAREST_SCHOOLS])?, [3, 1, 2, 0]);
///
/// assert_eq!(nearest(home, &schools, &rolls[..3]), Err(Refusal::NearestInput));
/// assert_eq!(nearest(home, &[], &[]), Err(Refusal::NearestInput));
/// assert_eq!(nearest((f64::NAN, 100.0), &schools, &rolls), Err(Refusal::NearestInput));
/// # Ok::<(), Refusal>(())
/// ```
///
/// # Errors
///
/// - 29, [`Refusal::NearestInput`]: there are no schools or more than [`NEAREST_SCHOOLS`], fewer rolls than
///   schools, or a coordinate, a school's or the home's, that is not finite or is above 1e8 in size; 1e8
///   itself passes, and so does every roll
pub fn nearest(
    home: (f64, f64),
    schools: &[(f64, f64)],
    rolls: &[u16],
) -> Result<Vec<u16>, Refusal> {
    // One school over the limit is enough to refuse them, however many were given.
    let schools = &schools[..schools.len().min(NEAREST_SCHOOLS + 1)];
    let (eastings, northings): (Vec<_>, Vec<_>) = schools.iter().copied().unzip();
    let mut order = vec![0; schools.len()];
    nearest_into(home, &eastings, &northings, rolls, &mut order)?;
    Ok(order)
}

/// Puts what [`nearest`](nearest()) gives, for schools by their `eastings` and `northings`, into the first
/// places of `order`. The places after them stay as they are. Allocates nothing.
///
/// ```
/// use lenthuc::{Refusal, nearest_into};
///
/// let (eastings, northings) = ([900.0, -100.0, 350.0], [2500.0, 500.0, 100.0]);
/// let rolls = [90, 480, 700];
/// let mut order = [9; 5];
/// nearest_into((200.0, 100.0), &eastings, &northings, &rolls, &mut order)?;
/// assert_eq!(order, [2, 1, 0, 9, 9]);
///
/// let short = nearest_into((0.0, 0.0), &eastings, &northings, &rolls, &mut order[..2]);
/// assert_eq!(short, Err(Refusal::NearestInput));
/// assert_eq!(order, [2, 1, 0, 9, 9]);
/// # Ok::<(), Refusal>(())
/// ```
///
/// # Errors
///
/// - 29, [`Refusal::NearestInput`], and `order` stays as it is: where [`nearest`](nearest()) has it, where
///   `eastings` and `northings` have unequal lengths, and where `order` is shorter than they are
pub fn nearest_into(
    home: (f64, f64),
    eastings: &[f64],
    northings: &[f64],
    rolls: &[u16],
    order: &mut [u16],
) -> Result<(), Refusal> {
    raw::nearest(home, [eastings, northings], rolls, order).result()
}
