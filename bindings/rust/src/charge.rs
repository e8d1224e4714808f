//! What the way to school costs, and each child's share of it.

use crate::raw;
use crate::refusal::Refusal;

/// The most children that [`travel_charge`] takes, and how many shares it gives.
pub const CHARGE_CHILDREN: usize = 60;

/// A charge and its shares, in the smallest coin: [`travel_charge`] gives it.
#[derive(Clone, Copy, Debug, PartialEq, Eq, Hash)]
pub struct TravelCharge {
    /// What the children at the stop pay together.
    pub charge: u64,
    /// What each child pays, the larger shares first; 0 past the last child.
    pub shares: [u64; CHARGE_CHILDREN],
}

/// The charge for the way from a stop to a school, per started kilometre, and its shares among the children
/// at the stop. `dx` and `dy` are the school's easting and northing less the stop's, in metres. `rate` is
/// the price of a kilometre in the smallest coin, and `children` is how many there are.
///
/// - The distance is the root of `dx * dx + dy * dy`. Each operation rounds, the root too. It is the
///   straight distance on the map, as for [`nearest`](crate::nearest()).
/// - The charge is `k * rate`, where `k` is the least whole number with `1000 * k` not below the distance.
///   So 0 m costs 0, 1,000 m are 1 km, and the next number above is 2 km.
/// - Kilometres go by the root as it rounds, and not by the sum: (5000, 6e-5) is 5 km, though its sum is
///   above 25,000,000. And (1e-200, 0) costs 0, since its square vanishes.
/// - Shares differ by at most one coin, the larger first, and add up to the charge: the first
///   `charge % children` children pay one coin more than the others.
///
/// ```
/// use lenthuc::{Refusal, travel_charge};
///
/// let coins = |cents: u64| format!("{}.{:02}", cents / 100, cents % 100);
///
/// // Two children, 2,600 m from their school: three kilometres are started, at 0.85 each.
/// let bill = travel_charge(2400.0, -1000.0, 85, 2)?;
/// assert_eq!(coins(bill.charge), "2.55");
/// assert_eq!(bill.shares.map(coins)[..3], ["1.28", "1.27", "0.00"]);
///
/// // A whole kilometre is one, and no way costs nothing.
/// assert_eq!(travel_charge(1000.0, 0.0, 85, 2)?.charge, 85);
/// assert_eq!(travel_charge(0.0, 0.0, 85, 2)?.charge, 0);
///
/// assert_eq!(travel_charge(2400.0, -1000.0, 85, 0), Err(Refusal::ChargeInput));
/// assert_eq!(travel_charge(f64::NAN, -1000.0, 85, 2), Err(Refusal::ChargeInput));
/// # Ok::<(), Refusal>(())
/// ```
///
/// # Errors
///
/// - 31, [`Refusal::ChargeInput`]: the rate is above 1,000,000, there are no children or more than
///   [`CHARGE_CHILDREN`], or the distance is not finite or is above 1,000,000 m; the limits themselves
///   pass, and `dx` and `dy` have no limit of their own
pub fn travel_charge(dx: f64, dy: f64, rate: u64, children: u64) -> Result<TravelCharge, Refusal> {
    let (outcome, charge, shares) = raw::travel_charge(dx, dy, rate, children);
    outcome.result().map(|()| TravelCharge { charge, shares })
}
