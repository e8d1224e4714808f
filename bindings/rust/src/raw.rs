//! The archive's functions but the sheet's, as `bindings/c/lenthuc.h` documents them. All unsafe
//! code is here.

use crate::charge::CHARGE_CHILDREN;
use crate::outcome::Outcome;

/// What a projection is built of: a, f, lon0, lat0, lat1, lat2, false easting, false northing.
pub(crate) type Ordered = [f64; 8];

/// An area of use: west, east, south, north.
pub(crate) type Edges = [f64; 4];

/// A built projection.
pub(crate) type Numbers = [f64; 36];

/// The children's shares of a charge.
pub(crate) type Shares = [u64; CHARGE_CHILDREN];

/// The version of the archive that this crate is for, which is the crate's own.
const VERSION: u32 = 10_000 * part(env!("CARGO_PKG_VERSION_MAJOR"))
    + 100 * part(env!("CARGO_PKG_VERSION_MINOR"))
    + part(env!("CARGO_PKG_VERSION_PATCH"));

const fn part(digits: &str) -> u32 {
    match u32::from_str_radix(digits, 10) {
        Ok(part) if part < 100 => part,
        _ => panic!("a part of the version is not below 100"),
    }
}

// The archive needs no library but C's own.
#[link(name = "capi", kind = "static")]
// SAFETY: the signatures are those of lenthuc.h. A reference is a valid, aligned pointer to as many
// numbers as its type says, and what a `&mut` points to nothing else uses, as the header asks. An
// `Outcome` is a u8. The safe functions touch no other memory: they are proved safe for every
// argument of these types.
unsafe extern "C" {
    safe fn lenthuc_version() -> u32;
    safe fn lenthuc_from_a_f(a: f64, f: f64) -> Outcome;
    safe fn lenthuc_from_a_rf(a: f64, rf: f64, f: &mut f64) -> Outcome;
    safe fn lenthuc_normalize_longitude(lon: f64) -> f64;
    safe fn lenthuc_build(kind: u8, settings: &Ordered, projection: &mut Numbers) -> Outcome;
    safe fn lenthuc_build_in_area(
        kind: u8,
        settings: &Ordered,
        area: &Edges,
        projection: &mut Numbers,
    ) -> Outcome;
    safe fn lenthuc_forward(
        projection: &Numbers,
        lon: f64,
        lat: f64,
        easting: &mut f64,
        northing: &mut f64,
    ) -> Outcome;
    safe fn lenthuc_inverse(
        projection: &Numbers,
        easting: f64,
        northing: f64,
        lon: &mut f64,
        lat: &mut f64,
    ) -> Outcome;
    safe fn lenthuc_inverse_on_map(
        projection: &Numbers,
        easting: f64,
        northing: f64,
        lon: &mut f64,
        lat: &mut f64,
        number: &mut Outcome,
    ) -> u8;
    safe fn lenthuc_travel_charge(
        dx: f64,
        dy: f64,
        rate: u64,
        children: u64,
        charge: &mut u64,
        shares: &mut Shares,
    ) -> Outcome;
    fn lenthuc_forward_column(
        projection: &Numbers,
        lon: *const f64,
        lons: usize,
        lat: *const f64,
        lats: usize,
        easting: *mut f64,
        eastings: usize,
        northing: *mut f64,
        northings: usize,
        numbers: *mut Outcome,
        ns: usize,
    ) -> u8;
    fn lenthuc_inverse_column(
        projection: &Numbers,
        easting: *const f64,
        eastings: usize,
        northing: *const f64,
        northings: usize,
        lon: *mut f64,
        lons: usize,
        lat: *mut f64,
        lats: usize,
        numbers: *mut Outcome,
        ns: usize,
    ) -> u8;
    fn lenthuc_inverse_on_map_column(
        projection: &Numbers,
        easting: *const f64,
        eastings: usize,
        northing: *const f64,
        northings: usize,
        lon: *mut f64,
        lons: usize,
        lat: *mut f64,
        lats: usize,
        numbers: *mut Outcome,
        ns: usize,
        number: &mut u8,
    ) -> u8;
    fn lenthuc_ring_area(
        projection: &Numbers,
        lon: *const f64,
        lons: usize,
        lat: *const f64,
        lats: usize,
        easting: *mut f64,
        eastings: usize,
        northing: *mut f64,
        northings: usize,
        area: &mut f64,
        points: &mut usize,
    ) -> Outcome;
    fn lenthuc_nearest(
        easting: f64,
        northing: f64,
        eastings: *const f64,
        eastings_length: usize,
        northings: *const f64,
        northings_length: usize,
        rolls: *const u16,
        rolls_length: usize,
        order: *mut u16,
        order_length: usize,
    ) -> Outcome;
}

/// Another version's archive would mean other things by the same calls, so this panics where one is
/// linked.
fn check_version() {
    let linked = lenthuc_version();
    assert!(
        linked == VERSION,
        "libcapi.a has the version {linked}, and lenthuc {} needs {VERSION}",
        env!("CARGO_PKG_VERSION")
    );
}

/// Forward from a longitude and latitude, or back from an easting and northing, by the first inverse
/// or by the second.
#[derive(Clone, Copy)]
pub(crate) enum Way {
    Forward,
    Inverse,
    InverseOnMap,
}

/// The second inverse is asked of kinds alone that have one, by `InverseOnMap`.
fn check_second_inverse(has: u8) {
    assert!(has == 1, "libcapi.a has no second inverse for this kind");
}

/// Of an ellipsoid by its flattening.
pub(crate) fn from_a_f(a: f64, f: f64) -> Outcome {
    lenthuc_from_a_f(a, f)
}

/// Of an ellipsoid by its inverse flattening, and its flattening.
pub(crate) fn from_a_rf(a: f64, rf: f64) -> (Outcome, f64) {
    let mut f = 0.0;
    let outcome = lenthuc_from_a_rf(a, rf, &mut f);
    (outcome, f)
}

/// A longitude in [-π, π], or NaN.
pub(crate) fn normalize_longitude(lon: f64) -> f64 {
    lenthuc_normalize_longitude(lon)
}

/// Builds the projection of a kind's letter, in an area of use if there is one.
pub(crate) fn build(kind: u8, settings: &Ordered, area: Option<Edges>) -> (Outcome, Numbers) {
    check_version();
    let mut projection = [0.0; 36];
    let outcome = match area {
        None => lenthuc_build(kind, settings, &mut projection),
        Some(area) => lenthuc_build_in_area(kind, settings, &area, &mut projection),
    };
    (outcome, projection)
}

/// Of a point, and its two results.
pub(crate) fn point(way: Way, projection: &Numbers, u: f64, v: f64) -> (Outcome, f64, f64) {
    let (mut p, mut q) = (0.0, 0.0);
    let outcome = match way {
        Way::Forward => lenthuc_forward(projection, u, v, &mut p, &mut q),
        Way::Inverse => lenthuc_inverse(projection, u, v, &mut p, &mut q),
        Way::InverseOnMap => {
            let mut outcome = Outcome::default();
            let has = lenthuc_inverse_on_map(projection, u, v, &mut p, &mut q, &mut outcome);
            check_second_inverse(has);
            outcome
        }
    };
    (outcome, p, q)
}

/// 0, and the outcomes and results of a column of points; or, of unequal lengths, another number,
/// and everything as it was.
pub(crate) fn column(
    way: Way,
    projection: &Numbers,
    [u, v]: [&[f64]; 2],
    [p, q]: [&mut [f64]; 2],
    outcomes: &mut [Outcome],
) -> u8 {
    macro_rules! lent {
        ($function:ident $(, $more:expr)?) => {
            $function(
                projection,
                u.as_ptr(),
                u.len(),
                v.as_ptr(),
                v.len(),
                p.as_mut_ptr(),
                p.len(),
                q.as_mut_ptr(),
                q.len(),
                outcomes.as_mut_ptr(),
                outcomes.len(),
                $($more)?
            )
        };
    }
    // SAFETY: each pointer and the length after it are of one slice. The function reads u and v
    // and writes p, q and outcomes, each within its length, and keeps no pointer; the borrows say
    // that the written ones overlap nothing else. It tests itself whether the lengths are equal.
    // An `Outcome` may hold any byte.
    unsafe {
        match way {
            Way::Forward => lent!(lenthuc_forward_column),
            Way::Inverse => lent!(lenthuc_inverse_column),
            Way::InverseOnMap => {
                let mut number = 0;
                check_second_inverse(lent!(lenthuc_inverse_on_map_column, &mut number));
                number
            }
        }
    }
}

/// Of a ring, its area, and how many points stand at the buffers' start; of a refusal +0 and 0, and
/// both buffers as they were.
pub(crate) fn ring_area(
    projection: &Numbers,
    [lon, lat]: [&[f64]; 2],
    [easting, northing]: [&mut [f64]; 2],
) -> (Outcome, f64, usize) {
    let (mut area, mut points) = (0.0, 0);
    // SAFETY: each pointer and the length after it are of one slice. The function reads lon and lat
    // and writes easting and northing, each within its length, and area and points, and keeps no
    // pointer; the borrows say that the written ones overlap nothing else. It tests the lengths
    // itself.
    let outcome = unsafe {
        lenthuc_ring_area(
            projection,
            lon.as_ptr(),
            lon.len(),
            lat.as_ptr(),
            lat.len(),
            easting.as_mut_ptr(),
            easting.len(),
            northing.as_mut_ptr(),
            northing.len(),
            &mut area,
            &mut points,
        )
    };
    (outcome, area, points)
}

/// Of a home and schools, whose order then stands at the list's start; of a refusal the list is as it
/// was.
pub(crate) fn nearest(
    (easting, northing): (f64, f64),
    [eastings, northings]: [&[f64]; 2],
    rolls: &[u16],
    order: &mut [u16],
) -> Outcome {
    check_version();
    // SAFETY: each pointer and the length after it are of one slice. The function reads eastings,
    // northings and rolls and writes order, each within its length, and keeps no pointer; the borrows say
    // that order overlaps nothing else. It tests the lengths itself.
    unsafe {
        lenthuc_nearest(
            easting,
            northing,
            eastings.as_ptr(),
            eastings.len(),
            northings.as_ptr(),
            northings.len(),
            rolls.as_ptr(),
            rolls.len(),
            order.as_mut_ptr(),
            order.len(),
        )
    }
}

/// Of a way to school, what it costs and the shares; of a refusal all are 0.
pub(crate) fn travel_charge(dx: f64, dy: f64, rate: u64, children: u64) -> (Outcome, u64, Shares) {
    check_version();
    let (mut charge, mut shares) = (0, [0; CHARGE_CHILDREN]);
    let outcome = lenthuc_travel_charge(dx, dy, rate, children, &mut charge, &mut shares);
    (outcome, charge, shares)
}
