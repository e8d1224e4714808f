//! Why there is no answer.

use std::error::Error;
use std::fmt;

/// What a projection gives for a point: a pair of coordinates, or why there is none.
pub type Answer = Result<(f64, f64), Refusal>;

/// Makes the enum of its rows: a variant, its number and its words, which are both its document and
/// its message.
macro_rules! refusals {
    ($($variant:ident = $number:literal, $words:literal;)*) => {
        /// Why there is no answer.
        ///
        /// Where several apply, the first is given: by [`number`](Refusal::number), but latitude
        /// setting by latitude setting, 26 before 18 and 19, and 30 after 20, or after 22 where it is of
        /// Equal Earth's longitude. A ring is checked by 27, then point by point, then by 28.
        #[derive(Clone, Copy, Debug, PartialEq, Eq, Hash)]
        #[non_exhaustive]
        #[repr(u8)]
        pub enum Refusal {
            $(#[doc = concat!($words, ".")] $variant = $number,)*
        }

        impl Refusal {
            /// The refusal's number, as on a sheet.
            #[must_use]
            pub const fn number(self) -> u8 {
                self as u8
            }

            /// The refusal of a number. None of 0, which stands for an answer, and of a number that
            /// is no refusal.
            #[must_use]
            pub const fn from_number(number: u8) -> Option<Self> {
                match number {
                    $($number => Some(Self::$variant),)*
                    _ => None,
                }
            }

            const fn message(self) -> &'static str {
                match self {
                    $(Self::$variant => $words,)*
                }
            }
        }
    };
}

// The rows of docs/refusals.txt whose numbers a setting, a point, a ring, a list of schools or a charge
// can get through this crate. A letter that names no kind, 2, cannot be written with its types.
refusals! {
    InverseFlattening = 3, "the inverse flattening (1/f) is not a finite number above 1";
    SemiMajorAxis = 4, "the semi-major axis (a) is not a finite number above 0";
    Flattening = 5, "the flattening (f) is not a number from 0 up to, but not including, 1";
    Lon0 = 6, "the origin's longitude (lon0) is not a finite number";
    LatitudeSetting = 7, "the latitude of the origin (lat0) or of a parallel (lat1, lat2) is not a finite number";
    LatitudeSettingBeyond = 8, "the latitude of the origin (lat0) or of a parallel (lat1, lat2) is beyond 90 degrees (pi/2 + 1e-12)";
    FalseEasting = 9, "the false easting (fe) is not a finite number";
    FalseNorthing = 10, "the false northing (fn) is not a finite number";
    Sphere = 11, "Guam: the ellipsoid is a sphere (e2 is 0)";
    PolarQ = 12, "Lambert: q at the pole is not a finite number above 0";
    OriginNearPole = 13, "Lambert: the origin is near a pole but not at it (its authalic cosine is below 1e-12 in size)";
    OriginScale = 14, "Lambert: the origin's scale (d) is not a finite number above 0";
    ConeConstant = 15, "Albers: the parallels make no cone (its constant n is below 1e-12 in size)";
    ForwardInput = 16, "the longitude or latitude given is not a finite number";
    ForwardBeyond = 17, "the latitude given is beyond 90 degrees (pi/2 + 1e-12)";
    Antipode = 18, "Lambert: the point is opposite the origin (the denominator is 0 or below)";
    ForwardResult = 19, "the easting or northing worked out is not a finite number";
    InverseInput = 20, "the easting or northing given is not a finite number";
    StepAtPole = 21, "polyconic: a step of the inverse meets a pole (the cosine is below 1e-12 in size)";
    StepsUsedUp = 22, "the steps of the inverse are used up before it settles (15 steps; polyconic 20)";
    InverseResult = 23, "the longitude or latitude worked out is not a finite number";
    InverseBeyond = 24, "the latitude worked out is beyond 90 degrees (pi/2 + 1e-12)";
    AreaEdges = 25, "the area of use has an edge that is not a finite number, a west or east beyond 180 degrees (pi), a south or north beyond 90 degrees (pi/2 + 1e-12), or a south above its north";
    OutsideArea = 26, "the place lies outside the area of use";
    RingForm = 27, "the ring's lists have unequal lengths, it has fewer than 3 or more than 4,096 corners, or its projection is of another kind than L, S, A and E";
    RingResult = 28, "a buffer is shorter than the ring's points, or the area worked out is not a finite number";
    NearestInput = 29, "there are no schools or more than 256, the coordinate lists have unequal lengths, the rolls or the places for the order are fewer than the schools, or a coordinate is not a finite number or above 1e8 in size";
    OffTheMap = 30, "the easting and northing lie off the map, beyond its edge";
    ChargeInput = 31, "the rate is above 1,000,000, there are no children or more than 60, or the distance is not a finite number or above 1,000,000 m";
}

impl fmt::Display for Refusal {
    fn fmt(&self, f: &mut fmt::Formatter<'_>) -> fmt::Result {
        f.pad(self.message())
    }
}

impl Error for Refusal {}

/// The columns have unequal lengths: nothing is read or written.
#[derive(Clone, Copy, Debug, PartialEq, Eq, Hash)]
pub struct UnequalLengths;

impl UnequalLengths {
    /// The archive's number for it.
    pub const NUMBER: u8 = 255;
}

impl fmt::Display for UnequalLengths {
    fn fmt(&self, f: &mut fmt::Formatter<'_>) -> fmt::Result {
        f.pad("the columns have unequal lengths: nothing is read or written")
    }
}

impl Error for UnequalLengths {}
