//! What became of a point.

use crate::refusal::Refusal;
use std::fmt;

/// What became of a point of a column: answered, or refused and why. It is one byte, the number
/// that the archive writes.
///
/// ```
/// use lenthuc::{Outcome, Refusal};
///
/// let outcome = Outcome::from(Refusal::ForwardBeyond);
/// assert!(!outcome.is_answered());
/// assert_eq!(outcome.number(), 17);
/// assert_eq!(outcome.refusal(), Some(Refusal::ForwardBeyond));
/// assert_eq!(Outcome::ANSWERED.result(), Ok(()));
/// ```
#[derive(Clone, Copy, Default, PartialEq, Eq, Hash)]
#[repr(transparent)]
pub struct Outcome(u8);

impl Outcome {
    /// The point is answered. This is the default too, which a new column holds until it is filled.
    pub const ANSWERED: Self = Self(0);

    /// Whether the point is answered.
    #[must_use]
    pub const fn is_answered(self) -> bool {
        self.0 == 0
    }

    /// The number, as on a sheet: 0 where the point is answered, else its refusal's.
    #[must_use]
    pub const fn number(self) -> u8 {
        self.0
    }

    /// Why the point is refused. None where it is answered.
    #[must_use]
    pub fn refusal(self) -> Option<Refusal> {
        self.result().err()
    }

    /// The same as a result, for `?`.
    ///
    /// # Errors
    ///
    /// The refusal of the point.
    pub fn result(self) -> Result<(), Refusal> {
        if self.is_answered() {
            return Ok(());
        }
        Err(Refusal::from_number(self.0).unwrap_or_else(|| unknown(self.0)))
    }
}

impl From<Refusal> for Outcome {
    fn from(refusal: Refusal) -> Self {
        Self(refusal.number())
    }
}

impl fmt::Debug for Outcome {
    fn fmt(&self, f: &mut fmt::Formatter<'_>) -> fmt::Result {
        match self.refusal() {
            None => f.write_str("Answered"),
            Some(refusal) => f.debug_tuple("Refused").field(&refusal).finish(),
        }
    }
}

/// The archive of this crate's version gives no other numbers than those of its refusals.
pub(crate) fn unknown(number: u8) -> ! {
    panic!("libcapi.a gave the number {number}, which lenthuc lacks")
}
