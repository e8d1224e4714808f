//! Document 01's functions as methods, under the names that `build.rs` puts into the source.

use crate::fixed;

pub trait Fixed {
    fn fixed_sin(self) -> f64;
    fn fixed_cos(self) -> f64;
    fn fixed_tan(self) -> f64;
    fn fixed_asin(self) -> f64;
    fn fixed_atan2(self, x: f64) -> f64;
    fn fixed_ln(self) -> f64;
    fn fixed_sqrt(self) -> f64;
    fn fixed_powf_3_2(self) -> f64;
    fn fixed_rem_euclid(self, turn: f64) -> f64;
    fn fixed_max_zero(self) -> f64;
    fn fixed_clamp(self, low: f64, high: f64) -> f64;
    fn fixed_abs(self) -> f64;
    fn fixed_signum(self) -> f64;
    fn fixed_is_finite(self) -> bool;
}

impl Fixed for f64 {
    #[inline]
    fn fixed_sin(self) -> f64 {
        fixed::sin(self)
    }
    #[inline]
    fn fixed_cos(self) -> f64 {
        fixed::cos(self)
    }
    #[inline]
    fn fixed_tan(self) -> f64 {
        fixed::tan(self)
    }
    #[inline]
    fn fixed_asin(self) -> f64 {
        fixed::asin(self)
    }
    #[inline]
    fn fixed_atan2(self, x: f64) -> f64 {
        fixed::atan2(self, x)
    }
    #[inline]
    fn fixed_ln(self) -> f64 {
        fixed::ln(self)
    }
    #[inline]
    fn fixed_sqrt(self) -> f64 {
        fixed::root(self)
    }
    #[inline]
    fn fixed_powf_3_2(self) -> f64 {
        fixed::powf_3_2(self)
    }
    #[inline]
    fn fixed_rem_euclid(self, turn: f64) -> f64 {
        assert!(turn == fixed::T);
        fixed::rem_euclid(self)
    }
    #[inline]
    fn fixed_max_zero(self) -> f64 {
        fixed::max_zero(self)
    }
    #[inline]
    fn fixed_clamp(self, low: f64, high: f64) -> f64 {
        fixed::clamp(self, low, high)
    }
    #[inline]
    fn fixed_abs(self) -> f64 {
        fixed::abs(self)
    }
    #[inline]
    fn fixed_signum(self) -> f64 {
        fixed::signum(self)
    }
    #[inline]
    fn fixed_is_finite(self) -> bool {
        fixed::is_finite(self)
    }
}
