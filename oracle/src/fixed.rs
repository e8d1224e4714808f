//! Document 01's fixed functions. Every operation rounds once, in 01's order.

use std::f64::consts::{FRAC_PI_2, FRAC_PI_4, PI, SQRT_2};

/// A whole turn, 01's T.
pub const T: f64 = 2.0 * PI;

/// What FRAC_PI_2 is short of π/2.
const LO: f64 = f64::from_bits(0x3c91_a626_3314_5c07);

/// The two parts of ln 2.
const LN_2_HIGH: f64 = f64::from_bits(0x3fe6_2e42_fee0_0000);
const LN_2_LOW: f64 = f64::from_bits(0x3dea_39ef_3579_3c76);

/// The f64 nearest 1/n! at n - 2, for n = 2 to 17: 17! is exact, so the quotient is nearest.
const INVERSE_FACTORIALS: [f64; 16] = {
    let mut table = [0.0; 16];
    let mut factorial = 1.0;
    let mut i = 0;
    while i < 16 {
        factorial *= (i + 2) as f64;
        table[i] = 1.0 / factorial;
        i += 1;
    }
    table
};

/// ∓1/n! for n = first, first + 2, .., eight of them, the first negative.
const fn alternating_factorials(first: usize) -> [f64; 8] {
    let mut terms = [0.0; 8];
    let mut i = 0;
    while i < 8 {
        let term = INVERSE_FACTORIALS[first - 2 + 2 * i];
        terms[i] = if i % 2 == 0 { -term } else { term };
        i += 1;
    }
    terms
}

/// P, -1/3! to 1/17!.
const SINE: [f64; 8] = alternating_factorials(3);

/// Q, -1/2! to 1/16!.
const COSINE: [f64; 8] = alternating_factorials(2);

/// 1/3, 1/5, .., 1/25.
const INVERSE_ODDS: [f64; 12] = {
    let mut table = [0.0; 12];
    let mut i = 0;
    while i < 12 {
        table[i] = 1.0 / (2 * i + 3) as f64;
        i += 1;
    }
    table
};

/// c0 + w×(c1 + .. w×cn).
#[inline]
fn nested<const N: usize>(c: &[f64; N], w: f64) -> f64 {
    c[..N - 1].iter().rev().fold(c[N - 1], |sum, c| c + w * sum)
}

/// c0 - w×(c1 - .. w×cn).
#[inline]
fn nested_minus<const N: usize>(c: &[f64; N], w: f64) -> f64 {
    c[..N - 1].iter().rev().fold(c[N - 1], |sum, c| c - w * sum)
}

/// The machine's root is IEEE 754's; `whole::root` judges that by whole-number squares.
#[inline]
pub fn root(x: f64) -> f64 {
    x.sqrt()
}

/// The quarter turns k in |x| and the rest r of a finite x.
#[inline]
fn quarters(x: f64) -> (u32, f64) {
    let mut z = x.abs();
    if z > T {
        z %= T;
    }
    let k = [1.0, 3.0, 5.0, 7.0]
        .iter()
        .map(|n| u32::from(z > n * FRAC_PI_4))
        .sum::<u32>();
    (k, (z - f64::from(k) * FRAC_PI_2) - f64::from(k) * LO)
}

#[inline]
fn sine_sum(r: f64) -> f64 {
    let w = r * r;
    r + (r * w) * nested(&SINE, w)
}

#[inline]
fn cosine_sum(r: f64) -> f64 {
    let w = r * r;
    1.0 + w * nested(&COSINE, w)
}

#[inline]
pub fn sin(x: f64) -> f64 {
    if !x.is_finite() {
        return f64::NAN;
    }
    let (k, r) = quarters(x);
    let sine = match k % 4 {
        0 => sine_sum(r),
        1 => cosine_sum(r),
        2 => -sine_sum(r),
        _ => -cosine_sum(r),
    };
    if x.is_sign_negative() { -sine } else { sine }
}

#[inline]
pub fn cos(x: f64) -> f64 {
    if !x.is_finite() {
        return f64::NAN;
    }
    let (k, r) = quarters(x);
    match k % 4 {
        0 => cosine_sum(r),
        1 => -sine_sum(r),
        2 => -cosine_sum(r),
        _ => sine_sum(r),
    }
}

#[inline]
pub fn tan(x: f64) -> f64 {
    sin(x) / cos(x)
}

#[inline]
pub fn atan(x: f64) -> f64 {
    let inverted = x.abs() > 1.0;
    let mut t = if inverted { 1.0 / x.abs() } else { x.abs() };
    for _ in 0..2 {
        t = t / (1.0 + root(1.0 + t * t));
    }
    let w = t * t;
    let sum = 4.0 * (t * (1.0 - w * nested_minus(&INVERSE_ODDS, w)));
    let size = if inverted {
        (FRAC_PI_2 - sum) + LO
    } else {
        sum
    };
    size.copysign(x)
}

#[inline]
pub fn asin(x: f64) -> f64 {
    if x.abs() > 1.0 {
        f64::NAN
    } else if x.abs() == 1.0 {
        FRAC_PI_2.copysign(x)
    } else {
        atan(x / root((1.0 - x) * (1.0 + x)))
    }
}

#[inline]
pub fn atan2(y: f64, x: f64) -> f64 {
    if y.is_nan() || x.is_nan() {
        return f64::NAN;
    }
    // IEEE 754-2019, 9.2.1: the size by x's sign bit, the sign is y's.
    if y == 0.0 || x == 0.0 || y.is_infinite() || x.is_infinite() {
        let size = if y.is_infinite() && x.is_infinite() {
            if x > 0.0 { FRAC_PI_4 } else { 3.0 * FRAC_PI_4 }
        } else if y.is_infinite() || (x == 0.0 && y != 0.0) {
            FRAC_PI_2
        } else if x.is_sign_negative() {
            PI
        } else {
            0.0
        };
        return size.copysign(y);
    }
    let angle = atan(y / x);
    if x < 0.0 {
        if y < 0.0 { angle - PI } else { angle + PI }
    } else {
        angle
    }
}

/// x = m × 2^k with 1 ≤ m < 2, for a positive finite x.
#[inline]
fn split(x: f64) -> (f64, i32) {
    if x < f64::MIN_POSITIVE {
        let (m, k) = split(x * 2.0_f64.powi(54));
        return (m, k - 54);
    }
    let bits = x.to_bits();
    let fraction = bits & 0x000f_ffff_ffff_ffff;
    let one = 1.0_f64.to_bits();
    (f64::from_bits(one | fraction), (bits >> 52) as i32 - 1023)
}

#[inline]
pub fn ln(x: f64) -> f64 {
    if x == 0.0 {
        return f64::NEG_INFINITY;
    }
    if x.is_nan() || x < 0.0 {
        return f64::NAN;
    }
    if x.is_infinite() {
        return x;
    }
    let (mut m, mut k) = split(x);
    if m > SQRT_2 {
        m /= 2.0;
        k += 1;
    }
    let k = f64::from(k);
    let s = (m - 1.0) / (m + 1.0);
    let w = s * s;
    let sum = 1.0 + w * nested(&INVERSE_ODDS, w);
    k * LN_2_HIGH + ((2.0 * s) * sum + k * LN_2_LOW)
}

#[inline]
pub fn powf_3_2(d: f64) -> f64 {
    d * root(d)
}

#[inline]
pub fn rem_euclid(x: f64) -> f64 {
    let r = x % T;
    if r < 0.0 { r + T } else { r }
}

/// `max` with 0. 01 says only that NaN gives 0; of two zeros the result is +0, as IEEE 754-2019's
/// maximumNumber has it.
#[inline]
pub fn max_zero(x: f64) -> f64 {
    if x > 0.0 { x } else { 0.0 }
}

#[inline]
pub fn clamp(x: f64, low: f64, high: f64) -> f64 {
    x.clamp(low, high)
}

#[inline]
pub fn abs(x: f64) -> f64 {
    x.abs()
}

/// The source's `signum`.
#[inline]
pub fn signum(x: f64) -> f64 {
    x.signum()
}

#[inline]
pub fn is_finite(x: f64) -> bool {
    x.is_finite()
}

/// Whether the sign bit is set. All NaN count as one, without a sign.
#[inline]
pub fn is_negative(x: f64) -> bool {
    !x.is_nan() && x.is_sign_negative()
}

#[inline]
pub fn is_nan(x: f64) -> bool {
    x.is_nan()
}

/// The f64 of a pattern.
#[inline]
pub fn f64_of(bits: u64) -> f64 {
    f64::from_bits(bits)
}

/// The pattern of an f64, one for all NaN.
#[inline]
pub fn bits_of(x: f64) -> u64 {
    if x.is_nan() {
        0x7ff8_0000_0000_0000
    } else {
        x.to_bits()
    }
}
