//! The root and the remainder by whole numbers alone, so that nothing rests on the machine's.

/// IEEE 754's root: nearest, ties to even, judged by whole-number squares.
pub fn root(x: f64) -> f64 {
    if x.is_nan() || x == 0.0 || x == f64::INFINITY {
        return x;
    }
    if x < 0.0 {
        return f64::NAN;
    }
    let (m, e) = parts(x);
    // n = m × 2^(54 or 55), so that x = n × 4^half and the root of n has 54 digits.
    let shift = if e % 2 == 0 { 54 } else { 55 };
    let n = u128::from(m) << shift;
    let half = (e - shift) / 2;
    // r is nearest to half of it, since 2r - 1 and 2r + 1 lie either side of it. Neither can be
    // it, as n is even: there are no ties.
    let q = floor_root(n);
    let r = (q >> 1) + (q & 1);
    assert!((2 * r - 1).pow(2) < n && n < (2 * r + 1).pow(2));
    // r × 2^(half + 1) with 2^52 ≤ r ≤ 2^53: a carry of r goes into the exponent.
    let exponent = (half + 1 + 1075) as u64;
    f64::from_bits((exponent << 52) + (r as u64 - (1 << 52)))
}

/// The largest q with q × q ≤ n, for n below 2^108, one binary digit after another.
fn floor_root(n: u128) -> u128 {
    (0..54).rev().fold(0, |q, digit| {
        let more: u128 = q | 1 << digit;
        if more * more <= n { more } else { q }
    })
}

/// Rust's `%`, which is exact, by a positive finite y.
pub fn remainder(x: f64, y: f64) -> f64 {
    if !x.is_finite() {
        return f64::NAN;
    }
    if x == 0.0 {
        return x;
    }
    let (m, e) = parts(x.abs());
    let (n, f) = parts(y);
    // r × 2^unit. Where e is below f, so is x below y: m < 2^53 ≤ 2 × n.
    let unit = e.min(f);
    let r = if e < f {
        m
    } else {
        (f..e).fold(m % n, |r, _| 2 * r % n)
    };
    // Both factors are powers of two that an f64 has, though their product may be subnormal.
    let half = unit / 2;
    (r as f64 * 2.0_f64.powi(half) * 2.0_f64.powi(unit - half)).copysign(x)
}

/// x = m × 2^e with 2^52 ≤ m < 2^53, for a positive finite x.
fn parts(x: f64) -> (u64, i32) {
    let field = (x.to_bits() >> 52) as i32;
    let fraction = x.to_bits() & 0x000f_ffff_ffff_ffff;
    if field == 0 {
        let up = fraction.leading_zeros() as i32 - 11;
        (fraction << up, -1074 - up)
    } else {
        (fraction | 1 << 52, field - 1075)
    }
}
