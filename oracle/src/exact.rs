//! What rounding takes away, for wrong readings that do not round.

/// A sum as an f64, and the rest.
pub fn sum(one: f64, other: f64) -> [f64; 2] {
    let sum = one + other;
    let from_other = sum - one;
    let rest = (one - (sum - from_other)) + (other - from_other);
    [sum, rest]
}

/// The same of dx×dx + dy×dy, where no square vanishes or overflows.
pub fn square_sum(dx: f64, dy: f64) -> [f64; 2] {
    let [[x, x_rest], [y, y_rest]] = [dx, dy].map(|d| [d * d, d.mul_add(d, -(d * d))]);
    let [all, rest] = sum(x, y);
    sum(all, rest + x_rest + y_rest)
}
