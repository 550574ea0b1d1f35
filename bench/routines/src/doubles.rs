//! Crate `doubles`: splitting.

/// x rounded to its leading digits.
pub fn leading_digits(x: f64, splitter: f64) -> f64 {
    let scaled = x * splitter;
    scaled - (scaled - x)
}
