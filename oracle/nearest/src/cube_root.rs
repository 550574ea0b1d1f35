//! The double nearest the exact cube root.

use crate::significand::{bisected, join, nearest, split};
use crate::wide::Wide;
use core::cmp::Ordering;

/// Cubes of 54 bits take 162.
type Cube = Wide<3>;

pub fn cbrt(x: f64) -> f64 {
    by(x, |compared| {
        let (estimate, _) = split(machine::cbrt(x));
        nearest(estimate, compared)
    })
}

pub fn plain_cbrt(x: f64) -> f64 {
    by(x, |compared| bisected(compared))
}

/// The cube root by a search for its significand; ±0, infinities and NaN give themselves.
#[inline]
fn by(x: f64, search: impl FnOnce(&dyn Fn(u64) -> Ordering) -> u64) -> f64 {
    if x == 0.0 || !x.is_finite() {
        return x;
    }
    let (significand, exponent) = split(x);
    // With this scale the root has a significand of 53 bits: the cube then lies from 2^156 up to 2^159.
    let scale = (exponent - 104).div_euclid(3);
    let shift = (exponent - 3 * scale) as u32;
    // Twice the root is compared, so eight times the cube.
    let cube = Cube::from_u64(significand).shifted_up(shift + 3);
    let root = search(&|h| {
        let h = Cube::from_u64(h);
        cube.cmp(&h.squared().times(&h))
    });
    join(root, scale).copysign(x)
}
