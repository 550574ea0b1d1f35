//! Crate `cbrt`: candidate, certificate, digits.

use crate::algebraic::{rounded_by_digits, Algebraic};
use crate::bits;
use crate::doubles::leading_digits;
use crate::midpoints::cubic::between;

fn first_guess(b: u64) -> f64 {
    f64::from_bits(b / 3 + 0x2a9f_7893_782d_a1ce)
}

fn factor(r: f64) -> f64 {
    1.87595182427177 - r * (1.8849797954337717 - r * 1.6214297201053545)
        + r * r * r * (r * 0.14599619288661245 - 0.758397934778766)
}

fn refined(x: f64, inverse: f64, t: f64) -> f64 {
    let square = t * t;
    let s = leading_digits(square, 134217729.0);
    let z = ((x - s * t) - (square - s) * t) * inverse;
    t + t * (z * (0.3333333333333333 + z * 0.2222222222222222))
}

fn candidate(x: f64, b: u64) -> f64 {
    let inverse = 1.0 / x;
    let g = first_guess(b);
    refined(
        x,
        inverse,
        leading_digits(g * factor(g * g * (g * inverse)), 1073741825.0),
    )
}

fn is_root(b: u64, c: u64) -> bool {
    let exponent = (b >> 52) + 2043;
    let start = (exponent / 3) << 52;
    if c < start {
        return false;
    }
    let n = c - start;
    if n <= 0x10_0000_0000_0000 {
        return false;
    }
    if n >= 0x20_0000_0000_0000 {
        return false;
    }
    let m = ((b & 0xf_ffff_ffff_ffff) + 0x10_0000_0000_0000) << (exponent % 3);
    between(2 * n, 0, m >> 1, (m & 1) << 53)
}

fn root_pattern(b: u64) -> u64 {
    let parts = bits::normalized(b);
    let exponent = parts.exponent + 1022;
    let r = rounded_by_digits(Algebraic::CubeRoot(parts.significand, exponent % 3));
    ((exponent / 3) << 52) + r
}

/// The double nearest to the cube root.
pub fn cbrt(x: f64) -> f64 {
    if x.is_nan() {
        return x;
    }
    let b = x.to_bits();
    let m = b & 0x7fff_ffff_ffff_ffff;
    if (m >= 0x10_0000_0000_0000) & (m < 0x7ff0_0000_0000_0000) {
        let root = candidate(f64::from_bits(m), m);
        if !root.is_nan() && is_root(m, root.to_bits()) {
            return if b == m { root } else { -root };
        }
    }
    cbrt_by_digits(x)
}

/// The same, one binary digit a round.
#[cold]
pub fn cbrt_by_digits(x: f64) -> f64 {
    if x.is_nan() {
        return x;
    }
    let b = x.to_bits();
    let m = b & 0x7fff_ffff_ffff_ffff;
    if m == 0 {
        return x;
    }
    if m >= 0x7ff0_0000_0000_0000 {
        return x;
    }
    let root = f64::from_bits(root_pattern(m));
    if b == m {
        root
    } else {
        -root
    }
}
