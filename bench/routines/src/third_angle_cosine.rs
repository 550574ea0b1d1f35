//! Crate `third_angle_cosine`: certificate, digits.

use crate::algebraic::{rounded_by_digits, Algebraic};
use crate::angle::{self, Argument};
use crate::midpoints::cubic::between;
use crate::words::wide::Wide;

fn shifted(significand: u64, shift: u64) -> Wide {
    Wide {
        high: significand >> (54 - shift),
        low: (significand << shift) & 0x3f_ffff_ffff_ffff,
    }
}

fn target(sign: u64, m: u64) -> Wide {
    let t = shifted(
        (m & 0xf_ffff_ffff_ffff) + 0x10_0000_0000_0000,
        (m >> 52) - 969,
    );
    if sign == 0 {
        return Wide {
            high: 0x10_0000_0000_0000 + t.high,
            low: t.low,
        };
    }
    Wide {
        high: 0xf_ffff_ffff_ffff - t.high,
        low: 0x40_0000_0000_0000 - t.low,
    }
}

fn is_cosine(sign: u64, m: u64, c: u64) -> bool {
    if m < 0x3c90_0000_0000_0000 {
        return false;
    }
    if c <= 0x3fe0_0000_0000_0000 {
        return false;
    }
    if c > 0x3ff0_0000_0000_0000 {
        return false;
    }
    let e = target(sign, m);
    between(2 * (c - 0x3fe0_0000_0000_0000), 3, e.high, e.low)
}

#[cold]
fn cosine_pattern(sign: u64, m: u64) -> u64 {
    let u = angle::size_of(m);
    0x3fd0_0000_0000_0000 + rounded_by_digits(Algebraic::Cosine(sign, u.high, u.low))
}

pub fn nearest(sign: u64, m: u64, candidate: f64) -> f64 {
    if !candidate.is_nan() && is_cosine(sign, m, candidate.to_bits()) {
        return candidate;
    }
    f64::from_bits(cosine_pattern(sign, m))
}

/// The cosine of a third of the angle whose cosine is t, one binary digit a round.
pub fn third_angle_cosine_by_digits(t: f64) -> f64 {
    match angle::classify(t) {
        Argument::Known(cos, _) => cos,
        Argument::Inside(sign, m) => f64::from_bits(cosine_pattern(sign, m)),
    }
}
