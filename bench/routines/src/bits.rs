//! Crate `bits`.

pub struct Parts {
    pub significand: u64,
    pub exponent: u64,
}

/// Significand of 53 digits and exponent of a finite double above 0, by its pattern.
pub fn normalized(b: u64) -> Parts {
    let biased = b >> 52;
    let fraction = b & 0x000f_ffff_ffff_ffff;
    if biased == 0 {
        let shift = fraction.leading_zeros() - 11;
        Parts {
            significand: fraction << shift,
            exponent: 1022 - (shift as u64),
        }
    } else {
        Parts {
            significand: fraction + 0x0010_0000_0000_0000,
            exponent: biased + 1021,
        }
    }
}
