//! The generators' random numbers: SplitMix64 (Steele, Lea, Flood 2014). No function of a library that could differ
//! between machines is used, so that a seed means the same everywhere.

pub struct Random(u64);

impl Random {
    pub fn new(seed: u64) -> Self {
        Random(seed)
    }

    pub fn bits(&mut self) -> u64 {
        self.0 = self.0.wrapping_add(0x9E37_79B9_7F4A_7C15);
        let mixed = (self.0 ^ self.0 >> 30).wrapping_mul(0xBF58_476D_1CE4_E5B9);
        let mixed = (mixed ^ mixed >> 27).wrapping_mul(0x94D0_49BB_1331_11EB);
        mixed ^ mixed >> 31
    }

    /// A whole number below the bound; the bound is small, so the favour for small ones doesn't matter.
    pub fn below(&mut self, bound: u64) -> u64 {
        self.bits() % bound
    }

    pub fn one_in(&mut self, n: u64) -> bool {
        self.below(n) == 0
    }

    pub fn pick<T: Copy>(&mut self, from: &[T]) -> T {
        from[self.below(from.len() as u64) as usize]
    }

    /// From 0 up to, not at, 1.
    pub fn unit(&mut self) -> f64 {
        (self.bits() >> 11) as f64 / (1u64 << 53) as f64
    }

    /// From -1 to 1.
    pub fn signed_unit(&mut self) -> f64 {
        let size = self.unit();
        if self.one_in(2) {
            size
        } else {
            -size
        }
    }

    pub fn between(&mut self, low: f64, high: f64) -> f64 {
        low + (high - low) * self.unit()
    }

    /// From 2^low up to 2^high, each exponent alike.
    pub fn size(&mut self, low: i64, high: i64) -> f64 {
        let exponent = low + self.below((high - low) as u64) as i64;
        (1.0 + self.unit()) * power_of_two(exponent)
    }
}

/// 2^exponent, for exponents of normal and subnormal doubles.
pub fn power_of_two(exponent: i64) -> f64 {
    if exponent < -1022 {
        f64::from_bits(1 << (exponent + 1074))
    } else {
        f64::from_bits(((exponent + 1023) as u64) << 52)
    }
}

/// The double that many places above (or below, for a negative count).
pub fn nudged(number: f64, places: i64) -> f64 {
    let moved = in_order(number.to_bits() as i64).saturating_add(places);
    f64::from_bits(in_order(moved) as u64)
}

/// The double halfway between two others in the doubles' order; the lower of two neighbours.
pub fn halfway(one: f64, other: f64) -> f64 {
    let (a, b) = (
        in_order(one.to_bits() as i64),
        in_order(other.to_bits() as i64),
    );
    f64::from_bits(in_order((a & b) + ((a ^ b) >> 1)) as u64)
}

/// A double's bits, read with a sign, turned into a whole number in the doubles' order; and back.
fn in_order(bits: i64) -> i64 {
    if bits < 0 {
        i64::MIN.wrapping_sub(bits)
    } else {
        bits
    }
}

#[cfg(test)]
mod tests {
    use super::{halfway, nudged};

    #[test]
    fn halfway_lies_between_and_ends_beside() {
        assert_eq!(halfway(1.0, 4.0), 2.0);
        assert_eq!(halfway(-1.0, 1.0), 0.0);
        assert_eq!(halfway(f64::MAX, f64::MIN), 0.0);
        for low in [-3.0, nudged(0.0, -1), 0.0, 5.0] {
            let high = nudged(low, 1);
            assert_eq!(halfway(low, high), low);
            assert_eq!(halfway(high, low), low);
        }
    }
}
