//! The ported routines against the oracle's exact functions, bit for bit. Run with `--release`: millions of arguments.

use nearest::{cbrt, cosine_and_sine_of_third};

const COUNT: usize = 3_000_000;
const FEW: usize = 20_000;

/// SplitMix64.
struct Numbers(u64);

impl Numbers {
    fn word(&mut self) -> u64 {
        self.0 = self.0.wrapping_add(0x9E37_79B9_7F4A_7C15);
        let mut z = self.0;
        z = (z ^ (z >> 30)).wrapping_mul(0xBF58_476D_1CE4_E5B9);
        z = (z ^ (z >> 27)).wrapping_mul(0x94D0_49BB_1331_11EB);
        z ^ (z >> 31)
    }

    fn unit(&mut self) -> f64 {
        (self.word() >> 11) as f64 / (1u64 << 53) as f64
    }

    /// Any bit pattern, and more often a cube or a number beside one.
    fn for_cbrt(&mut self) -> f64 {
        let any = f64::from_bits(self.word());
        let whole = (self.word() % (1 << 18)) as f64;
        match self.word() % 8 {
            0 => whole * whole * whole,
            1 => f64::from_bits((whole * whole * whole).to_bits() ^ 1),
            2 => f64::from_bits(self.word() >> (12 + self.word() % 52)),
            _ => any,
        }
    }

    /// From -1 to 1: evenly, close to an end, or close to 0; now and then beyond.
    fn for_pair(&mut self) -> f64 {
        let sign = if self.word() % 2 == 0 { 1.0 } else { -1.0 };
        let small = self.unit() * f64::powi(0.5, (self.word() % 60) as i32);
        sign * match self.word() % 10 {
            0..=3 => self.unit(),
            4..=6 => 1.0 - small,
            7..=8 => small,
            _ => [0.0, 1.0, 1.0 + small, f64::INFINITY, f64::NAN, 0.5][(self.word() % 6) as usize],
        }
    }
}

fn same(x: f64, y: f64) -> bool {
    x.to_bits() == y.to_bits() || (x.is_nan() && y.is_nan())
}

fn compare(count: usize, mut argument: impl FnMut() -> f64, ported: fn(f64) -> f64, exact: fn(f64) -> f64) {
    for _ in 0..count {
        let x = argument();
        let (a, b) = (ported(x), exact(x));
        assert!(same(a, b), "{x:?}: {a:?}, expected {b:?}");
    }
}

#[test]
fn cube_root() {
    let mut r = Numbers(1);
    compare(COUNT, || r.for_cbrt(), routines::cbrt, cbrt);
    compare(FEW, || r.for_cbrt(), routines::cbrt_by_digits, cbrt);
}

#[test]
fn third_angle_cosine() {
    let mut r = Numbers(2);
    compare(COUNT, || r.for_pair(), |t| routines::third_angle_pair(t).0, |t| cosine_and_sine_of_third(t).0);
    compare(FEW, || r.for_pair(), routines::third_angle_cosine_by_digits, |t| cosine_and_sine_of_third(t).0);
}

#[test]
fn third_angle_sine() {
    let mut r = Numbers(3);
    compare(COUNT, || r.for_pair(), |t| routines::third_angle_pair(t).1, |t| cosine_and_sine_of_third(t).1);
    compare(FEW, || r.for_pair(), routines::third_angle_sine_by_digits, |t| cosine_and_sine_of_third(t).1);
}
