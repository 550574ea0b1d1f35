//! Doubles as significand and exponent, and the significand nearest a real that compares with whole numbers.

use core::cmp::Ordering;

/// Significands of normal doubles lie from `LEAST` up to, not at, `MOST`.
pub const LEAST: u64 = 1 << 52;
pub const MOST: u64 = 1 << 53;

/// How far an estimate is followed, one significand at a time, before bisection takes over.
const STEPS: usize = 4;

/// The size of a finite double that isn't 0 as `significand * 2^exponent`, with `LEAST <= significand < MOST`.
pub fn split(x: f64) -> (u64, i32) {
    let bits = x.to_bits() & !(1 << 63);
    let (field, fraction) = ((bits >> 52) as i32, bits & (LEAST - 1));
    if field > 0 {
        (fraction | LEAST, field - 1075)
    } else {
        let lift = fraction.leading_zeros() - LEAST.leading_zeros();
        (fraction << lift, -1074 - lift as i32)
    }
}

/// `significand * 2^exponent` as a double, for a normal result and `LEAST <= significand <= MOST`.
pub fn join(significand: u64, exponent: i32) -> f64 {
    let field = u64::try_from(exponent + 1074).expect("the result is a normal double");
    f64::from_bits((field << 52) + significand)
}

/// The whole number nearest a real one between `LEAST` and `MOST`, of two equally near the even one.
///
/// `compared(h)` says how twice the real compares with the whole number h: every decision rests on it alone, and
/// the estimate only makes it quick.
pub fn nearest(estimate: u64, compared: impl Fn(u64) -> Ordering) -> u64 {
    let mut candidate = estimate.clamp(LEAST, MOST);
    for _ in 0..STEPS {
        match side(candidate, &compared) {
            Ordering::Equal => return candidate,
            Ordering::Less => candidate -= 1,
            Ordering::Greater => candidate += 1,
        }
    }
    bisected(compared)
}

/// Whether the nearest whole number is the candidate (`Equal`), or below it, or above it.
fn side(candidate: u64, compared: &impl Fn(u64) -> Ordering) -> Ordering {
    let odd = candidate % 2 == 1;
    if candidate > LEAST {
        match compared(2 * candidate - 1) {
            Ordering::Less => return Ordering::Less,
            Ordering::Equal if odd => return Ordering::Less,
            _ => (),
        }
    }
    if candidate < MOST {
        match compared(2 * candidate + 1) {
            Ordering::Greater => return Ordering::Greater,
            Ordering::Equal if odd => return Ordering::Greater,
            _ => (),
        }
    }
    Ordering::Equal
}

/// The same as `nearest`, from nothing: the real's whole part by bisection, then its half.
pub fn bisected(compared: impl Fn(u64) -> Ordering) -> u64 {
    let (mut below, mut above) = (LEAST, MOST + 1);
    while above - below > 1 {
        let middle = below + (above - below) / 2;
        if compared(2 * middle) == Ordering::Less {
            above = middle;
        } else {
            below = middle;
        }
    }
    match compared(2 * below + 1) {
        Ordering::Less => below,
        Ordering::Equal => below + below % 2,
        Ordering::Greater => below + 1,
    }
}
