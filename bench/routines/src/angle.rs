//! Crate `angle`: the cosine t of an angle taken apart, and estimates for a third of the angle.

use crate::doubles::leading_digits;

pub enum Argument {
    Known(f64, f64),
    Inside(u64, u64),
}

pub fn classify(t: f64) -> Argument {
    if t.is_nan() {
        return Argument::Known(t, t);
    }
    let b = t.to_bits();
    let m = b & 0x7fff_ffff_ffff_ffff;
    if m > 0x3ff0_0000_0000_0000 {
        return Argument::Known(f64::NAN, f64::NAN);
    }
    if m == 0x3ff0_0000_0000_0000 {
        if b == m {
            return Argument::Known(1.0, 0.0);
        }
        return Argument::Known(0.5, 0.8660254037844386);
    }
    if m < 0x3c80_0000_0000_0000 {
        return Argument::Known(0.8660254037844386, 0.5);
    }
    Argument::Inside(b >> 63, m)
}

/// The size of t in units of 2^-128: high * 2^64 + low.
pub struct Size {
    pub high: u64,
    pub low: u64,
}

pub fn size_of(m: u64) -> Size {
    let significand = (m & 0xf_ffff_ffff_ffff) + 0x10_0000_0000_0000;
    let shift = (m >> 52) - 947;
    if shift < 64 {
        Size {
            high: significand >> (64 - shift),
            low: significand << shift,
        }
    } else {
        Size {
            high: significand << (shift - 64),
            low: 0,
        }
    }
}

fn first_guess(b: u64) -> f64 {
    f64::from_bits(0x5fe6_eb50_c7b5_37a9 - (b >> 1))
}

fn newton(h: f64, y: f64) -> f64 {
    y * (1.5 - h * y * y)
}

fn inverse_root(x: f64) -> f64 {
    if x.is_nan() {
        return x;
    }
    let h = x * 0.5;
    let y = first_guess(x.to_bits() & 0x7fff_ffff_ffff_ffff);
    newton(h, newton(h, newton(h, y)))
}

fn polynomial(z: f64) -> f64 {
    z * (0.9999997538490448
        - z * (0.16664560634134723
            - z * (0.06914047610912068
                - z * (0.03532343223419922
                    - z * (0.017374709989605427
                        - z * (0.006273791913153995 - z * 0.00111320671431327))))))
}

fn excess(t: f64, w: f64, u: f64, square: f64, rest: f64) -> f64 {
    2.0 * w - 3.0 * square - u * square - (3.0 + u) * rest + 2.0 * (t - (w - 1.0))
}

fn correction(u: f64, f: f64) -> f64 {
    let slope = u * (3.0 * u + 6.0);
    f * slope / (slope * slope + f * (3.0 * u + 3.0))
}

pub struct Estimate {
    pub u: f64,
    pub d: f64,
    pub square: f64,
    pub rest: f64,
}

pub fn estimated(t: f64) -> Estimate {
    let w = 1.0 + t;
    let x = w * 0.6666666666666666;
    let u = leading_digits(polynomial(x * inverse_root(x)), 1073741825.0);
    let square = leading_digits(u * u, 134217729.0);
    let rest = u * u - square;
    Estimate {
        u,
        d: correction(u, excess(t, w, u, square, rest)),
        square,
        rest,
    }
}

pub fn cosine_candidate(u: f64, d: f64) -> f64 {
    0.5 + 0.5 * u + 0.5 * d
}

fn near_root(a: f64, e: f64, y: f64) -> f64 {
    let s = leading_digits(y * (a + 0.5 * e), 134217729.0);
    let f = a - s * s + e;
    s + f / (2.0 * s + f * (0.5 * y))
}

fn large_sine(u: f64, d: f64, square: f64, rest: f64) -> f64 {
    let b = 3.0 - 2.0 * u;
    let a = b - square;
    let e = b - a - square - rest - d * (2.0 + 2.0 * u + d);
    0.5 * near_root(a, e, inverse_root(a))
}

fn small_sine(t: f64) -> f64 {
    let w = 1.0 - t;
    let x = 2.0 * w;
    let y = inverse_root(x);
    let s = leading_digits(
        x * y * 0.3333333333333333 * (1.0 + w * (0.046296296296296294 + w * 0.0099)),
        1073741825.0,
    );
    let q = s * s;
    let f = x - 9.0 * q + (24.0 * q * q - w * w - 16.0 * q * q * q);
    s + f / (2.0 * s * (9.0 - 48.0 * q * (1.0 - q)) + f * y * (1.5 - 24.0 * q))
}

pub fn sine_candidate(t: f64, u: f64, d: f64, square: f64, rest: f64) -> f64 {
    if t > 0.9921875 {
        return small_sine(t);
    }
    large_sine(u, d, square, rest)
}
