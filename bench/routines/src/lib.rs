//! The cube root and the third-angle pair of `crates/`, ported operator by operator: the same float arithmetic, certificates
//! and digits. A module is the crate of its name. A Rust planner with these differs from the library in its planning
//! and in its square root alone. Nothing is proved here: `tests/` compares with the oracle's exact functions.
#![no_std]

mod algebraic;
mod angle;
mod bits;
mod cbrt;
mod doubles;
mod midpoints;
mod third_angle_cosine;
mod third_angle_sine;
mod words;

pub use cbrt::{cbrt, cbrt_by_digits};
pub use third_angle_cosine::third_angle_cosine_by_digits;
pub use third_angle_sine::third_angle_sine_by_digits;

use angle::Argument;

/// Crate `third_angle_pair`: the cosine and the sine of a third of the angle whose cosine is t.
pub fn third_angle_pair(t: f64) -> (f64, f64) {
    match angle::classify(t) {
        Argument::Known(cos, sin) => (cos, sin),
        Argument::Inside(sign, m) => {
            let e = angle::estimated(t);
            let sin = angle::sine_candidate(t, e.u, e.d, e.square, e.rest);
            (
                third_angle_cosine::nearest(sign, m, angle::cosine_candidate(e.u, e.d)),
                third_angle_sine::nearest(sign, m, sin),
            )
        }
    }
}
