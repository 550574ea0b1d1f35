//! The four elementary functions as the planner uses them: each gives the double nearest the exact number.
//!
//! ```
//! use girnhusk::elementary::{cbrt, sqrt, third_angle_pair};
//!
//! assert_eq!((sqrt(9.0), cbrt(-27.0)), (3.0, -3.0));
//! assert_eq!(third_angle_pair(1.0), (1.0, 0.0));
//! ```

use crate::archive;

/// IEEE 754's square root: NaN below 0.
pub fn sqrt(x: f64) -> f64 {
    // SAFETY: proved to be defined for every double.
    unsafe { archive::girnhusk_sqrt(x) }
}

/// The cube root. -0, infinities and NaN give themselves.
pub fn cbrt(x: f64) -> f64 {
    // SAFETY: as for `sqrt`.
    unsafe { archive::girnhusk_cbrt(x) }
}

/// The c from 1/2 to 1 with 4c³ - 3c = t, the cosine of a third of the angle whose cosine is t. NaN for t outside -1 to
/// 1.
pub fn third_angle_cosine(t: f64) -> f64 {
    // SAFETY: as for `sqrt`.
    unsafe { archive::girnhusk_third_angle_cosine(t) }
}

/// √(1 - c²), with the exact c of [`third_angle_cosine`]. NaN for t outside -1 to 1.
pub fn third_angle_sine(t: f64) -> f64 {
    // SAFETY: as for `sqrt`.
    unsafe { archive::girnhusk_third_angle_sine(t) }
}

/// [`third_angle_cosine`] and [`third_angle_sine`], in less time than one after the other.
pub fn third_angle_pair(t: f64) -> (f64, f64) {
    let (mut cosine, mut sine) = (0.0, 0.0);
    // SAFETY: as for `sqrt`. It writes the two numbers lent and nothing else.
    unsafe { archive::girnhusk_third_angle_pair(t, &mut cosine, &mut sine) };
    (cosine, sine)
}
