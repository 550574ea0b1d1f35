//! Step 1 with wrong functions: a test sees by their values that they, and not std's, are called.
#![no_std]

pub mod functions {
    pub fn sqrt(_: f64) -> f64 {
        3.0
    }

    pub fn cbrt(_: f64) -> f64 {
        -5.0
    }

    pub fn cosine_and_sine_of_third(_: f64) -> (f64, f64) {
        (0.75, 0.0)
    }
}

include!("../../../step1/crate.rs");
