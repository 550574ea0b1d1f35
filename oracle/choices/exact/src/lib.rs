//! Step 1 with document 01's functions: the nearest doubles.
#![no_std]

mod functions {
    pub use machine::sqrt;
    pub use nearest::{cbrt, cosine_and_sine_of_third};
}

include!("../../../step1/crate.rs");
