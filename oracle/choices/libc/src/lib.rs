//! Step 1 with the C library's functions: its cbrt, and acos, cos and sin as std has them.
#![no_std]

mod functions {
    pub use machine::{cbrt_of_libc as cbrt, cosine_and_sine_of_third, sqrt};
}

include!("../../../step1/crate.rs");
