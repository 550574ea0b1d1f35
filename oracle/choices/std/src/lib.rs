//! Step 1 with what Rust's std calls: acos, cos and sin of the C library, cbrt of compiler-builtins.
#![no_std]

mod functions {
    pub use machine::{cbrt, cosine_and_sine_of_third, sqrt};
}

include!("../../../step1/crate.rs");
