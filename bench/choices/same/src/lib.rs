//! Step 1 with the processor's square root and the library's cube root and third-angle pair: the baseline of `plan_time`.
#![no_std]

mod functions {
    pub use machine::sqrt;
    pub use routines::{cbrt, third_angle_pair as cosine_and_sine_of_third};
}

include!("../../../../oracle/step1/crate.rs");
