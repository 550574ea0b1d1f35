//! Step 1 with the functions of the choice `same`, which tells each argument before it answers: `plan_time` replays them.
#![no_std]

mod functions {
    /// Supplied by the program that links this choice.
    mod told {
        unsafe extern "Rust" {
            pub safe fn plan_time_sqrt(x: f64);
            pub safe fn plan_time_cbrt(x: f64);
            pub safe fn plan_time_third_angle_pair(t: f64);
        }
    }

    pub fn sqrt(x: f64) -> f64 {
        told::plan_time_sqrt(x);
        machine::sqrt(x)
    }

    pub fn cbrt(x: f64) -> f64 {
        told::plan_time_cbrt(x);
        routines::cbrt(x)
    }

    pub fn cosine_and_sine_of_third(t: f64) -> (f64, f64) {
        told::plan_time_third_angle_pair(t);
        routines::third_angle_pair(t)
    }
}

include!("../../../../oracle/step1/crate.rs");
