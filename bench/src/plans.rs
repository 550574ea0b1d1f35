//! The archive's planning functions, safe to call, and the names of a plan's numbers.

use answers::{Plan, Profile};
use programs::buffers::{lay_out_plan, PLAN_PROFILE, PLAN_STRETCH_A, PLAN_STRETCH_B};
use programs::buffers::{INTERVAL_KIND, INTERVAL_LEFT, INTERVAL_PROFILE, INTERVAL_RIGHT};
pub use programs::buffers::{PLAN_DURATION, PLAN_LENGTH};

mod archive {
    extern "C" {
        pub fn girnhusk_plan(mv: *const f64, mv_len: usize, plan: *mut f64, plan_len: usize) -> u64;
        pub fn girnhusk_is_blocked(plan: *const f64, plan_len: usize, t: f64) -> u64;
    }
}

/// The archive's plan of a move: 0 and a plan, or the refusal's number.
#[inline]
pub fn plan(asked: &[f64], plan: &mut [f64]) -> u64 {
    // SAFETY: pointers and lengths are those of slices; the function is proved to write within the second only.
    unsafe { archive::girnhusk_plan(asked.as_ptr(), asked.len(), plan.as_mut_ptr(), plan.len()) }
}

/// The archive's answer whether a plan blocks a duration: 0 or 1, or the refusal's number.
#[inline]
pub fn is_blocked(plan: &[f64], t: f64) -> u64 {
    // SAFETY: pointer and length are those of a slice, which is only read.
    unsafe { archive::girnhusk_is_blocked(plan.as_ptr(), plan.len(), t) }
}

/// The oracle's plan as the archive writes it.
pub fn laid_out(plan: &Plan) -> [f64; PLAN_LENGTH] {
    let mut numbers = [0.0; PLAN_LENGTH];
    lay_out_plan(plan, &mut numbers);
    numbers
}

/// The name of a plan's number.
pub fn name_of(place: usize) -> String {
    match place {
        PLAN_DURATION => "shortest duration".into(),
        PLAN_PROFILE..PLAN_STRETCH_A => name_in_profile(place - PLAN_PROFILE),
        PLAN_STRETCH_A..PLAN_STRETCH_B => format!("stretch a: {}", name_in_interval(place - PLAN_STRETCH_A)),
        _ => format!("stretch b: {}", name_in_interval(place - PLAN_STRETCH_B)),
    }
}

fn name_in_interval(place: usize) -> String {
    match place {
        INTERVAL_KIND => "kind".into(),
        INTERVAL_LEFT => "left end".into(),
        INTERVAL_RIGHT => "right end".into(),
        _ => name_in_profile(place - INTERVAL_PROFILE),
    }
}

fn name_in_profile(mut place: usize) -> String {
    for (name, ..) in Profile::EMPTY.names() {
        if place == 0 {
            return name.into();
        }
        place -= 1;
    }
    for (name, part) in Profile::EMPTY.parts() {
        if place < part.len() {
            return if part.len() == 1 { name.into() } else { format!("{name}[{place}]") };
        }
        place -= part.len();
    }
    unreachable!("{place} numbers behind a profile")
}
