//! Document 01's table of moves turned back: what is refused before planning, what a no of `get_profile` means, and
//! what selection and `is_blocked` refuse when called alone.

use crate::{Limits, Move, Plan, Profile, Step1};

const LONGEST_DURATION: f64 = 1e12;

/// Selection takes at most this many profiles.
const MOST_PROFILES: usize = 5;

/// The plan, or the refusal's number.
pub fn plan<S: Step1>(asked: &Move) -> Result<Plan, u8> {
    match refused_before_planning(asked) {
        Some(number) => Err(number),
        None => S::get_profile(asked).map_err(number_of_no),
    }
}

/// Numbers 1, 2 and 3.
pub fn refused_before_planning(asked: &Move) -> Option<u8> {
    let Limits {
        v_max,
        v_min,
        a_max,
        a_min,
        j_max,
    } = asked.limits;
    let bad_duration = |duration: f64| !(0.0..=LONGEST_DURATION).contains(&duration);
    if asked.numbers().iter().any(|number| !number.is_finite()) {
        Some(1)
    } else if v_max < 0.0 || a_max < 0.0 || j_max < 0.0 || v_min > 0.0 || a_min > 0.0 {
        Some(2)
    } else if bad_duration(asked.brake) || bad_duration(asked.accel) {
        Some(3)
    } else {
        None
    }
}

/// `get_profile` says no where nothing was accepted, and where four were and no removal rule applies.
fn number_of_no(accepted: usize) -> u8 {
    if accepted == 0 {
        4
    } else {
        5
    }
}

/// Selection called alone: the plan, or 7 for a count that is too large, 4 for none, 5 for four of which none goes.
pub fn select<S: Step1>(profiles: &[Profile; 6], count: usize) -> Result<Plan, u8> {
    if count > MOST_PROFILES {
        Err(7)
    } else {
        S::calculate_block(profiles, count).ok_or(number_of_no(count))
    }
}

/// Whether a plan blocks a time; 6 for one that isn't finite.
pub fn is_blocked<S: Step1>(plan: &Plan, t: f64) -> Result<bool, u8> {
    if t.is_finite() {
        Ok(S::is_blocked(plan, t))
    } else {
        Err(6)
    }
}
