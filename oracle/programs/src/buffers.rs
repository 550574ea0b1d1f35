//! A move and its plan in buffers of doubles, laid out as bindings/c/girnhusk.h says.

use crate::oracle::Oracle;
use answers::{BufferCall, Move, Plan, Profile, Stretch, MOVE_LENGTH};

/// A profile: its names as numbers, then its doubles.
pub const PROFILE_LENGTH: usize = Profile::NAMES + Profile::DOUBLES;

/// An interval: the kind of its stretch, both ends, and a profile.
pub const INTERVAL_KIND: usize = 0;
pub const INTERVAL_LEFT: usize = 1;
pub const INTERVAL_RIGHT: usize = 2;
pub const INTERVAL_PROFILE: usize = 3;
pub const INTERVAL_LENGTH: usize = INTERVAL_PROFILE + PROFILE_LENGTH;

/// A plan: the shortest duration, its profile, and two intervals.
pub const PLAN_DURATION: usize = 0;
pub const PLAN_PROFILE: usize = 1;
pub const PLAN_STRETCH_A: usize = PLAN_PROFILE + PROFILE_LENGTH;
pub const PLAN_STRETCH_B: usize = PLAN_STRETCH_A + INTERVAL_LENGTH;
pub const PLAN_LENGTH: usize = PLAN_STRETCH_B + INTERVAL_LENGTH;
const STRETCHES: [usize; 2] = [PLAN_STRETCH_A, PLAN_STRETCH_B];

/// GIRNHUSK_WRONG_LENGTH and GIRNHUSK_PLAN_SHORT.
pub const WRONG_LENGTH: u64 = 255;

/// What every double of the plan's buffer is at first.
pub const UNWRITTEN: f64 = -1.0;

/// The buffer for the plan, as it is at first, and the status of planning into it.
pub fn plan(oracle: &Oracle, call: &BufferCall) -> (u64, Vec<f64>) {
    let mut buffer = vec![UNWRITTEN; call.plan_length.min(200) as usize];
    let given = call.move_length.min(16) as usize;
    if given != MOVE_LENGTH || buffer.len() < PLAN_LENGTH {
        return (WRONG_LENGTH, buffer);
    }
    let numbers = std::array::from_fn(|i| call.numbers[i]);
    match (oracle.plan)(&Move::from_numbers(numbers)) {
        Ok(plan) => {
            lay_out_plan(&plan, &mut buffer);
            (0, buffer)
        }
        Err(refusal) => (u64::from(refusal), buffer),
    }
}

/// The status of asking the plan in a buffer whether it blocks a time.
pub fn is_blocked(oracle: &Oracle, buffer: &[f64], t: f64) -> u64 {
    if buffer.len() < PLAN_LENGTH {
        return WRONG_LENGTH;
    }
    let plan = Plan {
        shortest: buffer[PLAN_DURATION],
        stretches: STRETCHES.map(|start| (stretch_in(&buffer[start..]), Profile::EMPTY)),
        ..Plan::EMPTY
    };
    match (oracle.is_blocked)(&plan, t) {
        Ok(blocked) => u64::from(blocked),
        Err(refusal) => u64::from(refusal),
    }
}

/// Writes a plan to the start of a buffer.
pub fn lay_out_plan(plan: &Plan, to: &mut [f64]) {
    to[PLAN_DURATION] = plan.shortest;
    lay_out_profile(&plan.profile, &mut to[PLAN_PROFILE..]);
    for ((stretch, profile), start) in plan.stretches.iter().zip(STRETCHES) {
        let [left, right] = stretch.ends().unwrap_or([0.0, 0.0]);
        to[start + INTERVAL_KIND] = match stretch {
            Stretch::Nothing => 0.0,
            Stretch::Between(..) => 1.0,
            Stretch::From(_) => 2.0,
        };
        to[start + INTERVAL_LEFT] = left;
        to[start + INTERVAL_RIGHT] = right;
        lay_out_profile(profile, &mut to[start + INTERVAL_PROFILE..]);
    }
}

fn lay_out_profile(profile: &Profile, to: &mut [f64]) {
    let names = profile.names().map(|(_, _, place)| place as f64);
    let doubles = profile.parts().into_iter().flat_map(|(_, part)| part);
    for (to, number) in to.iter_mut().zip(names.iter().chain(doubles)) {
        *to = *number;
    }
}

fn stretch_in(numbers: &[f64]) -> Stretch {
    if numbers[INTERVAL_KIND] == 1.0 {
        Stretch::Between(numbers[INTERVAL_LEFT], numbers[INTERVAL_RIGHT])
    } else if numbers[INTERVAL_KIND] == 2.0 {
        Stretch::From(numbers[INTERVAL_LEFT])
    } else {
        Stretch::Nothing
    }
}
