//! The patched Rust's answers as plain numbers.

use crate::block::{Block, Interval};
use crate::position_third_step1::PositionThirdOrderStep1;
use crate::profile::{ControlSigns, Direction, Profile, ReachedLimits};
use crate::roots;
use answers::{Check, FamilyCall, Limits, List, Move, Plan, Step1, Stretch};

/// Step 1 with this crate's functions.
pub struct Choice;

impl Step1 for Choice {
    fn get_profile(asked: &Move) -> Result<Plan, usize> {
        let mut planner = planner_for(asked);
        let mut block = Block::default();
        if planner.get_profile(&input_profile(asked), &mut block) {
            Ok(plan_of(&block, planned_stretch))
        } else {
            Err(block.accepted)
        }
    }

    fn calculate_block(profiles: &[answers::Profile; 6], count: usize) -> Option<Plan> {
        let mut block = Block::default();
        let mut list = profiles.each_ref().map(profile_of);
        let mut counted = count;
        Block::calculate_block(&mut block, &mut list, &mut counted, None)
            .then(|| plan_of(&block, stretch_between))
    }

    fn is_blocked(plan: &Plan, t: f64) -> bool {
        let [a, b] = plan.stretches.map(|(stretch, _)| interval_of(&stretch));
        let block = Block {
            t_min: plan.shortest,
            a,
            b,
            ..Default::default()
        };
        block.is_blocked(t)
    }

    fn quartic(coefficients: [f64; 4]) -> List<f64, 4> {
        let mut list = List::new(0.0);
        for root in roots::solve_quart_monic_arr(&coefficients) {
            list.push(root);
        }
        list
    }

    fn resolvent([a, b, c]: [f64; 3]) -> (usize, [f64; 3]) {
        let mut numbers = [0.0; 3];
        let count = roots::solve_resolvent(&mut numbers, a, b, c);
        (count, numbers)
    }

    fn check(call: &Check) -> Option<answers::Profile> {
        let [p0, v0, a0, pf, vf, af] = call.boundary;
        let [v_max, v_min, a_max, a_min] = call.bounds;
        let mut profile = Profile::default();
        profile.set_boundary(p0, v0, a0, pf, vf, af);
        profile.t = call.t;
        let (signs, limits) = (CONTROL_SIGNS[call.control_signs], LIMITS[call.limits]);
        profile
            .check(
                signs,
                limits,
                call.set_limits,
                call.jf,
                v_max,
                v_min,
                a_max,
                a_min,
            )
            .then(|| numbers_of(&profile))
    }

    fn family(call: &FamilyCall) -> List<answers::Profile, 6> {
        let mut list = List::new(answers::Profile::EMPTY);
        let mut planner = planner_for(&call.asked);
        let mut profile = input_profile(&call.asked);
        planner.current_index = call.counted;
        planner.valid_profiles[call.counted].set_boundary_from_profile(&profile);
        if run_family(&mut planner, &mut profile, call) {
            list.push(numbers_of(&profile));
        }
        for added in &planner.valid_profiles[call.counted..planner.current_index] {
            list.push(numbers_of(added));
        }
        list
    }
}

/// The cases of the source's enums, in the order of their names in `answers`.
const LIMITS: [ReachedLimits; 8] = [
    ReachedLimits::Acc0Acc1Vel,
    ReachedLimits::Vel,
    ReachedLimits::Acc0,
    ReachedLimits::Acc1,
    ReachedLimits::Acc0Acc1,
    ReachedLimits::Acc0Vel,
    ReachedLimits::Acc1Vel,
    ReachedLimits::None,
];
const CONTROL_SIGNS: [ControlSigns; 2] = [ControlSigns::UDDU, ControlSigns::UDUD];
const DIRECTIONS: [Direction; 2] = [Direction::UP, Direction::DOWN];

/// A fresh planner for a move.
pub fn planner_for(asked: &Move) -> PositionThirdOrderStep1 {
    let Move {
        p0,
        v0,
        a0,
        pf,
        vf,
        af,
        limits,
        ..
    } = *asked;
    let Limits {
        v_max,
        v_min,
        a_max,
        a_min,
        j_max,
    } = limits;
    PositionThirdOrderStep1::new(p0, v0, a0, pf, vf, af, v_max, v_min, a_max, a_min, j_max)
}

/// The input profile of the same start and target.
pub fn input_profile(asked: &Move) -> Profile {
    let mut profile = Profile::default();
    profile.set_boundary(asked.p0, asked.v0, asked.a0, asked.pf, asked.vf, asked.af);
    profile.brake.duration = asked.brake;
    profile.accel.duration = asked.accel;
    profile
}

/// Runs the family; `time_all_single_step` alone fills the profile handed in and says whether it did.
fn run_family(
    planner: &mut PositionThirdOrderStep1,
    profile: &mut Profile,
    call: &FamilyCall,
) -> bool {
    let limits = if call.opposite {
        call.asked.limits.swapped()
    } else {
        call.asked.limits
    };
    let Limits {
        v_max: v,
        v_min: w,
        a_max: a,
        a_min: b,
        j_max: j,
    } = limits;
    let stop = call.return_after_found;
    match call.family {
        0 => planner.time_all_vel(v, w, a, b, j, stop),
        1 => planner.time_acc0_acc1(v, w, a, b, j, stop),
        2 => planner.time_all_none_acc0_acc1(v, w, a, b, j, stop),
        3 => planner.time_acc1_vel_two_step(v, w, a, b, j),
        4 => planner.time_acc0_two_step(v, w, a, b, j),
        5 => planner.time_vel_two_step(v, w, a, b, j),
        6 => planner.time_none_two_step(v, w, a, b, j),
        _ => return planner.time_all_single_step(profile, v, w, a, b, j),
    }
    false
}

fn plan_of(block: &Block, stretch: fn(&Interval) -> Stretch) -> Plan {
    let beside = |interval: &Option<Interval>| match interval {
        None => (Stretch::Nothing, answers::Profile::EMPTY),
        Some(interval) => (stretch(interval), numbers_of(&interval.profile)),
    };
    Plan {
        shortest: block.t_min,
        profile: numbers_of(&block.p_min),
        stretches: [beside(&block.a), beside(&block.b)],
        accepted: block.accepted,
    }
}

/// A plan's durations are at most 3e12, so a right end at infinity is `Interval::new`'s "from a time on".
fn planned_stretch(interval: &Interval) -> Stretch {
    if interval.right == f64::INFINITY {
        Stretch::From(interval.left)
    } else {
        stretch_between(interval)
    }
}

/// Selection alone makes no other stretch, also where a total is infinite.
fn stretch_between(interval: &Interval) -> Stretch {
    Stretch::Between(interval.left, interval.right)
}

/// A stretch as a block holds it, without the profile beside it.
fn interval_of(stretch: &Stretch) -> Option<Interval> {
    stretch
        .ends()
        .map(|[left, right]| Interval::new(left, right))
}

fn numbers_of(profile: &Profile) -> answers::Profile {
    answers::Profile {
        direction: profile.direction as usize,
        limits: profile.limits as usize,
        control_signs: profile.control_signs as usize,
        t: profile.t,
        t_sum: profile.t_sum,
        j: profile.j,
        a: profile.a,
        v: profile.v,
        p: profile.p,
        pf: profile.pf,
        vf: profile.vf,
        af: profile.af,
        brake: profile.brake.duration,
        accel: profile.accel.duration,
    }
}

fn profile_of(numbers: &answers::Profile) -> Profile {
    let mut profile = Profile {
        t: numbers.t,
        t_sum: numbers.t_sum,
        j: numbers.j,
        a: numbers.a,
        v: numbers.v,
        p: numbers.p,
        pf: numbers.pf,
        vf: numbers.vf,
        af: numbers.af,
        limits: LIMITS[numbers.limits],
        direction: DIRECTIONS[numbers.direction],
        control_signs: CONTROL_SIGNS[numbers.control_signs],
        ..Default::default()
    };
    profile.brake.duration = numbers.brake;
    profile.accel.duration = numbers.accel;
    profile
}
