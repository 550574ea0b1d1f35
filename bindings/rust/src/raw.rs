//! The archive's functions on buffers of doubles, as C sees them, safe to call.
//!
//! A move is 13 doubles: p0 v0 a0 pf vf af v_max v_min a_max a_min j_max brake accel.
//!
//! A plan is 166:
//!
//! | at | what |
//! |---|---|
//! | 0 | duration |
//! | 1 | its profile |
//! | 54 | stretch a: kind (0 nothing, 1 between, 2 from), left end, right end, and at 57 the profile beside it |
//! | 110 | stretch b: the same, and at 113 the profile |
//!
//! The ends of nothing are 0, the right end of a stretch from a time on is infinity, and beside both lies the empty
//! profile.
//!
//! A profile is 53: 0 direction (0 up, 1 down), 1 limits (0 to 7 in the order of [`Limits`](crate::Limits)), 2 control
//! signs (0 UDDU, 1 UDUD), 3 t\[7\], 10 t_sum\[7\], 17 j\[7\], 24 a\[8\], 32 v\[8\], 40 p\[8\], 48 pf, 49 vf, 50 af,
//! 51 brake, 52 accel. The empty profile is all 0, with limits 7. Direction and limits name the try that was accepted,
//! not what the motion does.
//!
//! Of several axes [`arrival`] takes two slices: the plans' durations, and for each plan four ends, the left and the
//! right one of stretch a and those of stretch b.

use crate::archive;

/// The doubles of a move.
pub const MOVE_LENGTH: usize = 13;
/// The phases of a profile.
pub const PHASES: usize = 7;
/// The rows before and after them.
pub const ROWS: usize = PHASES + 1;

/// Places that follow one another, each with the number of doubles there; the last name is the length of them all.
macro_rules! places {
    ($at:expr; $(#[$doc:meta])* $length:ident) => {
        $(#[$doc])*
        pub const $length: usize = $at;
    };
    ($at:expr; $(#[$doc:meta])* $place:ident: $count:expr, $($rest:tt)*) => {
        $(#[$doc])*
        pub const $place: usize = $at;
        places! { $place + $count; $($rest)* }
    };
}

places! { 0;
    /// In a profile: its direction.
    PROFILE_DIRECTION: 1,
    /// In a profile: its limits.
    PROFILE_LIMITS: 1,
    /// In a profile: its control signs.
    PROFILE_CONTROL_SIGNS: 1,
    /// In a profile: the durations of the phases.
    PROFILE_T: PHASES,
    /// In a profile: their sums.
    PROFILE_T_SUM: PHASES,
    /// In a profile: the phases' jerks.
    PROFILE_J: PHASES,
    /// In a profile: the rows' accelerations.
    PROFILE_A: ROWS,
    /// In a profile: the rows' velocities.
    PROFILE_V: ROWS,
    /// In a profile: the rows' positions.
    PROFILE_P: ROWS,
    /// In a profile: the target's position.
    PROFILE_PF: 1,
    /// In a profile: the target's velocity.
    PROFILE_VF: 1,
    /// In a profile: the target's acceleration.
    PROFILE_AF: 1,
    /// In a profile: the brake duration that is added.
    PROFILE_BRAKE: 1,
    /// In a profile: the accel duration that is added.
    PROFILE_ACCEL: 1,
    /// The doubles of a profile.
    PROFILE_LENGTH
}

places! { 0;
    /// In an interval: the kind of its stretch.
    INTERVAL_KIND: 1,
    /// In an interval: the left end.
    INTERVAL_LEFT: 1,
    /// In an interval: the right end.
    INTERVAL_RIGHT: 1,
    /// In an interval: the profile.
    INTERVAL_PROFILE: PROFILE_LENGTH,
    /// The doubles of an interval.
    INTERVAL_LENGTH
}

places! { 0;
    /// In a plan: its duration.
    PLAN_DURATION: 1,
    /// In a plan: its profile.
    PLAN_PROFILE: PROFILE_LENGTH,
    /// In a plan: the first interval.
    PLAN_STRETCH_A: INTERVAL_LENGTH,
    /// In a plan: the second interval.
    PLAN_STRETCH_B: INTERVAL_LENGTH,
    /// The doubles of a plan.
    PLAN_LENGTH
}

places! { 0;
    /// In an axis's ends: the left one of the first stretch.
    ENDS_A_LEFT: 1,
    /// In an axis's ends: its right one.
    ENDS_A_RIGHT: 1,
    /// In an axis's ends: the left one of the second stretch.
    ENDS_B_LEFT: 1,
    /// In an axis's ends: its right one.
    ENDS_B_RIGHT: 1,
    /// The ends of an axis.
    ENDS_LENGTH
}

/// The most axes that [`arrival`] takes.
pub const AXES_MOST: usize = 8;

/// What [`plan`] and [`is_blocked`] return where a length is wrong.
pub const WRONG_LENGTH: u64 = 255;

/// Plans a move. 0: planned, and the first 166 doubles of `plan` hold the plan. 1 to 5: refused. 255: `mv` is not 13
/// doubles, or `plan` fewer than 166. Nothing is written unless 0 is returned, and nothing beyond the plan.
pub fn plan(mv: &[f64], plan: &mut [f64]) -> u64 {
    // SAFETY: proved to be defined for slices of any length and any doubles. The two cannot overlap, as one is borrowed
    // mutably.
    unsafe { archive::girnhusk_plan(mv.as_ptr(), mv.len(), plan.as_mut_ptr(), plan.len()) }
}

/// Whether a duration is blocked by a plan that [`plan`] wrote. 0: free. 1: blocked. 6: t is not finite. 255: `plan`
/// has fewer than 166 doubles.
pub fn is_blocked(plan: &[f64], t: f64) -> u64 {
    // SAFETY: proved to be defined for a slice of any length and any doubles.
    unsafe { archive::girnhusk_is_blocked(plan.as_ptr(), plan.len(), t) }
}

/// The earliest time that is free for all axes, and the lowest axis that has it as its duration or as the right end of
/// a stretch. 0: `time` and `axis` hold them. 9: these aren't the numbers of 1 to 8 plans. 10: no finite time is free for
/// all. On 9 and 10 `time` and `axis` are set to 0.
pub fn arrival(durations: &[f64], ends: &[f64], time: &mut f64, axis: &mut u64) -> u64 {
    // SAFETY: proved to be defined for slices of any length and any doubles. It writes the two numbers lent and nothing
    // else.
    unsafe {
        archive::girnhusk_arrival(
            durations.as_ptr(),
            durations.len(),
            ends.as_ptr(),
            ends.len(),
            time,
            axis,
        )
    }
}
