//! The oracle with a choice of functions made at run time.

use answers::{Check, FamilyCall, List, Move, Plan, Profile, Step1};

pub struct Oracle {
    /// Document 01's answer to a move: the plan, or the refusal's number.
    pub plan: fn(&Move) -> Result<Plan, u8>,
    /// Selection called alone: the plan, or the refusal's number.
    pub select: fn(&[Profile; 6], usize) -> Result<Plan, u8>,
    /// Whether a plan blocks a time, or the refusal's number.
    pub is_blocked: fn(&Plan, f64) -> Result<bool, u8>,
    pub quartic: fn([f64; 4]) -> List<f64, 4>,
    pub resolvent: fn([f64; 3]) -> (usize, [f64; 3]),
    pub check: fn(&Check) -> Option<Profile>,
    pub family: fn(&FamilyCall) -> List<Profile, 6>,
}

impl Oracle {
    pub const CHOICES: &'static str = "exact|std|libc";

    pub fn named(choice: &str) -> Option<Oracle> {
        match choice {
            "exact" => Some(Oracle::of::<step1_exact::Choice>()),
            "std" => Some(Oracle::of::<step1_std::Choice>()),
            "libc" => Some(Oracle::of::<step1_libc::Choice>()),
            _ => None,
        }
    }

    pub fn of<S: Step1>() -> Oracle {
        Oracle {
            plan: answers::plan::<S>,
            select: answers::select::<S>,
            is_blocked: answers::is_blocked::<S>,
            quartic: S::quartic,
            resolvent: S::resolvent,
            check: S::check,
            family: S::family,
        }
    }
}
