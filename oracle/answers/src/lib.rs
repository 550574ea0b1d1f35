//! What is asked of step 1 and what it answers, as plain numbers that every choice of functions shares.
#![no_std]

pub mod arrival;
mod wrapper;

pub use wrapper::{is_blocked, plan, refused_before_planning, select};

use core::slice::from_ref;

/// How many numbers a move has.
pub const MOVE_LENGTH: usize = 13;

/// A move.
#[derive(Clone, Copy, Debug, Default, PartialEq)]
pub struct Move {
    pub p0: f64,
    pub v0: f64,
    pub a0: f64,
    pub pf: f64,
    pub vf: f64,
    pub af: f64,
    pub limits: Limits,
    pub brake: f64,
    pub accel: f64,
}

#[derive(Clone, Copy, Debug, Default, PartialEq)]
pub struct Limits {
    pub v_max: f64,
    pub v_min: f64,
    pub a_max: f64,
    pub a_min: f64,
    pub j_max: f64,
}

impl Move {
    /// Its numbers, in the order of document 01's record.
    fn places(&mut self) -> [&mut f64; MOVE_LENGTH] {
        [
            &mut self.p0,
            &mut self.v0,
            &mut self.a0,
            &mut self.pf,
            &mut self.vf,
            &mut self.af,
            &mut self.limits.v_max,
            &mut self.limits.v_min,
            &mut self.limits.a_max,
            &mut self.limits.a_min,
            &mut self.limits.j_max,
            &mut self.brake,
            &mut self.accel,
        ]
    }

    pub fn from_numbers(numbers: [f64; MOVE_LENGTH]) -> Self {
        let mut filled = Move::default();
        for (place, number) in filled.places().into_iter().zip(numbers) {
            *place = number;
        }
        filled
    }

    pub fn numbers(&self) -> [f64; MOVE_LENGTH] {
        let mut copy = *self;
        copy.places().map(|place| *place)
    }
}

impl Limits {
    /// The limits for the opposite direction.
    pub fn swapped(&self) -> Self {
        Limits {
            v_max: self.v_min,
            v_min: self.v_max,
            a_max: self.a_min,
            a_min: self.a_max,
            j_max: -self.j_max,
        }
    }
}

/// The names of the source's enums, in the order of their cases.
pub const DIRECTIONS: [&str; 2] = ["UP", "DOWN"];
pub const LIMITS: [&str; 8] = [
    "Acc0Acc1Vel",
    "Vel",
    "Acc0",
    "Acc1",
    "Acc0Acc1",
    "Acc0Vel",
    "Acc1Vel",
    "None",
];
pub const CONTROL_SIGNS: [&str; 2] = ["UDDU", "UDUD"];

/// The phases of a profile, and the rows before and after them.
pub const PHASES: usize = 7;
pub const ROWS: usize = PHASES + 1;

/// A profile's numbers; its three enums stand as places in the lists of names above.
#[derive(Clone, Copy, Debug, PartialEq)]
pub struct Profile {
    pub direction: usize,
    pub limits: usize,
    pub control_signs: usize,
    pub t: [f64; PHASES],
    pub t_sum: [f64; PHASES],
    pub j: [f64; PHASES],
    pub a: [f64; ROWS],
    pub v: [f64; ROWS],
    pub p: [f64; ROWS],
    pub pf: f64,
    pub vf: f64,
    pub af: f64,
    pub brake: f64,
    pub accel: f64,
}

impl Profile {
    /// All doubles 0, UP, UDDU, limits None.
    pub const EMPTY: Profile = Profile {
        direction: 0,
        limits: 7,
        control_signs: 0,
        t: [0.0; PHASES],
        t_sum: [0.0; PHASES],
        j: [0.0; PHASES],
        a: [0.0; ROWS],
        v: [0.0; ROWS],
        p: [0.0; ROWS],
        pf: 0.0,
        vf: 0.0,
        af: 0.0,
        brake: 0.0,
        accel: 0.0,
    };

    /// What comes first in a line or a buffer: its enums by name, the list of their cases, and the place there.
    pub const fn names(&self) -> [(&'static str, &'static [&'static str], usize); 3] {
        [
            ("direction", &DIRECTIONS, self.direction),
            ("limits", &LIMITS, self.limits),
            ("control signs", &CONTROL_SIGNS, self.control_signs),
        ]
    }

    /// What follows: its doubles by name.
    pub const fn parts(&self) -> [(&'static str, &[f64]); 11] {
        [
            ("t", &self.t),
            ("t_sum", &self.t_sum),
            ("j", &self.j),
            ("a", &self.a),
            ("v", &self.v),
            ("p", &self.p),
            ("pf", from_ref(&self.pf)),
            ("vf", from_ref(&self.vf)),
            ("af", from_ref(&self.af)),
            ("brake", from_ref(&self.brake)),
            ("accel", from_ref(&self.accel)),
        ]
    }

    /// How many names and how many doubles it has.
    pub const NAMES: usize = Profile::EMPTY.names().len();
    pub const DOUBLES: usize = {
        let parts = Profile::EMPTY.parts();
        let (mut count, mut part) = (0, 0);
        while part < parts.len() {
            count += parts[part].1.len();
            part += 1;
        }
        count
    };
}

/// Times at which a move can't end.
#[derive(Clone, Copy, Debug, PartialEq)]
pub enum Stretch {
    Nothing,
    Between(f64, f64),
    From(f64),
}

impl Stretch {
    /// Left and right end, where there is a stretch; "from a time on" ends at infinity.
    pub fn ends(&self) -> Option<[f64; 2]> {
        match *self {
            Stretch::Nothing => None,
            Stretch::Between(left, right) => Some([left, right]),
            Stretch::From(left) => Some([left, f64::INFINITY]),
        }
    }
}

#[derive(Clone, Copy, Debug, PartialEq)]
pub struct Plan {
    pub shortest: f64,
    pub profile: Profile,
    /// Each stretch with the profile beside it.
    pub stretches: [(Stretch, Profile); 2],
    /// How many profiles were accepted, before any is removed; 0 for zero limits, which have no list.
    pub accepted: usize,
}

impl Plan {
    /// What a refusal leaves: the empty profile, no stretch.
    pub const EMPTY: Plan = Plan {
        shortest: 0.0,
        profile: Profile::EMPTY,
        stretches: [(Stretch::Nothing, Profile::EMPTY); 2],
        accepted: 0,
    };
}

/// A call of `check`: limits and control signs stand as places in their lists of names.
#[derive(Clone, Copy, Debug, PartialEq)]
pub struct Check {
    /// p0 v0 a0 pf vf af.
    pub boundary: [f64; 6],
    pub t: [f64; PHASES],
    pub jf: f64,
    /// v_max v_min a_max a_min.
    pub bounds: [f64; 4],
    pub limits: usize,
    pub control_signs: usize,
    pub set_limits: bool,
}

/// The families, in the source's order.
pub const FAMILIES: [&str; 8] = [
    "time_all_vel",
    "time_acc0_acc1",
    "time_all_none_acc0_acc1",
    "time_acc1_vel_two_step",
    "time_acc0_two_step",
    "time_vel_two_step",
    "time_none_two_step",
    "time_all_single_step",
];

/// A call of one family on a list that counts some profiles already.
#[derive(Clone, Copy, Debug, PartialEq)]
pub struct FamilyCall {
    pub asked: Move,
    /// A place in `FAMILIES`.
    pub family: usize,
    /// Whether the limits go in swapped, with -j_max.
    pub opposite: bool,
    pub return_after_found: bool,
    pub counted: usize,
}

impl FamilyCall {
    /// The call as plans make it: a search that ends with the first profile found calls a family only where none counts.
    /// Such are those with `return_after_found`, and the two-step families; `time_all_vel` also stands in the other.
    pub fn as_planned(self) -> FamilyCall {
        let guarded = match self.family {
            0 | 7 => false,
            1 | 2 => self.return_after_found,
            _ => true,
        };
        FamilyCall {
            counted: if guarded { 0 } else { self.counted },
            ..self
        }
    }
}

/// A call of the selection, and of `is_blocked` for what it selects and for a plan given.
#[derive(Clone, Copy, Debug, PartialEq)]
pub struct BlockCall {
    pub count: u8,
    pub profiles: [Profile; 6],
    pub given: Plan,
    pub times: [f64; 4],
}

/// A move and a plan in buffers of doubles: how many of the move's doubles are handed over, how many the plan's
/// buffer has, and a time put to what stands in it afterwards.
#[derive(Clone, Copy, Debug, PartialEq)]
pub struct BufferCall {
    pub move_length: u8,
    pub plan_length: u8,
    pub numbers: [f64; 16],
    pub t: f64,
}

/// The most doubles of each slice of an arrival's call.
pub const DURATIONS_MOST: usize = 10;
pub const ENDS_MOST: usize = 40;

/// A call of `arrival`: the shortest durations of axes, and the ends of their stretches.
#[derive(Clone, Copy, Debug, PartialEq)]
pub struct ArrivalCall {
    pub durations: List<f64, DURATIONS_MOST>,
    pub ends: List<f64, ENDS_MOST>,
}

/// Up to N things in order.
#[derive(Clone, Copy, Debug, PartialEq)]
pub struct List<T, const N: usize> {
    items: [T; N],
    count: usize,
}

impl<T: Copy, const N: usize> List<T, N> {
    pub fn new(filler: T) -> Self {
        List {
            items: [filler; N],
            count: 0,
        }
    }

    pub fn of(filler: T, items: impl IntoIterator<Item = T>) -> Self {
        let mut list = List::new(filler);
        items.into_iter().for_each(|item| list.push(item));
        list
    }

    pub fn push(&mut self, item: T) {
        self.items[self.count] = item;
        self.count += 1;
    }

    pub fn as_slice(&self) -> &[T] {
        &self.items[..self.count]
    }
}

/// Step 1 with one choice of functions.
pub trait Step1 {
    /// `get_profile` on a fresh planner and block; if it says no, how many profiles were accepted.
    fn get_profile(asked: &Move) -> Result<Plan, usize>;

    /// `calculate_block` on a fresh block and six profiles, of which so many count; nothing if it says no.
    fn calculate_block(profiles: &[Profile; 6], count: usize) -> Option<Plan>;

    /// `is_blocked` of a plan's block.
    fn is_blocked(plan: &Plan, t: f64) -> bool;

    /// `solve_quart_monic_coeffs`, in the order in which the families read the list.
    fn quartic(coefficients: [f64; 4]) -> List<f64, 4>;

    /// `solve_resolvent`: how many zeros it says there are, and its three numbers.
    fn resolvent(coefficients: [f64; 3]) -> (usize, [f64; 3]);

    /// `check` on a fresh profile with this boundary and these times: the filled profile on a yes.
    fn check(call: &Check) -> Option<Profile>;

    /// The profiles that one family adds to the list, on a fresh planner.
    fn family(call: &FamilyCall) -> List<Profile, 6>;
}
