#![doc = include_str!("../README.md")]
#![warn(missing_docs)]

mod archive;
mod axes;
pub mod elementary;
pub mod raw;

use std::error::Error;
use std::fmt;

pub use axes::{arrival, arrival_of, Arrival, ArrivalRefusal};
use raw::{ENDS_LENGTH, MOVE_LENGTH, PHASES, PLAN_LENGTH, ROWS};

/// Where a move starts and ends, its limits, and two durations that are only added to the plan's.
///
/// The planner knows no units: use one of length and one of time throughout. The tolerances are absolute, 1e-12 at the
/// limits of velocity and acceleration and 1e-8, 1e-8 and 1e-10 at the target, so use metres, or millimetres with
/// accelerations up to some 8,000 mm/s². A start outside the limits is planned all the same.
#[derive(Clone, Copy, Debug, Default, PartialEq)]
pub struct Move {
    /// Position at the start.
    pub p0: f64,
    /// Velocity at the start.
    pub v0: f64,
    /// Acceleration at the start.
    pub a0: f64,
    /// Position at the target.
    pub pf: f64,
    /// Velocity at the target.
    pub vf: f64,
    /// Acceleration at the target.
    pub af: f64,
    /// Highest velocity, at least 0.
    pub v_max: f64,
    /// Lowest velocity, at most 0.
    pub v_min: f64,
    /// Highest acceleration, at least 0.
    pub a_max: f64,
    /// Lowest acceleration, at most 0.
    pub a_min: f64,
    /// Highest jerk in either direction, at least 0.
    pub j_max: f64,
    /// A duration that is only added to the plan's, from 0 to 1e12.
    pub brake: f64,
    /// Another, from 0 to 1e12.
    pub accel: f64,
}

impl Move {
    /// The 13 doubles that the archive takes.
    pub fn numbers(&self) -> [f64; MOVE_LENGTH] {
        [
            self.p0, self.v0, self.a0, self.pf, self.vf, self.af, self.v_max, self.v_min,
            self.a_max, self.a_min, self.j_max, self.brake, self.accel,
        ]
    }
}

/// Why a move has no plan.
#[derive(Clone, Copy, Debug, Eq, Hash, PartialEq)]
pub enum Refusal {
    /// One of the 13 numbers is NaN or infinite.
    NotFinite = 1,
    /// `v_max`, `a_max` or `j_max` is below 0, or `v_min` or `a_min` above 0.
    WrongSign = 2,
    /// `brake` or `accel` is below 0 or above 1e12.
    WrongDuration = 3,
    /// No profile was accepted.
    NoProfile = 4,
    /// Four profiles were accepted, and no rule says which of them goes.
    NoRemoval = 5,
}

impl Refusal {
    /// Its number in the table of docs/01-scope.md.
    pub fn number(self) -> u64 {
        self as u64
    }
}

impl fmt::Display for Refusal {
    fn fmt(&self, f: &mut fmt::Formatter<'_>) -> fmt::Result {
        f.write_str(match self {
            Refusal::NotFinite => "one of the move's numbers is NaN or infinite",
            Refusal::WrongSign => "v_max, a_max or j_max is below 0, or v_min or a_min above 0",
            Refusal::WrongDuration => "brake or accel is below 0 or above 1e12",
            Refusal::NoProfile => "no profile was accepted",
            Refusal::NoRemoval => {
                "four profiles were accepted, and no rule says which of them goes"
            }
        })
    }
}

impl Error for Refusal {}

/// A duration that is NaN or infinite is neither blocked nor free.
#[derive(Clone, Copy, Debug, Eq, Hash, PartialEq)]
pub struct NotFinite;

impl fmt::Display for NotFinite {
    fn fmt(&self, f: &mut fmt::Formatter<'_>) -> fmt::Result {
        f.write_str("the duration is NaN or infinite")
    }
}

impl Error for NotFinite {}

/// The direction that was tried, not which way the motion goes: it may fall throughout and say `Up`.
///
/// ```
/// use girnhusk::{plan, Direction, Move};
///
/// // it comes in at -1340 mm/s, and slows down all the way from 265 mm to rest at 0
/// let home = Move {
///     p0: 265.0, v0: -1340.0, v_max: 2290.0, v_min: -2290.0, a_max: 19600.0, a_min: -19000.0, j_max: 490000.0,
///     ..Move::default()
/// };
/// let profile = plan(&home)?.profile();
/// assert!(profile.p.windows(2).all(|rows| rows[1] <= rows[0]));
/// assert_eq!(profile.direction, Direction::Up);
/// # Ok::<(), girnhusk::Refusal>(())
/// ```
#[derive(Clone, Copy, Debug, Eq, Hash, PartialEq)]
pub enum Direction {
    /// The upper velocity limit of the try was above 0, as `v_max` is with the limits as given.
    Up,
    /// It was not, as with the limits swapped.
    Down,
}

/// The kind of profile that was tried, not which limits the motion reaches: it may keep to `v_max` and say `None`.
///
/// ```
/// use girnhusk::{plan, Limits, Move};
///
/// let limits = Move { v_max: 1.0, v_min: -1.0, a_max: 1.0, a_min: -1.0, ..Move::default() };
/// let passing = Move { v0: 1.0, pf: 3.0, vf: 1.0, ..limits };
/// let profile = plan(&passing)?.profile();
/// assert_eq!(profile.v, [1.0; 8]);
/// assert_eq!(profile.limits, Limits::None);
/// # Ok::<(), girnhusk::Refusal>(())
/// ```
#[allow(missing_docs)]
#[derive(Clone, Copy, Debug, Eq, Hash, PartialEq)]
pub enum Limits {
    Acc0Acc1Vel,
    Vel,
    Acc0,
    Acc1,
    Acc0Acc1,
    Acc0Vel,
    Acc1Vel,
    None,
}

/// The signs of a profile's jerks: up, down, down, up or up, down, up, down.
#[allow(missing_docs)]
#[derive(Clone, Copy, Debug, Eq, Hash, PartialEq)]
pub enum ControlSigns {
    Uddu,
    Udud,
}

/// Seven phases of constant jerk, and the eight rows before and after them.
#[derive(Clone, Copy, Debug, PartialEq)]
pub struct Profile {
    /// The direction that was tried.
    pub direction: Direction,
    /// The kind of profile that was tried.
    pub limits: Limits,
    /// The signs of its jerks.
    pub control_signs: ControlSigns,
    /// The durations of the phases.
    pub t: [f64; PHASES],
    /// Their sums: when each phase ends.
    pub t_sum: [f64; PHASES],
    /// The phases' jerks.
    pub j: [f64; PHASES],
    /// The rows' accelerations.
    pub a: [f64; ROWS],
    /// The rows' velocities.
    pub v: [f64; ROWS],
    /// The rows' positions.
    pub p: [f64; ROWS],
    /// The target's position.
    pub pf: f64,
    /// The target's velocity.
    pub vf: f64,
    /// The target's acceleration.
    pub af: f64,
    /// The brake duration that is added.
    pub brake: f64,
    /// The accel duration that is added.
    pub accel: f64,
}

/// Durations above the plan's that the planner calls blocked: it offers nothing there, which doesn't say that no motion
/// takes so long. The ends are free.
#[derive(Clone, Copy, Debug, PartialEq)]
pub enum Stretch {
    /// No duration.
    Nothing,
    /// Those between two.
    Between {
        /// The lower end.
        left: f64,
        /// The upper end.
        right: f64,
    },
    /// All above one.
    From(f64),
}

/// A stretch, and of a stretch between two durations the profile that takes the longer of them; else the empty profile.
#[derive(Clone, Copy, Debug, PartialEq)]
pub struct Interval {
    /// The stretch.
    pub stretch: Stretch,
    /// The profile beside it.
    pub profile: Profile,
}

/// A plan as the archive writes it.
#[derive(Clone, Debug, PartialEq)]
pub struct Plan {
    numbers: [f64; PLAN_LENGTH],
}

/// The plan of a move, or why there is none.
///
/// ```
/// use girnhusk::{plan, Move, Refusal};
///
/// // no jerk, so it cannot get away from rest
/// let stuck = Move { pf: 1.0, v_max: 1.0, v_min: -1.0, a_max: 1.0, a_min: -1.0, ..Move::default() };
/// assert_eq!(plan(&stuck), Err(Refusal::NoProfile));
/// ```
pub fn plan(mv: &Move) -> Result<Plan, Refusal> {
    let mut numbers = [0.0; PLAN_LENGTH];
    match raw::plan(&mv.numbers(), &mut numbers) {
        0 => Ok(Plan { numbers }),
        1 => Err(Refusal::NotFinite),
        2 => Err(Refusal::WrongSign),
        3 => Err(Refusal::WrongDuration),
        4 => Err(Refusal::NoProfile),
        5 => Err(Refusal::NoRemoval),
        status => unreachable!("buffers of the right length, and status {status}"),
    }
}

impl Plan {
    /// The duration, with brake and accel: the least of the profiles that the search accepted, not of all motions.
    pub fn duration(&self) -> f64 {
        self.numbers[raw::PLAN_DURATION]
    }

    /// The profile that takes it.
    pub fn profile(&self) -> Profile {
        profile_at(&self.numbers, raw::PLAN_PROFILE)
    }

    /// The first stretch with its profile. The two are not sorted and can overlap.
    pub fn a(&self) -> Interval {
        interval_at(&self.numbers, raw::PLAN_STRETCH_A)
    }

    /// The second stretch with its profile.
    pub fn b(&self) -> Interval {
        interval_at(&self.numbers, raw::PLAN_STRETCH_B)
    }

    /// The ends of both stretches, left and right of each, as [`arrival_of`] takes them.
    pub fn ends(&self) -> [f64; ENDS_LENGTH] {
        let end = |stretch: usize, which: usize| self.numbers[stretch + which];
        [
            end(raw::PLAN_STRETCH_A, raw::INTERVAL_LEFT),
            end(raw::PLAN_STRETCH_A, raw::INTERVAL_RIGHT),
            end(raw::PLAN_STRETCH_B, raw::INTERVAL_LEFT),
            end(raw::PLAN_STRETCH_B, raw::INTERVAL_RIGHT),
        ]
    }

    /// Whether a duration is blocked: below the plan's, or inside a stretch.
    ///
    /// ```
    /// use girnhusk::{plan, Move, NotFinite, Stretch};
    ///
    /// // at speed 1 and with no jerk, 3 m take 3 s and nothing else
    /// let passing = Move { v0: 1.0, pf: 3.0, vf: 1.0, v_max: 1.0, v_min: -1.0, a_max: 1.0, a_min: -1.0, ..Move::default() };
    /// let planned = plan(&passing)?;
    /// assert_eq!(planned.a().stretch, Stretch::From(3.0));
    /// assert_eq!([2.5, 3.0, 4.0].map(|t| planned.is_blocked(t)), [Ok(true), Ok(false), Ok(true)]);
    /// assert_eq!(planned.is_blocked(f64::INFINITY), Err(NotFinite));
    /// # Ok::<(), girnhusk::Refusal>(())
    /// ```
    pub fn is_blocked(&self, t: f64) -> Result<bool, NotFinite> {
        match raw::is_blocked(&self.numbers, t) {
            0 => Ok(false),
            1 => Ok(true),
            6 => Err(NotFinite),
            status => unreachable!("a buffer of the right length, and status {status}"),
        }
    }

    /// The 166 doubles, laid out as [`raw`] says.
    pub fn numbers(&self) -> &[f64; PLAN_LENGTH] {
        &self.numbers
    }
}

fn interval_at(numbers: &[f64; PLAN_LENGTH], at: usize) -> Interval {
    let interval = &numbers[at..at + raw::INTERVAL_LENGTH];
    let (left, right) = (interval[raw::INTERVAL_LEFT], interval[raw::INTERVAL_RIGHT]);
    let stretch = match interval[raw::INTERVAL_KIND] as u8 {
        0 => Stretch::Nothing,
        1 => Stretch::Between { left, right },
        _ => Stretch::From(left),
    };
    Interval {
        stretch,
        profile: profile_at(numbers, at + raw::INTERVAL_PROFILE),
    }
}

fn profile_at(numbers: &[f64; PLAN_LENGTH], at: usize) -> Profile {
    let q = &numbers[at..at + raw::PROFILE_LENGTH];
    Profile {
        direction: if q[raw::PROFILE_DIRECTION] == 0.0 {
            Direction::Up
        } else {
            Direction::Down
        },
        limits: match q[raw::PROFILE_LIMITS] as u8 {
            0 => Limits::Acc0Acc1Vel,
            1 => Limits::Vel,
            2 => Limits::Acc0,
            3 => Limits::Acc1,
            4 => Limits::Acc0Acc1,
            5 => Limits::Acc0Vel,
            6 => Limits::Acc1Vel,
            _ => Limits::None,
        },
        control_signs: if q[raw::PROFILE_CONTROL_SIGNS] == 0.0 {
            ControlSigns::Uddu
        } else {
            ControlSigns::Udud
        },
        t: part(q, raw::PROFILE_T),
        t_sum: part(q, raw::PROFILE_T_SUM),
        j: part(q, raw::PROFILE_J),
        a: part(q, raw::PROFILE_A),
        v: part(q, raw::PROFILE_V),
        p: part(q, raw::PROFILE_P),
        pf: q[raw::PROFILE_PF],
        vf: q[raw::PROFILE_VF],
        af: q[raw::PROFILE_AF],
        brake: q[raw::PROFILE_BRAKE],
        accel: q[raw::PROFILE_ACCEL],
    }
}

fn part<const N: usize>(q: &[f64], at: usize) -> [f64; N] {
    let mut out = [0.0; N];
    out.copy_from_slice(&q[at..at + N]);
    out
}
