//! Several axes: one arrival time for all.

use std::error::Error;
use std::fmt;

use crate::raw::{self, AXES_MOST, ENDS_LENGTH};
use crate::Plan;

/// When all axes of a move can arrive.
#[derive(Clone, Copy, Debug, PartialEq)]
pub struct Arrival {
    /// The earliest time that is free for all axes: no smaller double is. It is finite, and never -0.
    pub time: f64,
    /// The lowest axis, counted from 0, that has it as its duration or as the right end of a stretch.
    pub axis: usize,
}

/// Why there is no arrival time.
#[derive(Clone, Copy, Debug, Eq, Hash, PartialEq)]
pub enum ArrivalRefusal {
    /// There are no axes or more than 8, or their numbers are no plans': there aren't four ends for each duration, a
    /// duration is below 0 or not finite, or a stretch's left end is not finite or is below the duration, or its right
    /// end is NaN or below the left.
    Malformed = 9,
    /// No finite time is free for all axes.
    Never = 10,
}

impl ArrivalRefusal {
    /// Its number in docs/02-change-requests.md.
    pub fn number(self) -> u64 {
        self as u64
    }
}

impl fmt::Display for ArrivalRefusal {
    fn fmt(&self, f: &mut fmt::Formatter<'_>) -> fmt::Result {
        f.write_str(match self {
            ArrivalRefusal::Malformed => {
                "there are no axes or more than 8, or durations and ends are not those of plans"
            }
            ArrivalRefusal::Never => "no finite time is free for all axes",
        })
    }
}

impl Error for ArrivalRefusal {}

/// When the axes of a move can all arrive, from the plans of 1 to 8.
///
/// ```
/// use girnhusk::{arrival, plan, Arrival, ArrivalRefusal, Move};
///
/// let rest = Move { v_max: 1.0, v_min: -1.0, a_max: 1.0, a_min: -1.0, j_max: 1.0, ..Move::default() };
/// let lift = plan(&Move { pf: 4.0, ..rest })?; // 6 s or longer
/// let short = plan(&Move { pf: 0.5, ..rest })?; // less
/// assert_eq!(arrival(&[short, lift.clone()]), Ok(Arrival { time: 6.0, axis: 1 }));
///
/// let passing = plan(&Move { v0: 1.0, pf: 3.0, vf: 1.0, j_max: 0.0, ..rest })?; // 3 s and nothing else
/// assert_eq!(arrival(&[lift, passing]), Err(ArrivalRefusal::Never));
/// # Ok::<(), girnhusk::Refusal>(())
/// ```
pub fn arrival(plans: &[Plan]) -> Result<Arrival, ArrivalRefusal> {
    if plans.len() > AXES_MOST {
        return Err(ArrivalRefusal::Malformed);
    }
    let (mut durations, mut ends) = ([0.0; AXES_MOST], [0.0; AXES_MOST * ENDS_LENGTH]);
    for (axis, plan) in plans.iter().enumerate() {
        durations[axis] = plan.duration();
        ends[axis * ENDS_LENGTH..][..ENDS_LENGTH].copy_from_slice(&plan.ends());
    }
    arrival_of(
        &durations[..plans.len()],
        &ends[..plans.len() * ENDS_LENGTH],
    )
}

/// The same from numbers: the axes' shortest durations, and four ends for each, left and right of each stretch, as
/// [`Plan::ends`] gives them. A missing stretch is 0 and 0, one from a time on ends at infinity. -0 counts as 0.
///
/// ```
/// use girnhusk::{arrival_of, Arrival, ArrivalRefusal};
///
/// // the second axis blocks what lies between 1 and 4 s, the first what lies between 3 and 5 s
/// let ends = [3.0, 5.0, 0.0, 0.0, 1.0, 4.0, 0.0, 0.0];
/// assert_eq!(arrival_of(&[2.0, 1.0], &ends), Ok(Arrival { time: 5.0, axis: 0 }));
/// assert_eq!(arrival_of(&[2.0, -1.0], &ends), Err(ArrivalRefusal::Malformed));
/// ```
pub fn arrival_of(durations: &[f64], ends: &[f64]) -> Result<Arrival, ArrivalRefusal> {
    let (mut time, mut axis) = (0.0, 0);
    match raw::arrival(durations, ends, &mut time, &mut axis) {
        0 => Ok(Arrival {
            time,
            axis: axis as usize,
        }),
        9 => Err(ArrivalRefusal::Malformed),
        10 => Err(ArrivalRefusal::Never),
        status => unreachable!("status {status}"),
    }
}
