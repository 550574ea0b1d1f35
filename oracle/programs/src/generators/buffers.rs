//! Moves and plans in buffers: mostly of the right lengths and planned, and a time beside an end of the plan.

use crate::buffers::PLAN_LENGTH;
use crate::generators::moves;
use crate::random::{nudged, Random};
use answers::{plan, BufferCall, Move, Plan, MOVE_LENGTH};
use step1_exact::Choice;

const KINDS: [&str; 10] = [
    "ordinary",
    "ordinary",
    "rest",
    "rest",
    "zero",
    "edge",
    "blocked",
    "blocked",
    "neighbours",
    "wild",
];

pub fn call(random: &mut Random) -> BufferCall {
    // Few that are refused.
    let name = random.pick(&KINDS);
    let (_, make) = moves::KINDS
        .into_iter()
        .find(|(kind, _)| *kind == name)
        .expect("one of the kinds");
    let mut asked = make(random);
    if random.one_in(2) {
        (asked.brake, asked.accel) = (2.0 * random.unit(), 2.0 * random.unit());
    }
    let mut numbers = [0.0; 16].map(|_: f64| random.signed_unit());
    numbers[..MOVE_LENGTH].copy_from_slice(&asked.numbers());
    BufferCall {
        move_length: length(random, MOVE_LENGTH as u8, 17),
        plan_length: length(random, PLAN_LENGTH as u8, 202),
        numbers,
        t: time(random, &asked),
    }
}

/// Mostly the right length, or beside it, or any below a bound, or any byte.
fn length(random: &mut Random, right: u8, bound: u64) -> u8 {
    match random.below(40) {
        0 => random.below(256) as u8,
        1 => random.below(bound) as u8,
        2 => right - 1,
        3 => right + 1,
        _ => right,
    }
}

/// Mostly beside the shortest duration or a stretch's end.
fn time(random: &mut Random, asked: &Move) -> f64 {
    let Plan {
        shortest,
        stretches,
        ..
    } = plan::<Choice>(asked).unwrap_or(Plan::EMPTY);
    let (stretch, _) = random.pick(&stretches);
    let [left, right] = stretch.ends().unwrap_or([shortest, shortest]);
    let places = random.pick(&[0, 1, -1]);
    match random.below(12) {
        0 => random.pick(&[f64::NAN, f64::INFINITY, f64::NEG_INFINITY]),
        1 => nudged(shortest, places),
        2..5 => nudged(left, places),
        5..8 => nudged(right, places),
        8 | 9 => left + (right.min(1e12) - left) * random.unit(),
        _ => 2.0 * shortest * random.unit(),
    }
}
