//! Calls of single families: moves that a certain try solves, and moves of every kind.

use crate::generators::motion::{State, JERK_SIGNS};
use crate::generators::moves;
use crate::random::{nudged, Random};
use answers::{FamilyCall, Limits, Move};

/// What a try's motion looks like.
#[derive(Clone, Copy)]
struct Try {
    /// A place in `answers::FAMILIES`.
    family: usize,
    /// Which of the seven phases take time.
    phases: [bool; 7],
    /// Whether row 3's velocity is v_max, row 1's acceleration a_max, row 5's acceleration a_min.
    reached: [bool; 3],
}

/// Every try of every family, in the source's order.
const TRIES: [Try; 20] = [
    // time_all_vel
    tried(0, b"0123456", b"vaA"),
    tried(0, b"0 23456", b"v A"),
    tried(0, b"01234 6", b"va "),
    tried(0, b"0 234 6", b"v  "),
    // time_acc0_acc1, both solutions
    tried(1, b"012 456", b" aA"),
    tried(1, b"012 456", b" aA"),
    // time_all_none_acc0_acc1
    tried(2, b"0 2   6", b"   "),
    tried(2, b"012   6", b" a "),
    tried(2, b"0 2  56", b"  A"),
    // time_acc1_vel_two_step
    tried(3, b"  23456", b"v A"),
    // time_acc0_two_step
    tried(4, b" 12    ", b" a "),
    tried(4, b"012    ", b" a "),
    tried(4, b"012    ", b"   "),
    tried(4, b"012   6", b" aA"),
    // time_vel_two_step
    tried(5, b"0  34 6", b"v  "),
    tried(5, b"  234 6", b"v  "),
    // time_none_two_step
    tried(6, b"0 2    ", b"   "),
    tried(6, b"0      ", b"   "),
    // time_all_single_step, with and without acceleration
    tried(7, b"   3   ", b"   "),
    tried(7, b"   3   ", b"   "),
];

/// A try by the phases that take time and the limits that are reached (v, a, A for v_max, a_max, a_min).
const fn tried(family: usize, phases: &[u8; 7], reached: &[u8; 3]) -> Try {
    let mut found = Try {
        family,
        phases: [false; 7],
        reached: [false; 3],
    };
    let mut i = 0;
    while i < 7 {
        found.phases[i] = phases[i] != b' ';
        i += 1;
    }
    let mut i = 0;
    while i < 3 {
        found.reached[i] = reached[i] != b' ';
        i += 1;
    }
    found
}

pub fn call(random: &mut Random) -> FamilyCall {
    let tried = random.pick(&TRIES);
    let opposite = random.one_in(2);
    let mut asked = match random.below(4) {
        0 => any_move(random),
        _ if tried.family == 7 => moves::zero(random),
        _ => solved_by(random, &tried, opposite),
    };
    if random.one_in(3) {
        disturb(random, &mut asked);
    }
    let counted = if random.one_in(4) {
        random.below(6) as usize
    } else {
        0
    };
    let return_after_found = random.one_in(2);
    FamilyCall {
        asked,
        family: tried.family,
        opposite,
        return_after_found,
        counted,
    }
    .as_planned()
}

fn any_move(random: &mut Random) -> Move {
    // Without `neighbours`, which came later: a seed keeps its calls.
    let (_, make) = random.pick(&moves::KINDS[..7]);
    make(random)
}

/// A move that the try solves: first its motion, then limits that it just reaches.
fn solved_by(random: &mut Random, tried: &Try, opposite: bool) -> Move {
    let jerk = random.between(0.5, 4.0);
    let (p, v) = (random.signed_unit(), random.signed_unit());
    let start = State {
        p,
        v,
        a: start_acceleration(random, &tried.phases),
    };
    let mut rows = [start; 8];
    for i in 0..7 {
        let wanted = if tried.phases[i] { random.unit() } else { 0.0 };
        let t = phase_time(tried, i, rows[i].a / jerk, wanted);
        rows[i + 1] = rows[i].after(t, JERK_SIGNS[0][i] * jerk);
    }
    let limits = just_reached(random, tried, &rows, jerk);
    facing(opposite, start, rows[7], limits)
}

/// Where nothing raises the acceleration before phase 2 lowers it, it is above 0 at the start; where nothing lowers
/// it, below 0.
fn start_acceleration(random: &mut Random, phases: &[bool; 7]) -> f64 {
    match (phases[0], phases[2]) {
        (false, true) => random.unit(),
        (true, false) => -random.unit(),
        _ => random.signed_unit(),
    }
}

/// How long a phase takes; `to_zero` is the acceleration before it over the jerk.
fn phase_time(tried: &Try, phase: usize, to_zero: f64, wanted: f64) -> f64 {
    let [.., third, fourth, _, _] = tried.phases;
    let stands_at_row_3 = third || fourth;
    match phase {
        0 if tried.phases[2] => wanted + (-to_zero).max(0.0),
        0 if stands_at_row_3 => -to_zero,
        2 if stands_at_row_3 && tried.phases[2] => to_zero,
        // Beyond zero, down to a_min.
        2 if tried.reached[2] => to_zero + wanted,
        _ => wanted,
    }
}

/// Limits that the motion reaches where the try has it so, and that it keeps well within elsewhere.
fn just_reached(random: &mut Random, tried: &Try, rows: &[State; 8], j_max: f64) -> Limits {
    let mut wide = |number: f64| number.abs() * random.between(1.0, 3.0) + 0.1;
    let fastest = rows
        .iter()
        .fold(0.0, |most: f64, row| most.max(row.v.abs()));
    let hardest = rows
        .iter()
        .fold(0.0, |most: f64, row| most.max(row.a.abs()));
    let [v, a, b] = tried.reached;
    let v_max = if v { rows[3].v } else { wide(fastest) };
    let a_max = if a { rows[1].a } else { wide(hardest) };
    let a_min = if b { rows[5].a } else { -wide(hardest) };
    Limits {
        v_max,
        v_min: -wide(fastest),
        a_max,
        a_min,
        j_max,
    }
}

/// The move in the direction in which the family is called: turned round for the opposite one.
fn facing(opposite: bool, start: State, end: State, limits: Limits) -> Move {
    let way = if opposite { -1.0 } else { 1.0 };
    let swapped = Limits {
        v_max: -limits.v_min,
        v_min: -limits.v_max,
        a_max: -limits.a_min,
        a_min: -limits.a_max,
        j_max: limits.j_max,
    };
    Move {
        p0: way * start.p,
        v0: way * start.v,
        a0: way * start.a,
        pf: way * end.p,
        vf: way * end.v,
        af: way * end.a,
        limits: if opposite { swapped } else { limits },
        brake: 0.0,
        accel: 0.0,
    }
}

/// Puts neighbours, zeros, NaN, infinities or any bits in place of some numbers.
fn disturb(random: &mut Random, asked: &mut Move) {
    let mut numbers = asked.numbers();
    for _ in 0..1 + random.below(2) {
        let place = random.below(11) as usize;
        numbers[place] = match random.below(6) {
            0 => random.pick(&[0.0, -0.0]),
            1 => random.pick(&[f64::NAN, f64::INFINITY, f64::NEG_INFINITY]),
            2 => f64::from_bits(random.bits()),
            _ => nudged(numbers[place], random.below(5) as i64 - 2),
        };
    }
    *asked = Move::from_numbers(numbers);
}
