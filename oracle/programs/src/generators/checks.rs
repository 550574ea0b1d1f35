//! Calls of `check`: accepted ones, and the same with one change that one of its tests refuses or just lets pass.

use crate::generators::motion::{State, ENDING_IN_VEL, JERK_SIGNS, STANDING_AT_ROW_3};
use crate::random::{nudged, Random};
use answers::Check;

const ACC0: usize = 2;
const ACC1: usize = 3;
const ACC0_ACC1: usize = 4;
const NONE: usize = 7;

/// A change to an accepted call. What it is for stands at its name.
pub type Change = fn(&mut Random, &mut Check);

/// The changes in the order of `check`'s tests.
pub const CHANGES: [(&str, Change); 11] = [
    ("a negative time", negative_time),
    ("phase 3 near EPS", |random, check| {
        short_phase(random, check, 3, &ENDING_IN_VEL)
    }),
    ("phase 1 near EPS", |random, check| {
        short_phase(random, check, 1, &[ACC0, ACC0_ACC1])
    }),
    ("phase 5 near EPS", |random, check| {
        short_phase(random, check, 5, &[ACC1, ACC0_ACC1])
    }),
    ("sum near T_MAX", long_rest),
    (
        "speed at zero acceleration near a limit",
        tight_at_zero_acceleration,
    ),
    ("target beside the end", target_beside_end),
    ("acceleration near a limit", tight_acceleration),
    ("velocity near a limit", tight_velocity),
    ("a special number", special_number),
    ("any bits", any_bits),
];

/// A quarter as accepted, the others with one change.
pub fn check(random: &mut Random) -> Check {
    let mut check = accepted(random);
    if !random.one_in(4) {
        let (_, change) = random.pick(&CHANGES);
        change(random, &mut check);
    }
    check
}

/// A call that is accepted: any times, wide bounds, and as target the end that these times lead to.
pub fn accepted(random: &mut Random) -> Check {
    let up = random.pick(&[1.0, -1.0]);
    let wide = [20.0, -20.0, 10.0, -10.0].map(|bound| up * bound * random.between(1.0, 2.0));
    let mut check = Check {
        boundary: [0.0; 6].map(|_: f64| 2.0 * random.signed_unit()),
        t: [0.0; 7].map(|_: f64| random.unit()),
        jf: up * random.between(0.5, 2.0),
        bounds: wide,
        limits: random.below(8) as usize,
        control_signs: random.below(2) as usize,
        set_limits: random.one_in(2),
    };
    if random.one_in(2) {
        for phase in random.pick(&[[0, 4, 6], [4, 4, 6], [0, 0, 2], [2, 2, 4]]) {
            check.t[phase] = 0.0;
        }
    }
    aim(&mut check);
    check
}

/// Makes the end of the motion the target.
pub fn aim(check: &mut Check) {
    let end = rows(check)[7];
    // The sign of a NaN that arithmetic makes differs between machines.
    let target = [end.p, end.v, end.a].map(|x| if x.is_nan() { f64::NAN } else { x });
    check.boundary[3..].copy_from_slice(&target);
}

/// The eight rows that the check computes, but for rounding.
pub fn rows(check: &Check) -> [State; 8] {
    let [p, v, a, ..] = check.boundary;
    let [_, _, a_max, a_min] = check.bounds;
    let mut rows = [State { p, v, a }; 8];
    for i in 0..7 {
        let jerk = JERK_SIGNS[check.control_signs][i] * check.jf;
        let mut next = rows[i].after(check.t[i], jerk);
        match (check.limits, i) {
            (ACC1, 2) if check.set_limits => next.a = a_min,
            (ACC0_ACC1, 0) if check.set_limits => next.a = a_max,
            (ACC0_ACC1, 4) if check.set_limits => next.a = a_min,
            (limits, 2) if STANDING_AT_ROW_3.contains(&limits) => next.a = 0.0,
            _ => (),
        }
        rows[i + 1] = next;
    }
    rows
}

fn negative_time(random: &mut Random, check: &mut Check) {
    let phase = random.below(7) as usize;
    check.t[phase] = random.pick(&[-5e-324, -f64::EPSILON, -1e-9, -0.5, f64::NEG_INFINITY]);
    aim(check);
}

/// A phase on either side of EPS, under a name that asks for more than that.
fn short_phase(random: &mut Random, check: &mut Check, phase: usize, names: &[usize]) {
    check.limits = random.pick(names);
    check.t[phase] = random.pick(&[
        0.0,
        -0.0,
        f64::EPSILON,
        nudged(f64::EPSILON, -1),
        nudged(f64::EPSILON, 1),
        f64::EPSILON / 2.0,
    ]);
    aim(check);
}

/// A rest that takes about as long as a check allows.
fn long_rest(random: &mut Random, check: &mut Check) {
    check.t = [0.0; 7];
    check.t[random.below(7) as usize] = nudged(1e12, random.below(5) as i64 - 2);
    check.t[random.below(7) as usize] += random.pick(&[0.0, 0.0, 1e-4, 1e-3]);
    let start = check.boundary[0];
    check.boundary = [start, 0.0, 0.0, start, 0.0, 0.0];
    check.jf = 0.0;
    check.limits = random.pick(&[NONE, 1]);
    check.set_limits = false;
}

/// A bound that must hold where the acceleration changes its sign in phase 2, 4 or 6, and that just does or doesn't.
fn tight_at_zero_acceleration(random: &mut Random, check: &mut Check) {
    check.limits = NONE;
    let phase = random.pick(&[2, 4, 6]);
    let sign = JERK_SIGNS[check.control_signs][phase] * check.jf.signum();
    // Before the phase the acceleration is against its jerk, and the phase lasts beyond zero.
    check.t[..phase].fill(0.0);
    check.boundary[2] = -sign * random.between(0.2, 1.0);
    check.t[phase] = random.between(1.1, 2.0) * check.boundary[2].abs() / check.jf.abs();
    aim(check);
    let acceleration = check.boundary[2];
    let jerk = JERK_SIGNS[check.control_signs][phase] * check.jf;
    let peak = check.boundary[1] - acceleration * acceleration / (2.0 * jerk);
    lay_bound(random, &mut check.bounds, 0, peak, sign < 0.0);
}

/// Lays the upper or the lower one of a pair of bounds 1e-12 beside a number; the pair is the wrong way round for DOWN.
fn lay_bound(random: &mut Random, bounds: &mut [f64; 4], pair: usize, number: f64, upper: bool) {
    let down = bounds[0] <= 0.0;
    let inward = if upper { -1e-12 } else { 1e-12 };
    let bound = nudged(number + inward, random.below(7) as i64 - 3);
    let place = pair + usize::from(upper == down);
    bounds[place] = random.pick(&[bound, number, number + 1000.0 * inward]);
}

/// The target moved by about as much as the check forgives.
fn target_beside_end(random: &mut Random, check: &mut Check) {
    let (place, forgiven) = random.pick(&[(3, 1e-8), (4, 1e-8), (5, 1e-10)]);
    let distance = forgiven * random.pick(&[1.0, 1.0 - 1e-6, 1.0 + 1e-6, 2.0]);
    check.boundary[place] += random.pick(&[1.0, -1.0]) * distance;
}

/// An acceleration bound beside row 1, 3 or 5.
fn tight_acceleration(random: &mut Random, check: &mut Check) {
    check.set_limits = false;
    let row = random.pick(&[1, 3, 5]);
    let acceleration = rows(check)[row].a;
    let upper = random.one_in(2);
    lay_bound(random, &mut check.bounds, 2, acceleration, upper);
}

/// A velocity bound beside row 3, 4, 5 or 6; on row 7 nothing is held to a bound.
fn tight_velocity(random: &mut Random, check: &mut Check) {
    let row = random.pick(&[3, 4, 5, 6, 7]);
    let velocity = rows(check)[row].v;
    let upper = random.one_in(2);
    lay_bound(random, &mut check.bounds, 0, velocity, upper);
}

/// A zero, a NaN or an infinity anywhere.
fn special_number(random: &mut Random, check: &mut Check) {
    let value = random.pick(&[
        f64::NAN,
        f64::INFINITY,
        f64::NEG_INFINITY,
        0.0,
        -0.0,
        5e-324,
    ]);
    *any_number(random, check) = value;
}

fn any_number<'a>(random: &mut Random, check: &'a mut Check) -> &'a mut f64 {
    let place = random.below(18) as usize;
    match place {
        0..6 => &mut check.boundary[place],
        6..13 => &mut check.t[place - 6],
        13 => &mut check.jf,
        _ => &mut check.bounds[place - 14],
    }
}

fn any_bits(random: &mut Random, check: &mut Check) {
    for _ in 0..1 + random.below(18) {
        *any_number(random, check) = f64::from_bits(random.bits());
    }
}
