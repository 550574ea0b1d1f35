//! Moves of eight kinds.

use crate::generators::motion::State;
use crate::random::{nudged, power_of_two, Random};
use answers::{Limits, Move, MOVE_LENGTH};

/// Makes one move.
pub type Maker = fn(&mut Random) -> Move;

/// The kinds of moves by name.
pub const KINDS: [(&str, Maker); 8] = [
    ("ordinary", ordinary),
    ("rest", rest),
    ("zero", zero),
    ("wild", wild),
    ("scale", scale),
    ("edge", edge),
    ("blocked", blocked),
    ("neighbours", neighbours),
];

/// What an axis of a machine is asked, in metres or millimetres: half with both ends moving, the others coming to rest.
pub fn ordinary(random: &mut Random) -> Move {
    let limits = machine_limits(random);
    let mut asked = resting(random, &limits);
    let both_moving = random.one_in(2);
    if both_moving || random.one_in(2) {
        (asked.v0, asked.a0) = moving(random, &limits);
    }
    if both_moving {
        (asked.vf, asked.af) = moving(random, &limits);
    }
    asked
}

/// Coming to rest over distances of every size, half of them from rest; sometimes the target is the start.
pub fn rest(random: &mut Random) -> Move {
    let limits = machine_limits(random);
    let mut asked = resting(random, &limits);
    let distance = random.size(-40, 12);
    asked.pf = match random.below(8) {
        0 => asked.p0,
        1..=4 => asked.p0 + distance,
        _ => asked.p0 - distance,
    };
    if random.one_in(2) {
        (asked.v0, asked.a0) = moving(random, &limits);
    }
    // Below 2^-52 counts as rest.
    if random.one_in(16) {
        asked.vf = random.signed_unit() * power_of_two(-52);
        asked.af = random.signed_unit() * power_of_two(-52);
    }
    asked
}

/// Limits as machines have them, with typed decimals or measured numbers.
fn machine_limits(random: &mut Random) -> Limits {
    let unit = random.pick(&[1.0, 1000.0]);
    let v_max = unit * typed(random, 0.05, 4.0);
    let a_max = unit * typed(random, 0.2, 40.0);
    let j_max = unit * typed(random, 1.0, 2000.0);
    let (v_min, a_min) = match random.below(4) {
        0 => (
            -unit * typed(random, 0.05, 4.0),
            -unit * typed(random, 0.2, 40.0),
        ),
        _ => (-v_max, -a_max),
    };
    Limits {
        v_max,
        v_min,
        a_max,
        a_min,
        j_max,
    }
}

/// A number between two others, half of the time with at most two decimals.
fn typed(random: &mut Random, low: f64, high: f64) -> f64 {
    let number = random.between(low, high);
    if random.one_in(2) {
        ((number * 100.0).round() / 100.0).max(low)
    } else {
        number
    }
}

/// From rest to rest, somewhere the axis can be in a few seconds.
fn resting(random: &mut Random, limits: &Limits) -> Move {
    let reach = 3.0 * limits.v_max * random.unit();
    let p0 = typed(random, -reach, reach);
    let pf = typed(random, -reach, reach);
    let (brake, accel) = durations(random);
    Move {
        p0,
        v0: 0.0,
        a0: 0.0,
        pf,
        vf: 0.0,
        af: 0.0,
        limits: *limits,
        brake,
        accel,
    }
}

/// Mostly none; otherwise up to two seconds each.
fn durations(random: &mut Random) -> (f64, f64) {
    match random.below(8) {
        0 => (2.0 * random.unit(), 0.0),
        1 => (2.0 * random.unit(), 2.0 * random.unit()),
        _ => (0.0, 0.0),
    }
}

/// A velocity and acceleration that neither come from nor lead to a velocity beyond the limits.
fn moving(random: &mut Random, limits: &Limits) -> (f64, f64) {
    let fastest = limits.v_max.min(-limits.v_min);
    let velocity = fastest * random.signed_unit();
    let acceleration = match random.below(4) {
        0 => 0.0,
        _ => spare_acceleration(random, limits, velocity.abs()),
    };
    (velocity, acceleration)
}

/// An acceleration that fits a speed: bringing it to 0 keeps the velocity within limits.
fn spare_acceleration(random: &mut Random, limits: &Limits, speed: f64) -> f64 {
    let fastest = limits.v_max.min(-limits.v_min);
    let spare = (2.0 * limits.j_max * (fastest - speed)).sqrt();
    limits.a_max.min(-limits.a_min).min(spare) * random.signed_unit()
}

/// A zero among j_max, a_max and a_min; the target is mostly where the start leads to.
pub fn zero(random: &mut Random) -> Move {
    let mut limits = machine_limits(random);
    let zero = random.pick(&[0.0, -0.0]);
    match random.below(4) {
        0 => limits.a_max = zero,
        1 => limits.a_min = zero,
        _ => limits.j_max = zero,
    }
    if random.one_in(16) {
        limits.v_max = zero;
    }
    // A plan with v_max at 0 is called DOWN, and then its limits must be 0 altogether.
    if random.one_in(16) {
        limits = Limits {
            v_max: zero,
            v_min: -zero,
            a_max: zero,
            a_min: -zero,
            ..limits
        };
    }
    let mut asked = resting(random, &limits);
    let any = random.unit();
    let duration = random.pick(&[0.0, 1.0, 0.5, 3.0 * any, -any]);
    if !random.one_in(4) {
        asked.v0 = random.pick(&[limits.v_max, -limits.v_min]) * random.signed_unit();
    }
    if random.one_in(2) {
        asked.a0 = random.pick(&[1.0, limits.a_max, limits.a_min, 0.1]) * random.signed_unit();
    }
    asked.vf = asked.v0 + asked.a0 * duration;
    asked.af = asked.a0;
    asked.pf = asked.p0 + duration * (asked.v0 + asked.a0 * duration / 2.0);
    if random.one_in(8) {
        asked.pf += random.signed_unit();
    }
    asked
}

/// Any bit patterns; three of four have limits of the right sign and durations that are allowed.
pub fn wild(random: &mut Random) -> Move {
    let mut numbers = [0.0; MOVE_LENGTH].map(|_: f64| f64::from_bits(random.bits()));
    if random.one_in(4) {
        return Move::from_numbers(numbers);
    }
    numbers = numbers.map(|number| if number.is_finite() { number } else { 1.0 });
    with_right_signs(&mut numbers);
    let (brake, accel) = durations(random);
    Move {
        brake,
        accel,
        ..Move::from_numbers(numbers)
    }
}

/// Makes v_max, a_max and j_max positive, v_min and a_min negative.
fn with_right_signs(numbers: &mut [f64; MOVE_LENGTH]) {
    for (place, sign) in [(6, 1.0), (7, -1.0), (8, 1.0), (9, -1.0), (10, 1.0)] {
        numbers[place] = sign * numbers[place].abs();
    }
}

/// Numbers of every size: half ordinary moves in other units of length and time, half with an exponent for each number.
pub fn scale(random: &mut Random) -> Move {
    let mut numbers = ordinary(random).numbers();
    if random.one_in(2) {
        let length = random.below(400) as i64 - 200;
        let time = random.below(400) as i64 - 200;
        let orders = [0, 1, 2, 0, 1, 2, 1, 1, 2, 2, 3];
        for (number, order) in numbers.iter_mut().zip(orders) {
            *number *= power_of_two(length / 2);
            *number *= power_of_two(length - length / 2 - order * time / 4);
        }
    } else {
        let width = random.pick(&[4, 16, 64, 256, 1022]);
        for number in &mut numbers[..11] {
            let sign = random.pick(&[0.0, 1.0, -1.0, 1.0, -1.0]);
            *number = sign * random.size(-width, width);
        }
        with_right_signs(&mut numbers);
    }
    Move::from_numbers(numbers)
}

/// Moves on the edges of the planner's tests: small round numbers, ends on limits, numbers an ulp apart, zeros of both
/// signs, subnormals, double roots, rests that are their own target.
pub fn edge(random: &mut Random) -> Move {
    let mut numbers = [0.0; MOVE_LENGTH];
    for number in &mut numbers[..6] {
        *number = (random.below(9) as f64 - 4.0) / 2.0;
    }
    for number in &mut numbers[6..11] {
        *number = if random.one_in(40) {
            0.0
        } else {
            (1 + random.below(6)) as f64 / 2.0
        };
    }
    with_right_signs(&mut numbers);
    let mut asked = Move::from_numbers(numbers);
    lay_on_edges(random, &mut asked);
    let mut numbers = asked.numbers();
    for _ in 0..random.below(4) {
        let place = random.below(11) as usize;
        numbers[place] = beside(random, numbers[place]);
    }
    let (brake, accel) = durations(random);
    numbers[11..].copy_from_slice(&[brake, accel]);
    Move::from_numbers(numbers)
}

/// Puts ends of the move on its limits, or on each other, or to rest.
fn lay_on_edges(random: &mut Random, asked: &mut Move) {
    let Limits {
        v_max,
        v_min,
        a_max,
        a_min,
        j_max,
    } = asked.limits;
    match random.below(10) {
        0 => asked.v0 = random.pick(&[v_max, v_min]),
        1 => asked.vf = random.pick(&[v_max, v_min]),
        2 => asked.a0 = random.pick(&[a_max, a_min]),
        3 => asked.af = random.pick(&[a_max, a_min]),
        4 => (asked.pf, asked.vf, asked.af) = (asked.p0, asked.v0, asked.a0),
        5 => (asked.vf, asked.af) = (0.0, 0.0),
        6 if j_max > 0.0 => {
            // The velocity at zero acceleration is the limit itself.
            asked.v0 = v_max - asked.a0 * asked.a0 / (2.0 * j_max);
            asked.vf = v_max - asked.af * asked.af / (2.0 * j_max);
        }
        7 | 8 => reach_in_one_phase(random, asked),
        _ => {
            (asked.v0, asked.a0, asked.vf, asked.af) = (0.0, 0.0, 0.0, 0.0);
            if random.one_in(2) {
                asked.pf = asked.p0;
            }
        }
    }
}

/// Puts the target where one phase of constant jerk, often 0, leads to: several families find such a motion.
fn reach_in_one_phase(random: &mut Random, asked: &mut Move) {
    let t = random.pick(&[0.5, 1.0, 2.0]);
    let j = random.pick(&[0.0, 0.0, asked.limits.j_max, -asked.limits.j_max]);
    if random.one_in(2) {
        // There and back again, for a jerk of 0.
        asked.v0 = -asked.a0 * t / 2.0;
    }
    let end = State {
        p: asked.p0,
        v: asked.v0,
        a: asked.a0,
    }
    .after(t, j);
    (asked.pf, asked.vf, asked.af) = (end.p, end.v, end.a);
    asked.pf = nudged(asked.pf, random.pick(&[0, 0, 1, -1]));
}

/// A number just beside another, or a special one in its place.
fn beside(random: &mut Random, number: f64) -> f64 {
    let places = random.below(9) as i64 - 4;
    match random.below(6) {
        0 => -0.0,
        1 => 0.0,
        2 => nudged(0.0, random.below(1 << 21) as i64 - (1 << 20)),
        3 => number + random.signed_unit() * power_of_two(-52),
        _ if number == 0.0 => number,
        _ => nudged(number, places),
    }
}

/// Moves with blocked durations: three of four with one stretch, the others with two.
pub fn blocked(random: &mut Random) -> Move {
    if random.one_in(4) {
        blocked_twice(random)
    } else {
        blocked_once(random)
    }
}

/// Both ends fast, the same way, and too near each other for a stop between them: a duration just beyond the reach of
/// slowing down needs a return, and those in between are blocked.
fn blocked_once(random: &mut Random) -> Move {
    let limits = machine_limits(random);
    let mut asked = resting(random, &limits);
    let fastest = limits.v_max.min(-limits.v_min);
    let way = random.pick(&[1.0, -1.0]);
    let start = fastest * random.between(0.3, 1.0);
    let target = (start * random.between(0.8, 1.2)).min(fastest);
    asked.v0 = way * start;
    asked.vf = way * target;
    if random.one_in(2) {
        asked.a0 = spare_acceleration(random, &limits, start);
        asked.af = spare_acceleration(random, &limits, target);
    }
    let stops = stopping_distance(&limits, start) + stopping_distance(&limits, target);
    asked.pf = asked.p0 + way * stops * random.between(0.4, 0.9);
    asked
}

/// How far the axis goes on at most until it stands.
fn stopping_distance(limits: &Limits, speed: f64) -> f64 {
    let (a, j) = (limits.a_max.min(-limits.a_min), limits.j_max);
    if speed * j > a * a {
        speed * (speed / a + a / j) / 2.0
    } else {
        speed * (speed / j).sqrt()
    }
}

/// Moves with two stretches, for a jerk of 1: distance, v0, a0, vf, af and the limits of velocity and acceleration.
/// They are rare, and were found by search; those within some thousandths of them have two stretches as well.
const TWO_STRETCHES: [[f64; 7]; 4] = [
    [0.0085, -0.0509, 0.2746, 0.116, 0.5048, 0.1215, 0.5685],
    [0.0110, 0.1648, -0.6060, -0.0878, -0.3698, 0.1946, 0.8526],
    [0.1964, -0.3335, 0.6921, 0.8589, 1.37, 1.095, 1.885],
    [0.5898, 1.808, -1.984, -0.7187, -1.027, 2.302, 2.574],
];

/// One of the moves above in other units, a little changed, either way round.
fn blocked_twice(random: &mut Random) -> Move {
    let way = random.pick(&[1.0, -1.0]);
    let length = random.between(0.1, 10.0);
    let time = random.between(0.1, 2.0);
    let (speed, acceleration) = (length / time, length / (time * time));
    let units = [
        length,
        speed,
        acceleration,
        speed,
        acceleration,
        speed,
        acceleration,
    ];
    let mut numbers = random.pick(&TWO_STRETCHES);
    for (number, unit) in numbers.iter_mut().zip(units) {
        *number *= unit * (1.0 + 0.002 * random.signed_unit());
    }
    let [distance, v0, a0, vf, af, v_max, a_max] = numbers;
    let j_max = acceleration / time;
    let limits = Limits {
        v_max,
        v_min: -v_max,
        a_max,
        a_min: -a_max,
        j_max,
    };
    let start = resting(random, &limits);
    Move {
        v0: way * v0,
        a0: way * a0,
        pf: start.p0 + way * distance,
        vf: way * vf,
        af: way * af,
        ..start
    }
}

/// An `edge` or a `blocked` move with one of its numbers one place up or down.
pub fn neighbours(random: &mut Random) -> Move {
    let near = random.pick(&[edge as Maker, blocked]);
    let mut numbers = near(random).numbers();
    let place = random.below(MOVE_LENGTH as u64) as usize;
    numbers[place] = nudged(numbers[place], random.pick(&[1, -1]));
    Move::from_numbers(numbers)
}
