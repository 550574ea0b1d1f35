//! Inputs on the borders of what the Rust compares: exact motions in short binary fractions, numbers at the thresholds,
//! tiny and huge checks, quartics with multiple roots.

use crate::asked::Asked;
use answers::{Check, FamilyCall, Limits, Move, MOVE_LENGTH};
use programs::generators::motion::{State, JERK_SIGNS};
use programs::generators::{checks, moves};
use programs::random::{nudged, power_of_two, Random};
use programs::records::write_move;

const EPS: f64 = f64::EPSILON;

pub fn drawn(random: &mut Random) -> Asked {
    match random.below(16) {
        0 => record(&at_thresholds(random)),
        1 => record(&too_small(random)),
        2 => record(&too_fast(random)),
        3..6 => {
            let asked = exact_motion(random);
            if random.one_in(2) {
                record(&asked)
            } else {
                family_call(random, asked)
            }
        }
        6..8 => record(&exact_rest(random)),
        8..10 => Asked::Check(check(random)),
        10..12 => by_its_quartic(random),
        12 => {
            let asked = at_thresholds(random);
            family_call(random, asked)
        }
        _ => Asked::Quartic(quartic(random)),
    }
}

fn record(asked: &Move) -> Asked {
    let mut bytes = Vec::new();
    write_move(&mut bytes, asked).expect("memory takes all bytes");
    Asked::Record(bytes, true)
}

fn family_call(random: &mut Random, asked: Move) -> Asked {
    let zero = asked.limits.j_max == 0.0;
    let call = FamilyCall {
        asked,
        family: if zero {
            7
        } else {
            random.pick(&[0, 1, 2, 2, 2, 2, 3, 4, 5, 6])
        },
        opposite: random.one_in(2),
        return_after_found: random.one_in(2),
        counted: if random.one_in(8) {
            random.below(6) as usize
        } else {
            0
        },
    };
    Asked::Family(call.as_planned())
}

/// Numbers at and beside the thresholds.
fn at_thresholds(random: &mut Random) -> Move {
    let small = [
        0.0,
        -0.0,
        EPS,
        -EPS,
        EPS / 2.0,
        2.0 * EPS,
        1.5 * EPS,
        -1.5 * EPS,
        0.75 * EPS,
        1e-8,
        1e-10,
        1e-12,
    ];
    let mut numbers = [0.0; MOVE_LENGTH];
    for number in &mut numbers[..6] {
        *number = match random.below(4) {
            0 => random.pick(&[1.0, -1.0, 0.5, 2.0]),
            1 => 0.0,
            _ => nudged(random.pick(&small), random.pick(&[0, 0, 1, -1])),
        };
    }
    for (place, sign) in [(6, 1.0), (7, -1.0), (8, 1.0), (9, -1.0), (10, 1.0)] {
        numbers[place] = sign * random.pick(&[1.0, 2.0, 0.5, 1.0, 1e-8]);
    }
    if random.one_in(2) {
        numbers[random.pick(&[8, 9, 10])] = 0.0;
    }
    if random.one_in(2) {
        (numbers[3], numbers[5]) = (numbers[0], numbers[2]);
    }
    if random.one_in(2) {
        numbers[4] = numbers[1];
    }
    if random.one_in(2) {
        numbers[3] = numbers[0] + random.pick(&small);
    }
    Move::from_numbers(numbers)
}

/// A move so small that the precisions take in what is wrong: several families find a motion.
fn too_small(random: &mut Random) -> Move {
    let (_, make) = random.pick(&moves::KINDS);
    let mut asked = match random.below(3) {
        0 => make(random),
        1 => exact_rest(random),
        _ => exact_motion(random),
    };
    if random.one_in(3) {
        // Just too fast for the families that speed up first.
        asked.v0 = random.pick(&[asked.limits.v_max, asked.limits.v_min])
            * random.pick(&[1.0 + 1e-13, 1.0 + EPS, 1.5, 2.0]);
    }
    if random.one_in(4) {
        asked.a0 = random.pick(&[0.0, asked.limits.a_max, asked.limits.a_min]);
    }
    let (length, time) = (
        -(random.below(45) as i64) - 20,
        random.pick(&[0, 0, 0, 3, -3, 6, -6]),
    );
    scaled(&asked, length, time)
}

/// A move just too fast for the families that speed up first, and so slow that the precisions take in every velocity.
fn too_fast(random: &mut Random) -> Move {
    let speed = random.size(-44, -28);
    let mut part = |low: f64, high: f64| random.between(low, high);
    let (v_max, v_min) = (speed * part(0.2, 1.0), -speed * part(0.0, 1.0));
    let (v0, vf) = (v_max + 1e-12 * part(0.0, 1.0), part(v_min, v_max));
    let j_max = part(0.5, 4.0);
    let pf = speed * (speed / j_max).sqrt() * part(-3.0, 3.0);
    let mut asked = Move {
        p0: 0.0,
        v0,
        a0: 0.0,
        pf,
        vf,
        af: 0.0,
        limits: Limits {
            v_max,
            v_min,
            a_max: part(0.1, 2.0),
            a_min: -part(0.1, 2.0),
            j_max,
        },
        brake: 0.0,
        accel: 0.0,
    };
    if random.one_in(3) {
        asked.a0 = random.signed_unit() * random.size(-40, -20);
    }
    if random.one_in(3) {
        asked.af = random.signed_unit() * random.size(-40, -20);
    }
    if random.one_in(2) {
        let root = (speed * j_max).sqrt();
        (asked.limits.a_max, asked.limits.a_min) = (
            root * random.between(0.1, 2.0),
            -root * random.between(0.1, 2.0),
        );
    }
    if random.one_in(2) {
        asked = turned(&asked);
    }
    asked
}

/// A short binary fraction.
fn short(random: &mut Random, most: u64, of: f64) -> f64 {
    random.below(most + 1) as f64 / of
}

/// A motion that is computed exactly, with limits that it just reaches.
fn exact_motion(random: &mut Random) -> Move {
    let jerk = random.pick(&[0.5, 1.0, 1.0, 2.0, 4.0]);
    let unit = random.pick(&[0.75, 1.5, 0.5, 1.0, 3.0, 0.25]);
    let mut rows = [State {
        p: 0.0,
        v: short(random, 8, 2.0) - 2.0,
        a: short(random, 8, 2.0) - 2.0,
    }; 8];
    let signs = JERK_SIGNS[0];
    let zeros = random.bits();
    for i in 0..7 {
        let to_zero = -rows[i].a / (signs[i] * jerk);
        let t = match random.below(6) {
            _ if zeros >> (2 * i) & 3 == 0 => 0.0,
            0 | 1 if to_zero > 0.0 && to_zero.is_finite() => to_zero,
            _ => unit * random.below(4) as f64,
        };
        rows[i + 1] = rows[i].after(t, signs[i] * jerk);
    }
    let most = |of: fn(&State) -> f64, from: f64| rows.iter().map(of).fold(from, f64::max);
    let (fast, slow) = (most(|row| row.v, 0.25), most(|row| -row.v, 0.25));
    let (up, down) = (most(|row| row.a, 0.25), most(|row| -row.a, 0.25));
    let mut wide = |number: f64| number + random.pick(&[0.0, 0.0, 0.0, 0.5, 2.0]);
    let mut limits = Limits {
        v_max: wide(fast),
        v_min: -wide(slow),
        a_max: wide(up),
        a_min: -wide(down),
        j_max: jerk,
    };
    // Rows before the one that reaches a limit can lie beyond it.
    if random.one_in(4) && rows[3].v > 0.0 {
        limits.v_max = rows[3].v;
    }
    if random.one_in(4) && rows[1].a > 0.0 {
        limits.a_max = rows[1].a;
    }
    if random.one_in(3) && rows[5].a < 0.0 {
        limits.a_min = rows[5].a;
    }
    let mut asked = Move {
        p0: 0.0,
        v0: rows[0].v,
        a0: rows[0].a,
        pf: rows[7].p,
        vf: rows[7].v,
        af: rows[7].a,
        limits,
        brake: 0.0,
        accel: 0.0,
    };
    if random.one_in(2) {
        asked = turned(&asked);
    }
    if random.one_in(2) {
        let (length, time) = (random.below(101) as i64 - 60, random.below(21) as i64 - 10);
        let time = random.pick(&[0, time]);
        asked = scaled(&asked, length, time);
    }
    if random.one_in(4) {
        let mut numbers = asked.numbers();
        let place = random.below(11) as usize;
        numbers[place] = nudged(numbers[place], random.pick(&[1, -1]));
        asked = Move::from_numbers(numbers);
    }
    asked
}

/// Coming to rest, in short binary fractions.
fn exact_rest(random: &mut Random) -> Move {
    let mut asked = exact_motion(random);
    (asked.vf, asked.af) = (0.0, 0.0);
    if random.one_in(2) {
        asked.pf = (random.below(65) as f64 - 32.0) / 8.0;
    }
    asked
}

/// A move that the ACC0 try solves, from what its quartic is when shifted to the least time: its coefficients there are
/// near 0, on either side.
fn by_its_quartic(random: &mut Random) -> Asked {
    let j = 1.0;
    let t_min = (1 + random.below(16)) as f64 / 8.0 - random.pick(&[0.0, 0.0, 1.0]);
    let mut near_zero = |size: f64| match random.below(3) {
        0 => 0.0,
        1 => (random.below(17) as f64 - 8.0) / 8.0 * size,
        _ => random.signed_unit() * size,
    };
    let (first, second, further) = (near_zero(1.0), near_zero(1.0), near_zero(0.25).abs());
    let a = first - 4.0 * t_min;
    let b = second - (3.0 * a + 6.0 * t_min) * t_min;
    let a_max = -a * j / 2.0;
    let af = a_max - t_min * j;
    let vf = (b * j * j + af * af - a_max * a_max) / (2.0 * j);
    let times = [
        random.pick(&[0.0, 0.5, 1.0, 0.25]),
        random.pick(&[0.25, 0.5, 1.0, 2.0]),
        t_min.max(0.0)
            + random.pick(&[0.0, 0.125, 0.25, 0.5, 0.75, 1.0])
            + random.pick(&[0.0, further]),
    ];
    let start = State {
        p: 0.0,
        v: 0.0,
        a: a_max - j * times[0],
    };
    let rows = [0, 1, 2]
        .into_iter()
        .fold(start, |row, i| row.after(times[i], [j, 0.0, -j][i]));
    let end = rows.after(times[2] - t_min, j);
    let mut asked = Move {
        p0: 0.0,
        v0: vf - end.v,
        a0: start.a,
        pf: end.p + (vf - end.v) * (times.iter().sum::<f64>() + times[2] - t_min),
        vf,
        af,
        limits: Limits {
            v_max: 100.0,
            v_min: -100.0,
            a_max,
            a_min: -100.0,
            j_max: j,
        },
        brake: 0.0,
        accel: 0.0,
    };
    if random.one_in(4) {
        let (length, time) = (random.below(41) as i64 - 20, random.below(11) as i64 - 5);
        asked = scaled(&asked, length, time);
    }
    Asked::Family(FamilyCall {
        asked,
        family: 2,
        opposite: false,
        return_after_found: false,
        counted: 0,
    })
}

/// The other way round.
pub fn turned(asked: &Move) -> Move {
    let l = asked.limits;
    Move {
        p0: -asked.p0,
        v0: -asked.v0,
        a0: -asked.a0,
        pf: -asked.pf,
        vf: -asked.vf,
        af: -asked.af,
        limits: Limits {
            v_max: -l.v_min,
            v_min: -l.v_max,
            a_max: -l.a_min,
            a_min: -l.a_max,
            j_max: l.j_max,
        },
        ..*asked
    }
}

/// In other units of length and time.
fn scaled(asked: &Move, length: i64, time: i64) -> Move {
    let mut numbers = asked.numbers();
    let orders = [0, 1, 2, 0, 1, 2, 1, 1, 2, 2, 3];
    for (number, order) in numbers.iter_mut().zip(orders) {
        *number *= power_of_two(length + time * order);
    }
    Move::from_numbers(numbers)
}

/// An accepted check with phases left out, or tiny, or huge; its end is its target, and a limit lies beside a row.
fn check(random: &mut Random) -> Check {
    let mut check = checks::accepted(random);
    match random.below(6) {
        0 => {
            let zeros = random.bits();
            (0..7)
                .filter(|phase| zeros >> phase & 1 == 1)
                .for_each(|phase| check.t[phase] = 0.0);
        }
        1 | 2 => tiny(random, &mut check),
        3 => huge(random, &mut check),
        4 => {
            let rest = [0.0, 0.0, 0.0, 0.0, 0.0, 0.0];
            check.t = [0.0; 7];
            check.boundary = rest;
            check.limits = 7;
            let place = 3 + random.below(3) as usize;
            check.boundary[place] = nudged(
                random.pick(&[1e-8, -1e-8, 1e-10, -1e-10]),
                random.pick(&[0, 1, -1]),
            );
            return check;
        }
        _ => (),
    }
    checks::aim(&mut check);
    if random.one_in(2) {
        let rows = checks::rows(&check);
        let row = rows[random.below(8) as usize];
        let down = check.bounds[0] <= 0.0;
        let upper = random.one_in(2);
        let (pair, number) = if random.one_in(4) {
            (2, row.a)
        } else {
            (0, row.v)
        };
        let bound = number + if upper { -1e-12 } else { 1e-12 };
        check.bounds[pair + usize::from(upper == down)] = nudged(bound, random.below(9) as i64 - 4);
    }
    check
}

/// Accelerations so small that their product stays near EPS.
fn tiny(random: &mut Random, check: &mut Check) {
    check.jf = check.jf.signum() * random.size(-20, 0);
    check.boundary[2] = random.signed_unit() * random.size(-28, -24);
    check.limits = random.pick(&[7, 7, 7, 3, 2]);
    for t in &mut check.t {
        *t = if random.one_in(3) {
            0.0
        } else {
            random.unit() * random.size(-28, -24) / check.jf.abs()
        };
    }
    if random.one_in(2) {
        check.t[1] = random.unit();
        check.t[3] = random.unit();
        check.t[5] = random.unit();
    }
}

/// Squares of accelerations overflow, and twice the jerk.
fn huge(random: &mut Random, check: &mut Check) {
    let jerk = check.jf.signum() * random.between(0.6, 1.0) * 1.7e308;
    let size = random.size(512, 520);
    check.jf = jerk;
    check.limits = random.pick(&[7, 7, 3]);
    check.boundary[2] = random.signed_unit() * size;
    for t in &mut check.t {
        *t = if random.one_in(2) {
            0.0
        } else {
            2.0 * random.unit() * size / jerk.abs()
        };
    }
    let up = check.bounds[0].signum();
    check.bounds[2] = up * 1e300;
    check.bounds[3] = -up * 1e300;
}

/// Two factors with a root or a constant in common, scaled, some places beside.
fn quartic(random: &mut Random) -> [f64; 4] {
    let short = |random: &mut Random| match random.below(3) {
        0 => random.signed_unit(),
        _ => (random.below(33) as f64 - 16.0) / 4.0,
    };
    let r = short(random);
    let (p, q) = (short(random), short(random));
    let (one, two) = match random.below(5) {
        // A double root.
        0 | 1 => ((-2.0 * r, r * r), (p, q)),
        // A triple root.
        2 => ((-2.0 * r, r * r), (0.0, -r * r)),
        // Equal constants.
        3 => ((p, q), (if random.one_in(2) { 0.0 } else { r }, q)),
        // A root and its double.
        _ => ((-r - p, r * p), (-r - q, r * q)),
    };
    let mut f = [
        one.0 + two.0,
        one.1 + two.1 + one.0 * two.0,
        one.0 * two.1 + two.0 * one.1,
        one.1 * two.1,
    ];
    let scale = if random.one_in(2) {
        1.0
    } else {
        power_of_two(random.below(40) as i64 - 28)
    };
    for (place, number) in f.iter_mut().enumerate() {
        for _ in 0..=place {
            *number *= scale;
        }
    }
    for _ in 0..random.below(4) {
        let place = random.below(4) as usize;
        f[place] = nudged(f[place], random.below(9) as i64 - 4);
    }
    if random.one_in(16) {
        f[0] = nudged(power_of_two(-26), random.below(5) as i64 - 2);
    }
    f
}
