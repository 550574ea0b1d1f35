//! Calls of `arrival`: axes whose numbers are often equal or neighbours, whose stretches chain, or that are planned;
//! most of them well formed, others with one thing changed.

use crate::generators::moves;
use crate::random::{nudged, Random};
use answers::{plan, ArrivalCall, List, Plan, Stretch, ENDS_MOST};
use step1_exact::Choice;

#[derive(Clone, Copy)]
struct Axis {
    duration: f64,
    /// Left and right end of each.
    stretches: [[f64; 2]; 2],
}

const INFINITY: f64 = f64::INFINITY;
const TINY: f64 = 5e-324;
const ZEROS: [f64; 2] = [0.0, -0.0];

pub fn call(random: &mut Random) -> ArrivalCall {
    let count = match random.below(40) {
        0 => 0,
        1 => 9,
        2 => 10,
        _ => 1 + random.below(8) as usize,
    };
    let mut axes = match random.below(16) {
        0..5 => of_steps(random, count, |k| k as f64),
        5..7 => {
            let base = base(random);
            of_steps(random, count, |k| nudged(base, k as i64))
        }
        7 => at_zero(random, count),
        8..12 => chained(random, count),
        _ => planned(random, count),
    };
    if count > 0 && random.one_in(4) {
        let changed = random.below(count as u64) as usize;
        change(random, &mut axes[changed]);
    }
    slices(random, &axes)
}

/// Durations and ends; now and then there are too few or too many ends.
fn slices(random: &mut Random, axes: &[Axis]) -> ArrivalCall {
    let all = axes.iter().flat_map(|axis| axis.stretches).flatten();
    let mut ends: Vec<f64> = all.map(plain).collect();
    let right = ends.len();
    let length = match random.below(60) {
        0 => right + 1,
        1 => right.saturating_sub(1),
        2 => right + 4,
        3 => right.saturating_sub(4),
        4 => random.below(ENDS_MOST as u64 + 1) as usize,
        _ => right,
    };
    ends.resize(length.min(ENDS_MOST), random.pick(&[0.0, 1.0]));
    ArrivalCall {
        durations: List::of(0.0, axes.iter().map(|axis| plain(axis.duration))),
        ends: List::of(0.0, ends),
    }
}

/// Every NaN alike.
fn plain(number: f64) -> f64 {
    if number.is_nan() {
        f64::NAN
    } else {
        number
    }
}

fn missing(random: &mut Random) -> [f64; 2] {
    [random.pick(&ZEROS), random.pick(&ZEROS)]
}

/// Numbers from few, so that many are equal; left ends at the duration, and right ends at the left, among them.
fn of_steps(random: &mut Random, count: usize, value: impl Fn(u64) -> f64) -> Vec<Axis> {
    let widest = random.pick(&[2, 4, 6]);
    let from_on = random.pick(&[4, 12, 1000]);
    let stretch = |random: &mut Random, duration: u64| {
        let left = duration + random.below(widest);
        let right = left + random.below(widest + 1);
        match random.below(5) {
            0 => missing(random),
            _ if random.one_in(from_on) => [value(left), INFINITY],
            _ => [value(left), value(right)],
        }
    };
    let axis = |_| {
        let duration = random.below(widest);
        let stretches = [duration; 2].map(|duration| stretch(random, duration));
        let negative = duration == 0 && random.one_in(2);
        let zero_or_more = value(duration);
        let duration = if negative && zero_or_more == 0.0 {
            -0.0
        } else {
            zero_or_more
        };
        Axis {
            duration,
            stretches,
        }
    };
    (0..count).map(axis).collect()
}

/// Where neighbours are taken from: subnormals, where the exponent changes, the largest doubles, or any.
fn base(random: &mut Random) -> f64 {
    let places = -(random.below(16) as i64);
    match random.below(6) {
        0 => 0.0,
        1 => random.below(1000) as f64 * TINY,
        2 => nudged(f64::MIN_POSITIVE, places),
        3 => nudged(1.0, places),
        4 => nudged(f64::MAX, places),
        _ => random.size(-1000, 1000),
    }
}

/// Durations of 0 and -0, a few just above, and stretches from 0 on.
fn at_zero(random: &mut Random, count: usize) -> Vec<Axis> {
    let later = random.pick(&[2, 8, 1000]);
    let stretch = |random: &mut Random| {
        let size = random.pick(&[TINY, 2.0 * TINY, 1.0, INFINITY]);
        match random.below(4) {
            0 | 1 => missing(random),
            2 => [random.pick(&ZEROS), size],
            _ => [random.pick(&[TINY, 1.0]), 1.0],
        }
    };
    let axis = |_| {
        let mut axis = Axis {
            duration: random.pick(&ZEROS),
            stretches: [stretch(random), stretch(random)],
        };
        if random.one_in(later) {
            axis = Axis {
                duration: TINY,
                stretches: [missing(random), [TINY, random.pick(&[TINY, 1.0])]],
            };
        }
        axis
    };
    (0..count).map(axis).collect()
}

/// Stretches that take the time from one to the next, over all axes in any order, perhaps with gaps.
fn chained(random: &mut Random, count: usize) -> Vec<Axis> {
    let part = random.unit();
    let start = random.pick(&[0.25, 1.0, 7.0]) + random.pick(&[0.0, part]);
    let mut chain = chain(random, start, count);
    chain.resize(2 * count, [0.0, 0.0]);
    match random.below(3) {
        0 => (),
        1 => chain.reverse(),
        _ => shuffle(random, &mut chain),
    }
    let axis = |pair: &[[f64; 2]]| {
        let lefts = pair.iter().filter(|ends| **ends != [0.0, 0.0]);
        let bound = lefts.fold(start, |bound, ends| bound.min(ends[0]));
        let part = random.unit();
        let duration = random.pick(&[bound, bound, part * bound]);
        Axis {
            duration,
            stretches: [pair[0], pair[1]],
        }
    };
    chain.chunks(2).map(axis).collect()
}

/// Each begins below the right end before it, or, where there may be gaps, at it or above; some lie within another.
fn chain(random: &mut Random, start: f64, count: usize) -> Vec<[f64; 2]> {
    let longest = random.one_in(2);
    let gaps = random.one_in(2);
    let mut reached = start;
    let mut chain = Vec::new();
    while chain.len() < 2 * count && (longest || !random.one_in(8)) {
        let left = match random.below(8) {
            0 if gaps => reached,
            1 if gaps => nudged(reached, 1),
            0..4 => nudged(reached, -1),
            _ => reached - random.unit() / 4.0,
        };
        let part = random.unit();
        let right = reached + random.pick(&[0.25, 1.0, part]);
        chain.push([left.max(0.0), right]);
        if random.one_in(8) && chain.len() < 2 * count {
            chain.push([reached, random.pick(&[reached, right])]);
        }
        reached = right;
    }
    if let Some(last) = chain.last_mut().filter(|_| random.one_in(5)) {
        last[1] = INFINITY;
    }
    chain
}

fn shuffle<T>(random: &mut Random, items: &mut [T]) {
    for place in (1..items.len()).rev() {
        items.swap(place, random.below(place as u64 + 1) as usize);
    }
}

/// Plans of moves; some begin so much later that the longest is inside one of their stretches.
fn planned(random: &mut Random, count: usize) -> Vec<Axis> {
    let mut axes: Vec<Axis> = Vec::new();
    for _ in 0..count {
        let longest = axes
            .iter()
            .fold(0.0, |most: f64, axis| most.max(axis.duration));
        let axis = match axes.last() {
            Some(axis) if random.one_in(6) => *axis,
            _ => planned_axis(random, longest),
        };
        axes.push(axis);
    }
    shuffle(random, &mut axes);
    axes
}

fn planned_axis(random: &mut Random, longest: f64) -> Axis {
    let kinds: [moves::Maker; 8] = [
        moves::ordinary,
        moves::ordinary,
        moves::rest,
        moves::blocked,
        moves::blocked,
        moves::blocked,
        moves::blocked,
        moves::zero,
    ];
    loop {
        let mut asked = random.pick(&kinds)(random);
        let Ok(mut planned) = plan::<Choice>(&asked) else {
            continue;
        };
        if let (Some([left, right]), false) = (planned.stretches[0].0.ends(), random.one_in(3)) {
            let inside = left + (right.min(2.0 * left) - left) * random.unit();
            asked.brake += (longest - inside).max(0.0);
            planned = plan::<Choice>(&asked).unwrap_or(planned);
        }
        return axis_of(&planned);
    }
}

fn axis_of(plan: &Plan) -> Axis {
    let ends = |stretch: Stretch| stretch.ends().unwrap_or([0.0, 0.0]);
    Axis {
        duration: plan.shortest,
        stretches: plan.stretches.map(|(stretch, _)| ends(stretch)),
    }
}

/// One thing otherwise: mostly something that number 9 is for, or almost.
fn change(random: &mut Random, axis: &mut Axis) {
    let duration = axis.duration;
    let one = nudged(1.0, random.below(3) as i64 - 1);
    let stretch = &mut axis.stretches[random.below(2) as usize];
    match random.below(18) {
        0 => axis.duration = random.pick(&[-TINY, -1.0, f64::MIN]),
        1 => axis.duration = random.pick(&[f64::NAN, INFINITY, f64::NEG_INFINITY]),
        2 => axis.duration = random.pick(&[TINY, f64::MAX, 1e300, one]),
        3 => axis.duration = nudged(duration, random.pick(&[1, -1])),
        4 | 5 => {
            *stretch = [
                random.pick(&[INFINITY, f64::NAN, f64::NEG_INFINITY]),
                INFINITY,
            ]
        }
        6 | 7 => *stretch = [nudged(duration, -1), duration + 1.0],
        8 => *stretch = [duration, nudged(duration, random.pick(&[-1, 0, 1]))],
        9 => {
            *stretch = [
                duration + 1.0,
                nudged(duration + 1.0, random.pick(&[-1, 0])),
            ]
        }
        10 | 11 => stretch[1] = random.pick(&[f64::NAN, f64::NAN, f64::NEG_INFINITY]),
        12 => *stretch = [random.pick(&[one, TINY, -1.0, -TINY]), random.pick(&ZEROS)],
        13 => {
            *stretch = [
                random.pick(&ZEROS),
                random.pick(&[one, TINY, -1.0, -TINY, f64::NAN]),
            ]
        }
        14 => *stretch = [duration, INFINITY],
        15 => *stretch = [nudged(duration, 1), INFINITY],
        16 => *stretch = [duration, duration],
        _ => *stretch = missing(random),
    }
}
