//! Calls of the selection: totals equal, beside a threshold of the removal rules, or anything; brakes that make ends
//! equal or reverse them; a block given; and times beside all of these.

use crate::random::{nudged, Random};
use answers::{BlockCall, Plan, Profile, Stretch};

const NOT_FINITE: [f64; 3] = [f64::NAN, f64::INFINITY, f64::NEG_INFINITY];

pub fn call(random: &mut Random) -> BlockCall {
    let count = match random.below(32) {
        0 => random.below(256) as u8,
        1 => random.pick(&[0, 6, 7]),
        _ => random.pick(&[1, 2, 2, 2, 3, 3, 4, 4, 4, 4, 4, 5, 5, 5]),
    };
    let profiles = profiles(random);
    let given = given(random);
    let times = [0.0; 4].map(|_: f64| plain(time(random, &profiles, &given)));
    BlockCall {
        count,
        profiles,
        given,
        times,
    }
}

fn profiles(random: &mut Random) -> [Profile; 6] {
    let mut profiles = [Profile::EMPTY; 6];
    let durations = random.below(4);
    for k in 0..6 {
        let total = if k > 0 && !random.one_in(3) {
            let like = random.below(k as u64) as usize;
            near(random, profiles[like].t_sum[6])
        } else {
            some(random)
        };
        profiles[k].t_sum[6] = plain(total);
        profiles[k].pf = (k + 1) as f64;
        profiles[k].direction = random.below(2) as usize;
        (profiles[k].brake, profiles[k].accel) = match durations {
            0 | 1 => (0.0, 0.0),
            // Together they all take about as long.
            2 => (plain(16.0 - total), random.pick(&[0.0, f64::EPSILON])),
            _ => (any_duration(random), any_duration(random)),
        };
    }
    profiles
}

/// The sign of a NaN that arithmetic makes differs between machines.
fn plain(number: f64) -> f64 {
    if number.is_nan() {
        f64::NAN
    } else {
        number
    }
}

/// A total on its own.
fn some(random: &mut Random) -> f64 {
    match random.below(12) {
        0 => random.pick(&NOT_FINITE),
        1 => random.pick(&[0.0, -0.0, -1.0, 1e-12, 1e12]),
        2 => random.size(-60, 60),
        3 => random.size(-12, 0),
        4 => 8.0 * random.unit(),
        _ => (1 + random.below(40)) as f64 / 8.0,
    }
}

/// A total near another: equal, or a threshold of the selection's rules apart, or a place beside that.
fn near(random: &mut Random, other: f64) -> f64 {
    let eps = f64::EPSILON;
    let relative = 1e-12 * (1.0 + other.abs());
    let apart = random.pick(&[
        0.0,
        8.0 * eps,
        32.0 * eps,
        256.0 * eps,
        1e-12,
        relative,
        relative,
    ]);
    let apart = apart * random.pick(&[1.0, 1.0, 1.0, 0.5, 2.0]);
    let places = random.pick(&[0, 0, 1, -1, 2, -2]);
    nudged(other + random.pick(&[apart, -apart]), places)
}

fn any_duration(random: &mut Random) -> f64 {
    match random.below(16) {
        0 => random.pick(&NOT_FINITE),
        1 => random.pick(&[-1.0, 1e12, 5e-324]),
        2..8 => 4.0 * random.unit(),
        _ => random.pick(&[0.0, 0.5, 1.0]),
    }
}

fn given(random: &mut Random) -> Plan {
    let mut stretches = [(Stretch::Nothing, Profile::EMPTY); 2];
    for (stretch, _) in &mut stretches {
        let (left, right) = (end(random), end(random));
        *stretch = match random.below(8) {
            0 => Stretch::Nothing,
            1 | 2 => Stretch::From(left),
            3 => Stretch::Between(left, right),
            // The right way round.
            _ => Stretch::Between(left.min(right), left.max(right)),
        };
    }
    Plan {
        shortest: end(random),
        stretches,
        ..Plan::EMPTY
    }
}

fn end(random: &mut Random) -> f64 {
    if random.one_in(12) {
        random.pick(&[f64::NAN, f64::INFINITY, f64::NEG_INFINITY, 0.0, -0.0])
    } else {
        random.below(24) as f64 / 4.0
    }
}

/// A time beside an end, a duration or a total, or any.
fn time(random: &mut Random, profiles: &[Profile; 6], given: &Plan) -> f64 {
    let profile = random.pick(profiles);
    let (stretch, _) = random.pick(&given.stretches);
    let places = random.pick(&[0, 0, 1, -1]);
    let [left, right] = stretch.ends().unwrap_or([1.0, 2.0]);
    match random.below(16) {
        0 => random.pick(&NOT_FINITE),
        1..6 => nudged(profile.t_sum[6] + profile.brake + profile.accel, places),
        6 => nudged(profile.t_sum[6], places),
        7 => nudged(given.shortest, places),
        8 | 9 => nudged(left, places),
        10 | 11 => nudged(right, places),
        12 => left + (right - left) * random.unit(),
        _ => random.between(-1.0, 12.0),
    }
}
