//! The generators: the same from the same seed, and each kind is what its name says.

use answers::arrival::arrival;
use answers::{plan, ArrivalCall, BufferCall, Check, Move, Plan, Stretch, FAMILIES};
use programs::generators::{arrivals, blocks, buffers, checks, families, moves, quartics, replies};
use programs::oracle::Oracle;
use programs::random::Random;
use programs::records::{
    write_arrival_call, write_block_call, write_buffer_call, write_check, write_doubles,
    write_family_call, write_move, write_rest_of_input,
};
use std::collections::{BTreeMap, BTreeSet};
use step1_exact::Choice;

/// FNV-1a, to compare many bytes with one stored number.
fn digest(bytes: &[u8]) -> u64 {
    bytes.iter().fold(0xCBF2_9CE4_8422_2325, |hash, &byte| {
        (hash ^ u64::from(byte)).wrapping_mul(0x0000_0100_0000_01B3)
    })
}

fn kind(name: &str) -> moves::Maker {
    moves::KINDS
        .into_iter()
        .find(|(known, _)| *known == name)
        .unwrap()
        .1
}

/// Some moves of a kind.
fn some(name: &str) -> Vec<Move> {
    let mut random = Random::new(11);
    (0..4000).map(|_| kind(name)(&mut random)).collect()
}

fn plans(name: &str) -> Vec<Result<Plan, u8>> {
    some(name).iter().map(plan::<Choice>).collect()
}

fn share<T>(items: &[T], wanted: impl Fn(&T) -> bool) -> f64 {
    items.iter().filter(|item| wanted(item)).count() as f64 / items.len() as f64
}

#[test]
fn a_seed_always_means_the_same_moves() {
    let stored = [
        ("ordinary", 0x51B3FC4F1D5EBC99),
        ("rest", 0x1946DBB6B615DA61),
        ("zero", 0xF33B5A4601B53F9A),
        ("wild", 0xEDCAD63345173F26),
        ("scale", 0xD68BA24AFE1CE30A),
        ("edge", 0xC80C0FED6BDFC3AF),
        ("blocked", 0xDE90C98AA53CD0AC),
        ("neighbours", 0xF68F4EDFD94DC85F),
    ];
    let found = stored.map(|(name, _)| {
        let mut bytes = Vec::new();
        some(name)
            .iter()
            .for_each(|asked| write_move(&mut bytes, asked).unwrap());
        (name, digest(&bytes))
    });
    assert_eq!(found, stored);
}

#[test]
fn a_seed_always_means_the_same_inputs() {
    let mut random = Random::new(12);
    let mut bytes = Vec::new();
    for _ in 0..1000 {
        write_doubles(&mut bytes, &quartics::quartic(&mut random)).unwrap();
        write_doubles(&mut bytes, &quartics::resolvent(&mut random)).unwrap();
        write_check(&mut bytes, &checks::check(&mut random)).unwrap();
        write_family_call(&mut bytes, &families::call(&mut random)).unwrap();
    }
    assert_eq!(digest(&bytes), 0xA44A1FB577BF62F5);
}

#[test]
fn a_seed_always_means_the_same_blocks_buffers_and_rests_of_inputs() {
    let mut random = Random::new(16);
    let mut bytes = Vec::new();
    for _ in 0..1000 {
        write_block_call(&mut bytes, &blocks::call(&mut random)).unwrap();
        write_buffer_call(&mut bytes, &buffers::call(&mut random)).unwrap();
        write_rest_of_input(&mut bytes, &replies::rest_of_input(&mut random)).unwrap();
    }
    assert_eq!(digest(&bytes), 0x23B6A4DAA414DCD1);
}

#[test]
fn a_seed_always_means_the_same_arrivals() {
    let mut random = Random::new(19);
    let mut bytes = Vec::new();
    for _ in 0..1000 {
        write_arrival_call(&mut bytes, &arrivals::call(&mut random)).unwrap();
    }
    assert_eq!(digest(&bytes), 0xE07D5CD87B0F9229);
}

#[test]
fn ordinary_moves_are_planned() {
    let moves = some("ordinary");
    let both_moving = share(&moves, |asked| asked.v0 != 0.0 && asked.vf != 0.0);
    assert!((0.45..0.55).contains(&both_moving), "{both_moving}");
    assert!(share(&plans("ordinary"), Result::is_ok) > 0.95);
}

#[test]
fn resting_moves_come_to_rest() {
    let eps = f64::EPSILON;
    assert!(some("rest")
        .iter()
        .all(|asked| asked.vf.abs() < eps && asked.af.abs() < eps));
    assert!(share(&plans("rest"), Result::is_ok) > 0.95);
}

#[test]
fn zero_moves_have_a_zero_limit() {
    let zero = |asked: &Move| {
        let limits = asked.limits;
        limits.j_max == 0.0 || limits.a_max == 0.0 || limits.a_min == 0.0
    };
    assert!(some("zero").iter().all(zero));
    let from = |planned: &Result<Plan, u8>| {
        planned
            .as_ref()
            .is_ok_and(|plan| matches!(plan.stretches[0].0, Stretch::From(_)))
    };
    assert!(share(&plans("zero"), from) > 0.3);
}

#[test]
fn wild_moves_meet_refusals_1_to_4() {
    let plans = plans("wild");
    for number in 1..=4 {
        assert!(
            plans
                .iter()
                .any(|planned| planned.as_ref().err() == Some(&number)),
            "{number}"
        );
    }
}

#[test]
fn scaled_moves_span_the_exponents() {
    let sizes: Vec<f64> = some("scale")
        .iter()
        .map(|asked| asked.limits.j_max)
        .collect();
    assert!(share(&sizes, |&size| size > 1e250) > 0.001);
    assert!(share(&sizes, |&size| size < 1e-250) > 0.001);
    assert!(share(&plans("scale"), Result::is_ok) > 0.2);
}

#[test]
fn edge_moves_have_zeros_limits_and_own_targets() {
    let moves = some("edge");
    let negative_zero = |asked: &Move| {
        asked
            .numbers()
            .iter()
            .any(|number| number.to_bits() == 1 << 63)
    };
    let subnormal = |asked: &Move| asked.numbers().iter().any(|number| number.is_subnormal());
    let on_limit = |asked: &Move| {
        [asked.limits.v_max, asked.limits.v_min].contains(&asked.v0)
            || [asked.limits.a_max, asked.limits.a_min].contains(&asked.a0)
    };
    let own_target =
        |asked: &Move| asked.p0 == asked.pf && asked.v0 == asked.vf && asked.a0 == asked.af;
    for edge in [
        &negative_zero as &dyn Fn(&Move) -> bool,
        &subnormal,
        &on_limit,
        &own_target,
    ] {
        assert!(share(&moves, edge) > 0.05);
    }
    assert!(share(&plans("edge"), Result::is_ok) > 0.3);
}

#[test]
fn blocked_moves_have_stretches() {
    let plans = plans("blocked");
    let stretches = |planned: &Result<Plan, u8>| match planned {
        Ok(plan) => plan
            .stretches
            .iter()
            .filter(|(stretch, _)| *stretch != Stretch::Nothing)
            .count(),
        Err(_) => 0,
    };
    assert!(share(&plans, |planned| stretches(planned) > 0) > 0.75);
    assert!(share(&plans, |planned| stretches(planned) == 2) > 0.15);
    let five = |planned: &Result<Plan, u8>| planned.as_ref().is_ok_and(|plan| plan.accepted == 5);
    assert!(share(&plans, five) > 0.15);
}

#[test]
fn neighbours_meet_refusals_2_to_4_and_most_counts() {
    let plans = plans("neighbours");
    for number in 2..=4 {
        let refused = |planned: &Result<Plan, u8>| planned.as_ref().err() == Some(&number);
        assert!(share(&plans, refused) > 0.01, "{number}");
    }
    for count in [0, 1, 2, 3, 5] {
        let accepted =
            |planned: &Result<Plan, u8>| planned.as_ref().is_ok_and(|plan| plan.accepted == count);
        assert!(plans.iter().any(accepted), "{count}");
    }
}

#[test]
fn quartics_and_resolvents_of_every_count() {
    let oracle = Oracle::of::<Choice>();
    let mut random = Random::new(13);
    let mut quartic_counts = [0; 5];
    let mut resolvent_counts = [0; 4];
    for _ in 0..5000 {
        let roots = (oracle.quartic)(quartics::quartic(&mut random));
        quartic_counts[roots.as_slice().len()] += 1;
        resolvent_counts[(oracle.resolvent)(quartics::resolvent(&mut random)).0] += 1;
    }
    assert!(
        quartic_counts.iter().all(|&count| count > 20),
        "{quartic_counts:?}"
    );
    assert!(
        resolvent_counts[1..].iter().all(|&count| count > 20),
        "{resolvent_counts:?}"
    );
}

#[test]
fn accepted_checks_are_accepted_and_changes_refuse_them() {
    let oracle = Oracle::of::<Choice>();
    let mut random = Random::new(14);
    let accepted: Vec<Check> = (0..4000).map(|_| checks::accepted(&mut random)).collect();
    let yes = |check: &Check| (oracle.check)(check).is_some();
    for limits in 0..8 {
        let named: Vec<_> = accepted
            .iter()
            .filter(|check| check.limits == limits)
            .collect();
        assert!(share(&named, |check| yes(check)) > 0.7, "limits {limits}");
    }
    for (name, change) in checks::CHANGES {
        let mut changed = accepted.clone();
        changed
            .iter_mut()
            .for_each(|check| change(&mut random, check));
        let still = share(&changed, yes);
        assert!(still < 0.5, "{name}: {still}");
        assert!(name == "a negative time" || still > 0.0, "{name}: {still}");
    }
}

/// The phases that take time in the profiles of every family's tries.
const SHAPES: [(usize, &[&str]); 8] = [
    (0, &["1111111", "1011111", "1111101", "1011101"]),
    (1, &["1110111"]),
    (2, &["1010001", "1110001", "1010011"]),
    (3, &["0011111"]),
    (4, &["0110000", "1110000", "1110001"]),
    (5, &["1001101", "0011101"]),
    (6, &["1010000", "1000000"]),
    (7, &["0001000", "0000000"]),
];

#[test]
fn every_try_succeeds_somewhere_in_both_directions() {
    let oracle = Oracle::of::<Choice>();
    let mut random = Random::new(15);
    let mut found: BTreeMap<(usize, bool, String), usize> = BTreeMap::new();
    for _ in 0..20_000 {
        let call = families::call(&mut random);
        for profile in (oracle.family)(&call).as_slice() {
            let shape = profile
                .t
                .iter()
                .map(|&t| if t > 1e-6 { '1' } else { '0' })
                .collect();
            *found
                .entry((call.family, call.opposite, shape))
                .or_default() += 1;
        }
    }
    for (family, shapes) in SHAPES {
        for (shape, opposite) in shapes
            .iter()
            .flat_map(|shape| [(shape, false), (shape, true)])
        {
            let count = found.get(&(family, opposite, shape.to_string())).copied();
            assert!(
                count > Some(50),
                "{} {opposite} {shape}: {count:?}",
                FAMILIES[family]
            );
        }
    }
}

#[test]
fn blocks_of_every_verdict_and_blocking() {
    let oracle = Oracle::of::<Choice>();
    let mut random = Random::new(17);
    let mut refused = [0; 8];
    let mut removed = 0;
    let mut blockings: BTreeMap<Result<bool, u8>, usize> = BTreeMap::new();
    for _ in 0..4000 {
        let call = blocks::call(&mut random);
        let selected = (oracle.select)(&call.profiles, call.count as usize);
        match &selected {
            Ok(plan) => removed += usize::from(plan.accepted == 4),
            Err(number) => refused[*number as usize] += 1,
        }
        for plan in [selected.unwrap_or(Plan::EMPTY), call.given] {
            for t in call.times {
                *blockings.entry((oracle.is_blocked)(&plan, t)).or_default() += 1;
            }
        }
    }
    assert!(refused[4] > 20 && refused[5] > 100 && refused[7] > 100);
    assert!(removed > 500, "{removed}");
    for blocking in [Ok(true), Ok(false), Err(6)] {
        assert!(blockings[&blocking] > 1000, "{blockings:?}");
    }
}

#[test]
fn buffers_are_mostly_planned_in() {
    let oracle = Oracle::of::<Choice>();
    let mut random = Random::new(18);
    let calls: Vec<_> = (0..2000).map(|_| buffers::call(&mut random)).collect();
    let status = |call: &BufferCall| programs::buffers::plan(&oracle, call).0;
    assert!(share(&calls, |call| status(call) == 0) > 0.6);
    for wanted in [2, 4, programs::buffers::WRONG_LENGTH] {
        assert!(
            share(&calls, |call| status(call) == wanted) > 0.01,
            "{wanted}"
        );
    }
}

/// What number 9 is for, as far as a call has it.
fn faults(call: &ArrivalCall) -> BTreeSet<&'static str> {
    let (durations, ends) = (call.durations.as_slice(), call.ends.as_slice());
    let mut found = vec![
        (durations.is_empty(), "no axes"),
        (durations.len() > 8, "more than 8 axes"),
        (ends.len() < 4 * durations.len(), "too few ends"),
        (ends.len() > 4 * durations.len(), "too many ends"),
    ];
    for (&duration, ends) in durations.iter().zip(ends.chunks_exact(4)) {
        found.push((duration < 0.0, "a duration below 0"));
        found.push((!duration.is_finite(), "a duration not finite"));
        for stretch in ends.chunks(2).filter(|stretch| *stretch != [0.0, 0.0]) {
            let (left, right) = (stretch[0], stretch[1]);
            found.push((!left.is_finite(), "a left end not finite"));
            found.push((left < duration, "a left end below the duration"));
            found.push((right.is_nan(), "a right end NaN"));
            found.push((right < left, "a right end below the left"));
        }
    }
    let there = found.into_iter().filter(|(is_there, _)| *is_there);
    there.map(|(_, name)| name).collect()
}

#[test]
fn arrivals_of_every_verdict() {
    let mut random = Random::new(20);
    let mut verdicts: BTreeMap<Result<usize, u8>, usize> = BTreeMap::new();
    let mut alone: BTreeMap<&str, usize> = BTreeMap::new();
    for _ in 0..4000 {
        let call = arrivals::call(&mut random);
        let answer = arrival(call.durations.as_slice(), call.ends.as_slice());
        *verdicts.entry(answer.map(|(_, axis)| axis)).or_default() += 1;
        let faults = faults(&call);
        assert_eq!(answer == Err(9), !faults.is_empty(), "{call:?}");
        if let (1, Some(fault)) = (faults.len(), faults.first()) {
            *alone.entry(fault).or_default() += 1;
        }
    }
    assert_eq!(verdicts.len(), 10, "{verdicts:?}");
    assert!(verdicts.values().all(|&count| count > 10), "{verdicts:?}");
    assert_eq!(alone.len(), 10, "{alone:?}");
    assert!(alone.values().all(|&count| count > 20), "{alone:?}");
}
