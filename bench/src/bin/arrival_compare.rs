//! Compares the archive's arrival times with the oracle's, found by brute force: `arrival_compare [COUNT [SEED]]`.
use answers::arrival::arrival as by_brute_force;
use answers::ArrivalCall;
use bench::arrivals::arrival;
use bench::{same, whole_number};
use programs::generators::arrivals::call;
use programs::random::Random;
use std::time::{Duration, Instant};

/// How many calls are drawn before they are answered.
const CHUNK: u64 = 10_000;

/// Answers by number: 0, 9 and 10.
#[derive(Default)]
struct Tally {
    times: u64,
    malformed: u64,
    never: u64,
    differences: u64,
    library: Duration,
}

fn main() {
    let words: Vec<String> = std::env::args().skip(1).collect();
    let number = |place, otherwise| whole_number(&words, place, otherwise, "arrival_compare [COUNT [SEED]]");
    let (count, seed) = (number(0, 10_000_000), number(1, 1));
    let mut random = Random::new(seed);
    let mut tally = Tally::default();
    let mut left = count;
    while left > 0 {
        let calls: Vec<ArrivalCall> = (0..left.min(CHUNK)).map(|_| call(&mut random)).collect();
        compare(&calls, &mut tally);
        left -= calls.len() as u64;
    }
    println!("{count} calls compared, {} differences", tally.differences);
    println!("{} times, {} refused 9, {} refused 10", tally.times, tally.malformed, tally.never);
    println!("{} ns a call", tally.library.as_nanos() / u128::from(count.max(1)));
    std::process::exit((tally.differences > 0) as i32);
}

/// Answers the calls, first all by the archive, which is timed.
fn compare(calls: &[ArrivalCall], tally: &mut Tally) {
    let start = Instant::now();
    let answers: Vec<_> = calls.iter().map(|call| arrival(call.durations.as_slice(), call.ends.as_slice())).collect();
    tally.library += start.elapsed();
    for (call, (number, time, axis)) in calls.iter().zip(answers) {
        let (durations, ends) = (call.durations.as_slice(), call.ends.as_slice());
        let wanted = match by_brute_force(durations, ends) {
            Ok((time, axis)) => (0, time, axis as u64),
            Err(refusal) => (u64::from(refusal), 0.0, 0),
        };
        match number {
            0 => tally.times += 1,
            9 => tally.malformed += 1,
            _ => tally.never += 1,
        }
        if (number, axis) != (wanted.0, wanted.2) || !same(time, wanted.1) {
            tally.differences += 1;
            println!("{durations:?} {ends:?}: {number} {time} {axis}, the oracle has {wanted:?}");
        }
    }
}
