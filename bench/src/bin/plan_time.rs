//! Times the library's planning beside the Rust's, in one run: `plan_time [SEED [ROUNDS]]`; or a program that plans records beside the
//! library: `plan_time --program PATH [SEED [RECORDS]]`.

#[path = "../plan_time_clock.rs"]
mod clock;
#[path = "../plan_time_planners.rs"]
mod planners;
#[path = "../plan_time_program.rs"]
mod program;
#[path = "../plan_time_roots.rs"]
mod roots;

use answers::{Move, MOVE_LENGTH};
use bench::whole_number;
use clock::{Blocks, Singles};
use planners::{fresh, reused, Answer, Library};
use programs::generators::moves::ordinary;
use programs::random::Random;
use step1_same::choice::planner_for;

/// Enough that the branch predictor cannot learn the sequence.
const COUNT: usize = 65536;
const SEED: u64 = 8;
const ROUNDS: usize = 15;
const RECORDS: usize = 1_000_000;

/// The first `COUNT` moves of the kind `ordinary` that the Rust accepts.
fn accepted_moves(seed: u64) -> Vec<Move> {
    let mut random = Random::new(seed);
    let accepted = |asked: &Move| answers::plan::<step1_same::Choice>(asked).is_ok();
    std::iter::repeat_with(|| ordinary(&mut random)).filter(accepted).take(COUNT).collect()
}

#[inline(always)]
fn folded(answer: Answer) -> u64 {
    answer.verdict.wrapping_mul(0x9E37_79B9_7F4A_7C15) ^ answer.shortest.to_bits()
}

/// Nanoseconds a plan: of the library, the Rust, and the Rust whose planner is used again.
fn means(moves: &[Move], numbers: &[[f64; MOVE_LENGTH]], rounds: usize) -> [f64; 3] {
    let mut library = Library::new();
    let mut planner = planner_for(&moves[0]);
    let mut times = [Blocks::new(moves.len()), Blocks::new(moves.len()), Blocks::new(moves.len())];
    for _ in 0..rounds {
        times[0].round(|i| folded(library.answer(&numbers[i])));
        times[1].round(|i| folded(fresh(&moves[i])));
        times[2].round(|i| folded(reused(&mut planner, &moves[i])));
    }
    let [a, b, c] = times.each_ref().map(|times| times.checksum);
    assert!(a == b && b == c, "verdicts or durations differ: {a:016X} {b:016X} {c:016X}");
    println!("{} accepted moves of the kind ordinary; checksum of verdicts and durations {a:016X} on every side", moves.len());
    times.map(|times| times.each())
}

/// The times of single plans, each of the library and of the Rust.
struct Tails {
    /// The 99.9th percentile.
    percentile: [u64; 2],
    /// The move that took longest, and its time.
    worst: [(usize, u64); 2],
    /// What the clock alone takes.
    clock: u64,
}

fn tails(moves: &[Move], numbers: &[[f64; MOVE_LENGTH]], rounds: usize) -> Tails {
    let mut library = Library::new();
    let mut times = [Singles::new(moves.len()), Singles::new(moves.len()), Singles::new(moves.len())];
    for _ in 0..rounds {
        times[0].round(|i| folded(library.answer(&numbers[i])));
        times[1].round(|i| folded(fresh(&moves[i])));
        times[2].round(|i| i as u64);
    }
    let [library, rust, clock] = &times;
    Tails {
        percentile: [library.all_but_one_in(1000), rust.all_but_one_in(1000)],
        worst: [library.worst(), rust.worst()],
        clock: clock.all_but_one_in(2),
    }
}

fn compare(seed: u64, rounds: usize) {
    let moves = accepted_moves(seed);
    let numbers: Vec<[f64; MOVE_LENGTH]> = moves.iter().map(Move::numbers).collect();
    println!("seed {seed}, best of {rounds} rounds");
    let [library, rust, again] = means(&moves, &numbers, rounds);
    println!("{:<28} {library:>9.0} ns a plan", "library");
    println!("{:<28} {rust:>9.0} ns a plan, ratio {:.2}", "Rust, fresh planner", library / rust);
    println!("{:<28} {again:>9.0} ns a plan, ratio {:.2}", "Rust, planner used again", library / again);
    let [in_library, in_rust] = roots::table(&roots::told_by(&moves), moves.len(), rounds);
    let share = |part: f64, whole: f64| 100.0 * part / whole;
    println!("{:<28} {in_library:>9.0} ns a plan, {:.0} %", "roots in the library", share(in_library, library));
    println!("{:<28} {in_rust:>9.0} ns a plan, {:.0} %", "roots in the Rust", share(in_rust, rust));
    let rest = (library - in_library) / (rust - in_rust);
    println!("{:<28} {:>9.0} ns a plan, and {:.0} in the Rust: ratio {rest:.2}", "all but roots", library - in_library, rust - in_rust);
    let Tails { percentile, worst, clock } = tails(&moves, &numbers, rounds);
    for (name, time) in ["library", "Rust"].into_iter().zip(percentile) {
        println!("{:<28} {time:>9} ns (the clock's {clock} included)", format!("99.9 % of plans, {name}"));
    }
    for (name, (place, time)) in ["library", "Rust"].into_iter().zip(worst) {
        println!("{:<28} {time:>9} ns, move {place} (the clock's {clock} included)", format!("worst plan, {name}"));
    }
}

const USAGE: &str = "plan_time [SEED [ROUNDS]], or plan_time --program PATH [SEED [RECORDS]]";

fn stop(message: &str) -> ! {
    eprintln!("{message}");
    std::process::exit(2)
}

fn main() {
    let words: Vec<String> = std::env::args().skip(1).collect();
    let number = |place, otherwise| whole_number(&words, place, otherwise, USAGE);
    if words.first().is_some_and(|word| word == "--program") {
        let Some(path) = words.get(1) else { stop(&format!("usage: {USAGE}")) };
        let (seed, records) = (number(2, SEED), number(3, RECORDS as u64));
        program::time(path, seed, records as usize).unwrap_or_else(|error| stop(&format!("{path}: {error}")));
    } else {
        compare(number(0, SEED), number(1, ROUNDS as u64) as usize);
    }
}
