//! What the roots of the plans cost: the Rust's calls of the four functions, recorded and replayed.

use crate::clock::Blocks;
use answers::{Move, Step1};
use std::cell::RefCell;
use std::hint::black_box;

/// The arguments of every call.
#[derive(Default)]
pub struct Told {
    sqrt: Vec<f64>,
    cbrt: Vec<f64>,
    pair: Vec<f64>,
}

thread_local! {
    static TOLD: RefCell<Told> = RefCell::default();
}

#[no_mangle]
fn plan_time_sqrt(x: f64) {
    TOLD.with_borrow_mut(|told| told.sqrt.push(x));
}

#[no_mangle]
fn plan_time_cbrt(x: f64) {
    TOLD.with_borrow_mut(|told| told.cbrt.push(x));
}

#[no_mangle]
fn plan_time_third_angle_pair(t: f64) {
    TOLD.with_borrow_mut(|told| told.pair.push(t));
}

/// The arguments of all plans.
pub fn told_by(moves: &[Move]) -> Told {
    for asked in moves {
        let _ = black_box(step1_recorded::Choice::get_profile(asked));
    }
    TOLD.take()
}

/// One round of a function over its arguments.
type Replay<'a> = &'a dyn Fn(&mut Blocks, &[f64]);

/// Calls a plan, and nanoseconds a call in the library and in the Rust.
struct Row {
    name: &'static str,
    calls: f64,
    library: f64,
    rust: f64,
}

impl Row {
    fn new(name: &'static str, arguments: &[f64], plans: usize, rounds: usize, sides: [Replay; 2]) -> Row {
        let mut times = [Blocks::new(arguments.len()), Blocks::new(arguments.len())];
        for _ in 0..rounds {
            for (time, side) in times.iter_mut().zip(sides) {
                side(time, arguments);
            }
        }
        assert_eq!(times[0].checksum, times[1].checksum, "{name}: the two sides' results differ");
        Row { name, calls: arguments.len() as f64 / plans as f64, library: times[0].each(), rust: times[1].each() }
    }
}

/// A NaN's bits are not the same on both sides.
#[inline(always)]
fn seen(x: f64) -> u64 {
    if x.is_nan() {
        1
    } else {
        x.to_bits()
    }
}

#[inline(always)]
fn both((cosine, sine): (f64, f64)) -> u64 {
    seen(cosine) ^ seen(sine)
}

/// Prints the table; gives the nanoseconds a plan spends in the functions, in the library and in the Rust.
pub fn table(told: &Told, plans: usize, rounds: usize) -> [f64; 2] {
    let rows = [
        Row::new("sqrt", &told.sqrt, plans, rounds, [
            &|times, x| times.round(|i| seen(bench::sqrt(x[i]))),
            &|times, x| times.round(|i| seen(x[i].sqrt())),
        ]),
        Row::new("cbrt", &told.cbrt, plans, rounds, [
            &|times, x| times.round(|i| seen(bench::cbrt(x[i]))),
            &|times, x| times.round(|i| seen(routines::cbrt(x[i]))),
        ]),
        Row::new("third-angle pair", &told.pair, plans, rounds, [
            &|times, x| times.round(|i| both(bench::third_angle_pair(x[i]))),
            &|times, x| times.round(|i| both(routines::third_angle_pair(x[i]))),
        ]),
    ];
    println!("{:<28} {:>12} {:>12} {:>12}", "function", "calls a plan", "library, ns", "Rust, ns");
    for row in &rows {
        println!("{:<28} {:>12.2} {:>12.1} {:>12.1}", row.name, row.calls, row.library, row.rust);
    }
    let sum = |f: fn(&Row) -> f64| rows.iter().map(|row| if row.calls > 0.0 { row.calls * f(row) } else { 0.0 }).sum();
    [sum(|row| row.library), sum(|row| row.rust)]
}
