//! Times the archive's elementary functions beside the machine's own, in one run: nanoseconds a call, and the ratio of each to the machine's.
use bench::Numbers;
use std::hint::black_box;
use std::time::Instant;

/// Enough that the branch predictor cannot learn the sequence.
const COUNT: usize = 65536;
const ROUNDS: usize = 20;

/// Nanoseconds a call of f, the calls independent of one another: the best of several rounds over the arguments.
fn time(arguments: &[f64], rounds: usize, f: impl Fn(f64) -> f64) -> f64 {
    let mut best = f64::INFINITY;
    for _ in 0..rounds {
        let start = Instant::now();
        let mut sum = 0.0;
        for &x in black_box(arguments) {
            sum += f(x);
        }
        black_box(sum);
        best = best.min(start.elapsed().as_nanos() as f64 / arguments.len() as f64);
    }
    best
}

fn row(name: &str, ours: f64, machine: f64) {
    println!("{name:<28} {ours:>9.1} ns {machine:>9.1} ns {:>8.1}", ours / machine);
}

fn main() {
    let mut r = Numbers(7);
    let sizes: Vec<f64> = (0..COUNT).map(|_| r.unit() * f64::powi(10.0, (r.word() % 13) as i32 - 6)).collect();
    let cosines: Vec<f64> = (0..COUNT).map(|_| 2.0 * r.unit() - 1.0).collect();
    let sqrt = time(&sizes, ROUNDS, f64::sqrt);
    let cbrt = time(&sizes, ROUNDS, f64::cbrt);
    let pair = time(&cosines, ROUNDS, |t| {
        let angle = t.acos() / 3.0;
        angle.cos() + angle.sin()
    });
    println!("{:<28} {:>12} {:>12} {:>8}", "routine", "archive", "machine", "ratio");
    row("sqrt (hardware)", time(&sizes, ROUNDS, bench::sqrt), sqrt);
    row("cbrt (std)", time(&sizes, ROUNDS, bench::cbrt), cbrt);
    let both = time(&cosines, ROUNDS, |t| {
        let (cosine, sine) = bench::third_angle_pair(t);
        cosine + sine
    });
    row("cosine and sine (libm)", both, pair);
    row("sqrt by digits", time(&sizes, 3, bench::sqrt_by_digits), sqrt);
    row("cbrt by digits", time(&sizes, 1, bench::cbrt_by_digits), cbrt);
    let by_digits = |t| bench::third_angle_cosine_by_digits(t) + bench::third_angle_sine_by_digits(t);
    row("cosine and sine by digits", time(&cosines, 1, by_digits), pair);
}
