//! Compares the archive's elementary functions with the hardware's square root and the oracle's exact functions: `elementary_compare [COUNT [SEED]]`.
use bench::{whole_number, Numbers};
use nearest::{cbrt, cosine_and_sine_of_third};

type Function = fn(f64) -> f64;

fn differences(name: &str, count: u64, mut argument: impl FnMut() -> f64, ours: Function, theirs: Function) -> u64 {
    let mut found = 0;
    for _ in 0..count {
        let x = argument();
        let (a, b) = (ours(x), theirs(x));
        if !bench::same(a, b) {
            found += 1;
            if found <= 5 {
                println!("{name}({:016X}): {:016X}, expected {:016X}", x.to_bits(), a.to_bits(), b.to_bits());
            }
        }
    }
    println!("{name}: {count} arguments, {found} differences");
    found
}

fn main() {
    let words: Vec<String> = std::env::args().skip(1).collect();
    let number = |place, otherwise| whole_number(&words, place, otherwise, "elementary_compare [COUNT [SEED]]");
    let count = number(0, 10_000_000);
    let mut r = Numbers(number(1, 1));
    let mut found = differences("sqrt", count, || r.any(), bench::sqrt, f64::sqrt);
    found += differences("cbrt", count, || r.any(), bench::cbrt, cbrt);
    let (cosine, sine): (Function, Function) = (|t| cosine_and_sine_of_third(t).0, |t| cosine_and_sine_of_third(t).1);
    found += differences("cosine of third_angle_pair", count, || r.cosine(), |t| bench::third_angle_pair(t).0, cosine);
    found += differences("sine of third_angle_pair", count, || r.cosine(), |t| bench::third_angle_pair(t).1, sine);
    let few = count / 100;
    found += differences("sqrt_by_digits", few, || r.any(), bench::sqrt_by_digits, f64::sqrt);
    found += differences("cbrt_by_digits", few, || r.any(), bench::cbrt_by_digits, cbrt);
    let (cosine_by_digits, sine_by_digits) = (bench::third_angle_cosine_by_digits, bench::third_angle_sine_by_digits);
    found += differences("third_angle_cosine_by_digits", few, || r.cosine(), cosine_by_digits, cosine);
    found += differences("third_angle_sine_by_digits", few, || r.cosine(), sine_by_digits, sine);
    std::process::exit((found > 0) as i32);
}
