//! How often the machine's own cube roots, and its cosine and sine of a third of the angle, aren't the nearest double.

use programs::command::{self, Stop};
use programs::random::Random;
use std::process::ExitCode;

type Function = fn(f64) -> f64;

/// Each function's name, the nearest double and the machine's.
const FUNCTIONS: [(&str, Function, Function); 4] = [
    ("cbrt of std", nearest::cbrt, machine::cbrt),
    ("cbrt of libc", nearest::cbrt, machine::cbrt_of_libc),
    (
        "cosine",
        |t| nearest::cosine_and_sine_of_third(t).0,
        |t| machine::cosine_and_sine_of_third(t).0,
    ),
    (
        "sine",
        |t| nearest::cosine_and_sine_of_third(t).1,
        |t| machine::cosine_and_sine_of_third(t).1,
    ),
];

fn main() -> ExitCode {
    command::count("functions SEED COUNT", |seed, count, output| {
        for (name, nearest, machine) in FUNCTIONS {
            let mut random = Random::new(seed);
            let (mut differ, mut farthest) = (0, 0);
            for _ in 0..count {
                let x = argument(name, &mut random);
                let places = nearest(x).to_bits().abs_diff(machine(x).to_bits());
                differ += u64::from(places > 0);
                farthest = farthest.max(places);
            }
            writeln!(
                output,
                "{name}: {count} arguments, {differ} differ, by {farthest} places at most"
            )?;
        }
        Ok::<(), Stop>(())
    })
}

/// Sizes as machines have them for a cube root; t from -1 to 1 for the others.
fn argument(name: &str, random: &mut Random) -> f64 {
    if name.starts_with("cbrt") {
        random.pick(&[1.0, -1.0]) * random.size(-40, 40)
    } else {
        random.signed_unit()
    }
}
