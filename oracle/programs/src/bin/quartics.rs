//! Coefficients in, the root list of `solve_quart_monic_coeffs` or the answer of `solve_resolvent` out.

use programs::command;
use programs::records::read_doubles;
use std::process::ExitCode;

fn main() -> ExitCode {
    let usage = "quartics [--functions exact|std|libc] [--resolvent] < COEFFICIENTS";
    command::answer(usage, &["--resolvent"], |oracle, options, input, output| {
        if options.is_empty() {
            command::answer_each(input, output, read_doubles, |coefficients, line| {
                let roots = (oracle.quartic)(coefficients);
                line.count(roots.as_slice().len()).doubles(roots.as_slice());
            })
        } else {
            command::answer_each(input, output, read_doubles, |coefficients, line| {
                let (count, numbers) = (oracle.resolvent)(coefficients);
                line.count(count).doubles(&numbers);
            })
        }
    })
}
