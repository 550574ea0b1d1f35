//! Document 01's program: moves in, one line for each plan or refusal.

use programs::{command, lines, plans};
use std::process::ExitCode;

fn main() -> ExitCode {
    let usage = "plan_moves [--functions exact|std|libc] < MOVES";
    command::answer(usage, &[], |oracle, _, input, output| {
        output.write_all(b"plan 1\n")?;
        plans::answer_moves(oracle, input, output, lines::short_plan)
    })
}
