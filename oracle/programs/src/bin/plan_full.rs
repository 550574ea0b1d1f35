//! Moves in, one line with every number of each plan.

use programs::{command, lines, plans};
use std::process::ExitCode;

fn main() -> ExitCode {
    let usage = "plan_full [--functions exact|std|libc] < MOVES";
    command::answer(usage, &[], |oracle, _, input, output| {
        plans::answer_moves(oracle, input, output, lines::full_plan)
    })
}
