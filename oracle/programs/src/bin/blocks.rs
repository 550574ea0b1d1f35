//! Calls of the selection in, the block that it makes and what `is_blocked` says of some times out.

use answers::Plan;
use programs::command;
use programs::lines::{selected_plan, Line};
use programs::oracle::Oracle;
use programs::records::read_block_call;
use std::process::ExitCode;

fn main() -> ExitCode {
    let usage = "blocks [--functions exact|std|libc] < BLOCK_CALLS";
    command::answer(usage, &[], |oracle, _, input, output| {
        command::answer_each(input, output, read_block_call, |call, line| {
            let selected = (oracle.select)(&call.profiles, call.count as usize);
            match &selected {
                Ok(plan) => selected_plan(line, plan),
                Err(refusal) => {
                    line.refusal(*refusal);
                }
            }
            blockings(oracle, &selected.unwrap_or(Plan::EMPTY), &call.times, line);
            blockings(oracle, &call.given, &call.times, line);
        })
    })
}

/// What `is_blocked` says of each time.
fn blockings(oracle: &Oracle, plan: &Plan, times: &[f64], line: &mut Line) {
    for &t in times {
        match (oracle.is_blocked)(plan, t) {
            Ok(true) => line.word("blocked"),
            Ok(false) => line.word("free"),
            Err(refusal) => line.refusal(refusal),
        };
    }
}
