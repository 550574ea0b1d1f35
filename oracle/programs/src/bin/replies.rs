//! What is left of inputs in: how `plan_moves` answers the first record of each, and whether it goes on.

use programs::records::{read_move, read_rest_of_input};
use programs::{command, lines};
use std::process::ExitCode;

fn main() -> ExitCode {
    let usage = "replies [--functions exact|std|libc] < RESTS_OF_INPUTS";
    command::answer(usage, &[], |oracle, _, input, output| {
        command::answer_each(input, output, read_rest_of_input, |bytes, line| {
            let read = read_move(&mut &bytes[..]).expect("bytes in memory can be read");
            let goes_on = matches!(read, Some(Ok(_)));
            line.word(if goes_on { "goes on" } else { "ends" });
            match read.map(|read| read.and_then(|asked| (oracle.plan)(&asked))) {
                None => (),
                Some(Ok(plan)) => lines::short_plan(line.count(1), &plan),
                Some(Err(refusal)) => {
                    line.count(1).refusal(refusal);
                }
            }
        })
    })
}
