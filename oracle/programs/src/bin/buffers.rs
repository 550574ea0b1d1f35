//! Moves and plans in buffers in: the status of planning and what the buffer holds then, and of asking it about a time.

use programs::buffers::{is_blocked, plan, UNWRITTEN};
use programs::command;
use programs::records::read_buffer_call;
use std::process::ExitCode;

fn main() -> ExitCode {
    let usage = "buffers [--functions exact|std|libc] < BUFFER_CALLS";
    command::answer(usage, &[], |oracle, _, input, output| {
        command::answer_each(input, output, read_buffer_call, |call, line| {
            let (status, buffer) = plan(oracle, &call);
            line.count(status as usize);
            if status == 0 {
                line.doubles(&buffer);
            } else if buffer.iter().all(|&number| number == UNWRITTEN) {
                line.word("unchanged");
            } else {
                line.word("changed");
            }
            line.count(is_blocked(oracle, &buffer, call.t) as usize);
        })
    })
}
