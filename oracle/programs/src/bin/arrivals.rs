//! Calls of `arrival` in: the time and the axis, or the refusal.

use answers::arrival::{arrival, is_free_for_all};
use programs::command;
use programs::records::read_arrival_call;
use std::process::ExitCode;

fn main() -> ExitCode {
    let usage = "arrivals < ARRIVAL_CALLS";
    command::answer(usage, &[], |_, _, input, output| {
        command::answer_each(input, output, read_arrival_call, |call, line| {
            let (durations, ends) = (call.durations.as_slice(), call.ends.as_slice());
            match arrival(durations, ends) {
                Ok((time, axis)) => {
                    let below = time.next_down();
                    assert!(!is_free_for_all(durations, ends, below), "{below} is free");
                    line.word("ok").double(time).count(axis)
                }
                Err(refusal) => line.refusal(refusal),
            };
        })
    })
}
