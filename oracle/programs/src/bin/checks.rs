//! Calls of `check` in, `no` or `yes` and the filled profile out.

use programs::command;
use programs::records::read_check;
use std::process::ExitCode;

fn main() -> ExitCode {
    let usage = "checks [--functions exact|std|libc] < CHECKS";
    command::answer(usage, &[], |oracle, _, input, output| {
        command::answer_each(input, output, read_check, |check, line| {
            match (oracle.check)(&check) {
                Some(profile) => line.word("yes").profile(&profile),
                None => line.word("no"),
            };
        })
    })
}
