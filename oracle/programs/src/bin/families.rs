//! Calls of single families in, the profiles that they add out.

use programs::command;
use programs::records::read_family_call;
use std::process::ExitCode;

fn main() -> ExitCode {
    let usage = "families [--functions exact|std|libc] < FAMILY_CALLS";
    command::answer(usage, &[], |oracle, _, input, output| {
        command::answer_each(input, output, read_family_call, |call, line| {
            let added = (oracle.family)(&call);
            line.count(added.as_slice().len());
            for profile in added.as_slice() {
                line.profile(profile);
            }
        })
    })
}
