//! Moves in, a table of the answers out: how many of each verdict, limits, count of accepted profiles and of stretches.
//! With `--each`, the verdict of every move instead.

use answers::{Plan, DIRECTIONS, LIMITS};
use programs::command::{self, Stop};
use programs::records::read_move;
use std::collections::BTreeMap;
use std::process::ExitCode;

fn main() -> ExitCode {
    let usage = "survey [--functions exact|std|libc] [--each] < MOVES";
    command::answer(usage, &["--each"], |oracle, options, input, output| {
        let mut counts: BTreeMap<String, usize> = BTreeMap::new();
        while let Some(read) = read_move(input)? {
            let asked = read.map_err(|_| Stop::Input("a record is not document 01's".into()))?;
            let verdict = match (oracle.plan)(&asked) {
                Ok(plan) => shown(&plan),
                Err(refusal) => format!("refused {refusal}"),
            };
            if options.is_empty() {
                *counts.entry(verdict).or_default() += 1;
            } else {
                writeln!(output, "{verdict}")?;
            }
        }
        for (verdict, count) in counts {
            writeln!(output, "{count:>9} {verdict}")?;
        }
        Ok(())
    })
}

fn shown(plan: &Plan) -> String {
    let stretches = plan
        .stretches
        .iter()
        .filter_map(|(stretch, _)| stretch.ends())
        .count();
    let direction = DIRECTIONS[plan.profile.direction];
    let limits = LIMITS[plan.profile.limits];
    format!(
        "ok, {} accepted, {stretches} stretches, {direction} {limits}",
        plan.accepted
    )
}
