//! The walk over moves that `plan_moves` and `plan_full` share.

use crate::command::Stop;
use crate::lines::Line;
use crate::oracle::Oracle;
use crate::records::read_move;
use answers::Plan;
use std::io::{Read, Write};

/// Answers each move by a numbered line; after a refusal 8 nothing more is read.
pub fn answer_moves(
    oracle: &Oracle,
    input: &mut dyn Read,
    output: &mut dyn Write,
    show: fn(&mut Line, &Plan),
) -> Result<(), Stop> {
    let mut line = Line::default();
    for number in 1.. {
        let Some(read) = read_move(input)? else {
            return Ok(());
        };
        line.count(number);
        match read.and_then(|asked| (oracle.plan)(&asked)) {
            Ok(plan) => show(&mut line, &plan),
            Err(refusal) => {
                line.refusal(refusal);
            }
        }
        line.end(output)?;
        if read.is_err() {
            return Ok(());
        }
    }
    Ok(())
}
