//! Generates moves of a kind, as records.

use programs::command::{self, Writer};
use programs::generators::moves::KINDS;
use programs::records::write_move;
use std::process::ExitCode;

fn main() -> ExitCode {
    let usage = "moves SEED ordinary|rest|zero|wild|scale|edge|blocked|neighbours COUNT > MOVES";
    command::generate(usage, |kind| {
        let (_, make) = KINDS.into_iter().find(|(name, _)| *name == kind)?;
        let write: Writer = Box::new(move |random, output| write_move(output, &make(random)));
        Some(write)
    })
}
