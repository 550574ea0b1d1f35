//! Generates the inputs of `quartics`, `checks`, `families`, `blocks`, `buffers`, `replies` and `arrivals`.

use programs::command::{self, Writer};
use programs::generators::{arrivals, blocks, buffers, checks, families, quartics, replies};
use programs::records::{
    write_arrival_call, write_block_call, write_buffer_call, write_check, write_doubles,
    write_family_call, write_rest_of_input,
};
use std::process::ExitCode;

fn main() -> ExitCode {
    let usage =
        "inputs SEED quartics|resolvents|checks|families|blocks|buffers|replies|arrivals COUNT > RECORDS";
    command::generate(usage, |kind| {
        let write: Writer = match kind {
            "quartics" => {
                Box::new(|random, output| write_doubles(output, &quartics::quartic(random)))
            }
            "resolvents" => {
                Box::new(|random, output| write_doubles(output, &quartics::resolvent(random)))
            }
            "checks" => Box::new(|random, output| write_check(output, &checks::check(random))),
            "families" => {
                Box::new(|random, output| write_family_call(output, &families::call(random)))
            }
            "blocks" => Box::new(|random, output| write_block_call(output, &blocks::call(random))),
            "buffers" => {
                Box::new(|random, output| write_buffer_call(output, &buffers::call(random)))
            }
            "replies" => Box::new(|random, output| {
                write_rest_of_input(output, &replies::rest_of_input(random))
            }),
            "arrivals" => {
                Box::new(|random, output| write_arrival_call(output, &arrivals::call(random)))
            }
            _ => return None,
        };
        Some(write)
    })
}
