//! The stored inputs of the test programs, as far as they reach the four files, the refusals, the records or the
//! arrival.

use crate::asked::Asked;
use programs::records;
use std::fs;
use std::io::Read;
use std::path::Path;

/// Reads every record of a program's input.
type Reader = fn(&[u8]) -> Vec<Asked>;

/// The inputs of every test program whose crate lies in the folder, by the crate's name.
pub fn inputs(crates: &Path) -> Vec<(&'static str, Vec<Asked>)> {
    let programs: [(&'static str, Reader); 8] = [
        ("roots_test", |bytes| {
            all(bytes, |input, number| {
                Ok(records::read_doubles(input, number)?.map(Asked::Quartic))
            })
        }),
        ("profile_test", |bytes| {
            all(bytes, |input, number| {
                Ok(records::read_check(input, number)?.map(Asked::Check))
            })
        }),
        ("families_test", |bytes| {
            all(bytes, |input, number| {
                Ok(records::read_family_call(input, number)?.map(Asked::Family))
            })
        }),
        ("block_test", |bytes| {
            all(bytes, |input, number| {
                Ok(records::read_block_call(input, number)?.map(Asked::Block))
            })
        }),
        ("plan_full", |bytes| moves(bytes, true)),
        ("plan_moves", |bytes| moves(bytes, false)),
        ("replies_test", |bytes| {
            all(bytes, |input, number| {
                Ok(records::read_rest_of_input(input, number)?
                    .map(|rest| Asked::Record(rest, false)))
            })
        }),
        ("arrival_test", |bytes| {
            all(bytes, |input, number| {
                Ok(records::read_arrival_call(input, number)?.map(Asked::Arrival))
            })
        }),
    ];
    let mut found = Vec::new();
    for (name, read) in programs {
        if let Ok(bytes) = fs::read(crates.join(name).join("stdin")) {
            found.push((name, read(&bytes)));
        }
    }
    found
}

/// The one record that these bytes are, of the kind that a file of pins holds.
pub fn record_of(name: &str, bytes: &[u8]) -> Asked {
    let mut input = bytes;
    let read: Result<Option<Asked>, programs::command::Stop> = match name {
        "quartics" => records::read_doubles(&mut input, 1).map(|read| read.map(Asked::Quartic)),
        "checks" => records::read_check(&mut input, 1).map(|read| read.map(Asked::Check)),
        "families" => records::read_family_call(&mut input, 1).map(|read| read.map(Asked::Family)),
        _ => records::read_block_call(&mut input, 1).map(|read| read.map(Asked::Block)),
    };
    read.ok()
        .flatten()
        .unwrap_or_else(|| panic!("a pin of {name} isn't a whole record"))
}

/// Every record, by a reader of one.
fn all(
    mut bytes: &[u8],
    read: impl Fn(&mut dyn Read, usize) -> Result<Option<Asked>, programs::command::Stop>,
) -> Vec<Asked> {
    let mut found = Vec::new();
    while let Ok(Some(asked)) = read(&mut bytes, found.len() + 1) {
        found.push(asked);
    }
    found
}

/// Every move; the last record is cut.
fn moves(bytes: &[u8], full: bool) -> Vec<Asked> {
    bytes
        .chunks(records::MOVE_SIZE)
        .map(|record| Asked::Record(record.to_vec(), full))
        .collect()
}
