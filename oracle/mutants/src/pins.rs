//! Pins: inputs that tell mutants apart which no other stored input does, as lines of hexadecimal digits.

use crate::asked::Asked;
use programs::records::{
    write_arrival_call, write_block_call, write_check, write_doubles, write_family_call, MOVE_HEAD,
};
use std::collections::BTreeMap;
use std::fs;
use std::io;
use std::path::Path;

/// The name of the file and the bytes of a pin; a move's head is left out.
pub fn file_and_bytes(pin: &Asked) -> (&'static str, Vec<u8>) {
    let put = "memory takes all bytes";
    let mut bytes = Vec::new();
    let name = match pin {
        Asked::Record(record, _) => {
            bytes.extend(record.iter().skip(3));
            "moves"
        }
        Asked::Family(call) => {
            write_family_call(&mut bytes, call).expect(put);
            "families"
        }
        Asked::Check(call) => {
            write_check(&mut bytes, call).expect(put);
            "checks"
        }
        Asked::Quartic(coefficients) => {
            write_doubles(&mut bytes, coefficients).expect(put);
            "quartics"
        }
        Asked::Block(call) => {
            write_block_call(&mut bytes, call).expect(put);
            "blocks"
        }
        Asked::Arrival(call) => {
            write_arrival_call(&mut bytes, call).expect(put);
            "arrivals"
        }
    };
    (name, bytes)
}

/// Writes a folder of pins, each with what it is for.
pub fn write(folder: &Path, pins: &[(Asked, String)]) -> io::Result<()> {
    let mut lines: BTreeMap<&str, Vec<String>> = BTreeMap::new();
    for (pin, reason) in pins {
        let (name, bytes) = file_and_bytes(pin);
        lines
            .entry(name)
            .or_default()
            .push(format!("{} # {reason}\n", in_digits(&bytes)));
    }
    fs::create_dir_all(folder)?;
    for (name, lines) in lines {
        fs::write(folder.join(format!("{name}.txt")), lines.concat())?;
    }
    Ok(())
}

/// Doubles as sixteen digits each, one space apart; what is left as it is.
fn in_digits(bytes: &[u8]) -> String {
    let groups: Vec<String> = bytes
        .chunks(8)
        .map(|group| group.iter().map(|byte| format!("{byte:02X}")).collect())
        .collect();
    groups.join(" ")
}

/// The pins of a folder, by the names of the files.
pub fn read(folder: &Path) -> Vec<Asked> {
    let bytes = |name: &str| -> Vec<Vec<u8>> {
        let text = fs::read_to_string(folder.join(format!("{name}.txt"))).unwrap_or_default();
        text.lines()
            .map(|line| from_digits(line.split('#').next().unwrap_or("")))
            .collect()
    };
    let mut found = Vec::new();
    for numbers in bytes("moves") {
        found.push(Asked::Record([&MOVE_HEAD[..], &numbers].concat(), true));
    }
    for name in ["families", "checks", "quartics", "blocks"] {
        found.extend(
            bytes(name)
                .iter()
                .map(|bytes| crate::stored::record_of(name, bytes)),
        );
    }
    found
}

fn from_digits(text: &str) -> Vec<u8> {
    let digits: Vec<u32> = text
        .chars()
        .filter_map(|digit| digit.to_digit(16))
        .collect();
    digits
        .chunks_exact(2)
        .map(|pair| (16 * pair[0] + pair[1]) as u8)
        .collect()
}
