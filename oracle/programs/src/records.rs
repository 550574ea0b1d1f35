//! The records that the programs read and the generators write. All doubles are big-endian.

use crate::command::Stop;
use answers::{
    ArrivalCall, BlockCall, BufferCall, Check, FamilyCall, List, Move, Plan, Profile, Stretch,
    CONTROL_SIGNS, DURATIONS_MOST, ENDS_MOST, FAMILIES, LIMITS, MOVE_LENGTH,
};
use std::io::{self, Read, Write};

/// Document 01's record of a move: the length of what follows it, the version, and the move's doubles.
pub const MOVE_HEAD: [u8; 3] = {
    let [high, low] = RECORD_LENGTH.to_be_bytes();
    [high, low, MOVE_VERSION]
};
pub const MOVE_SIZE: usize = MOVE_HEAD.len() + 8 * MOVE_LENGTH;
const RECORD_LENGTH: u16 = (1 + 8 * MOVE_LENGTH) as u16;
const MOVE_VERSION: u8 = 1;

/// A check's record: boundary, times, jerk and bounds, then limits, control signs and `set_limits`.
const CHECK_SIZE: usize = 18 * 8 + 3;

/// A family call's record: the move, then family, direction, `return_after_found` and the count so far.
const FAMILY_SIZE: usize = 8 * MOVE_LENGTH + 4;

/// A selection's record: the count; six times total, brake, accel and direction; a block given; four times.
const BLOCK_SIZE: usize = 1 + 6 * SELECTED_SIZE + GIVEN_SIZE + 4 * 8;
const SELECTED_SIZE: usize = 3 * 8 + 1;

/// A block given: its shortest duration, then kind, left and right end of each stretch.
const GIVEN_SIZE: usize = 8 + 2 * STRETCH_SIZE;
const STRETCH_SIZE: usize = 1 + 2 * 8;

/// A buffers' record: how many doubles of the move and of the plan's buffer, 16 doubles, and a time.
const BUFFER_SIZE: usize = 2 + 16 * 8 + 8;

/// The next move: nothing at the end of the input, and `Err(8)` where there is no whole, right record.
pub fn read_move(input: &mut dyn Read) -> io::Result<Option<Result<Move, u8>>> {
    let mut length = [0; 2];
    match fill(input, &mut length)? {
        0 => return Ok(None),
        2 if u16::from_be_bytes(length) == RECORD_LENGTH => (),
        _ => return Ok(Some(Err(8))),
    }
    let mut body = [0; RECORD_LENGTH as usize];
    let whole = fill(input, &mut body)? == body.len();
    let asked = whole && body[0] == MOVE_VERSION;
    Ok(Some(if asked {
        Ok(Move::from_numbers(doubles(&body[1..])))
    } else {
        Err(8)
    }))
}

pub fn write_move(output: &mut dyn Write, asked: &Move) -> io::Result<()> {
    output.write_all(&MOVE_HEAD)?;
    write_doubles(output, &asked.numbers())
}

/// The next record of N doubles.
pub fn read_doubles<const N: usize>(
    input: &mut dyn Read,
    number: usize,
) -> Result<Option<[f64; N]>, Stop> {
    let mut bytes = [[0; 8]; N];
    Ok(read_whole(input, bytes.as_flattened_mut(), number)?.then(|| bytes.map(f64::from_be_bytes)))
}

pub fn write_doubles(output: &mut dyn Write, numbers: &[f64]) -> io::Result<()> {
    numbers
        .iter()
        .try_for_each(|number| output.write_all(&number.to_be_bytes()))
}

pub fn read_check(input: &mut dyn Read, number: usize) -> Result<Option<Check>, Stop> {
    let mut bytes = [0; CHECK_SIZE];
    if !read_whole(input, &mut bytes, number)? {
        return Ok(None);
    }
    let (numbers, choices) = bytes.split_at(18 * 8);
    Ok(Some(Check {
        boundary: doubles(numbers),
        t: doubles(&numbers[6 * 8..]),
        jf: doubles::<1>(&numbers[13 * 8..])[0],
        bounds: doubles(&numbers[14 * 8..]),
        limits: place("limits", choices[0], LIMITS.len(), number)?,
        control_signs: place("control signs", choices[1], CONTROL_SIGNS.len(), number)?,
        set_limits: place("set_limits", choices[2], 2, number)? == 1,
    }))
}

pub fn write_check(output: &mut dyn Write, check: &Check) -> io::Result<()> {
    write_doubles(output, &check.boundary)?;
    write_doubles(output, &check.t)?;
    write_doubles(output, &[check.jf])?;
    write_doubles(output, &check.bounds)?;
    output.write_all(&[
        check.limits as u8,
        check.control_signs as u8,
        check.set_limits as u8,
    ])
}

pub fn read_family_call(input: &mut dyn Read, number: usize) -> Result<Option<FamilyCall>, Stop> {
    let mut bytes = [0; FAMILY_SIZE];
    if !read_whole(input, &mut bytes, number)? {
        return Ok(None);
    }
    let (numbers, choices) = bytes.split_at(8 * MOVE_LENGTH);
    Ok(Some(FamilyCall {
        asked: Move::from_numbers(doubles(numbers)),
        family: place("family", choices[0], FAMILIES.len(), number)?,
        opposite: place("direction", choices[1], 2, number)? == 1,
        return_after_found: place("return_after_found", choices[2], 2, number)? == 1,
        counted: place("count", choices[3], 6, number)?,
    }))
}

pub fn write_family_call(output: &mut dyn Write, call: &FamilyCall) -> io::Result<()> {
    write_doubles(output, &call.asked.numbers())?;
    let flags = [call.opposite as u8, call.return_after_found as u8];
    output.write_all(&[call.family as u8, flags[0], flags[1], call.counted as u8])
}

pub fn read_block_call(input: &mut dyn Read, _: usize) -> Result<Option<BlockCall>, Stop> {
    let mut bytes = [0; BLOCK_SIZE];
    if fill(input, &mut bytes)? < BLOCK_SIZE {
        return Ok(None);
    }
    let (count, rest) = bytes.split_at(1);
    let (selected, rest) = rest.split_at(6 * SELECTED_SIZE);
    let (given, times) = rest.split_at(GIVEN_SIZE);
    Ok(Some(BlockCall {
        count: count[0],
        profiles: std::array::from_fn(|k| selected_profile(&selected[k * SELECTED_SIZE..], k)),
        given: Plan {
            shortest: doubles::<1>(given)[0],
            stretches: [0, 1].map(|k| (stretch(&given[8 + k * STRETCH_SIZE..]), Profile::EMPTY)),
            ..Plan::EMPTY
        },
        times: doubles(times),
    }))
}

/// Profile k of a selection: empty but for its durations and direction, and marked by its target.
fn selected_profile(bytes: &[u8], k: usize) -> Profile {
    let [total, brake, accel] = doubles(bytes);
    let mut profile = Profile {
        direction: usize::from(bytes[3 * 8] != 0),
        pf: (k + 1) as f64,
        brake,
        accel,
        ..Profile::EMPTY
    };
    profile.t_sum[6] = total;
    profile
}

fn stretch(bytes: &[u8]) -> Stretch {
    let [left, right] = doubles(&bytes[1..]);
    match bytes[0] {
        0 => Stretch::Nothing,
        1 => Stretch::Between(left, right),
        _ => Stretch::From(left),
    }
}

pub fn write_block_call(output: &mut dyn Write, call: &BlockCall) -> io::Result<()> {
    output.write_all(&[call.count])?;
    for profile in &call.profiles {
        write_doubles(output, &[profile.t_sum[6], profile.brake, profile.accel])?;
        output.write_all(&[profile.direction as u8])?;
    }
    write_doubles(output, &[call.given.shortest])?;
    for (stretch, _) in &call.given.stretches {
        let (kind, ends) = match *stretch {
            Stretch::Nothing => (0, [0.0, 0.0]),
            Stretch::Between(left, right) => (1, [left, right]),
            Stretch::From(left) => (2, [left, 0.0]),
        };
        output.write_all(&[kind])?;
        write_doubles(output, &ends)?;
    }
    write_doubles(output, &call.times)
}

pub fn read_buffer_call(input: &mut dyn Read, _: usize) -> Result<Option<BufferCall>, Stop> {
    let mut bytes = [0; BUFFER_SIZE];
    if fill(input, &mut bytes)? < BUFFER_SIZE {
        return Ok(None);
    }
    Ok(Some(BufferCall {
        move_length: bytes[0],
        plan_length: bytes[1],
        numbers: doubles(&bytes[2..]),
        t: doubles::<1>(&bytes[2 + 16 * 8..])[0],
    }))
}

pub fn write_buffer_call(output: &mut dyn Write, call: &BufferCall) -> io::Result<()> {
    output.write_all(&[call.move_length, call.plan_length])?;
    write_doubles(output, &call.numbers)?;
    write_doubles(output, &[call.t])
}

/// An arrival's record: how many durations and how many ends, a byte each, then these. One with too many ends the input.
pub fn read_arrival_call(input: &mut dyn Read, _: usize) -> Result<Option<ArrivalCall>, Stop> {
    let mut counts = [0; 2];
    if fill(input, &mut counts)? < counts.len() {
        return Ok(None);
    }
    let [durations, ends] = counts.map(usize::from);
    if durations > DURATIONS_MOST || ends > ENDS_MOST {
        return Ok(None);
    }
    let mut bytes = vec![0; 8 * (durations + ends)];
    if fill(input, &mut bytes)? < bytes.len() {
        return Ok(None);
    }
    let (durations, ends) = bytes.split_at(8 * durations);
    Ok(Some(ArrivalCall {
        durations: list_of_doubles(durations),
        ends: list_of_doubles(ends),
    }))
}

pub fn write_arrival_call(output: &mut dyn Write, call: &ArrivalCall) -> io::Result<()> {
    let (durations, ends) = (call.durations.as_slice(), call.ends.as_slice());
    output.write_all(&[durations.len() as u8, ends.len() as u8])?;
    write_doubles(output, durations)?;
    write_doubles(output, ends)
}

/// What is left of an input: a byte that says how much, then so many bytes.
pub fn read_rest_of_input(input: &mut dyn Read, _: usize) -> Result<Option<Vec<u8>>, Stop> {
    let mut length = [0];
    if fill(input, &mut length)? == 0 {
        return Ok(None);
    }
    let mut bytes = vec![0; length[0] as usize];
    let whole = fill(input, &mut bytes)? == bytes.len();
    Ok(whole.then_some(bytes))
}

pub fn write_rest_of_input(output: &mut dyn Write, bytes: &[u8]) -> io::Result<()> {
    output.write_all(&[bytes.len() as u8])?;
    output.write_all(bytes)
}

/// A byte that must be below a bound.
fn place(name: &str, byte: u8, bound: usize, number: usize) -> Result<usize, Stop> {
    if (byte as usize) < bound {
        Ok(byte as usize)
    } else {
        let message = format!("record {number}: {name} is {byte}, not below {bound}");
        Err(Stop::Input(message))
    }
}

/// Whether there was another record; a part of one is an error.
fn read_whole(input: &mut dyn Read, bytes: &mut [u8], number: usize) -> Result<bool, Stop> {
    match fill(input, bytes)? {
        0 => Ok(false),
        count if count == bytes.len() => Ok(true),
        _ => Err(Stop::Input(format!(
            "the input ends inside record {number}"
        ))),
    }
}

/// Reads until the bytes are full or the input ends; how many were read.
fn fill(input: &mut dyn Read, bytes: &mut [u8]) -> io::Result<usize> {
    let mut count = 0;
    while count < bytes.len() {
        match input.read(&mut bytes[count..]) {
            Ok(0) => break,
            Ok(more) => count += more,
            Err(error) if error.kind() == io::ErrorKind::Interrupted => (),
            Err(error) => return Err(error),
        }
    }
    Ok(count)
}

/// The first N doubles of some bytes.
fn doubles<const N: usize>(bytes: &[u8]) -> [f64; N] {
    std::array::from_fn(|i| {
        let eight = bytes[8 * i..8 * i + 8].try_into().expect("eight bytes");
        f64::from_be_bytes(eight)
    })
}

/// All doubles of some bytes.
fn list_of_doubles<const N: usize>(bytes: &[u8]) -> List<f64, N> {
    let doubles = bytes.chunks_exact(8).map(|eight| doubles::<1>(eight)[0]);
    List::of(0.0, doubles)
}
