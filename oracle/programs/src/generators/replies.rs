//! What is left of an input: a record, mostly good, and more behind it; or one that is cut, wrong, or both.

use crate::generators::moves;
use crate::random::Random;
use crate::records::{write_move, MOVE_HEAD, MOVE_SIZE};
use answers::MOVE_LENGTH;

pub fn rest_of_input(random: &mut Random) -> Vec<u8> {
    let (_, make) = random.pick(&moves::KINDS);
    let mut bytes = Vec::new();
    write_move(&mut bytes, &make(random)).expect("memory takes all bytes");
    if random.one_in(4) {
        bytes[2] = random.bits() as u8;
    }
    if random.one_in(4) {
        let place = random.below(2) as usize;
        bytes[place] = random.bits() as u8;
    }
    if random.one_in(4) {
        // A NaN of any payload and sign, or an infinity.
        let start = MOVE_HEAD.len() + 8 * random.below(MOVE_LENGTH as u64) as usize;
        let sign = random.pick(&[0x7F, 0xFF]);
        let payload = random.bits() & random.bits() & random.bits();
        bytes[start..start + 8].copy_from_slice(&payload.to_be_bytes());
        (bytes[start], bytes[start + 1]) = (sign, bytes[start + 1] | 0xF0);
    }
    if random.one_in(4) {
        bytes.truncate(random.below(MOVE_SIZE as u64) as usize);
    } else {
        let behind = random.below(149);
        bytes.extend((0..behind).map(|_| random.bits() as u8));
    }
    bytes
}
