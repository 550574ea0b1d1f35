//! The moves of a comparison: the oracle's generated kinds, and moves on both sides of a boundary between answers.

use crate::plan_tally::Tally;
use answers::{Move, Plan, Stretch};
use programs::generators::moves::KINDS;
use programs::random::{halfway, Random};

/// The kind that this program adds.
const BOUNDARY: &str = "boundary";

/// How many moves of each kind there are among a hundred.
const SHARES: [(&str, u64); 9] = [
    ("ordinary", 20),
    ("rest", 10),
    ("zero", 10),
    ("wild", 10),
    ("scale", 10),
    ("edge", 10),
    ("blocked", 10),
    ("neighbours", 10),
    (BOUNDARY, 10),
];

/// Some moves of a kind, from a seed of their own.
pub struct Chunk {
    kind: &'static str,
    count: u64,
    seed: u64,
}

/// The chunks of a comparison of `count` moves, and a few more to end searches: what they hold depends on `count` and `seed` only.
pub fn chunks(count: u64, seed: u64) -> Vec<Chunk> {
    const CHUNK: u64 = 10_000;
    let mut seeds = Random::new(seed);
    let mut chunks = Vec::new();
    for (kind, share) in SHARES {
        let mut left = (count * share).div_ceil(100);
        while left > 0 {
            let count = left.min(CHUNK);
            chunks.push(Chunk { kind, count, seed: seeds.bits() });
            left -= count;
        }
    }
    chunks
}

impl Chunk {
    /// Compares the moves of the chunk.
    pub fn compare(&self) -> Tally {
        let mut tally = Tally::default();
        let mut random = Random::new(self.seed);
        match KINDS.into_iter().find(|(name, _)| *name == self.kind) {
            Some((_, make)) => {
                for _ in 0..self.count {
                    let _ = tally.compare(self.kind, &make(&mut random));
                }
            }
            None => {
                while tally.moves < self.count {
                    search_boundary(&mut random, &mut tally);
                }
            }
        }
        tally
    }
}

/// Compares two moves that differ in one number and, where their answers are of different classes, the moves halfway, up to
/// two neighbours on both sides of the boundary.
fn search_boundary(random: &mut Random, tally: &mut Tally) {
    // Not `wild`, whose moves are nearly all refused.
    let (_, make) = random.pick(&[KINDS[0], KINDS[1], KINDS[4], KINDS[5], KINDS[6]]);
    let mut one = make(random).numbers();
    let place = random.below(11) as usize;
    let mut other = one;
    other[place] = make(random).numbers()[place];
    let class_of_one = class(&tally.compare(BOUNDARY, &Move::from_numbers(one)));
    if class(&tally.compare(BOUNDARY, &Move::from_numbers(other))) == class_of_one {
        return;
    }
    loop {
        let mut middle = one;
        middle[place] = halfway(one[place], other[place]);
        if middle[place] == one[place] || middle[place] == other[place] {
            tally.boundaries += 1;
            return;
        }
        if class(&tally.compare(BOUNDARY, &Move::from_numbers(middle))) == class_of_one {
            one = middle;
        } else {
            other = middle;
        }
    }
}

/// What kind of answer it is, its doubles left aside.
fn class(answer: &Result<Plan, u8>) -> Result<impl PartialEq, u8> {
    answer.as_ref().map_err(|number| *number).map(|plan| {
        let kinds = plan.stretches.map(|(stretch, profile)| (std::mem::discriminant::<Stretch>(&stretch), profile.direction, profile.limits));
        let phases = plan.profile.t.map(|t| t > 0.0);
        (plan.accepted, plan.profile.direction, plan.profile.limits, phases, kinds)
    })
}
