//! Times over many moves that bear with a shared machine.

use std::time::Instant;

/// Moves of one measurement.
const BLOCK: usize = 1024;

/// The least time of each block of moves over all rounds. A round goes through all moves, which are too many for the
/// branch predictor to learn; a disturbance spoils one block of one round.
pub struct Blocks {
    least: Vec<f64>,
    count: usize,
    pub checksum: u64,
}

impl Blocks {
    pub fn new(count: usize) -> Self {
        Blocks { least: vec![f64::INFINITY; count.div_ceil(BLOCK)], count, checksum: 0 }
    }

    /// One round of f over the indices of all moves; what f gives for each is summed up.
    #[inline(always)]
    pub fn round(&mut self, mut f: impl FnMut(usize) -> u64) {
        self.checksum = 0;
        for (block, least) in self.least.iter_mut().enumerate() {
            let start = Instant::now();
            for i in block * BLOCK..self.count.min((block + 1) * BLOCK) {
                self.checksum = self.checksum.rotate_left(1).wrapping_add(f(i));
            }
            *least = least.min(start.elapsed().as_nanos() as f64);
        }
    }

    /// Nanoseconds for one.
    pub fn each(&self) -> f64 {
        self.least.iter().sum::<f64>() / self.count as f64
    }
}

/// The least time of each single move over all rounds, the clock's own included.
pub struct Singles {
    least: Vec<u64>,
}

impl Singles {
    pub fn new(count: usize) -> Self {
        Singles { least: vec![u64::MAX; count] }
    }

    /// One round. Some moves go before it untimed, so that no move pays for what the other side left in the caches.
    #[inline(always)]
    pub fn round(&mut self, mut f: impl FnMut(usize) -> u64) {
        for i in 0..BLOCK.min(self.least.len()) {
            std::hint::black_box(f(i));
        }
        for (i, least) in self.least.iter_mut().enumerate() {
            let start = Instant::now();
            std::hint::black_box(f(i));
            *least = (*least).min(start.elapsed().as_nanos() as u64);
        }
    }

    /// The nanoseconds that all moves but one in `of` don't exceed.
    pub fn all_but_one_in(&self, of: usize) -> u64 {
        let mut sorted = self.least.clone();
        sorted.sort_unstable();
        sorted[sorted.len() - 1 - sorted.len() / of]
    }

    /// The move that took longest, and its nanoseconds.
    pub fn worst(&self) -> (usize, u64) {
        let place = |i: usize| (i, self.least[i]);
        (0..self.least.len()).map(place).max_by_key(|&(_, time)| time).expect("a move")
    }
}
