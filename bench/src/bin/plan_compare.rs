//! Compares the archive's plans with the oracle's, verdict and every number: `plan_compare [COUNT [SEED [THREADS]]]`.
use bench::plan_inputs::{chunks, Chunk};
use bench::plan_tally::{wrong_lengths, Tally};
use bench::whole_number;
use std::sync::atomic::{AtomicUsize, Ordering};
use std::thread;

fn main() {
    let words: Vec<String> = std::env::args().skip(1).collect();
    let number = |place, otherwise| whole_number(&words, place, otherwise, "plan_compare [COUNT [SEED [THREADS]]]");
    let (count, seed, threads) = (number(0, 10_000_000), number(1, 1), number(2, 1));
    let wrong = wrong_lengths();
    wrong.iter().for_each(|line| println!("{line}"));
    let mut tally = compare(&chunks(count, seed), threads);
    tally.differences += wrong.len() as u64;
    tally.print();
    std::process::exit((tally.differences > 0) as i32);
}

/// The tallies of all chunks, added in their order whichever thread made them.
fn compare(chunks: &[Chunk], threads: u64) -> Tally {
    let next = AtomicUsize::new(0);
    let work = || {
        let mut done = Vec::new();
        while let Some((place, chunk)) = next_chunk(chunks, &next) {
            done.push((place, chunk.compare()));
        }
        done
    };
    let mut tallies = thread::scope(|scope| {
        let workers: Vec<_> = (0..threads.max(1)).map(|_| scope.spawn(work)).collect();
        workers.into_iter().flat_map(|worker| worker.join().expect("a worker ends well")).collect::<Vec<_>>()
    });
    tallies.sort_by_key(|(place, _)| *place);
    let mut all = Tally::default();
    tallies.into_iter().for_each(|(_, tally)| all.add(tally));
    all
}

fn next_chunk<'a>(chunks: &'a [Chunk], next: &AtomicUsize) -> Option<(usize, &'a Chunk)> {
    let place = next.fetch_add(1, Ordering::Relaxed);
    chunks.get(place).map(|chunk| (place, chunk))
}
