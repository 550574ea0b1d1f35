//! A program that plans records, as `plan_moves` does: its time a record, beside the library's on the same moves.

use crate::clock::Blocks;
use crate::planners::Library;
use answers::MOVE_LENGTH;
use programs::generators::moves::ordinary;
use programs::random::Random;
use programs::records::write_move;
use std::fs::{self, File};
use std::io::{BufRead, BufReader, BufWriter, Write};
use std::path::{Path, PathBuf};
use std::process::{Command, Stdio};
use std::time::Instant;

const ROUNDS: usize = 3;

/// Two files in the folder for temporary ones, removed at the end.
struct Files {
    records: PathBuf,
    lines: PathBuf,
}

impl Files {
    fn new() -> Self {
        let named = |what| std::env::temp_dir().join(format!("plan_time-{}.{what}", std::process::id()));
        Files { records: named("records"), lines: named("lines") }
    }
}

impl Drop for Files {
    fn drop(&mut self) {
        for path in [&self.records, &self.lines] {
            let _ = fs::remove_file(path);
        }
    }
}

/// Writes the records of `ordinary` moves, accepted or not, and gives the moves.
fn write_records(path: &Path, seed: u64, count: usize) -> std::io::Result<Vec<[f64; MOVE_LENGTH]>> {
    let mut output = BufWriter::new(File::create(path)?);
    let mut random = Random::new(seed);
    let mut moves = Vec::with_capacity(count);
    for _ in 0..count {
        let asked = ordinary(&mut random);
        write_move(&mut output, &asked)?;
        moves.push(asked.numbers());
    }
    output.flush()?;
    Ok(moves)
}

/// Seconds of one run, records from a file and lines into a file.
fn run(program: &str, files: &Files) -> std::io::Result<f64> {
    let start = Instant::now();
    let status = Command::new(program)
        .stdin(Stdio::from(File::open(&files.records)?))
        .stdout(Stdio::from(File::create(&files.lines)?))
        .status()?;
    let time = start.elapsed().as_secs_f64();
    assert!(status.success(), "{program}: {status}");
    Ok(time)
}

/// How many lines say `ok`, of as many as there must be: a head and one for each record.
fn planned(path: &Path, records: usize) -> std::io::Result<usize> {
    let lines: Vec<String> = BufReader::new(File::open(path)?).lines().collect::<Result<_, _>>()?;
    assert_eq!(lines.len(), records + 1, "lines of the program");
    Ok(lines.iter().filter(|line| line.split(' ').nth(1) == Some("ok")).count())
}

pub fn time(program: &str, seed: u64, count: usize) -> std::io::Result<()> {
    let files = Files::new();
    let moves = write_records(&files.records, seed, count)?;
    let mut library = Library::new();
    let mut times = Blocks::new(count);
    let (mut best, mut accepted) = (f64::INFINITY, 0);
    for _ in 0..ROUNDS {
        best = best.min(run(program, &files)?);
        accepted = 0;
        times.round(|i| {
            let verdict = library.answer(&moves[i]).verdict;
            accepted += (verdict == 0) as usize;
            verdict
        });
    }
    assert_eq!(planned(&files.lines, count)?, accepted, "plans of the program and of the library");
    let (whole, plan) = (best * 1e9 / count as f64, times.each());
    println!("{count} records, seed {seed}, {accepted} accepted; best of {ROUNDS} runs, from a file into a file");
    println!("{:<40} {whole:>9.0} ns a record", "the program");
    println!("{:<40} {plan:>9.0} ns", "the library alone");
    println!("{:<40} {:>9.0} ns, {:.0} % of the program's time", "reading, printing, starting", whole - plan, 100.0 * (whole - plan) / whole);
    Ok(())
}
