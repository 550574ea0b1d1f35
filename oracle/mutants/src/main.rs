//! Says which mutants of the Rust no stored answer tells apart, and searches inputs that do.

mod asked;
mod hunt;
mod pins;
mod reasons;
mod special;
mod stored;
mod table;
mod trial;

// The mutated files name these by where they come from.
#[allow(unused_imports)]
use answers::{
    ArrivalCall, BlockCall, BufferCall, Check, FamilyCall, Limits, List, Move, Plan, Profile,
    Step1, Stretch,
};
#[allow(unused_imports)]
use programs::command;

include!(concat!(env!("OUT_DIR"), "/modules.rs"));

use asked::Asked;
use hunt::Hunt;
use mutation::Mutant;
use reasons::Standing;
use std::collections::HashSet;
use std::env;
use std::io;
use std::path::Path;
use std::process::ExitCode;
use std::time::Duration;
use table::Living;
use trial::Trial;

const USAGE: &str = "usage: mutants report CRATES PINS
       mutants hunt CRATES PINS SEED SECONDS
       mutants reduce CRATES PINS";

fn main() -> ExitCode {
    let arguments: Vec<String> = env::args().skip(1).collect();
    let words: Vec<&str> = arguments.iter().map(String::as_str).collect();
    let mutants = mutation::mutants();
    let done = match &words[..] {
        ["report", crates, pins] => return report(&mutants, crates, pins),
        ["hunt", crates, pins, seed, seconds] => match (seed.parse(), seconds.parse()) {
            (Ok(seed), Ok(seconds)) => {
                hunt(&mutants, crates, pins, seed, Duration::from_secs(seconds))
            }
            _ => return usage(),
        },
        ["reduce", crates, pins] => reduce(&mutants, crates, pins),
        _ => return usage(),
    };
    match done {
        Ok(()) => ExitCode::SUCCESS,
        Err(error) => {
            eprintln!("{error}");
            ExitCode::FAILURE
        }
    }
}

fn usage() -> ExitCode {
    eprintln!("{USAGE}");
    ExitCode::from(2)
}

/// Programs that were added with the pins.
const ADDED: [&str; 3] = ["block_test", "replies_test", "arrival_test"];

/// Prints docs/MUTANTS.md: the table before and with the pins and the added programs, and why the living live. Fails if
/// one lives without a reason.
fn report(mutants: &[Mutant], crates: &str, pins: &str) -> ExitCode {
    let is_pin = pinned(&pins::read(Path::new(pins)));
    let mut before = Trial::new(mutants.len());
    let mut now = Trial::new(mutants.len());
    let mut counts = Vec::new();
    for (program, inputs) in stored::inputs(Path::new(crates)) {
        for asked in &inputs {
            if !ADDED.contains(&program) && !is_pin(asked) {
                before.put(asked);
            }
            now.put(asked);
        }
        counts.push(format!("{program} {}", inputs.len()));
    }
    let living = table::explained(mutants, now.living());
    println!(
        "{}",
        include_str!("../report.md")
            .replace("INPUTS", &counts.join(", "))
            .trim_end()
    );
    println!();
    table::print(mutants, before.living(), &living);
    println!("\n## Proved: no stored answer shows them, a law or a worked example does");
    table::print_reasons(&living, Standing::Proved);
    println!("\n## Unobservable: no input can tell them apart");
    table::print_reasons(&living, Standing::Unobservable);
    println!("\n## Not found: no input is known that tells them apart");
    table::print_reasons(&living, Standing::NotFound);
    without_reason(&living)
}

fn without_reason(living: &Living) -> ExitCode {
    for mutant in &living.without {
        eprintln!("lives without a reason: {}", table::name(mutant));
    }
    if living.without.is_empty() {
        ExitCode::SUCCESS
    } else {
        ExitCode::FAILURE
    }
}

/// Whether an input is one of these pins.
fn pinned(pins: &[Asked]) -> impl Fn(&Asked) -> bool {
    let bytes: HashSet<_> = pins.iter().map(pins::file_and_bytes).collect();
    move |asked| bytes.contains(&pins::file_and_bytes(asked))
}

/// Stored inputs that are no pins.
fn unpinned(crates: &str, pins: &[Asked]) -> Vec<Asked> {
    let is_pin = pinned(pins);
    let all = stored::inputs(Path::new(crates))
        .into_iter()
        .flat_map(|(_, asked)| asked);
    all.filter(|asked| !is_pin(asked)).collect()
}

/// Adds to the pins what a search of so long finds.
fn hunt(
    mutants: &[Mutant],
    crates: &str,
    pins: &str,
    seed: u64,
    limit: Duration,
) -> io::Result<()> {
    let mut known = pins::read(Path::new(pins));
    let mut inputs = unpinned(crates, &known);
    inputs.extend(known.iter().cloned());
    let mut trial = Trial::new(mutants.len());
    inputs.iter().for_each(|asked| trial.put(asked));
    println!("{} live", trial.living().len());
    trial.patience = Some(500);
    let mut hunt = Hunt::new(seed, mutants, &mut trial, inputs);
    hunt.run(limit, mutants);
    println!("{} tries", hunt.tries);
    known.extend(hunt.found);
    println!("{} live", trial.living().len());
    let pinned: Vec<(Asked, String)> = known.into_iter().map(|pin| (pin, String::new())).collect();
    pins::write(Path::new(pins), &pinned)
}

/// Keeps few pins that tell apart what all of them do, and writes behind each which mutants those are.
fn reduce(mutants: &[Mutant], crates: &str, pins: &str) -> io::Result<()> {
    let known = pins::read(Path::new(pins));
    let mut trial = Trial::new(mutants.len());
    unpinned(crates, &known)
        .iter()
        .for_each(|asked| trial.put(asked));
    let mut told: Vec<Vec<usize>> = known
        .iter()
        .map(|pin| trial.all_told_apart_by(pin))
        .collect();
    let mut kept = Vec::new();
    while let Some(best) =
        (0..known.len()).max_by_key(|&place| (told[place].len(), usize::MAX - place))
    {
        if told[best].is_empty() {
            break;
        }
        let apart = told[best].clone();
        told.iter_mut()
            .for_each(|told| told.retain(|mutant| !apart.contains(mutant)));
        let names: Vec<String> = apart
            .iter()
            .map(|&number| table::name(&mutants[number]))
            .collect();
        kept.push((known[best].clone(), names.join("; ")));
    }
    println!("{} of {} pins kept", kept.len(), known.len());
    pins::write(Path::new(pins), &kept)
}
