//! How many mutants of each file and kind are told apart, and why the others aren't.

use crate::reasons::{self, Reason, Standing};
use mutation::Mutant;
use std::collections::BTreeMap;

/// Where a mutant is and what it changes.
pub fn name(mutant: &Mutant) -> String {
    let place = format!("{}:{}", mutant.file, mutant.line);
    format!(
        "{place} {} [{}] {}",
        mutant.function, mutant.kind, mutant.change
    )
}

/// The living mutants with their reasons, and those without one.
pub struct Living<'a> {
    pub by_reason: Vec<(Reason, Vec<&'a Mutant>)>,
    pub without: Vec<&'a Mutant>,
}

pub fn explained<'a>(mutants: &'a [Mutant], living: &[usize]) -> Living<'a> {
    let mut by_reason: Vec<(Reason, Vec<&Mutant>)> = reasons::all()
        .into_iter()
        .map(|reason| (reason, Vec::new()))
        .collect();
    let mut without = Vec::new();
    for &number in living {
        let mutant = &mutants[number];
        match by_reason
            .iter_mut()
            .find(|(reason, _)| reason.is_for(mutant))
        {
            Some((_, list)) => list.push(mutant),
            None => without.push(mutant),
        }
    }
    Living { by_reason, without }
}

/// A row for each file and kind: killed by the stored inputs of before, killed now, proved, unobservable, not found.
pub fn print(mutants: &[Mutant], before: &[usize], living: &Living) {
    let mut rows: BTreeMap<(&str, &str), [usize; 5]> = BTreeMap::new();
    for (number, mutant) in mutants.iter().enumerate() {
        let row = rows.entry((&mutant.file, mutant.kind)).or_default();
        row[0] += usize::from(before.binary_search(&number).is_err());
        row[1] += 1;
    }
    for (reason, list) in &living.by_reason {
        for mutant in list {
            let row = rows.entry((&mutant.file, mutant.kind)).or_default();
            row[1] -= 1;
            row[match reason.standing() {
                Standing::Proved => 2,
                Standing::Unobservable => 3,
                Standing::NotFound => 4,
            }] += 1;
        }
    }
    for mutant in &living.without {
        let row = rows.entry((&mutant.file, mutant.kind)).or_default();
        row[1] -= 1;
        row[4] += 1;
    }
    println!("| file | kind | mutants | killed before | killed | proved | unobservable | not found |\n|---|---|---|---|---|---|---|---|");
    let mut sums = [0; 5];
    for ((file, kind), row) in rows {
        print_row(file, kind, row);
        sums.iter_mut()
            .zip(row)
            .for_each(|(sum, count)| *sum += count);
    }
    print_row("all", "", sums);
}

fn print_row(file: &str, kind: &str, row: [usize; 5]) {
    let [before, killed, proved, unobservable, not_found] = row;
    let mutants = killed + proved + unobservable + not_found;
    println!("| {file} | {kind} | {mutants} | {before} | {killed} | {proved} | {unobservable} | {not_found} |");
}

/// Every reason of one standing with the mutants that it is for.
pub fn print_reasons(living: &Living, standing: Standing) {
    for (reason, list) in living
        .by_reason
        .iter()
        .filter(|(reason, list)| reason.standing() == standing && !list.is_empty())
    {
        println!("\n{}\n", wrapped(&reason.text));
        list.iter()
            .for_each(|mutant| println!("- {}", in_code(mutant)));
    }
}

/// A text in lines of at most 120 characters.
fn wrapped(text: &str) -> String {
    const WIDTH: usize = 120;
    let mut lines: Vec<String> = Vec::new();
    for word in text.split_whitespace() {
        match lines.last_mut() {
            Some(line) if line.chars().count() + 1 + word.chars().count() <= WIDTH => {
                line.push(' ');
                line.push_str(word);
            }
            _ => lines.push(word.to_string()),
        }
    }
    lines.join("\n")
}

/// A mutant's line: its place as code, and its change, whose own marks are kept.
fn in_code(mutant: &Mutant) -> String {
    let place = format!("{}:{}", mutant.file, mutant.line);
    format!(
        "{place} `{}` ({}) {}",
        mutant.function, mutant.kind, mutant.change
    )
}
