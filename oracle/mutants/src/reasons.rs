//! Why a living mutant isn't told apart: the paragraphs of reasons.txt.

use crate::table;
use mutation::Mutant;

const TEXT: &str = include_str!("../reasons.txt");

/// What a reason says of its mutants, by a word of its text.
#[derive(Clone, Copy, PartialEq)]
pub enum Standing {
    /// No input can tell them apart.
    Unobservable,
    /// No stored input calls what would show them; a law or a worked example of the proofs fixes the answer ("Proved:").
    Proved,
    /// None was found that tells them apart ("Not found").
    NotFound,
}

pub struct Reason {
    pub text: &'static str,
    /// Each the words of mutants' names, in a row.
    names: Vec<Vec<&'static str>>,
}

impl Reason {
    pub fn standing(&self) -> Standing {
        if self.text.contains("Not found") {
            Standing::NotFound
        } else if self.text.contains("Proved:") {
            Standing::Proved
        } else {
            Standing::Unobservable
        }
    }

    pub fn is_for(&self, mutant: &Mutant) -> bool {
        let name = table::name(mutant);
        self.names.iter().any(|words| stand_in_a_row(words, &name))
    }
}

fn stand_in_a_row(words: &[&str], name: &str) -> bool {
    let mut rest = name;
    words.iter().all(|words| match rest.find(words) {
        Some(place) => {
            rest = &rest[place + words.len()..];
            true
        }
        None => false,
    })
}

pub fn all() -> Vec<Reason> {
    let paragraphs = TEXT
        .split("\n\n")
        .filter(|paragraph| !paragraph.starts_with('#'));
    paragraphs.filter_map(of_paragraph).collect()
}

fn of_paragraph(paragraph: &'static str) -> Option<Reason> {
    let mut lines = paragraph.lines().filter(|line| !line.is_empty());
    let text = lines.next()?;
    let names = lines
        .map(|line| line.trim().split(" & ").collect())
        .collect();
    Some(Reason { text, names })
}
