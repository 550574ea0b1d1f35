//! The mutants by hand, from slips.txt: each puts a text in place of another.

use crate::tokens::{tokens, Kind};

const TEXT: &str = include_str!("../slips.txt");

/// A text of one function, and what a slip makes of it.
#[derive(Debug)]
pub struct Slip {
    pub name: String,
    pub file: String,
    pub function: String,
    old: String,
    /// Which of several such texts, counted from 0.
    nth: usize,
    new: String,
}

impl Slip {
    /// Where its text stands, from byte to byte; blanks don't matter.
    pub fn place_in(&self, text: &str) -> Option<(usize, usize)> {
        let (wanted, found) = (tokens(&self.old), tokens(text));
        let wanted: Vec<&str> = texts(&wanted);
        let is_here = |start: &usize| {
            let here = found[*start..].iter().map(|token| token.text);
            here.take(wanted.len()).eq(wanted.iter().copied())
        };
        let start = (0..found.len()).filter(is_here).nth(self.nth)?;
        let last = found[start + wanted.len() - 1];
        Some((found[start].start, last.end()))
    }

    /// A function's text with the slip in it; nothing if it isn't this function's.
    pub fn applied_to(&self, text: &str) -> Option<String> {
        let (start, end) = self.place_in(text)?;
        Some(format!("{}{}{}", &text[..start], self.new, &text[end..]))
    }
}

fn texts<'a>(tokens: &[crate::tokens::Token<'a>]) -> Vec<&'a str> {
    let all = tokens.iter().filter(|token| token.kind != Kind::End);
    all.map(|token| token.text).collect()
}

/// Every slip, in the order of the file.
pub fn slips() -> Vec<Slip> {
    let paragraphs = TEXT
        .split("\n\n")
        .filter(|paragraph| !paragraph.starts_with('#'));
    paragraphs.map(of_paragraph).collect()
}

fn of_paragraph(paragraph: &str) -> Slip {
    let field = |name: &str| field_of(paragraph, name);
    let place = field("in");
    let (file, function) = place
        .split_once(' ')
        .unwrap_or_else(|| panic!("no function: {paragraph}"));
    Slip {
        name: field("name"),
        file: file.to_string(),
        function: function.to_string(),
        old: field("old"),
        nth: field("nth").parse().unwrap_or(0),
        new: field("new"),
    }
}

/// What stands behind a field's name, in its line and those that are indented below it.
fn field_of(paragraph: &str, name: &str) -> String {
    let mut lines = paragraph.lines();
    let begins = |line: &&str| {
        line.strip_prefix(name)
            .is_some_and(|rest| rest.starts_with(':'))
    };
    let Some(first) = lines.find(begins) else {
        return String::new();
    };
    let more = lines.take_while(|line| line.starts_with(' '));
    let all = std::iter::once(&first[name.len() + 1..]).chain(more);
    all.map(str::trim).collect::<Vec<_>>().join(" ")
}
