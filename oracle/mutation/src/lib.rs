//! Writes the Rust with every mutant in it, each behind a switch: one build runs them all.
//!
//! A mutant is the Rust with one thing changed: an operator, a comparison, a constant, an index, an order, an early end,
//! a name, an argument, a statement left out; or one of the slips listed by hand. What no plan reaches isn't mutated.

pub mod by_hand;
pub mod parse;
pub mod render;
pub mod tokens;
pub mod tree;

pub use render::Mutant;

use by_hand::{slips, Slip};
use parse::Parser;
use render::Renderer;
use std::collections::BTreeMap;
use std::env;
use std::fs;
use std::path::{Path, PathBuf};
use tokens::{tokens, Token};

/// The functions that are ported, by file. A number tells which of several functions of one name.
const FUNCTIONS: [(&str, &[(&str, usize)]); 7] = [
    (
        "roots.rs",
        &[
            ("insert", 0),
            ("insert", 1),
            ("into_iter", 3),
            ("solve_resolvent", 0),
            ("solve_quart_monic_coeffs", 0),
            ("solve_quart_monic_arr", 0),
        ],
    ),
    (
        "profile.rs",
        &[
            ("check", 0),
            ("check_with_timing", 0),
            ("set_boundary_from_profile", 0),
            ("set_boundary", 0),
        ],
    ),
    (
        "block.rs",
        &[
            ("remove_profile", 0),
            ("set_min_profile", 0),
            ("calculate_block", 0),
            ("is_blocked", 0),
            ("new", 0),
            ("from_profiles", 0),
        ],
    ),
    (
        "position_third_step1.rs",
        &[
            ("new", 0),
            ("add_profile", 0),
            ("time_all_vel", 0),
            ("time_acc0_acc1", 0),
            ("time_all_none_acc0_acc1", 0),
            ("time_acc1_vel_two_step", 0),
            ("time_acc0_two_step", 0),
            ("time_vel_two_step", 0),
            ("time_none_two_step", 0),
            ("time_all_single_step", 0),
            ("get_profile", 0),
        ],
    ),
    (
        "wrapper.rs",
        &[
            ("plan", 0),
            ("refused_before_planning", 0),
            ("number_of_no", 0),
            ("select", 0),
            ("is_blocked", 0),
        ],
    ),
    ("records.rs", &[("read_move", 0)]),
    (
        "arrival.rs",
        &[
            ("arrival", 0),
            ("axes", 0),
            ("is_malformed", 0),
            ("is_malformed_stretch", 0),
            ("is_missing", 0),
            ("is_free_for_all", 0),
            ("is_inside", 0),
            ("has", 0),
            ("ends_at", 0),
        ],
    ),
];

/// Every file with its mutants, by name, and the mutants by number.
pub struct Mutated {
    pub texts: BTreeMap<String, String>,
    pub mutants: Vec<Mutant>,
}

/// The whole work of a build script: writes the mutated files over those in the build folder.
pub fn write_into_build_folder() {
    let mutated = of_the_oracle();
    for folder in ["answers/src", "programs/src", "patches", "../docs/src"] {
        println!(
            "cargo:rerun-if-changed={}",
            patched_source::oracle_folder().join(folder).display()
        );
    }
    let out = PathBuf::from(env::var("OUT_DIR").expect("cargo sets OUT_DIR"));
    for (name, text) in &mutated.texts {
        fs::write(out.join(name), text).unwrap_or_else(|error| panic!("{name}: {error}"));
    }
}

/// Every mutant by its number.
pub fn mutants() -> Vec<Mutant> {
    of_the_oracle().mutants
}

/// The patched four files, the refusals, the reading of records and the arrival, mutated.
pub fn of_the_oracle() -> Mutated {
    let oracle = patched_source::oracle_folder();
    let sources = oracle.join("../docs/src/lib/src/rsruckig");
    let own = [
        oracle.join("answers/src/wrapper.rs"),
        oracle.join("programs/src/records.rs"),
        oracle.join("answers/src/arrival.rs"),
    ];
    let patched = patched_source::patched(&sources, &oracle.join("patches"));
    let mut texts = patched.unwrap_or_else(|message| panic!("{message}"));
    for path in &own {
        texts.insert(
            name_of(path),
            fs::read_to_string(path).unwrap_or_else(|error| panic!("{error}")),
        );
    }
    of_texts(texts)
}

fn name_of(path: &Path) -> String {
    path.file_name()
        .expect("a file")
        .to_string_lossy()
        .into_owned()
}

fn of_texts(mut texts: BTreeMap<String, String>) -> Mutated {
    let mut mutants = Vec::new();
    for (file, functions) in FUNCTIONS {
        let text = texts
            .remove(file)
            .unwrap_or_else(|| panic!("{file} is missing"));
        let written = mutate_file(file, &text, functions, &mut mutants);
        // Inlining everywhere would make the build long, and changes nothing.
        texts.insert(
            file.to_string(),
            written
                .replace("#[inline(always)]", "")
                .replace("#[inline]", ""),
        );
    }
    Mutated { texts, mutants }
}

fn mutate_file(
    file: &str,
    text: &str,
    functions: &[(&str, usize)],
    mutants: &mut Vec<Mutant>,
) -> String {
    let tokens = tokens(text);
    let mut found: Vec<Function> = functions
        .iter()
        .map(|&(name, nth)| Function::find(&tokens, name, nth))
        .collect();
    found.sort_by_key(|function| function.start);
    let mut written = String::new();
    let mut done = 0;
    for function in &found {
        written += &text[done..function.start];
        written += &mutate_function(file, text, &tokens, function, mutants);
        done = function.end;
    }
    written + &text[done..]
}

/// Where a function stands in a text.
struct Function {
    name: String,
    /// Its body, from brace to brace.
    start: usize,
    end: usize,
    /// The token that opens the body.
    body: usize,
}

impl Function {
    fn find(tokens: &[Token], name: &str, nth: usize) -> Function {
        let is_it = |pair: &[Token]| pair[0].text == "fn" && pair[1].text == name;
        let mut places = (0..tokens.len() - 1).filter(|&place| is_it(&tokens[place..place + 2]));
        let place = places
            .nth(nth)
            .unwrap_or_else(|| panic!("no function {name} number {nth}"));
        let open = (place..)
            .find(|&at| tokens[at].text == "(")
            .expect("parameters");
        let close = matching(tokens, open);
        let body = (close..)
            .find(|&at| tokens[at].text == "{")
            .expect("a body");
        Function {
            name: name.to_string(),
            start: tokens[body].start,
            end: tokens[matching(tokens, body)].end(),
            body,
        }
    }
}

/// The token that closes a bracket.
fn matching(tokens: &[Token], open: usize) -> usize {
    let mut depth = 0;
    for (place, token) in tokens.iter().enumerate().skip(open) {
        match token.text {
            "(" | "[" | "{" => depth += 1,
            ")" | "]" | "}" => depth -= 1,
            _ => (),
        }
        if depth == 0 {
            return place;
        }
    }
    panic!("a bracket isn't closed")
}

/// A function's body with its mutants: first those by hand, each a body of its own.
fn mutate_function(
    file: &str,
    text: &str,
    tokens: &[Token],
    function: &Function,
    mutants: &mut Vec<Mutant>,
) -> String {
    let block = Parser::new(tokens, function.body).block();
    let body = Renderer::new(text, file, &function.name, mutants).block(&block);
    let mut by_hand = String::new();
    let original = &text[function.start..function.end];
    let is_its = |slip: &Slip| slip.file == file && slip.function == function.name;
    for slip in slips().into_iter().filter(is_its) {
        if let Some(changed) = slip.applied_to(original) {
            let number = mutants.len();
            by_hand += &format!("if ::mutant_switch::is_on({number}) {{ return {changed}; }}\n");
            mutants.push(slip_mutant(&slip, text, function.start));
        }
    }
    body.replacen('{', &format!("{{\n{by_hand}"), 1)
}

fn slip_mutant(slip: &Slip, text: &str, start: usize) -> Mutant {
    let (place, _) = slip.place_in(&text[start..]).unwrap_or((0, 0));
    Mutant {
        file: slip.file.clone(),
        function: slip.function.clone(),
        line: text[..start + place].matches('\n').count() + 1,
        kind: "by hand",
        change: slip.name.clone(),
    }
}

#[cfg(test)]
mod tests {
    use super::{by_hand, mutants};

    /// Each slip stands in one function, and there are as many other mutants as the gate was judged by.
    #[test]
    fn every_slip_is_a_mutant_once() {
        let mutants = mutants();
        let count = |name: &str| {
            let named = mutants.iter().filter(|mutant| mutant.change == name);
            named.filter(|mutant| mutant.kind == "by hand").count()
        };
        for slip in by_hand::slips() {
            let alike = by_hand::slips()
                .iter()
                .filter(|other| other.name == slip.name)
                .count();
            assert_eq!(count(&slip.name), alike, "{slip:?}");
        }
        assert!(mutants.len() > 6000);
    }
}
