//! Moves in; how many of document 01's answers change with another choice of functions, how they change, and examples.

use answers::{Move, Plan, Profile};
use programs::command::{self, Stop};
use programs::lines::{full_plan, short_plan, Line};
use programs::oracle::Oracle;
use programs::records::read_move;
use std::io::{self, Read, Write};
use std::process::ExitCode;

/// How many examples of each change are shown.
const EXAMPLES: usize = 12;

/// A move's answer: the plan, or the refusal's number.
type Answer = Result<Plan, u8>;

/// How an answer changes, by the first of these that holds; the last two leave all but numbers as it is.
const CHANGES: [&str; 6] = [
    "accepted by exact, refused by the other",
    "refused by exact, accepted by the other",
    "refused by both, with different numbers",
    "changed in a direction, in limits or in a kind of stretch",
    "changed in the shortest duration",
    "changed in other numbers only",
];

fn main() -> ExitCode {
    let usage = "compare --functions std|libc < MOVES";
    command::answer(usage, &[], |other, _, input, output| {
        let exact = Oracle::named("exact").expect("it is one of the choices");
        let found = compare(&exact, other, input)?;
        Ok(show(output, &found)?)
    })
}

/// What was compared, and for each of the `CHANGES` the moves that changed so, with both short answers.
#[derive(Default)]
struct Found {
    moves: usize,
    changed: [Vec<String>; CHANGES.len()],
}

fn compare(exact: &Oracle, other: &Oracle, input: &mut dyn Read) -> Result<Found, Stop> {
    let mut found = Found::default();
    while let Some(read) = read_move(input)? {
        let asked = read.map_err(|_| Stop::Input("a record is not document 01's".into()))?;
        found.moves += 1;
        let (one, two) = ((exact.plan)(&asked), (other.plan)(&asked));
        if let Some(change) = change(&one, &two) {
            found.changed[change].push(example(found.moves, &asked, &one, &two));
        }
    }
    Ok(found)
}

/// The change's place in `CHANGES`.
fn change(one: &Answer, two: &Answer) -> Option<usize> {
    match (one, two) {
        (Ok(_), Err(_)) => Some(0),
        (Err(_), Ok(_)) => Some(1),
        (Err(one), Err(two)) => (one != two).then_some(2),
        (Ok(first), Ok(second)) => {
            if shown(one, full_plan) == shown(two, full_plan) {
                None
            } else if names(first) != names(second) {
                Some(3)
            } else if first.shortest.to_bits() != second.shortest.to_bits() {
                Some(4)
            } else {
                Some(5)
            }
        }
    }
}

/// All of a plan that isn't a double: directions, limits, control signs, kinds of stretches.
fn names(plan: &Plan) -> impl PartialEq {
    let of = |profile: &Profile| (profile.direction, profile.limits, profile.control_signs);
    let beside = plan.stretches.map(|(stretch, profile)| {
        let kind = std::mem::discriminant(&stretch);
        (kind, of(&profile))
    });
    (of(&plan.profile), beside)
}

fn shown(answer: &Answer, show: fn(&mut Line, &Plan)) -> String {
    let mut line = Line::default();
    match answer {
        Ok(plan) => show(&mut line, plan),
        Err(refusal) => drop(line.word("refused").count(*refusal as usize)),
    }
    line.to_string()
}

fn example(number: usize, asked: &Move, one: &Answer, two: &Answer) -> String {
    let numbers: Vec<String> = asked.numbers().iter().map(|x| format!("{x:?}")).collect();
    let (one, two) = (shown(one, short_plan), shown(two, short_plan));
    format!(
        "  move {number}: {}\n    exact: {one}\n    other: {two}",
        numbers.join(" ")
    )
}

fn show(output: &mut dyn Write, found: &Found) -> io::Result<()> {
    let all: usize = found.changed.iter().map(Vec::len).sum();
    writeln!(output, "{} moves, {all} of them changed", found.moves)?;
    for (title, changed) in CHANGES.iter().zip(&found.changed) {
        writeln!(output, "{} {title}", changed.len())?;
        for example in changed.iter().take(EXAMPLES) {
            writeln!(output, "{example}")?;
        }
    }
    Ok(())
}
