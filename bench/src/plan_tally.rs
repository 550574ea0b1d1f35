//! Compares the archive's plans with the oracle's, number by number, and counts what was compared.

use crate::plans::{self, PLAN_LENGTH};
use crate::same;
use answers::{Limits, Move, Plan, Step1, LIMITS, MOVE_LENGTH};
use programs::buffers::WRONG_LENGTH;
use programs::random::nudged;
use std::collections::BTreeMap;
use step1_exact::Choice;

/// How many differences are described.
const SHOWN: usize = 5;

/// Doubles behind a plan, which the archive must leave alone.
const BEHIND: usize = 4;

/// What the archive's output holds before the call: no plan has this number.
const UNTOUCHED: f64 = -1.234_567_890_123_4e-300;

/// What was compared.
#[derive(Default)]
pub struct Tally {
    pub moves: u64,
    /// Searches that ended at two neighbours with different answers.
    pub boundaries: u64,
    /// Durations put to `is_blocked`.
    durations: u64,
    pub differences: u64,
    shown: Vec<String>,
    /// Counts by what they count, such as `limits` and `Vel`.
    counts: BTreeMap<(&'static str, &'static str), u64>,
}

impl Tally {
    /// Compares both answers to a move; the oracle's comes back.
    pub fn compare(&mut self, kind: &'static str, asked: &Move) -> Result<Plan, u8> {
        let numbers = asked.numbers();
        let mut output = [UNTOUCHED; PLAN_LENGTH + BEHIND];
        let verdict = plans::plan(&numbers, &mut output);
        let expected = answers::plan::<Choice>(asked);
        self.moves += 1;
        self.count_answer(kind, &expected);
        let found = match &expected {
            Ok(plan) => different_plan(verdict, &output, plan),
            Err(number) => different_refusal(verdict, &output, *number),
        };
        match (found, &expected) {
            (Some(what), _) => self.note(kind, &numbers, &what),
            (None, Ok(plan)) => self.compare_blocked(kind, &numbers, &output[..PLAN_LENGTH], plan),
            (None, Err(_)) => (),
        }
        expected
    }

    /// Compares `is_blocked` at the ends of all stretches, beside them and between.
    fn compare_blocked(&mut self, kind: &'static str, asked: &[f64], output: &[f64], plan: &Plan) {
        for t in durations_of_interest(plan) {
            self.durations += 1;
            let found = plans::is_blocked(output, t);
            let expected = if t.is_finite() { u64::from(Choice::is_blocked(plan, t)) } else { 6 };
            if found != expected {
                self.note(kind, asked, &format!("is_blocked({t:?}) is {found}, expected {expected}"));
            }
        }
    }

    fn count_answer(&mut self, kind: &'static str, expected: &Result<Plan, u8>) {
        self.count("kind", kind);
        match expected {
            Err(number) => self.count("verdict", ["", "refused 1", "refused 2", "refused 3", "refused 4", "refused 5"][*number as usize]),
            Ok(plan) => {
                let stretches = plan.stretches.iter().filter(|(stretch, _)| stretch.ends().is_some()).count();
                self.count("verdict", "planned");
                self.count("limits", LIMITS[plan.profile.limits]);
                self.count("accepted profiles", ["0 (zero limits)", "1", "2", "3", "4", "5"][plan.accepted]);
                self.count("stretches", ["0", "1", "2"][stretches]);
            }
        }
    }

    fn count(&mut self, what: &'static str, which: &'static str) {
        *self.counts.entry((what, which)).or_default() += 1;
    }

    fn note(&mut self, kind: &'static str, asked: &[f64], what: &str) {
        self.differences += 1;
        self.count("differences", kind);
        if self.shown.len() < SHOWN {
            let decimal: Vec<String> = asked.iter().map(|x| format!("{x:?}")).collect();
            let bits: Vec<String> = asked.iter().map(|x| format!("{:016X}", x.to_bits())).collect();
            self.shown.push(format!("{kind}: {what}\n  {}\n  {}", decimal.join(" "), bits.join(" ")));
        }
    }

    /// Adds what another tally counted after this one.
    pub fn add(&mut self, other: Tally) {
        self.moves += other.moves;
        self.boundaries += other.boundaries;
        self.durations += other.durations;
        self.differences += other.differences;
        self.shown.extend(other.shown);
        self.shown.truncate(SHOWN);
        for (key, count) in other.counts {
            *self.counts.entry(key).or_default() += count;
        }
    }

    pub fn print(&self) {
        for difference in &self.shown {
            println!("{difference}");
        }
        for ((what, which), count) in &self.counts {
            println!("{what:>18} {which:16} {count:>10}");
        }
        println!("{} pairs of neighbours with different answers", self.boundaries);
        println!("{} moves and {} durations compared, {} differences", self.moves, self.durations, self.differences);
    }
}

/// What is wrong with the archive's answer to a move that the oracle plans.
fn different_plan(verdict: u64, output: &[f64], plan: &Plan) -> Option<String> {
    if verdict != 0 {
        return Some(format!("{verdict} returned, but there is a plan"));
    }
    let expected = plans::laid_out(plan);
    if let Some(place) = (0..PLAN_LENGTH).find(|&place| !same(output[place], expected[place])) {
        let (found, expected) = (output[place], expected[place]);
        let name = plans::name_of(place);
        return Some(format!("{name} is {:016X} ({found:?}), expected {:016X} ({expected:?})", found.to_bits(), expected.to_bits()));
    }
    touched(&output[PLAN_LENGTH..]).then(|| "it writes behind the plan".into())
}

/// What is wrong with the archive's answer to a move that the oracle refuses.
fn different_refusal(verdict: u64, output: &[f64], number: u8) -> Option<String> {
    if verdict != u64::from(number) {
        Some(format!("{verdict} returned, expected {number}"))
    } else {
        touched(output).then(|| format!("it writes though it returns {number}"))
    }
}

fn touched(output: &[f64]) -> bool {
    output.iter().any(|number| number.to_bits() != UNTOUCHED.to_bits())
}

/// The shortest duration, the ends of stretches, their neighbours, the middles, and numbers that aren't finite.
fn durations_of_interest(plan: &Plan) -> Vec<f64> {
    let mut durations = vec![0.0, f64::NAN, f64::INFINITY, f64::NEG_INFINITY, f64::MAX];
    let beside = |t: f64| [nudged(t, -1), t, nudged(t, 1)];
    durations.extend(beside(plan.shortest));
    for (stretch, _) in &plan.stretches {
        if let Some([left, right]) = stretch.ends() {
            durations.extend(beside(left));
            durations.extend(beside(right));
            durations.push(left + (right - left) / 2.0);
        }
    }
    durations
}

/// What is wrong where lengths are: `WRONG_LENGTH`, and nothing written, whatever the numbers are.
pub fn wrong_lengths() -> Vec<String> {
    let limits = Limits { v_max: 1.0, v_min: -1.0, a_max: 1.0, a_min: -1.0, j_max: 1.0 };
    let asked = [&Move { pf: 4.0, limits, ..Move::default() }.numbers()[..], &[0.0]].concat();
    let mut wrong = Vec::new();
    let lengths = [
        (0, PLAN_LENGTH),
        (MOVE_LENGTH - 1, PLAN_LENGTH),
        (MOVE_LENGTH + 1, PLAN_LENGTH),
        (MOVE_LENGTH, 0),
        (MOVE_LENGTH, PLAN_LENGTH - 1),
    ];
    for (from, to) in lengths {
        let mut output = [UNTOUCHED; PLAN_LENGTH];
        let verdict = plans::plan(&asked[..from], &mut output[..to]);
        if verdict != WRONG_LENGTH || touched(&output) {
            let expected = format!("expected {WRONG_LENGTH} and nothing written");
            wrong.push(format!("{from} numbers of a move, {to} of a plan: {verdict} returned, {expected}"));
        }
    }
    for length in [0, PLAN_LENGTH - 1] {
        let verdict = plans::is_blocked(&[0.0; PLAN_LENGTH][..length], 1.0);
        if verdict != WRONG_LENGTH {
            wrong.push(format!("is_blocked of {length} numbers: {verdict} returned, expected {WRONG_LENGTH}"));
        }
    }
    wrong
}
