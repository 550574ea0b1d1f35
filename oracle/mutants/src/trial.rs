//! Puts inputs to all mutants that still live.

use crate::asked::{Asked, Shown};
use std::panic::{catch_unwind, set_hook, take_hook, AssertUnwindSafe};

pub struct Trial {
    /// The mutants that no input told apart so far, ascending.
    living: Vec<usize>,
    /// How often each ran in vain.
    runs: Vec<u64>,
    /// After so many runs in vain a mutant runs ever more rarely; nothing if it always runs.
    pub patience: Option<u64>,
    turn: u64,
    answer: Shown,
    other: Shown,
}

impl Trial {
    pub fn new(count: usize) -> Self {
        assert!(
            count <= mutant_switch::MOST,
            "{count} mutants are too many for the switch"
        );
        // A mutant that stops the program is told apart; it needs no message.
        let usual = take_hook();
        set_hook(Box::new(move |panic| {
            if !mutant_switch::is_mutated() {
                usual(panic);
            }
        }));
        Trial {
            living: (0..count).collect(),
            runs: vec![0; count],
            patience: None,
            turn: 0,
            answer: Shown::new(),
            other: Shown::new(),
        }
    }

    pub fn living(&self) -> &[usize] {
        &self.living
    }

    pub fn put(&mut self, asked: &Asked) {
        self.told_apart_by(asked);
    }

    /// The living mutants that an input tells apart; they live no more.
    pub fn told_apart_by(&mut self, asked: &Asked) -> Vec<usize> {
        mutant_switch::select(mutant_switch::TRACED);
        asked.answer(&mut self.answer);
        let touched: Vec<usize> = self
            .living
            .iter()
            .copied()
            .filter(|&mutant| mutant_switch::take_touched(mutant))
            .collect();
        self.turn += 1;
        let apart: Vec<usize> = touched
            .into_iter()
            .filter(|&mutant| self.is_its_turn(mutant) && self.tells_apart(asked, mutant))
            .collect();
        mutant_switch::select(mutant_switch::ORIGINAL);
        self.living.retain(|mutant| !apart.contains(mutant));
        apart
    }

    /// The living mutants that an input tells apart; they live on.
    pub fn all_told_apart_by(&mut self, asked: &Asked) -> Vec<usize> {
        let living = self.living.clone();
        let apart = self.told_apart_by(asked);
        self.living = living;
        apart
    }

    fn is_its_turn(&mut self, mutant: usize) -> bool {
        let rarely = self
            .patience
            .map_or(1, |patience| 1 + self.runs[mutant] / patience);
        // Another turn for each mutant, lest they all run on the same input.
        let runs = (self.turn + mutant as u64).wrapping_mul(0x9E37_79B9_7F4A_7C15) >> 20 & 0xFFFF;
        let runs = runs.is_multiple_of(rarely);
        self.runs[mutant] += u64::from(runs);
        runs
    }

    /// Whether a mutant answers otherwise than the answer that was kept.
    fn tells_apart(&mut self, asked: &Asked, mutant: usize) -> bool {
        mutant_switch::select(mutant);
        let Trial { answer, other, .. } = self;
        let answered = catch_unwind(AssertUnwindSafe(|| asked.answer(other)));
        answered.is_err() || answer != other
    }
}

#[cfg(test)]
mod tests {
    use super::Trial;
    use crate::asked::Asked;
    use answers::Step1;
    use programs::generators::{arrivals, checks, families};
    use programs::random::Random;
    use step1_mutated::Choice;

    // One test for both: there is one switch.
    #[test]
    fn unmutated_answers_are_the_oracles_and_a_mutant_is_told_apart() {
        let mut random = Random::new(1);
        for _ in 0..4000 {
            let call = families::call(&mut random);
            let (one, two) = (Choice::family(&call), step1_exact::Choice::family(&call));
            assert_eq!(format!("{one:?}"), format!("{two:?}"));
            let check = checks::check(&mut random);
            let (one, two) = (Choice::check(&check), step1_exact::Choice::check(&check));
            assert_eq!(format!("{one:?}"), format!("{two:?}"));
            let call = arrivals::call(&mut random);
            let (durations, ends) = (call.durations.as_slice(), call.ends.as_slice());
            let unmutated = crate::arrival::arrival(durations, ends);
            assert_eq!(unmutated, answers::arrival::arrival(durations, ends));
        }
        let mutants = mutation::mutants();
        let mut trial = Trial::new(mutants.len());
        let apart = trial.told_apart_by(&Asked::Quartic([-3.0, 2.0, 0.0, 0.0]));
        let is_factor = |&number: &usize| mutants[number].change == "`4.0 * b`: * as /";
        assert!(apart.iter().any(is_factor));
        assert!(!apart.iter().any(|number| trial.living().contains(number)));
        assert!(apart
            .iter()
            .all(|&number| mutants[number].file == "roots.rs"));
    }
}
