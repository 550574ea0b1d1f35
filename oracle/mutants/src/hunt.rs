//! Searches inputs that tell living mutants apart.
//!
//! Three ways, in turn: inputs of the generators; stored inputs with a number or two changed; and the border of a
//! comparison, met by bisecting one number of an input that reaches it.

use crate::asked::Asked;
use crate::special;
use crate::table;
use crate::trial::Trial;
use mutation::Mutant;
use programs::generators::{blocks, checks, families, moves, quartics};
use programs::random::{halfway, nudged, Random};
use programs::records::write_move;
use std::time::{Duration, Instant};

/// How many inputs are kept for each comparison that they reach.
const KEPT: usize = 64;

pub struct Hunt<'a> {
    pub trial: &'a mut Trial,
    pub found: Vec<Asked>,
    random: Random,
    inputs: Vec<Asked>,
    /// The first numbers of comparisons near living mutants, each with inputs that reach it.
    borders: Vec<(usize, Vec<Asked>)>,
    pub tries: u64,
}

impl<'a> Hunt<'a> {
    pub fn new(seed: u64, mutants: &[Mutant], trial: &'a mut Trial, inputs: Vec<Asked>) -> Self {
        let inputs: Vec<Asked> = inputs
            .into_iter()
            .filter(|asked| !asked.numbers().is_empty())
            .collect();
        let borders = borders(mutants, trial.living());
        let mut hunt = Hunt {
            trial,
            found: Vec::new(),
            random: Random::new(seed),
            inputs,
            borders: borders
                .into_iter()
                .map(|first| (first, Vec::new()))
                .collect(),
            tries: 0,
        };
        for place in 0..hunt.inputs.len() {
            let asked = hunt.inputs[place].clone();
            hunt.keep_for_borders(&asked);
        }
        hunt
    }

    pub fn run(&mut self, limit: Duration, mutants: &[Mutant]) {
        let start = Instant::now();
        while start.elapsed() < limit {
            for _ in 0..200 {
                let drawn = self.drawn();
                self.put(&drawn, mutants);
                if self.random.one_in(8) {
                    self.keep_for_borders(&drawn);
                }
                let changed = self.changed();
                self.put(&changed, mutants);
            }
            for _ in 0..20 {
                self.meet_a_border(mutants);
            }
        }
    }

    fn put(&mut self, asked: &Asked, mutants: &[Mutant]) {
        self.tries += 1;
        let apart = self.trial.told_apart_by(asked);
        if apart.is_empty() {
            return;
        }
        for &number in &apart {
            println!("{number} {}", table::name(&mutants[number]));
        }
        self.found.push(asked.clone());
        self.inputs.push(asked.clone());
        // What told one apart is near what tells others apart.
        for _ in 0..300 {
            let near = self.with_changes(asked);
            self.tries += 1;
            if !self.trial.told_apart_by(&near).is_empty() {
                self.found.push(near.clone());
                self.inputs.push(near);
            }
        }
    }

    /// An input of a generator.
    fn drawn(&mut self) -> Asked {
        let random = &mut self.random;
        if !random.one_in(3) {
            return special::drawn(random);
        }
        match random.below(16) {
            0..8 => {
                let (_, make) = random.pick(&moves::KINDS);
                let mut bytes = Vec::new();
                write_move(&mut bytes, &make(random)).expect("memory takes all bytes");
                Asked::Record(bytes, true)
            }
            8..12 => Asked::Family(families::call(random)),
            12 => Asked::Block(blocks::call(random)),
            13 => Asked::Check(checks::check(random)),
            14 => Asked::Check(checks::accepted(random)),
            _ => Asked::Quartic(quartics::quartic(random)),
        }
    }

    /// A known input with a few of its numbers changed.
    fn changed(&mut self) -> Asked {
        let place = self.random.below(self.inputs.len() as u64) as usize;
        let asked = self.inputs[place].clone();
        self.with_changes(&asked)
    }

    fn with_changes(&mut self, asked: &Asked) -> Asked {
        let mut numbers = asked.numbers();
        for _ in 0..1 + self.random.below(3) {
            let place = self.random.below(numbers.len() as u64) as usize;
            let other = numbers[self.random.below(numbers.len() as u64) as usize];
            numbers[place] = self.changed_number(numbers[place], other);
        }
        let mut changed = asked.with_numbers(&numbers);
        if self.random.one_in(8) {
            changed = changed.turned();
        }
        changed.change_choices(&mut self.random);
        changed
    }

    fn changed_number(&mut self, number: f64, other: f64) -> f64 {
        let random = &mut self.random;
        let eps = f64::EPSILON;
        match random.below(16) {
            0..4 => nudged(number, random.below(9) as i64 - 4),
            4 => random.pick(&[0.0, -0.0]),
            5 => random.pick(&[
                eps,
                -eps,
                2.0 * eps,
                eps / 2.0,
                -eps / 2.0,
                1.5 * eps,
                0.75 * eps,
                1e-12,
                1e-9,
                1e-8,
                1e-10,
            ]),
            6 => nudged(random.pick(&[eps, -eps]), random.below(3) as i64 - 1),
            7 => other,
            8 => -other,
            9 => -number,
            10 => number * random.pick(&[2.0, 0.5, 3.0, 0.25, 1.5]),
            11 => random.pick(&[
                f64::NAN,
                f64::INFINITY,
                f64::NEG_INFINITY,
                1e300,
                1e-300,
                1e150,
                1e-150,
                1e100,
                1e-100,
            ]),
            12 => (random.below(33) as f64 - 16.0) / 4.0,
            13 => number + random.signed_unit() * random.size(-52, 0),
            14 => random.size(-200, 200) * random.pick(&[1.0, -1.0]),
            _ => number * (1.0 + random.signed_unit() * random.size(-50, -1)),
        }
    }

    fn keep_for_borders(&mut self, asked: &Asked) {
        for (first, _) in &self.borders {
            mutant_switch::take_nearest(*first);
        }
        traced(asked);
        for (first, kept) in &mut self.borders {
            if mutant_switch::take_nearest(*first) == mutant_switch::FAR {
                continue;
            }
            if kept.len() < KEPT {
                kept.push(asked.clone());
            } else {
                kept[self.random.below(KEPT as u64) as usize] = asked.clone();
            }
        }
    }

    /// Takes an input that reaches a comparison to where the two sides meet, and puts what lies on both sides.
    fn meet_a_border(&mut self, mutants: &[Mutant]) {
        let (first, kept) = &self.borders[self.random.below(self.borders.len() as u64) as usize];
        if kept.is_empty() {
            return;
        }
        let (first, asked) = (
            *first,
            kept[self.random.below(kept.len() as u64) as usize].clone(),
        );
        let asked = if self.random.one_in(2) {
            self.with_changes(&asked)
        } else {
            asked
        };
        let place = self.random.below(asked.numbers().len() as u64) as usize;
        if let Some((inside, outside)) = self.bracket(&asked, first, place) {
            let ends = bisect(&asked, first, place, inside, outside);
            for end in ends {
                for places in [0, 1, -1, 2, -2] {
                    self.put(&with(&asked, place, nudged(end, places)), mutants);
                }
            }
            let met = with(&asked, place, ends[0]);
            self.keep_for_borders(&met);
        }
    }

    /// Two values of a number between which the comparison changes.
    fn bracket(&mut self, asked: &Asked, first: usize, place: usize) -> Option<(f64, f64)> {
        let from = asked.numbers()[place];
        let at_first = apart(asked, first)?;
        if from.is_nan() {
            return None;
        }
        let mut step = self.random.below(1 << 40) as i64 + 1;
        for _ in 0..12 {
            for way in [step, -step] {
                let to = nudged(from, way);
                if to.is_nan() {
                    continue;
                }
                let there = apart(&with(asked, place, to), first);
                if there.is_some_and(|there| (there < 0) != (at_first < 0)) {
                    return Some((from, to));
                }
            }
            step = step.saturating_mul(16);
        }
        None
    }
}

fn traced(asked: &Asked) {
    mutant_switch::select(mutant_switch::TRACED);
    asked.answer(&mut Vec::new());
    mutant_switch::select(mutant_switch::ORIGINAL);
}

/// How far apart the sides of a comparison are, where it is reached.
fn apart(asked: &Asked, first: usize) -> Option<i64> {
    mutant_switch::take_nearest(first);
    traced(asked);
    let nearest = mutant_switch::take_nearest(first);
    (nearest != mutant_switch::FAR).then_some(nearest)
}

fn with(asked: &Asked, place: usize, number: f64) -> Asked {
    let mut numbers = asked.numbers();
    numbers[place] = number;
    asked.with_numbers(&numbers)
}

/// Neighbours between which the comparison changes, or where it isn't reached any more.
fn bisect(asked: &Asked, first: usize, place: usize, mut one: f64, mut other: f64) -> [f64; 2] {
    let below = |x: f64| apart(&with(asked, place, x), first).map(|apart| apart < 0);
    let of_one = below(one);
    loop {
        let middle = halfway(one, other);
        if middle == one || middle == other || middle.is_nan() {
            return [one, other];
        }
        if below(middle) == of_one {
            one = middle;
        } else {
            other = middle;
        }
    }
}

/// The comparisons of doubles in functions with living mutants, those in their lines more often.
fn borders(mutants: &[Mutant], living: &[usize]) -> Vec<usize> {
    let is_first = |number: usize| {
        let change = &mutants[number].change;
        mutants[number].kind == "comparison"
            && [": < as <=", ": <= as <", ": > as >=", ": >= as >"]
                .iter()
                .any(|ending| change.ends_with(ending))
    };
    let firsts: Vec<usize> = (0..mutants.len())
        .filter(|&number| is_first(number))
        .collect();
    let mut found = Vec::new();
    for first in firsts {
        let Mutant {
            file,
            line,
            function,
            ..
        } = &mutants[first];
        let near = living
            .iter()
            .map(|&number| &mutants[number])
            .filter(|other| other.file == *file && other.function == *function);
        let lines: Vec<usize> = near.map(|other| other.line).collect();
        let weight = usize::from(!lines.is_empty()) + 4 * usize::from(lines.contains(line));
        found.extend(std::iter::repeat_n(first, weight));
    }
    found
}
