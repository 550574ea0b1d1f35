//! The lines that the programs print.

use answers::{Plan, Profile, Stretch, DIRECTIONS, LIMITS};
use std::fmt;
use std::io::{self, Write};

/// Every NaN prints as this one.
const NAN: u64 = 0x7FF8_0000_0000_0000;

/// A line's fields, one space apart.
#[derive(Default)]
pub struct Line(Vec<u8>);

impl Line {
    pub fn word(&mut self, word: &str) -> &mut Self {
        if !self.0.is_empty() {
            self.0.push(b' ');
        }
        self.0.extend_from_slice(word.as_bytes());
        self
    }

    pub fn count(&mut self, count: usize) -> &mut Self {
        self.word(&count.to_string())
    }

    /// The 16 hexadecimal digits of a double's bits.
    pub fn double(&mut self, number: f64) -> &mut Self {
        let bits = if number.is_nan() {
            NAN
        } else {
            number.to_bits()
        };
        let mut field = [b' '; 17];
        for (digit, shift) in field[1..].iter_mut().zip((0..64).step_by(4).rev()) {
            *digit = b"0123456789ABCDEF"[(bits >> shift & 15) as usize];
        }
        let first = usize::from(self.0.is_empty());
        self.0.extend_from_slice(&field[first..]);
        self
    }

    pub fn doubles(&mut self, numbers: &[f64]) -> &mut Self {
        for &number in numbers {
            self.double(number);
        }
        self
    }

    pub fn profile(&mut self, profile: &Profile) -> &mut Self {
        for (_, words, place) in profile.names() {
            self.word(words[place]);
        }
        for (_, part) in profile.parts() {
            self.doubles(part);
        }
        self
    }

    /// A stretch's kind and both ends.
    pub fn stretch(&mut self, stretch: &Stretch) -> &mut Self {
        let kind = match stretch {
            Stretch::Nothing => "nothing",
            Stretch::Between(..) => "between",
            Stretch::From(_) => "from",
        };
        self.word(kind)
            .doubles(&stretch.ends().unwrap_or([0.0, 0.0]))
    }

    pub fn refusal(&mut self, number: u8) -> &mut Self {
        self.word("refused").count(number as usize)
    }

    /// Prints the line and empties it.
    pub fn end(&mut self, output: &mut dyn Write) -> io::Result<()> {
        self.0.push(b'\n');
        output.write_all(&self.0)?;
        self.0.clear();
        Ok(())
    }
}

impl fmt::Display for Line {
    fn fmt(&self, f: &mut fmt::Formatter<'_>) -> fmt::Result {
        f.write_str(&String::from_utf8_lossy(&self.0))
    }
}

/// `plan_moves`' line for a plan, after the record's number.
pub fn short_plan(line: &mut Line, plan: &Plan) {
    line.word("ok").double(plan.shortest);
    line.word(DIRECTIONS[plan.profile.direction])
        .word(LIMITS[plan.profile.limits]);
    let ends: Vec<[f64; 2]> = plan
        .stretches
        .iter()
        .filter_map(|(s, _)| s.ends())
        .collect();
    line.count(ends.len()).doubles(ends.as_flattened());
}

/// `plan_full`'s line for a plan, after the record's number.
pub fn full_plan(line: &mut Line, plan: &Plan) {
    line.word("ok").double(plan.shortest).profile(&plan.profile);
    for (stretch, profile) in &plan.stretches {
        line.stretch(stretch).profile(profile);
    }
}

/// A plan of the selection called alone; its profiles are told by their marks.
pub fn selected_plan(line: &mut Line, plan: &Plan) {
    line.word("ok")
        .double(plan.shortest)
        .double(plan.profile.pf);
    for (stretch, profile) in &plan.stretches {
        line.stretch(stretch).double(profile.pf);
    }
}
