//! What the mutated Rust can be asked, and its answer as the test programs show it.

use crate::arrival::arrival;
use crate::records::read_move;
use crate::special;
use crate::wrapper;
use answers::{
    ArrivalCall, BlockCall, Check, FamilyCall, Move, Plan, Profile, Step1, Stretch, MOVE_LENGTH,
};
use programs::random::Random;
use programs::records::{MOVE_HEAD, MOVE_SIZE};
use step1_mutated::Choice;

/// One input of a test program.
// A few ten thousand are kept at once; no box is needed.
#[allow(clippy::large_enum_variant)]
#[derive(Clone, Debug, PartialEq)]
pub enum Asked {
    /// What is left of an input, to `plan_moves`, or with everything that the plan holds to `plan_full`.
    Record(Vec<u8>, bool),
    Family(FamilyCall),
    Check(Check),
    Quartic([f64; 4]),
    Block(BlockCall),
    Arrival(ArrivalCall),
}

/// An answer: the numbers of a line, every NaN alike.
pub type Shown = Vec<u64>;

impl Asked {
    pub fn answer(&self, shown: &mut Shown) {
        shown.clear();
        match self {
            Asked::Record(bytes, full) => show_reply(bytes, *full, shown),
            Asked::Family(call) => {
                let added = Choice::family(call);
                shown.push(added.as_slice().len() as u64);
                added
                    .as_slice()
                    .iter()
                    .for_each(|profile| show_profile(profile, shown));
            }
            Asked::Check(call) => match Choice::check(call) {
                Some(profile) => show_profile(&profile, shown),
                None => shown.push(0),
            },
            Asked::Quartic(coefficients) => {
                show_doubles(Choice::quartic(*coefficients).as_slice(), shown)
            }
            Asked::Block(call) => show_selection(call, shown),
            Asked::Arrival(call) => {
                match arrival(call.durations.as_slice(), call.ends.as_slice()) {
                    Ok((time, axis)) => shown.extend([time.to_bits(), axis as u64]),
                    Err(number) => shown.push(u64::from(number)),
                }
            }
        }
    }
}

/// Where a record's doubles begin.
const DOUBLES: usize = MOVE_HEAD.len();

impl Asked {
    /// Every double of the input. An arrival has none to change: its pins are written by hand.
    pub fn numbers(&self) -> Vec<f64> {
        match self {
            Asked::Record(bytes, _) => {
                let doubles = bytes.get(DOUBLES..MOVE_SIZE).unwrap_or(&[]);
                doubles
                    .chunks_exact(8)
                    .map(|eight| f64::from_be_bytes(eight.try_into().expect("eight bytes")))
                    .collect()
            }
            Asked::Family(call) => call.asked.numbers().to_vec(),
            Asked::Check(call) => [&call.boundary[..], &call.t, &[call.jf], &call.bounds].concat(),
            Asked::Quartic(coefficients) => coefficients.to_vec(),
            Asked::Block(call) => {
                let mut numbers: Vec<f64> = call
                    .profiles
                    .iter()
                    .flat_map(|profile| [profile.t_sum[6], profile.brake, profile.accel])
                    .collect();
                numbers.push(call.given.shortest);
                numbers.extend(call.times);
                numbers
            }
            Asked::Arrival(_) => Vec::new(),
        }
    }

    /// The same input with other doubles.
    pub fn with_numbers(&self, numbers: &[f64]) -> Asked {
        let mut changed = self.clone();
        match &mut changed {
            Asked::Record(bytes, _) => {
                for (place, number) in numbers.iter().enumerate() {
                    bytes[DOUBLES + 8 * place..DOUBLES + 8 * place + 8]
                        .copy_from_slice(&number.to_be_bytes());
                }
            }
            Asked::Family(call) => {
                call.asked = Move::from_numbers(std::array::from_fn(|place| numbers[place]))
            }
            Asked::Check(call) => {
                call.boundary.copy_from_slice(&numbers[..6]);
                call.t.copy_from_slice(&numbers[6..13]);
                call.jf = numbers[13];
                call.bounds.copy_from_slice(&numbers[14..]);
            }
            Asked::Quartic(coefficients) => coefficients.copy_from_slice(numbers),
            Asked::Block(call) => {
                for (profile, numbers) in call.profiles.iter_mut().zip(numbers.chunks(3)) {
                    (profile.t_sum[6], profile.brake, profile.accel) =
                        (numbers[0], numbers[1], numbers[2]);
                }
                call.given.shortest = numbers[18];
                call.times.copy_from_slice(&numbers[19..]);
            }
            Asked::Arrival(_) => (),
        }
        changed
    }

    /// A move the other way round; anything else as it is.
    pub fn turned(&self) -> Asked {
        let numbers = self.numbers();
        if numbers.len() != MOVE_LENGTH {
            return self.clone();
        }
        let asked = special::turned(&Move::from_numbers(std::array::from_fn(|place| {
            numbers[place]
        })));
        let mut turned = self.with_numbers(&asked.numbers());
        if let Asked::Family(call) = &mut turned {
            call.opposite ^= true;
        }
        turned
    }

    /// Now and then another name, family, direction or count.
    pub fn change_choices(&mut self, random: &mut Random) {
        if !random.one_in(8) {
            return;
        }
        match self {
            Asked::Family(call) => {
                match random.below(4) {
                    0 => call.opposite ^= true,
                    1 => call.return_after_found ^= true,
                    2 => call.family = random.below(8) as usize,
                    _ => call.counted = random.below(6) as usize,
                }
                *call = call.as_planned();
            }
            Asked::Check(call) => match random.below(3) {
                0 => call.limits = random.below(8) as usize,
                1 => call.control_signs ^= 1,
                _ => call.set_limits ^= true,
            },
            Asked::Block(call) => match random.below(2) {
                0 => call.count = random.below(7) as u8,
                _ => call.profiles[random.below(6) as usize].direction ^= 1,
            },
            _ => (),
        }
    }
}

fn show_reply(mut bytes: &[u8], full: bool, shown: &mut Shown) {
    match read_move(&mut bytes).expect("bytes in memory can be read") {
        None => shown.push(100),
        Some(Err(number)) => shown.extend([101, u64::from(number)]),
        Some(Ok(asked)) => match wrapper::plan::<Choice>(&asked) {
            Err(number) => shown.extend([102, u64::from(number)]),
            Ok(plan) if full => show_full_plan(&plan, shown),
            Ok(plan) => show_short_plan(&plan, shown),
        },
    }
}

fn show_doubles(numbers: &[f64], shown: &mut Shown) {
    let bits = |number: &f64| {
        if number.is_nan() {
            u64::MAX
        } else {
            number.to_bits()
        }
    };
    shown.extend(numbers.iter().map(bits));
}

fn show_profile(profile: &Profile, shown: &mut Shown) {
    shown.extend(profile.names().map(|(_, _, place)| place as u64));
    for (_, part) in profile.parts() {
        show_doubles(part, shown);
    }
}

fn show_stretch(stretch: &Stretch, shown: &mut Shown) {
    shown.push(match stretch {
        Stretch::Nothing => 0,
        Stretch::Between(..) => 1,
        Stretch::From(_) => 2,
    });
    show_doubles(&stretch.ends().unwrap_or([0.0, 0.0]), shown);
}

fn show_full_plan(plan: &Plan, shown: &mut Shown) {
    show_doubles(&[plan.shortest], shown);
    show_profile(&plan.profile, shown);
    for (stretch, profile) in &plan.stretches {
        show_stretch(stretch, shown);
        show_profile(profile, shown);
    }
}

/// Nothing beside the ends tells "from" and "nothing" apart here, as in the line.
fn show_short_plan(plan: &Plan, shown: &mut Shown) {
    show_doubles(&[plan.shortest], shown);
    shown.extend([plan.profile.direction, plan.profile.limits].map(|name| name as u64));
    for ends in plan
        .stretches
        .iter()
        .filter_map(|(stretch, _)| stretch.ends())
    {
        show_doubles(&ends, shown);
    }
}

fn show_selection(call: &BlockCall, shown: &mut Shown) {
    let selected = wrapper::select::<Choice>(&call.profiles, call.count as usize);
    match &selected {
        Ok(plan) => {
            show_doubles(&[plan.shortest, plan.profile.pf], shown);
            for (stretch, profile) in &plan.stretches {
                show_stretch(stretch, shown);
                show_doubles(&[profile.pf], shown);
            }
        }
        Err(number) => shown.push(u64::from(*number)),
    }
    for plan in [selected.unwrap_or(Plan::EMPTY), call.given] {
        shown.extend(
            call.times
                .map(|t| match wrapper::is_blocked::<Choice>(&plan, t) {
                    Ok(blocked) => u64::from(blocked),
                    Err(number) => u64::from(number),
                }),
        );
    }
}
