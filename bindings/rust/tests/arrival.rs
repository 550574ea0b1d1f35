//! One arrival time for all axes: time and axis, every refusal, agreement with `is_blocked` and the definition.

mod moves;

use girnhusk::raw::{self, AXES_MOST, ENDS_LENGTH};
use girnhusk::{arrival, arrival_of, plan, Arrival, ArrivalRefusal, Move, Plan};
use moves::{passing, step, with_stretches};

const INFINITY: f64 = f64::INFINITY;

/// An axis: its duration, and the ends of its stretches.
type Axis = (f64, [f64; ENDS_LENGTH]);

/// No stretch.
const NONE: [f64; ENDS_LENGTH] = [0.0; ENDS_LENGTH];

fn of(axes: &[Axis]) -> Result<Arrival, ArrivalRefusal> {
    let durations: Vec<f64> = axes.iter().map(|axis| axis.0).collect();
    let ends: Vec<f64> = axes.iter().flat_map(|axis| axis.1).collect();
    arrival_of(&durations, &ends)
}

fn at(time: f64, axis: usize) -> Result<Arrival, ArrivalRefusal> {
    Ok(Arrival { time, axis })
}

// ---- the time and the axis

#[test]
fn the_longest_duration_where_it_is_free() {
    assert_eq!(of(&[(2.5, NONE)]), at(2.5, 0));
    assert_eq!(of(&[(1.0, NONE), (3.0, NONE), (2.0, NONE)]), at(3.0, 1));
    assert_eq!(of(&[(3.0, NONE), (3.0, NONE)]), at(3.0, 0));
    assert_eq!(of(&[(1.0, [1.0, 2.0, 4.0, 5.0]), (3.0, NONE)]), at(3.0, 1));
    assert_eq!(of(&[(f64::MAX, NONE); AXES_MOST]), at(f64::MAX, 0));
}

#[test]
fn else_a_right_end() {
    assert_eq!(of(&[(1.0, [2.0, 4.0, 0.0, 0.0]), (3.0, NONE)]), at(4.0, 0));
    assert_eq!(of(&[(1.0, [0.0, 0.0, 2.0, 4.0]), (3.0, NONE)]), at(4.0, 0));
    // both stretches of an axis overlap
    assert_eq!(of(&[(1.0, [3.0, 6.0, 2.0, 4.0]), (3.0, NONE)]), at(6.0, 0));
    // a stretch that begins where the duration is
    assert_eq!(of(&[(1.0, [1.0, 4.0, 0.0, 0.0]), (2.0, NONE)]), at(4.0, 0));
    // from one axis's stretch into the other's, and back
    let first = (1.0, [2.0, 4.0, 4.5, 6.0]);
    assert_eq!(of(&[first, (3.0, [3.5, 5.0, 0.0, 0.0])]), at(6.0, 0));
    assert_eq!(of(&[(3.0, [3.5, 5.0, 0.0, 0.0]), first]), at(6.0, 1));
}

#[test]
fn the_lowest_axis_that_has_it() {
    let two = (1.0, [2.0, 4.0, 0.0, 0.0]);
    assert_eq!(of(&[(3.0, NONE), two, two]), at(4.0, 1));
    // its duration for one, a right end for another
    assert_eq!(of(&[two, (4.0, NONE)]), at(4.0, 0));
    assert_eq!(of(&[(4.0, NONE), two]), at(4.0, 0));
    // a right end counts where nothing is blocked, too
    assert_eq!(of(&[(1.0, [4.0, 4.0, 0.0, 0.0]), (4.0, NONE)]), at(4.0, 0));
}

#[test]
fn ends_are_free() {
    let two = (1.0, [2.0, 4.0, 0.0, 0.0]);
    assert_eq!(of(&[two, (2.0, NONE)]), at(2.0, 1));
    assert_eq!(of(&[two, (2.0f64.next_up(), NONE)]), at(4.0, 0));
    assert_eq!(of(&[two, (4.0f64.next_down(), NONE)]), at(4.0, 0));
    assert_eq!(
        of(&[two, (4.0f64.next_up(), NONE)]),
        at(4.0f64.next_up(), 1)
    );
    let from = (1.0, [2.0, INFINITY, 0.0, 0.0]);
    assert_eq!(of(&[from, (2.0, NONE)]), at(2.0, 1));
    // no time is strictly between neighbours
    assert_eq!(
        of(&[(1.0, [2.0, 2.0f64.next_up(), 0.0, 0.0]), (2.0, NONE)]),
        at(2.0, 1)
    );
}

#[test]
fn minus_zero_counts_as_zero_and_is_given_as_zero() {
    let minus = [-0.0; ENDS_LENGTH];
    for axis in [
        (-0.0, minus),
        (-0.0, NONE),
        (0.0, minus),
        (0.0, NONE),
        (-0.0, [-0.0, 3.0, 0.0, -0.0]),
    ] {
        for axes in [
            vec![axis],
            vec![axis, (0.0, NONE)],
            vec![(-0.0, NONE), axis],
        ] {
            let arrival = of(&axes).unwrap();
            assert_eq!(arrival.time.to_bits(), 0.0f64.to_bits());
            assert_eq!(arrival.axis, 0);
        }
    }
    assert_eq!(
        of(&[(-0.0, [-0.0, 3.0, 0.0, 0.0]), (1.0, NONE)]),
        at(3.0, 0)
    );
}

// ---- refusals

/// The number, and that time and axis are set to 0.
fn refused(durations: &[f64], ends: &[f64]) -> u64 {
    let (mut time, mut axis) = (-7.5, 77);
    let number = raw::arrival(durations, ends, &mut time, &mut axis);
    assert_eq!((time.to_bits(), axis), (0, 0));
    number
}

#[test]
fn lengths_that_are_not_those_of_1_to_8_plans() {
    let numbers = [1.0; 64];
    for axes in 0..=12 {
        for ends in 0..=48 {
            let (mut time, mut axis) = (0.0, 0);
            let number = raw::arrival(&numbers[..axes], &numbers[..ends], &mut time, &mut axis);
            let right = (1..=AXES_MOST).contains(&axes) && ends == ENDS_LENGTH * axes;
            assert_eq!(number, if right { 0 } else { 9 });
        }
    }
    assert_eq!(refused(&[], &[]), 9);
    assert_eq!(refused(&[1.0; 9], &[0.0; 36]), 9);
    assert_eq!(refused(&[1.0, 1.0], &[0.0; 4]), 9);
    assert_eq!(arrival(&[]), Err(ArrivalRefusal::Malformed));
}

#[test]
fn durations_that_no_plan_has() {
    for duration in [-1.0, -f64::from_bits(1), f64::NAN, INFINITY, -INFINITY] {
        assert_eq!(refused(&[duration], &NONE), 9);
        assert_eq!(refused(&[1.0, duration], &[0.0; 8]), 9);
    }
}

#[test]
fn stretches_that_no_plan_has() {
    let wrong = [
        (f64::NAN, 4.0),
        (INFINITY, INFINITY),
        (-INFINITY, 4.0),
        (1.0f64.next_down(), 4.0),
        (0.0, 4.0),
        (2.0, f64::NAN),
        (2.0, 2.0f64.next_down()),
        (2.0, 0.0),
        (2.0, -INFINITY),
        (0.0, f64::NAN),
        (f64::NAN, 0.0),
    ];
    for (left, right) in wrong {
        assert_eq!(refused(&[1.0], &[left, right, 0.0, 0.0]), 9);
        assert_eq!(refused(&[1.0], &[0.0, 0.0, left, right]), 9);
        assert_eq!(refused(&[1.0], &[1.0, 2.0, left, right]), 9);
        assert_eq!(
            refused(&[1.0, 1.0], &[0.0, 0.0, 0.0, 0.0, left, right, 0.0, 0.0]),
            9
        );
    }
    // one that is missing asks nothing
    assert_eq!(of(&[(1.0, [0.0, -0.0, -0.0, 0.0])]), at(1.0, 0));
}

#[test]
fn no_finite_time() {
    let from = [2.0, INFINITY, 0.0, 0.0];
    assert_eq!(refused(&[1.0, 3.0], &[from, NONE].concat()), 10);
    assert_eq!(
        of(&[(1.0, NONE), (3.0, [3.0, INFINITY, 0.0, 0.0])]),
        at(3.0, 1)
    );
    assert_eq!(
        of(&[(1.0, [2.0, 4.0, 3.5, INFINITY]), (3.0, NONE)]),
        Err(ArrivalRefusal::Never)
    );
    // 9 comes first
    assert_eq!(refused(&[1.0, 3.0, -1.0], &[from, NONE, NONE].concat()), 9);
}

#[test]
fn refusals_have_numbers_and_words() {
    assert_eq!(ArrivalRefusal::Malformed.number(), 9);
    assert_eq!(ArrivalRefusal::Never.number(), 10);
    let words = "no finite time is free for all axes";
    assert_eq!(ArrivalRefusal::Never.to_string(), words);
    assert!(ArrivalRefusal::Malformed
        .to_string()
        .contains("more than 8"));
}

// ---- plans

/// Plans without a stretch, with one or two between two durations, and with one from a time on.
fn plans() -> Vec<Plan> {
    let [one, two] = with_stretches();
    let mut moves = vec![one, two, passing()];
    moves.extend([0.0, 0.05, 0.25, 0.5, 1.0, 2.0, 2.5, 3.0, 4.0].map(|pf| step(pf, 1.0)));
    moves.extend([0.0, 1.0, 2.0, 4.0].map(|brake| Move { brake, ..one }));
    moves.iter().map(|mv| plan(mv).unwrap()).collect()
}

fn all_free(plans: &[Plan], t: f64) -> bool {
    plans.iter().all(|plan| plan.is_blocked(t) == Ok(false))
}

/// The time is free for each plan, and the double below it blocked for one. Whether it is later than all durations.
fn check_arrival(plans: &[Plan]) -> Result<bool, ArrivalRefusal> {
    let Arrival { time, axis } = arrival(plans)?;
    assert!(all_free(plans, time));
    assert!(!all_free(plans, time.next_down()));
    let has =
        |plan: &Plan| plan.duration() == time || plan.ends()[1] == time || plan.ends()[3] == time;
    assert_eq!(plans.iter().position(has), Some(axis));
    Ok(plans.iter().all(|plan| plan.duration() < time))
}

#[test]
fn the_time_is_free_for_all_plans_and_the_double_below_it_is_not() {
    let plans = plans();
    let (mut at_duration, mut at_end, mut never) = (0, 0, 0);
    for first in &plans {
        for second in &plans {
            for third in &plans {
                match check_arrival(&[first.clone(), second.clone(), third.clone()]) {
                    Ok(false) => at_duration += 1,
                    Ok(true) => at_end += 1,
                    Err(refusal) => {
                        assert_eq!(refusal, ArrivalRefusal::Never);
                        never += 1;
                    }
                }
            }
        }
    }
    assert!(at_duration > 0 && at_end > 0 && never > 0);
}

#[test]
fn as_many_plans_as_8() {
    let plan = plan(&step(4.0, 1.0)).unwrap();
    for count in 0..=10 {
        let want = if (1..=AXES_MOST).contains(&count) {
            at(6.0, 0)
        } else {
            Err(ArrivalRefusal::Malformed)
        };
        assert_eq!(arrival(&vec![plan.clone(); count]), want);
    }
}

// ---- the definition, by trying each duration and right end

fn stretches((_, ends): &Axis) -> impl Iterator<Item = (f64, f64)> {
    let both = [(ends[0], ends[1]), (ends[2], ends[3])];
    both.into_iter()
        .filter(|&(left, right)| left != 0.0 || right != 0.0)
}

fn is_wrong(axis: &Axis) -> bool {
    let duration = axis.0;
    let wrong = |(left, right): (f64, f64)| {
        !left.is_finite() || left < duration || right.is_nan() || right < left
    };
    duration < 0.0 || !duration.is_finite() || stretches(axis).any(wrong)
}

fn is_free(axis: &Axis, t: f64) -> bool {
    t >= axis.0 && !stretches(axis).any(|(left, right)| left < t && t < right)
}

fn has(axis: &Axis, t: f64) -> bool {
    axis.0 == t || stretches(axis).any(|(_, right)| right == t)
}

fn by_definition(axes: &[Axis]) -> Result<Arrival, ArrivalRefusal> {
    if axes.is_empty() || axes.len() > AXES_MOST || axes.iter().any(is_wrong) {
        return Err(ArrivalRefusal::Malformed);
    }
    let candidates = axes.iter().flat_map(|axis| [axis.0, axis.1[1], axis.1[3]]);
    let free = candidates.filter(|&t| t.is_finite() && axes.iter().all(|axis| is_free(axis, t)));
    let time = free.min_by(f64::total_cmp).ok_or(ArrivalRefusal::Never)?;
    Ok(Arrival {
        time,
        axis: axes.iter().position(|axis| has(axis, time)).unwrap(),
    })
}

/// Numbers below `below`, one after the other from a seed.
struct Random(u64);

impl Random {
    fn below(&mut self, below: u64) -> u64 {
        self.0 = self
            .0
            .wrapping_mul(6364136223846793005)
            .wrapping_add(1442695040888963407);
        (self.0 >> 33) % below
    }

    /// An axis of small numbers, now and then one that no plan has.
    fn axis(&mut self) -> Axis {
        let duration = self.below(8) as f64;
        let mut ends = NONE;
        for stretch in ends.chunks_mut(2).take(self.below(3) as usize) {
            stretch[0] = duration + self.below(8) as f64;
            stretch[1] = if self.below(12) == 0 {
                INFINITY
            } else {
                stretch[0] + self.below(6) as f64
            };
        }
        let odd = [-1.0, -0.0, 0.5, f64::NAN, INFINITY, -INFINITY];
        if self.below(40) == 0 {
            ends[self.below(4) as usize] = odd[self.below(6) as usize];
        }
        let wrong = self.below(80) == 0;
        (
            if wrong {
                odd[self.below(6) as usize]
            } else {
                duration
            },
            ends,
        )
    }
}

#[test]
fn as_the_definition_has_it() {
    let mut random = Random(1);
    let mut counts = [0; 3];
    for _ in 0..200_000 {
        let count = random.below(10);
        let axes: Vec<Axis> = (0..count).map(|_| random.axis()).collect();
        let got = of(&axes);
        assert_eq!(got, by_definition(&axes), "{axes:?}");
        counts[got.map_or_else(|refusal| refusal as usize - 8, |_| 0)] += 1;
    }
    assert!(counts.iter().all(|&count| count > 10_000), "{counts:?}");
}
