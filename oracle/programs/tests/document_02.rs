//! What document 02 wants of an arrival time (A1), by hand; and the records that the programs read.

use answers::arrival::{arrival, is_free_for_all};
use programs::random::Random;
use programs::records::read_arrival_call;

const INFINITY: f64 = f64::INFINITY;
const TINY: f64 = 5e-324;
const NONE: [f64; 2] = [0.0, 0.0];

/// The answer for axes given by a duration and two stretches; the time by its bits.
fn answer(axes: &[(f64, [[f64; 2]; 2])]) -> Result<(u64, usize), u8> {
    let durations: Vec<f64> = axes.iter().map(|(duration, _)| *duration).collect();
    let ends: Vec<f64> = axes.iter().flat_map(|(_, ends)| ends.concat()).collect();
    arrival(&durations, &ends).map(|(time, axis)| (time.to_bits(), axis))
}

fn at(time: f64, axis: usize) -> Result<(u64, usize), u8> {
    Ok((time.to_bits(), axis))
}

#[test]
fn the_earliest_time_that_no_axis_blocks() {
    assert_eq!(answer(&[(1.0, [NONE; 2]), (3.0, [NONE; 2])]), at(3.0, 1));
    let pushed = [(2.5, [NONE; 2]), (1.0, [[2.75, 4.0], [2.0, 3.0]])];
    assert_eq!(answer(&pushed), at(4.0, 1));
    let touching = [(2.5, [NONE; 2]), (1.0, [[2.0, 3.0], [3.0, 4.0]])];
    assert_eq!(answer(&touching), at(3.0, 1));
}

#[test]
fn a_stretch_from_a_time_on_leaves_that_time_free() {
    let from_two = (1.0, [[2.0, INFINITY], NONE]);
    assert_eq!(answer(&[from_two, (2.0, [NONE; 2])]), at(2.0, 1));
    let later = 2.0_f64.next_up();
    assert_eq!(answer(&[from_two, (later, [NONE; 2])]), Err(10));
}

#[test]
fn the_lowest_axis_with_the_time_as_duration_or_right_end() {
    let ends_at_two = (1.0, [NONE, [1.5, 2.0]]);
    let takes_two = (2.0, [NONE; 2]);
    assert_eq!(answer(&[ends_at_two, takes_two]), at(2.0, 0));
    assert_eq!(answer(&[takes_two, ends_at_two]), at(2.0, 0));
    let begins_at_two = (1.0, [[2.0, 3.0], NONE]);
    assert_eq!(answer(&[begins_at_two, takes_two]), at(2.0, 1));
}

#[test]
fn minus_zero_counts_as_zero_and_is_given_as_zero() {
    let missing = [-0.0, 0.0];
    assert_eq!(answer(&[(-0.0, [missing, NONE])]), at(0.0, 0));
    assert_eq!(answer(&[(-0.0, [[-0.0, 1.0], NONE])]), at(0.0, 0));
}

#[test]
fn number_9() {
    let one = (1.0, [NONE; 2]);
    assert_eq!(answer(&[]), Err(9));
    assert_eq!(answer(&[one; 8]), at(1.0, 0));
    assert_eq!(answer(&[one; 9]), Err(9));
    assert_eq!(arrival(&[1.0], &[0.0; 5]), Err(9));
    for duration in [-TINY, f64::NAN, INFINITY, -INFINITY] {
        assert_eq!(answer(&[one, (duration, [NONE; 2])]), Err(9), "{duration}");
    }
    let below = 1.0_f64.next_down();
    for stretch in [
        [below, 2.0],
        [INFINITY, INFINITY],
        [f64::NAN, 2.0],
        [2.0, f64::NAN],
        [2.0, 2.0_f64.next_down()],
        [0.0, 2.0],
        [2.0, 0.0],
    ] {
        assert_eq!(answer(&[(1.0, [stretch, NONE])]), Err(9), "{stretch:?}");
        assert_eq!(answer(&[(1.0, [NONE, stretch])]), Err(9), "{stretch:?}");
    }
    for stretch in [[1.0, 2.0], [1.0, 1.0], [1.0, INFINITY]] {
        assert_eq!(answer(&[(1.0, [stretch, NONE])]), at(1.0, 0), "{stretch:?}");
    }
}

/// Among the least doubles every double can be asked.
#[test]
fn no_smaller_double_is_free() {
    const MOST: u64 = 8;
    let mut random = Random::new(21);
    for _ in 0..20_000 {
        let count = 1 + random.below(8);
        let (mut durations, mut ends) = (Vec::new(), Vec::new());
        for _ in 0..count {
            let duration = random.below(MOST / 2);
            durations.push(f64::from_bits(duration));
            for _ in 0..2 {
                let left = duration + random.below(MOST - duration);
                let right = left + random.below(MOST - left + 1);
                let right = if random.one_in(20) {
                    INFINITY
                } else {
                    f64::from_bits(right)
                };
                ends.extend([f64::from_bits(left), right]);
            }
        }
        let is_free = |t: &f64| is_free_for_all(&durations, &ends, *t);
        let all = (0..=MOST + 1).map(f64::from_bits).chain([f64::MAX]);
        let time = arrival(&durations, &ends).map(|(time, _)| time);
        assert_eq!(time, all.into_iter().find(is_free).ok_or(10));
    }
}

#[test]
fn records_end_where_one_is_cut_or_has_too_many_doubles() {
    let is_read = |bytes: &[u8]| {
        let read = read_arrival_call(&mut &bytes[..], 1);
        matches!(read, Ok(Some(_)))
    };
    let mut longest = vec![0; 2 + 8 * 50];
    longest[..2].copy_from_slice(&[10, 40]);
    assert!(is_read(&longest) && is_read(&[0, 0]));
    assert!(!is_read(&longest[..longest.len() - 1]) && !is_read(&[0]) && !is_read(&[]));
    longest.resize(2 + 8 * 200, 0);
    for counts in [[11, 0], [0, 41], [11, 44]] {
        longest[..2].copy_from_slice(&counts);
        assert!(!is_read(&longest), "{counts:?}");
    }
}
