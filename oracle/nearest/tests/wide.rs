//! Arithmetic of wide whole numbers, against 128-bit arithmetic and by laws.

use nearest::wide::Wide;
use std::cmp::Ordering;

type Four = Wide<4>;

/// Whole numbers of many sizes from a plain generator.
fn numbers() -> Vec<u64> {
    let mut state = 1u64;
    (0..200)
        .map(|i| {
            state = state
                .wrapping_mul(6364136223846793005)
                .wrapping_add(1442695040888963407);
            state >> (i % 64)
        })
        .chain([0, 1, u64::MAX])
        .collect()
}

fn wide(value: u128) -> Four {
    let high = Four::from_u64((value >> 64) as u64).shifted_up(64);
    high.plus(&Four::from_u64(value as u64))
}

#[test]
fn agrees_with_128_bits() {
    for &x in &numbers() {
        for &y in &numbers() {
            let (a, b) = (x as u128, y as u128);
            let (wide_a, wide_b) = (Four::from_u64(x), Four::from_u64(y));
            assert_eq!(wide_a.times(&wide_b), wide(a * b));
            assert_eq!(wide_a.plus(&wide_b), wide(a + b));
            assert_eq!(wide(a * b + a).minus(&wide(a * b)), wide_a);
            assert_eq!(wide_a.apart(&wide_b), wide(a.abs_diff(b)));
            assert_eq!(
                wide(a * b).cmp(&wide(b << 64 | a)),
                (a * b).cmp(&(b << 64 | a))
            );
        }
    }
}

#[test]
fn products_distribute_over_all_limbs() {
    for pair in numbers().windows(2) {
        let (a, b) = (wide((pair[0] as u128) << 63), wide((pair[1] as u128) << 60));
        let squares = a.squared().plus(&b.squared());
        let twice = a.times(&b).shifted_up(1);
        assert_eq!(
            squares.cmp(&twice),
            if a == b {
                Ordering::Equal
            } else {
                Ordering::Greater
            }
        );
        assert_eq!(squares.minus(&twice), a.apart(&b).squared());
    }
}

#[test]
fn shifts_undo_each_other_and_report_what_is_lost() {
    for &x in &numbers() {
        for bits in [0, 1, 63, 64, 65, 127, 128, 191] {
            let number = Four::from_u64(x);
            assert_eq!(number.shifted_up(bits).shifted_down(bits), (number, false));
        }
        for bits in 0..64 {
            let (down, lost) = Four::from_u64(x).shifted_down(bits);
            assert_eq!(down, Four::from_u64(x >> bits));
            assert_eq!(lost, x >> bits << bits != x);
        }
        assert_eq!(
            Four::from_u64(x).shifted_down(1000),
            (Four::from_u64(0), x != 0)
        );
    }
}

#[test]
#[should_panic(expected = "outgrew")]
fn a_product_that_does_not_fit_stops() {
    let large = Four::power_of_two(200);
    large.times(&large);
}

#[test]
#[should_panic(expected = "outgrew")]
fn a_shift_that_does_not_fit_stops() {
    Four::from_u64(2).shifted_up(255);
}

#[test]
#[should_panic(expected = "below 0")]
fn a_difference_below_zero_stops() {
    Four::from_u64(1).minus(&Four::from_u64(2));
}
