//! The search for the nearest significand: ties, ends of the range, and estimates that are far off.

use nearest::significand::{bisected, join, nearest, split, LEAST, MOST};

#[test]
fn ties_go_to_the_even_one() {
    for twice in [2 * LEAST + 1, 2 * LEAST + 3, 2 * MOST - 1, 2 * MOST - 3] {
        let expected = if (twice / 2) % 2 == 0 {
            twice / 2
        } else {
            twice / 2 + 1
        };
        for estimate in [0, twice / 2, twice / 2 + 1, u64::MAX] {
            assert_eq!(nearest(estimate, |h| twice.cmp(&h)), expected);
        }
        assert_eq!(bisected(|h| twice.cmp(&h)), expected);
    }
}

#[test]
fn whole_numbers_are_found_from_any_estimate() {
    for wanted in [LEAST, LEAST + 1, LEAST + 12345, MOST - 1, MOST] {
        for estimate in [0, LEAST, wanted - 1, wanted + 3, wanted + 9, MOST] {
            assert_eq!(nearest(estimate, |h| (2 * wanted).cmp(&h)), wanted);
        }
    }
}

#[test]
fn splitting_and_joining() {
    for x in [1.0, 0.5, 3.0, 1e300, 2.2250738585072014e-308] {
        let (significand, exponent) = split(x);
        assert!((LEAST..MOST).contains(&significand));
        assert_eq!(join(significand, exponent), x);
    }
    assert_eq!(split(5e-324), (LEAST, -1074 - 52));
    assert_eq!(split(-0.75), (3 << 51, -53));
    assert_eq!(join(MOST, -53), 1.0);
}
