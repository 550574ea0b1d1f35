//! The exact functions against the stored vectors, against plain bisection, and at their special values.

use nearest::{cbrt, cosine_and_sine_of_third, plain};
use std::fs;
use std::path::Path;

/// The lines of a vector file as doubles.
fn vectors(name: &str) -> Vec<Vec<f64>> {
    let path = Path::new(env!("CARGO_MANIFEST_DIR"))
        .join("../vectors")
        .join(name);
    let text = fs::read_to_string(path).expect("the vectors are stored");
    let double = |field: &str| f64::from_bits(u64::from_str_radix(field, 16).unwrap());
    text.lines()
        .map(|line| line.split(' ').map(double).collect())
        .collect()
}

fn assert_same(found: f64, expected: f64, argument: f64) {
    let same = found.to_bits() == expected.to_bits() || found.is_nan() && expected.is_nan();
    assert!(same, "at {argument:e}: {found:e} and not {expected:e}");
}

/// A plain generator of 64 bits.
fn random() -> impl FnMut() -> u64 {
    let mut state = 7u64;
    move || {
        state = state.wrapping_add(0x9E3779B97F4A7C15);
        let mixed = (state ^ state >> 30).wrapping_mul(0xBF58476D1CE4E5B9);
        let mixed = (mixed ^ mixed >> 27).wrapping_mul(0x94D049BB133111EB);
        mixed ^ mixed >> 31
    }
}

#[test]
fn cube_roots_are_the_stored_ones() {
    let vectors = vectors("cbrt.txt");
    assert!(vectors.len() > 3000);
    for line in vectors {
        assert_same(cbrt(line[0]), line[1], line[0]);
        assert_same(plain::cbrt(line[0]), line[1], line[0]);
    }
}

#[test]
fn cosines_and_sines_are_the_stored_ones() {
    let vectors = vectors("third.txt");
    assert!(vectors.len() > 1500);
    for line in vectors {
        let (cosine, sine) = cosine_and_sine_of_third(line[0]);
        assert_same(cosine, line[1], line[0]);
        assert_same(sine, line[2], line[0]);
        assert_same(plain::cosine_of_third(line[0]), line[1], line[0]);
        assert_same(plain::sine_of_third(line[0]), line[2], line[0]);
    }
}

#[test]
fn estimates_do_not_change_results() {
    let mut bits = random();
    for _ in 0..20_000 {
        let x = f64::from_bits(bits());
        assert_same(cbrt(x), plain::cbrt(x), x);
        let t = (bits() as i64) as f64 / 2f64.powi(63);
        let (cosine, sine) = cosine_and_sine_of_third(t);
        assert_same(cosine, plain::cosine_of_third(t), t);
        assert_same(sine, plain::sine_of_third(t), t);
    }
}

#[test]
fn special_values_are_document_01s() {
    for x in [0.0, -0.0, f64::INFINITY, f64::NEG_INFINITY, f64::NAN] {
        assert_same(cbrt(x), x, x);
    }
    assert_same(cbrt(-27.0), -3.0, -27.0);
    assert_eq!(cosine_and_sine_of_third(1.0), (1.0, 0.0));
    assert_eq!(
        cosine_and_sine_of_third(-1.0),
        (0.5, 0.866_025_403_784_438_6)
    );
    for t in [
        1.0 + f64::EPSILON,
        -1.0 - f64::EPSILON,
        f64::INFINITY,
        f64::NAN,
    ] {
        let (cosine, sine) = cosine_and_sine_of_third(t);
        assert!(cosine.is_nan() && sine.is_nan());
        assert!(plain::cosine_of_third(t).is_nan() && plain::sine_of_third(t).is_nan());
    }
}
