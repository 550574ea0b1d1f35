//! Which functions the four files really call. Were std in their crates' graph, its methods would be taken silently.

use answers::Step1;
use programs::random::Random;

/// The quartic x⁴ + cx has the root -c.cbrt().
fn cube_root_in<S: Step1>(x: f64) -> f64 {
    -S::quartic([0.0, 0.0, x, 0.0]).as_slice()[1]
}

/// The resolvent x³ - 3x + c, with q = 1 and r = c / 2: t is r, its first zero is -2 times the cosine.
fn cosine_in<S: Step1>(t: f64) -> f64 {
    let (count, zeros) = S::resolvent([0.0, -3.0, 2.0 * t]);
    assert_eq!(count, 3);
    zeros[0] / -2.0
}

/// The same resolvent's second and third zero are ux * COS_120 -+ uyi * SIN_120, with ux and uyi -2 times the pair.
fn other_zeros(cosine: f64, sine: f64) -> [f64; 2] {
    let (ux, uyi) = (-2.0 * cosine, -2.0 * sine);
    let sine_of_120 = 0.866_025_403_784_438_6;
    [ux * -0.5 - uyi * sine_of_120, ux * -0.5 + uyi * sine_of_120]
}

#[test]
fn a_wrong_cube_root_is_called() {
    type Marked = step1_marked::Choice;
    assert_eq!(
        Marked::quartic([0.0, 0.0, -8.0, 0.0]).as_slice(),
        [0.0, 5.0]
    );
    // r = -4 and q = 0 give a cube root alone.
    assert_eq!(Marked::resolvent([0.0, 0.0, -8.0]).1[0], 5.0);
}

#[test]
fn a_wrong_cosine_and_sine_are_called() {
    type Marked = step1_marked::Choice;
    // Its square root of q = 1 is 3, and so -6 stands for -2.
    assert_eq!(Marked::resolvent([0.0, -3.0, 0.5]), (3, [-4.5, 2.25, 2.25]));
}

#[test]
fn a_wrong_square_root_is_called() {
    type Marked = step1_marked::Choice;
    // x⁴ - 4x²: a² - 4b is 16.
    assert_eq!(
        Marked::quartic([0.0, -4.0, 0.0, 0.0]).as_slice(),
        [0.0, 1.5]
    );
}

#[test]
fn each_choice_calls_its_own_cube_root() {
    let mut random = Random::new(1);
    let mut libc_differs = 0;
    for _ in 0..20_000 {
        let x = -random.size(-50, 900);
        assert_eq!(cube_root_in::<step1_exact::Choice>(x), nearest::cbrt(x));
        assert_eq!(cube_root_in::<step1_std::Choice>(x), x.cbrt());
        assert_eq!(
            cube_root_in::<step1_libc::Choice>(x),
            machine::cbrt_of_libc(x)
        );
        libc_differs += usize::from(machine::cbrt_of_libc(x) != x.cbrt());
    }
    println!("the C library's cube root differs from std's on {libc_differs} of 20000");
}

#[test]
fn each_choice_calls_its_own_cosine_and_sine() {
    let mut random = Random::new(2);
    for _ in 0..20_000 {
        let t = random.signed_unit();
        let theta = t.acos() / 3.0;
        let (cosine, sine) = nearest::cosine_and_sine_of_third(t);
        assert_eq!(cosine_in::<step1_exact::Choice>(t), cosine);
        assert_eq!(cosine_in::<step1_std::Choice>(t), theta.cos());
        assert_eq!(cosine_in::<step1_libc::Choice>(t), theta.cos());
        let zeros = step1_exact::Choice::resolvent([0.0, -3.0, 2.0 * t]).1;
        assert_eq!(zeros[1..], other_zeros(cosine, sine));
        let zeros = step1_std::Choice::resolvent([0.0, -3.0, 2.0 * t]).1;
        assert_eq!(zeros[1..], other_zeros(theta.cos(), theta.sin()));
    }
}

#[test]
fn the_square_root_is_ieee_754s() {
    let mut random = Random::new(3);
    for _ in 0..100_000 {
        let x = f64::from_bits(random.bits());
        let (found, expected) = (machine::sqrt(x), x.sqrt());
        assert!(found.to_bits() == expected.to_bits() || found.is_nan() && expected.is_nan());
    }
}
