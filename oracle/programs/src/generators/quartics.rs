//! Coefficients of monic quartics, and of their resolvent cubics, that reach every branch.

use crate::random::{nudged, Random};

const SPECIAL: [f64; 8] = [
    0.0,
    -0.0,
    f64::NAN,
    f64::INFINITY,
    f64::NEG_INFINITY,
    5e-324,
    f64::MAX,
    -f64::MIN_POSITIVE,
];

/// a, b, c and d of x⁴ + ax³ + bx² + cx + d.
pub fn quartic(random: &mut Random) -> [f64; 4] {
    let mut coefficients = match random.below(10) {
        0 => [0.0; 4].map(|_: f64| round_number(random)),
        1 => [0.0; 4].map(|_: f64| random.signed_unit() * random.size(-8, 8)),
        2 => [0.0; 4].map(|_: f64| random.signed_unit() * random.size(-1000, 1000)),
        3 => [0.0; 4].map(|_: f64| f64::from_bits(random.bits())),
        4 => from_factors(factor(random), factor(random)),
        5 => from_factors(round_factor(random), round_factor(random)),
        6 => with_equal_products(random),
        7 => with_equal_factors(random),
        8 => without_constant(random),
        _ => pure_cubic(random),
    };
    disturb(random, &mut coefficients);
    coefficients
}

/// a, b and c of x³ + ax² + bx + c.
pub fn resolvent(random: &mut Random) -> [f64; 3] {
    let mut coefficients = match random.below(7) {
        0 => [0.0; 3].map(|_: f64| round_number(random)),
        1 => [0.0; 3].map(|_: f64| random.signed_unit() * random.size(-8, 8)),
        2 => [0.0; 3].map(|_: f64| random.signed_unit() * random.size(-1000, 1000)),
        3 => [0.0; 3].map(|_: f64| f64::from_bits(random.bits())),
        4 => from_roots(
            round_number(random),
            round_number(random),
            round_number(random),
        ),
        5 => {
            let double = random.signed_unit();
            from_roots(random.signed_unit(), double, double)
        }
        _ => {
            let scale = random.size(-30, 4);
            let near = scale * random.signed_unit();
            from_roots(near, nudged(near, random.below(9) as i64 - 4), near)
        }
    };
    disturb(random, &mut coefficients);
    coefficients
}

fn round_number(random: &mut Random) -> f64 {
    (random.below(17) as f64 - 8.0) / 2.0
}

/// p and q of a quadratic x² + px + q, with real roots two times of three.
fn factor(random: &mut Random) -> [f64; 2] {
    let (first, second) = (4.0 * random.signed_unit(), 4.0 * random.signed_unit());
    match random.below(6) {
        0 => [-2.0 * first, first * first],
        1..=3 => [-(first + second), first * second],
        _ => [first, second],
    }
}

fn round_factor(random: &mut Random) -> [f64; 2] {
    let (first, second) = (round_number(random), round_number(random));
    [-(first + second), first * second]
}

fn from_factors([p, q]: [f64; 2], [r, s]: [f64; 2]) -> [f64; 4] {
    [p + r, q + s + p * r, p * s + r * q, q * s]
}

fn from_roots(x: f64, y: f64, z: f64) -> [f64; 3] {
    [-(x + y + z), x * y + x * z + y * z, -(x * y * z)]
}

/// Two factors with the same q: the square of the resolvent's root is then 4d.
fn with_equal_products(random: &mut Random) -> [f64; 4] {
    let [p, q] = if random.one_in(2) {
        factor(random)
    } else {
        round_factor(random)
    };
    let r = random.pick(&[-p, 0.0, 1.0, p / 2.0]);
    let q = if random.one_in(2) {
        q
    } else {
        q * random.size(-52, -20)
    };
    from_factors([p, q], [r, q])
}

/// The square of a factor; small ones have a discriminant beside 0 or ±16 EPS.
fn with_equal_factors(random: &mut Random) -> [f64; 4] {
    let [p, q] = match random.below(3) {
        0 => round_factor(random),
        1 => factor(random).map(|number| number * random.size(-12, 1)),
        _ => {
            let p = random.signed_unit() * random.size(-26, -10);
            let threshold = random.pick(&[0.0, 16.0 * f64::EPSILON, -16.0 * f64::EPSILON]);
            let discriminant = random.pick(&[threshold, threshold * 0.99, threshold * 1.01]);
            [p, (p * p - discriminant) / 4.0]
        }
    };
    from_factors([p, q], [p, q])
}

/// c and d at 0 or just below EPS, a² - 4b beside 0 or ±EPS.
fn without_constant(random: &mut Random) -> [f64; 4] {
    let a = match random.one_in(2) {
        true => round_number(random),
        false => random.signed_unit() * random.size(-30, 3),
    };
    let beside = random.pick(&[0.0, f64::EPSILON, -f64::EPSILON, 1.0, -1.0]);
    let b = (a * a - nudged(beside, random.below(3) as i64 - 1)) / 4.0;
    [a, b, small(random), small(random)]
}

/// a, b and d below EPS, so that the root is -c.cbrt().
fn pure_cubic(random: &mut Random) -> [f64; 4] {
    let c = match random.below(4) {
        0 => random.pick(&[-8.0, 27.0]),
        1 => 8.0 * random.signed_unit(),
        _ => -random.size(-50, 1000),
    };
    [small(random), small(random), c, small(random)]
}

/// 0, or a number on either side of EPS.
fn small(random: &mut Random) -> f64 {
    let size = nudged(f64::EPSILON, random.below(5) as i64 - 2);
    random.pick(&[0.0, 0.0, -0.0, size, -size, size / 2.0, -size / 2.0])
}

/// Now and then puts a special number, a number beside EPS or a neighbour in place of a coefficient.
fn disturb(random: &mut Random, coefficients: &mut [f64]) {
    while random.one_in(4) {
        let place = random.below(coefficients.len() as u64) as usize;
        coefficients[place] = match random.below(4) {
            0 => random.pick(&SPECIAL),
            1 => small(random),
            _ => nudged(coefficients[place], random.below(5) as i64 - 2),
        };
    }
}
