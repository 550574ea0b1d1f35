//! The switch: every place of the mutated Rust asks it which mutant runs, and takes its original or another value.
//!
//! A place has a first number; its mutants are that one and those behind it. In a traced run nothing is mutated, and
//! every mutant whose value would have been another one at its place is marked as touched: no other can change an answer.
#![no_std]

use core::sync::atomic::{AtomicBool, AtomicU64, AtomicUsize, Ordering::Relaxed};

/// Room for so many mutants.
pub const MOST: usize = 8192;

/// Runs the original, plainly and traced.
pub const ORIGINAL: usize = usize::MAX;
pub const TRACED: usize = usize::MAX - MOST;

static SELECTED: AtomicUsize = AtomicUsize::new(ORIGINAL);
static TOUCHED: [AtomicBool; MOST] = [const { AtomicBool::new(false) }; MOST];

/// How near the two sides of a traced comparison of doubles came, as the distance of their places in order, with its sign.
static NEAREST: [AtomicU64; MOST] = [const { AtomicU64::new(FAR as u64) }; MOST];
pub const FAR: i64 = i64::MAX;

pub fn select(mutant: usize) {
    SELECTED.store(mutant, Relaxed);
}

/// Whether a mutant runs.
pub fn is_mutated() -> bool {
    SELECTED.load(Relaxed) < MOST
}

/// Whether the last traced run touched a mutant; forgets it.
pub fn take_touched(mutant: usize) -> bool {
    let touched = TOUCHED[mutant].load(Relaxed);
    if touched {
        TOUCHED[mutant].store(false, Relaxed);
    }
    touched
}

/// How near the sides of the comparison with this first number came since it was last asked.
pub fn take_nearest(first: usize) -> i64 {
    NEAREST[first].swap(FAR as u64, Relaxed) as i64
}

/// Two values that no answer tells apart.
pub trait Value: Copy {
    fn same(self, other: Self) -> bool;
}

impl Value for f64 {
    fn same(self, other: f64) -> bool {
        self.to_bits() == other.to_bits() || self.is_nan() && other.is_nan()
    }
}

macro_rules! plain_values {
    ($($kind:ty),*) => { $(impl Value for $kind {
        fn same(self, other: $kind) -> bool {
            self == other
        }
    })* };
}

plain_values!(bool, u8, u16, usize, core::cmp::Ordering);

impl<T: Value, const N: usize> Value for [T; N] {
    fn same(self, other: [T; N]) -> bool {
        self.into_iter().zip(other).all(|(one, two)| one.same(two))
    }
}

/// A place with some other values.
#[inline]
pub fn choose<T: Value, const N: usize>(first: usize, original: T, others: [T; N]) -> T {
    let selected = SELECTED.load(Relaxed);
    let place = selected.wrapping_sub(first);
    if place < N {
        return others[place];
    }
    if selected == TRACED {
        for (place, other) in others.into_iter().enumerate() {
            if !other.same(original) {
                TOUCHED[first + place].store(true, Relaxed);
            }
        }
    }
    original
}

/// Whether the mutant runs that does otherwise here; touched whenever it is asked.
#[inline]
pub fn is_on(mutant: usize) -> bool {
    choose(mutant, false, [true])
}

/// Stores a value, or leaves the old one.
#[inline]
pub fn assign<T: Value>(mutant: usize, to: &mut T, value: T) {
    *to = choose(mutant, value, [*to]);
}

/// An index, or the next, or the one before.
#[inline]
pub fn index(first: usize, i: usize) -> usize {
    choose(first, i, [i.wrapping_add(1), i.wrapping_sub(1)])
}

pub trait Arithmetic: Value {
    fn plus(self, other: Self) -> Self;
    fn minus(self, other: Self) -> Self;
    fn times(self, other: Self) -> Self;
    fn over(self, other: Self) -> Self;
}

impl Arithmetic for f64 {
    fn plus(self, other: f64) -> f64 {
        self + other
    }

    fn minus(self, other: f64) -> f64 {
        self - other
    }

    fn times(self, other: f64) -> f64 {
        self * other
    }

    fn over(self, other: f64) -> f64 {
        self / other
    }
}

impl Arithmetic for usize {
    fn plus(self, other: usize) -> usize {
        self.wrapping_add(other)
    }

    fn minus(self, other: usize) -> usize {
        self.wrapping_sub(other)
    }

    fn times(self, other: usize) -> usize {
        self.wrapping_mul(other)
    }

    fn over(self, other: usize) -> usize {
        self.checked_div(other).unwrap_or(usize::MAX)
    }
}

#[inline]
pub fn add<T: Arithmetic>(first: usize, a: T, b: T) -> T {
    choose(first, a.plus(b), [a.minus(b), a.times(b)])
}

#[inline]
pub fn sub<T: Arithmetic>(first: usize, a: T, b: T) -> T {
    choose(first, a.minus(b), [a.plus(b), b.minus(a)])
}

/// a - b where only its size counts.
#[inline]
pub fn distance(first: usize, a: f64, b: f64) -> f64 {
    choose(first, a - b, [a + b])
}

#[inline]
pub fn mul<T: Arithmetic>(first: usize, a: T, b: T) -> T {
    choose(first, a.times(b), [a.over(b), a.plus(b)])
}

#[inline]
pub fn div<T: Arithmetic>(first: usize, a: T, b: T) -> T {
    choose(first, a.over(b), [a.times(b), a.minus(b)])
}

#[inline]
pub fn neg(first: usize, a: f64) -> f64 {
    choose(first, -a, [a])
}

#[inline]
pub fn not(first: usize, a: bool) -> bool {
    choose(first, !a, [a])
}

#[inline]
pub fn min(first: usize, a: f64, b: f64) -> f64 {
    choose(first, a.min(b), [a.max(b), a, b])
}

#[inline]
pub fn max(first: usize, a: f64, b: f64) -> f64 {
    choose(first, a.max(b), [a.min(b), a, b])
}

/// Notes in a traced run how near two doubles came that are compared.
fn note(first: usize, a: f64, b: f64) {
    if SELECTED.load(Relaxed) != TRACED || a.is_nan() || b.is_nan() {
        return;
    }
    let apart = in_order(a).saturating_sub(in_order(b));
    let nearest = NEAREST[first].load(Relaxed) as i64;
    if apart.unsigned_abs() < nearest.unsigned_abs() {
        NEAREST[first].store(apart as u64, Relaxed);
    }
}

/// A double's place among all, by their order; both zeros have one.
fn in_order(number: f64) -> i64 {
    let bits = number.to_bits() as i64;
    if bits < 0 {
        i64::MIN.wrapping_sub(bits)
    } else {
        bits
    }
}

// The third other value of each comparison is the negated opposite: it differs for NaN only.

#[inline]
pub fn lt(first: usize, a: f64, b: f64) -> bool {
    note(first, a, b);
    #[allow(clippy::neg_cmp_op_on_partial_ord)]
    choose(first, a < b, [a <= b, a > b, !(a >= b)])
}

#[inline]
pub fn le(first: usize, a: f64, b: f64) -> bool {
    note(first, a, b);
    #[allow(clippy::neg_cmp_op_on_partial_ord)]
    choose(first, a <= b, [a < b, a >= b, !(a > b)])
}

#[inline]
pub fn gt(first: usize, a: f64, b: f64) -> bool {
    note(first, a, b);
    #[allow(clippy::neg_cmp_op_on_partial_ord)]
    choose(first, a > b, [a >= b, a < b, !(a <= b)])
}

#[inline]
pub fn ge(first: usize, a: f64, b: f64) -> bool {
    note(first, a, b);
    #[allow(clippy::neg_cmp_op_on_partial_ord)]
    choose(first, a >= b, [a > b, a <= b, !(a < b)])
}

#[inline]
pub fn lt_whole(first: usize, a: usize, b: usize) -> bool {
    choose(first, a < b, [a <= b, a > b])
}

#[inline]
pub fn gt_whole(first: usize, a: usize, b: usize) -> bool {
    choose(first, a > b, [a >= b, a < b])
}

#[inline]
pub fn eq<T: PartialEq>(first: usize, a: T, b: T) -> bool {
    choose(first, a == b, [a != b])
}

#[inline]
pub fn ne<T: PartialEq>(first: usize, a: T, b: T) -> bool {
    choose(first, a != b, [a == b])
}

/// Both evaluated.
#[inline]
pub fn and(first: usize, a: bool, b: bool) -> bool {
    choose(first, a && b, [a || b, a, b])
}

#[inline]
pub fn or(first: usize, a: bool, b: bool) -> bool {
    choose(first, a || b, [a && b, a, b])
}

/// `a && b` where b changes something.
#[inline]
pub fn and_then(first: usize, a: bool, b: impl FnOnce() -> bool) -> bool {
    match (is_on(first), is_on(first + 1), is_on(first + 2)) {
        (true, _, _) => a || b(),
        (_, true, _) => a,
        (_, _, true) => b(),
        _ => a && b(),
    }
}

/// A condition, or always, or never.
#[inline]
pub fn forced(first: usize, condition: bool) -> bool {
    choose(first, condition, [true, false])
}

/// Whether a name is in a set, given as bits; the others have one name more or less.
#[inline]
pub fn is_in(first: usize, name: usize, set: usize) -> bool {
    let selected = SELECTED.load(Relaxed);
    let place = selected.wrapping_sub(first);
    if place < 8 {
        return (set ^ 1 << place) >> name & 1 == 1;
    }
    if selected == TRACED {
        TOUCHED[first + name].store(true, Relaxed);
    }
    set >> name & 1 == 1
}
