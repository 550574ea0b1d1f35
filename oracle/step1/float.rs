//! Supplied: the methods of doubles that core lacks, from the choice's functions. The four files see them as
//! `num_traits::Float`, which only works because no crate below them has std: its own methods would win.

use crate::functions;

pub trait Float: Sized {
    fn sqrt(self) -> Self;
    fn cbrt(self) -> Self;
    /// Cosine and sine of a third of the angle whose cosine is given.
    fn cosine_and_sine_of_third(self) -> (Self, Self);

    fn cos(self) -> Self {
        only_for_cubics()
    }

    fn sin(self) -> Self {
        only_for_cubics()
    }

    fn atan2(self, _: Self) -> Self {
        only_for_cubics()
    }
}

/// `solve_cub` alone names these functions, and no plan solves a cubic (document 01 leaves it out).
fn only_for_cubics() -> ! {
    panic!("solve_cub is not part of step 1")
}

impl Float for f64 {
    #[inline]
    fn sqrt(self) -> f64 {
        functions::sqrt(self)
    }

    #[inline]
    fn cbrt(self) -> f64 {
        functions::cbrt(self)
    }

    #[inline]
    fn cosine_and_sine_of_third(self) -> (f64, f64) {
        functions::cosine_and_sine_of_third(self)
    }
}
