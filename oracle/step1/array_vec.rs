//! Supplied: the array vector, as far as the four files use it.

use core::cmp::Ordering;
use core::fmt;
use core::iter::Take;
use core::ops::{Deref, DerefMut};

#[derive(Clone, Copy)]
pub struct ArrayVec<T, const N: usize> {
    items: [T; N],
    count: usize,
}

impl<T: Copy + Default, const N: usize> ArrayVec<T, N> {
    // Nobody asks for a default one.
    #[allow(clippy::new_without_default)]
    pub fn new() -> Self {
        ArrayVec {
            items: [T::default(); N],
            count: 0,
        }
    }
}

impl<T, const N: usize> ArrayVec<T, N> {
    pub fn is_full(&self) -> bool {
        self.count == N
    }

    pub fn push(&mut self, item: T) {
        self.items[self.count] = item;
        self.count += 1;
    }

    /// A stable sort, as the standard one is, without its allocation.
    pub fn sort_by(&mut self, mut compare: impl FnMut(&T, &T) -> Ordering) {
        for end in 1..self.count {
            let mut place = end;
            while place > 0 && compare(&self[place - 1], &self[place]) == Ordering::Greater {
                self.swap(place - 1, place);
                place -= 1;
            }
        }
    }
}

impl<T, const N: usize> Deref for ArrayVec<T, N> {
    type Target = [T];

    fn deref(&self) -> &[T] {
        &self.items[..self.count]
    }
}

impl<T, const N: usize> DerefMut for ArrayVec<T, N> {
    fn deref_mut(&mut self) -> &mut [T] {
        &mut self.items[..self.count]
    }
}

impl<T, const N: usize> IntoIterator for ArrayVec<T, N> {
    type Item = T;
    type IntoIter = Take<core::array::IntoIter<T, N>>;

    fn into_iter(self) -> Self::IntoIter {
        self.items.into_iter().take(self.count)
    }
}

impl<T: fmt::Debug, const N: usize> fmt::Debug for ArrayVec<T, N> {
    fn fmt(&self, f: &mut fmt::Formatter<'_>) -> fmt::Result {
        (**self).fmt(f)
    }
}
