//! An index that is not checked: each stands in a function that is proved.

use std::ops::{Index, IndexMut};

/// A place in a list, known to be within it.
#[derive(Clone, Copy)]
pub struct At(pub usize);

impl<T> Index<At> for [T] {
    type Output = T;

    #[inline(always)]
    fn index(&self, at: At) -> &T {
        unsafe { self.get_unchecked(at.0) }
    }
}

impl<T> IndexMut<At> for [T] {
    #[inline(always)]
    fn index_mut(&mut self, at: At) -> &mut T {
        unsafe { self.get_unchecked_mut(at.0) }
    }
}
