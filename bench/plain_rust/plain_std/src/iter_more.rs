//! Methods of iterators and slices that take an allocator.

use crate::alloc::{AllocError, Global};
use crate::vec_in::Vec;

pub trait IterMore: Iterator + Sized {
    #[inline(always)]
    fn rt_collect(self, _alloc: Global) -> Result<Vec<Self::Item>, AllocError> {
        Ok(Vec::from_std(Iterator::collect(self)))
    }

    #[inline(always)]
    fn rt_try_collect<T, E: From<AllocError>>(self, _alloc: Global) -> Result<Vec<T>, E>
    where
        Self: Iterator<Item = Result<T, E>>,
    {
        let all: Result<std::vec::Vec<T>, E> = Iterator::collect(self);
        Ok(Vec::from_std(all?))
    }
}

impl<I: Iterator> IterMore for I {}

pub trait SliceMore<T> {
    fn rt_to_vec(&self, alloc: Global) -> Result<Vec<T>, AllocError>
    where
        T: Clone;

    fn rt_sort(&mut self, alloc: Global) -> Result<(), AllocError>
    where
        T: Ord;
}

impl<T> SliceMore<T> for [T] {
    #[inline(always)]
    fn rt_to_vec(&self, _alloc: Global) -> Result<Vec<T>, AllocError>
    where
        T: Clone,
    {
        Ok(Vec::from_std(self.to_vec()))
    }

    #[inline(always)]
    fn rt_sort(&mut self, _alloc: Global) -> Result<(), AllocError>
    where
        T: Ord,
    {
        self.sort();
        Ok(())
    }
}
