//! The kit's `Vec`: Rust's, with results where memory may be wanted.

use crate::alloc::{AllocError, AllocFailed, Global};
use std::cmp::Ordering;
use std::fmt::{Debug, Formatter};
use std::ops::{Deref, DerefMut, Index, IndexMut};

#[derive(Clone, PartialEq, Eq, PartialOrd, Ord, Hash)]
#[repr(transparent)]
pub struct Vec<T>(std::vec::Vec<T>);

impl<T> Vec<T> {
    #[inline(always)]
    pub const fn new(_alloc: Global) -> Vec<T> {
        Vec(std::vec::Vec::new())
    }

    #[inline(always)]
    pub fn from_std(all: std::vec::Vec<T>) -> Vec<T> {
        Vec(all)
    }

    #[inline(always)]
    pub fn with_capacity(_alloc: Global, count: usize) -> Result<Vec<T>, AllocError> {
        Ok(Vec(std::vec::Vec::with_capacity(count)))
    }

    #[inline(always)]
    pub fn of_values(_alloc: Global, all: std::vec::Vec<T>) -> Result<Vec<T>, AllocError> {
        Ok(Vec(all))
    }

    #[inline(always)]
    pub fn filled(_alloc: Global, value: T, count: usize) -> Result<Vec<T>, AllocError>
    where
        T: Clone,
    {
        Ok(Vec(std::vec![value; count]))
    }

    #[inline(always)]
    pub fn from_slice(_alloc: Global, all: &[T]) -> Result<Vec<T>, AllocError>
    where
        T: Clone,
    {
        Ok(Vec(all.to_vec()))
    }

    #[inline(always)]
    pub fn from_array<const N: usize>(_alloc: Global, all: [T; N]) -> Result<Vec<T>, AllocError> {
        Ok(Vec(std::vec::Vec::from(all)))
    }

    #[inline(always)]
    pub fn allocator(&self) -> &Global {
        &Global
    }

    #[inline(always)]
    pub fn push(&mut self, value: T) -> Result<(), AllocFailed<T>> {
        self.0.push(value);
        Ok(())
    }

    #[inline(always)]
    pub fn insert(&mut self, at: usize, value: T) -> Result<(), AllocFailed<T>> {
        self.0.insert(at, value);
        Ok(())
    }

    #[inline(always)]
    pub fn reserve(&mut self, more: usize) -> Result<(), AllocError> {
        self.0.reserve(more);
        Ok(())
    }

    #[inline(always)]
    pub fn reserve_exact(&mut self, more: usize) -> Result<(), AllocError> {
        self.0.reserve_exact(more);
        Ok(())
    }

    #[inline(always)]
    pub fn resize(&mut self, count: usize, value: T) -> Result<(), AllocError>
    where
        T: Clone,
    {
        self.0.resize(count, value);
        Ok(())
    }

    #[inline(always)]
    pub fn extend_from_slice(&mut self, all: &[T]) -> Result<(), AllocError>
    where
        T: Copy,
    {
        self.0.extend_from_slice(all);
        Ok(())
    }

    #[inline(always)]
    pub fn extend_with_clones(&mut self, all: &[T]) -> Result<(), AllocError>
    where
        T: Clone,
    {
        self.0.extend_from_slice(all);
        Ok(())
    }

    #[inline(always)]
    pub fn append(&mut self, other: &mut Vec<T>) -> Result<(), AllocError> {
        self.0.append(&mut other.0);
        Ok(())
    }

    #[inline(always)]
    pub fn extend<I: IntoIterator<Item = T>>(&mut self, all: I) -> Result<(), AllocError> {
        self.0.extend(all);
        Ok(())
    }

    #[inline(always)]
    pub fn split_off(&mut self, at: usize) -> Result<Vec<T>, AllocError> {
        Ok(Vec(self.0.split_off(at)))
    }

    #[inline(always)]
    pub fn sort(&mut self) -> Result<(), AllocError>
    where
        T: Ord,
    {
        self.0.sort();
        Ok(())
    }

    #[inline(always)]
    pub fn sort_by<F: FnMut(&T, &T) -> Ordering>(&mut self, order: F) -> Result<(), AllocError> {
        self.0.sort_by(order);
        Ok(())
    }

    #[inline(always)]
    pub fn sort_by_key<K: Ord, F: FnMut(&T) -> K>(&mut self, key: F) -> Result<(), AllocError> {
        self.0.sort_by_key(key);
        Ok(())
    }

    #[inline(always)]
    pub fn sort_by_cached_key<K: Ord, F: FnMut(&T) -> K>(&mut self, key: F) -> Result<(), AllocError> {
        self.0.sort_by_cached_key(key);
        Ok(())
    }

    #[inline(always)]
    pub fn as_slice(&self) -> &[T] {
        &self.0
    }

    #[inline(always)]
    pub fn as_mut_slice(&mut self) -> &mut [T] {
        &mut self.0
    }
}

impl<T> Deref for Vec<T> {
    type Target = std::vec::Vec<T>;

    #[inline(always)]
    fn deref(&self) -> &std::vec::Vec<T> {
        &self.0
    }
}

impl<T> DerefMut for Vec<T> {
    #[inline(always)]
    fn deref_mut(&mut self) -> &mut std::vec::Vec<T> {
        &mut self.0
    }
}

impl<T, I> Index<I> for Vec<T>
where
    [T]: Index<I>,
{
    type Output = <[T] as Index<I>>::Output;

    #[inline(always)]
    fn index(&self, at: I) -> &Self::Output {
        &self.0.as_slice()[at]
    }
}

impl<T, I> IndexMut<I> for Vec<T>
where
    [T]: IndexMut<I>,
{
    #[inline(always)]
    fn index_mut(&mut self, at: I) -> &mut Self::Output {
        &mut self.0.as_mut_slice()[at]
    }
}

impl<T: Debug> Debug for Vec<T> {
    fn fmt(&self, to: &mut Formatter<'_>) -> std::fmt::Result {
        self.0.fmt(to)
    }
}

impl<T> IntoIterator for Vec<T> {
    type Item = T;
    type IntoIter = std::vec::IntoIter<T>;

    #[inline(always)]
    fn into_iter(self) -> std::vec::IntoIter<T> {
        self.0.into_iter()
    }
}

impl<'a, T> IntoIterator for &'a Vec<T> {
    type Item = &'a T;
    type IntoIter = std::slice::Iter<'a, T>;

    #[inline(always)]
    fn into_iter(self) -> std::slice::Iter<'a, T> {
        self.0.iter()
    }
}

impl<'a, T> IntoIterator for &'a mut Vec<T> {
    type Item = &'a mut T;
    type IntoIter = std::slice::IterMut<'a, T>;

    #[inline(always)]
    fn into_iter(self) -> std::slice::IterMut<'a, T> {
        self.0.iter_mut()
    }
}
