//! A set that keeps the order of insertion, over Rust's map.

use crate::alloc::{AllocError, Global};
use std::collections::HashMap;
use std::hash::Hash;

#[derive(Debug)]
pub struct IndexSet<T: Eq + Hash> {
    places: HashMap<T, usize>,
    items: std::vec::Vec<T>,
}

impl<T: Eq + Hash + Copy> IndexSet<T> {
    pub fn new(_alloc: Global) -> IndexSet<T> {
        IndexSet {
            places: HashMap::new(),
            items: std::vec::Vec::new(),
        }
    }

    /// The place of a value, and whether it is new.
    pub fn insert_full(&mut self, value: T) -> Result<(usize, bool), AllocError> {
        if let Some(place) = self.places.get(&value) {
            return Ok((*place, false));
        }
        let place = self.items.len();
        self.places.insert(value, place);
        self.items.push(value);
        Ok((place, true))
    }

    pub fn insert(&mut self, value: T) -> Result<bool, AllocError> {
        Ok(self.insert_full(value)?.1)
    }

    pub fn get_index_of(&self, value: &T) -> Option<usize> {
        self.places.get(value).copied()
    }

    pub fn get_index(&self, place: usize) -> Option<&T> {
        self.items.get(place)
    }

    pub fn contains(&self, value: &T) -> bool {
        self.places.contains_key(value)
    }

    pub fn len(&self) -> usize {
        self.items.len()
    }

    pub fn is_empty(&self) -> bool {
        self.items.is_empty()
    }

    pub fn iter(&self) -> std::slice::Iter<'_, T> {
        self.items.iter()
    }
}
