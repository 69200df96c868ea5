//! One block with room for so many values, of which the first ones are written, as a list that never grows.

use plain_std::alloc::Global;
use plain_std::prelude::*;
use tail_book::Memory;

pub(crate) struct Chunk {
    values: std::vec::Vec<i64>,
}

impl Chunk {
    pub(crate) fn claim(_alloc: Global, room: usize) -> Result<Chunk, Memory> {
        Ok(Chunk { values: std::vec::Vec::with_capacity(room) })
    }

    pub(crate) fn put_all(&mut self, row: &[i64]) {
        self.values.extend_from_slice(row);
    }

    pub(crate) fn values(&self) -> &[i64] {
        &self.values
    }

    pub(crate) fn cut(&mut self, n: usize) {
        self.values.truncate(n);
    }
}
