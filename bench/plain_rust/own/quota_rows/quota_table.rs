//! The table of quotas: it is read by `plain` itself, so nobody asks.

use crate::Quota;
use plain_std::alloc::Global;
use plain_std::prelude::Vec;
use tail_book::Book;

#[derive(Clone, Copy, PartialEq, Eq, Debug)]
pub enum QuotaStop {
    Refused { code: u8, place: u64 },
    Memory,
}

pub fn read_quotas(_alloc: Global, _book: &Book, _bytes: &[u8]) -> Result<Vec<Quota>, QuotaStop> {
    unreachable!()
}
