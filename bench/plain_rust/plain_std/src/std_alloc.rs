//! What the search crates call of the kit's `std_alloc` by its own name.

pub mod room {
    /// Whether a block can have room for so many values.
    pub fn may_hold<T>(count: usize) -> bool {
        count.checked_mul(std::mem::size_of::<T>()).is_some_and(|bytes| bytes < 1 << 63)
    }
}
