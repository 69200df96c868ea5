//! What the search crates call of the kit's std, over Rust's. Nothing here costs more than what it stands for.
#![allow(unused_macros)]

pub mod alloc;
mod at;
pub mod indexmap;
pub mod itoa;
mod iter_more;
mod probe;
pub mod std_alloc;
mod vec_in;

pub use at::At;
pub use probe::{Probe, seconds};
pub use std::{
    any, array, ascii, borrow, boxed, cell, char, cmp, collections, convert, default, env, error, f32, f64, fmt, fs, hash,
    hint, i128, i16, i32, i64, i8, io, isize, iter, mem, net, num, ops, option, path, pin, process, ptr, rc, result, slice, str,
    string, sync, thread, time, u128, u16, u32, u64, u8, usize,
};

pub mod marker {
    pub use std::marker::*;

    /// What contracts see of a type: nothing is left of it.
    pub trait Model {}
}

/// `vec![in alloc; x; n]` and `vec![in alloc; x, y]`, each a result.
#[macro_export]
macro_rules! vec {
    (in $alloc:expr; $value:expr; $count:expr) => {
        $crate::prelude::Vec::filled($alloc, $value, $count)
    };
    (in $alloc:expr; $($value:expr),* $(,)?) => {
        $crate::prelude::Vec::of_values($alloc, ::std::vec![$($value),*])
    };
    (in $alloc:expr) => {
        $crate::prelude::Vec::of_values($alloc, ::std::vec::Vec::new())
    };
}

#[macro_export]
macro_rules! prove {
    ($($any:tt)*) => {};
}

#[macro_export]
macro_rules! prove_eq {
    ($($any:tt)*) => {};
}

#[macro_export]
macro_rules! prove_ne {
    ($($any:tt)*) => {};
}

pub mod prelude {
    pub use crate::iter_more::{IterMore, SliceMore};
    pub use crate::vec_in::Vec;
    pub use crate::{prove, prove_eq, prove_ne};

    /// Whether a value may be dropped: in Rust it always may.
    pub trait Drop {}

    impl<T: ?Sized> Drop for T {}

    /// A clone that says when memory is out.
    pub trait RtClone: Sized {
        fn rt_clone(&self) -> Result<Self, crate::alloc::AllocError>;
    }

    impl<T: Clone> RtClone for T {
        #[inline(always)]
        fn rt_clone(&self) -> Result<T, crate::alloc::AllocError> {
            Ok(self.clone())
        }
    }
}
