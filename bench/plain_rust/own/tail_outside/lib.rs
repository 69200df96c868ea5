//! Sinks, without the files and the standard output of the product.
#![allow(warnings)]

use plain_std::prelude::*;

mod outside;

pub use outside::{Failed, Fault, Files, Sink};
