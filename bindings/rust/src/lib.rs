// SPDX-License-Identifier: 0BSD
#![no_std]
#![deny(missing_docs)]
#![cfg_attr(feature = "alloc", doc = include_str!("../README.md"))]
#![cfg_attr(
    not(feature = "alloc"),
    doc = "Genduvo's static library; the documentation with the feature `alloc` says more."
)]

mod call;
#[cfg(feature = "alloc")]
pub mod description;
mod index;
pub mod mask;
pub mod raw;
mod reason;
pub mod report;

pub use call::{Accepted, AcceptedIndexed, Refusal, Sizes, check, check_indexed, lookup, sizes, words};
#[doc(hidden)]
pub use call::{indexed_numbers, indexed_outcome, numbers, outcome};
pub use index::{ENTRY, Entry, Index};
pub use mask::Mask;
pub use reason::{By, Reason};

/// The version of the crate, of include/facts.h and of the library.
pub const VERSION: &str = "0.6.0";

/// The largest description, in bytes.
pub const LONGEST: usize = 1_048_576;
