//! Shelf-packing texture atlas allocators, proved, behind the interface of the crate
//! [etagere](https://crates.io/crates/etagere) 0.2.15.
//!
//! They place rectangles in one large rectangle, take them back in any order, and use their space again:
//!
//! - [`AtlasAllocator`] tracks each rectangle, and merges what is free.
//! - [`BucketedAtlasAllocator`] is for many small items that go at about the same time.
//! - [`GlyphCache`] keeps rectangles of an atlas under keys, and evicts those that were used least recently.
//!
//! ```
//! use etagere::{size2, AtlasAllocator};
//!
//! let mut atlas = AtlasAllocator::new(size2(1000, 1000));
//!
//! let first = atlas.allocate(size2(100, 100)).unwrap();
//! let second = atlas.allocate(size2(900, 200)).unwrap();
//! atlas.deallocate(first.id);
//! let third = atlas.allocate(size2(300, 200)).unwrap();
//!
//! assert_eq!(atlas.get(third.id), third.rectangle);
//! assert!(!third.rectangle.intersects(&second.rectangle));
//! ```
//!
//! # Panics and faults
//!
//! Calls panic where those of the Rust crate etagere do, and where memory runs out. Beside each stands a `try_` one,
//! which returns the fault; the atlas is then as before.
//!
//! # The code behind
//!
//! This crate is a thin layer over a static library for x86-64 Linux, written in Rattle, in which each call is proved
//! to answer what its rules say. This layer itself is tested, not proved.

#![deny(missing_docs, unsafe_code, unsafe_op_in_unsafe_fn, clippy::undocumented_unsafe_blocks)]

mod allocation;
mod atlas;
mod bucketed;
mod cache;
mod faults;
mod fullness;
mod geometry;
mod number;
mod outcome;
mod picture;
mod record;
#[allow(unsafe_code)]
mod sys;

pub mod euclid {
    //! The geometry types, at the path at which the Rust crate etagere has those of the crate `euclid`.

    pub use crate::geometry::*;
    pub use crate::number::{Number, Real};
}

pub use allocation::{AllocId, Allocation, AllocatorOptions, DEFAULT_OPTIONS};
pub use atlas::{AtlasAllocator, Iter};
pub use bucketed::BucketedAtlasAllocator;
pub use cache::{Entry, GlyphCache, Placed};
pub use faults::{
    AllocError, AtlasGrowFault, CacheRestoreFault, GlyphFault, GrowFault, JsonFault, OptionsFault, RestoreFault,
    UnknownId,
};
pub use fullness::{BucketedRefusal, BucketedUsage, Refusal, Usage};
pub use geometry::{point2, size2};
pub use record::{Recordable, Recorder};

/// A place in pixels.
pub type Point = euclid::Point2D<i32>;
/// Two sides in pixels.
pub type Size = euclid::Size2D<i32>;
/// The pixels from one corner on, up to the other one, which is no part of it.
pub type Rectangle = euclid::Box2D<i32>;

/// Tries the example of the README.
#[cfg(doctest)]
#[doc = include_str!("../README.md")]
struct Readme;
