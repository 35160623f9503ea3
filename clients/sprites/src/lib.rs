//! Packs sprites, which are PNG files of a folder, into sheets by the atlas of shelves of the crate `etagere`.
//!
//! [`pack`] places them, [`sheets`] writes the sheets and the index, [`png`] reads and writes the files.

#![deny(missing_docs, unsafe_code)]

mod fault;
pub mod pack;
pub mod png;
pub mod sheets;

pub use fault::Fault;
