//! What is asked for and what is given.

use crate::{size2, Rectangle, Size};

/// How an atlas is divided, and what it rounds sizes to.
///
/// ```
/// use etagere::{size2, AllocatorOptions, DEFAULT_OPTIONS};
///
/// const OPTIONS: AllocatorOptions = AllocatorOptions { alignment: size2(4, 4), ..DEFAULT_OPTIONS };
///
/// assert_eq!(OPTIONS.num_columns, 1);
/// assert_eq!(AllocatorOptions::default(), DEFAULT_OPTIONS);
/// ```
#[derive(Copy, Clone, Debug, PartialEq, Eq, Hash)]
pub struct AllocatorOptions {
    /// Each width is rounded up to a multiple of `alignment.width`, each height to one of `alignment.height`. Both are
    /// at least 1.
    pub alignment: Size,
    /// Whether the shelves stand upright, side by side, in place of lying one above another.
    pub vertical_shelves: bool,
    /// How many columns are asked for, at least 1, each with shelves of its own.
    pub num_columns: i32,
}

/// No alignment, shelves that lie, one column.
pub const DEFAULT_OPTIONS: AllocatorOptions =
    AllocatorOptions { alignment: size2(1, 1), vertical_shelves: false, num_columns: 1 };

impl Default for AllocatorOptions {
    fn default() -> Self {
        DEFAULT_OPTIONS
    }
}

/// The name under which a rectangle is allocated.
///
/// An id can come again once its rectangle was given back.
///
/// ```
/// use etagere::AllocId;
///
/// let id = AllocId::deserialize(65537);
///
/// assert_eq!(id.serialize(), 65537);
/// ```
#[repr(transparent)]
#[derive(Copy, Clone, Debug, PartialEq, Eq, Hash)]
pub struct AllocId(pub(crate) u32);

impl AllocId {
    /// The number of the id, from which [`deserialize`](Self::deserialize) makes it again.
    #[must_use]
    pub const fn serialize(&self) -> u32 {
        self.0
    }

    /// The id of a number, also of one that no atlas gave.
    #[must_use]
    pub const fn deserialize(bytes: u32) -> Self {
        Self(bytes)
    }
}

/// A rectangle of an atlas, and the id by which it is given back.
#[repr(C)]
#[derive(Copy, Clone, Debug, PartialEq, Eq, Hash)]
pub struct Allocation {
    /// Its id.
    pub id: AllocId,
    /// Where it is, at least as large as was asked for.
    pub rectangle: Rectangle,
}
