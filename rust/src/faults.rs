//! Why a call can't do what it was asked for.

use std::error::Error;
use std::fmt;

/// Enums of faults, each with its number and what it says.
macro_rules! faults {
    ($($(#[$doc:meta])+ $name:ident { $($(#[$case_doc:meta])+ $case:ident = $number:literal, $says:literal;)+ })+) => {
        $(
            $(#[$doc])+
            #[derive(Copy, Clone, Debug, PartialEq, Eq, Hash)]
            pub enum $name {
                $($(#[$case_doc])+ $case,)+
            }

            impl $name {
                /// The number of the fault.
                #[must_use]
                pub const fn number(self) -> u32 {
                    match self {
                        $(Self::$case => $number,)+
                    }
                }

                /// The fault with this number.
                pub(crate) const fn of_number(number: u32) -> Option<Self> {
                    match number {
                        $($number => Some(Self::$case),)+
                        _ => None,
                    }
                }
            }

            impl fmt::Display for $name {
                fn fmt(&self, f: &mut fmt::Formatter<'_>) -> fmt::Result {
                    f.write_str(match self {
                        $(Self::$case => $says,)+
                    })
                }
            }

            impl Error for $name {}
        )+
    };
}

faults! {
    /// Why an atlas or a cache can't be made: the first that applies, in the order of the numbers.
    OptionsFault {
        /// A side is below 1 or above 65535, of a bucketed atlas above 65534.
        Size = 1, "a side of the atlas is out of range";
        /// Width times height is above 2147483647.
        Area = 2, "the area of the atlas is above 2147483647";
        /// An alignment is below 1.
        Alignment = 3, "an alignment is below 1";
        /// The number of columns is below 1.
        Columns = 4, "the number of columns is below 1";
        /// A column, an equal share rounded down to the alignment, would be 0 wide.
        ColumnTooNarrow = 5, "a column would have no width";
        /// There was no memory.
        Memory = 6, "out of memory";
    }

    /// Why an [`AtlasAllocator`](crate::AtlasAllocator) can't grow: the first that applies, in the order of the
    /// numbers.
    AtlasGrowFault {
        /// A side is below 1 or above 65535.
        Size = 1, "a side of the atlas is out of range";
        /// A side is below the present one.
        Smaller = 2, "a side is below the present one";
        /// Width times height is above 2147483647.
        Area = 3, "the area of the atlas is above 2147483647";
        /// More than 65535 records would be in use.
        Records = 4, "more than 65535 records would be in use";
        /// There was no memory.
        Memory = 5, "out of memory";
    }

    /// Why a [`BucketedAtlasAllocator`](crate::BucketedAtlasAllocator) can't grow: the first that applies, in the order
    /// of the numbers.
    GrowFault {
        /// A side is below 1 or above 65534.
        Size = 1, "a side of the atlas is out of range";
        /// A side is below the present one.
        Smaller = 2, "a side is below the present one";
        /// Width times height is above 2147483647.
        Area = 3, "the area of the atlas is above 2147483647";
        /// There was no memory.
        Memory = 4, "out of memory";
    }

    /// Why a saved atlas can't be restored: a rule that it breaks, where it breaks several any of them.
    RestoreFault {
        /// A side, the area, an alignment or the width of a column is out of its range.
        Frame = 1, "a side, the area, an alignment or the width of a column is out of range";
        /// There are too few or too many records of a kind.
        Counts = 2, "there are too few or too many records of a kind";
        /// A link names no record or not the one that it must.
        Link = 3, "a link names no record or another one than it must";
        /// The shelves don't stand column after column, from the column's begin on; those of a shelf atlas fill each.
        Shelves = 4, "the shelves don't stand in their columns as they must";
        /// The items of a shelf, or its buckets, don't fill it as they must.
        Runs = 5, "the items or buckets of a shelf don't fill it";
        /// Two free items stand side by side, or two empty shelves of a column; the last shelf of buckets holds nothing.
        Neighbours = 6, "two free items or empty shelves are neighbours, or the last shelf of buckets is empty";
        /// The free list of a shelf hasn't each of its free items once.
        FreeList = 7, "a free list hasn't each free item once";
        /// A record is in no list or in two, or a list doesn't end.
        Sharing = 8, "a record is in no list or in two, or a list doesn't end";
        /// An unused record is marked as allocated.
        Unused = 9, "an unused record is marked as allocated";
        /// The allocated space is not that of what is allocated.
        Space = 10, "the allocated space isn't that of what is allocated";
        /// There was no memory.
        Memory = 11, "out of memory";
    }
}

/// Why a saved cache can't be restored: a rule that it breaks, where it breaks several any of them.
#[derive(Copy, Clone, Debug, PartialEq, Eq, Hash)]
pub enum CacheRestoreFault {
    /// Its atlas breaks this rule, which is never [`RestoreFault::Memory`].
    Atlas(RestoreFault),
    /// There was no memory.
    Memory,
    /// There may be no key.
    NoCapacity,
    /// There are more keys than there may be.
    TooManyKeys,
    /// A key stands twice.
    KeyTwice,
    /// A key has an id under which nothing is allocated, or which another key has too.
    WrongId,
    /// Something is allocated for no key.
    NoKey,
}

impl CacheRestoreFault {
    /// The number of the fault.
    #[must_use]
    pub const fn number(self) -> u32 {
        match self {
            Self::Atlas(fault) => fault.number(),
            Self::Memory => 11,
            Self::NoCapacity => 12,
            Self::TooManyKeys => 13,
            Self::KeyTwice => 14,
            Self::WrongId => 15,
            Self::NoKey => 16,
        }
    }

    /// The fault with this number.
    pub(crate) const fn of_number(number: u32) -> Option<Self> {
        match number {
            11 => Some(Self::Memory),
            12 => Some(Self::NoCapacity),
            13 => Some(Self::TooManyKeys),
            14 => Some(Self::KeyTwice),
            15 => Some(Self::WrongId),
            16 => Some(Self::NoKey),
            _ => match RestoreFault::of_number(number) {
                Some(fault) => Some(Self::Atlas(fault)),
                None => None,
            },
        }
    }
}

impl fmt::Display for CacheRestoreFault {
    fn fmt(&self, f: &mut fmt::Formatter<'_>) -> fmt::Result {
        f.write_str(match self {
            Self::Atlas(fault) => return fault.fmt(f),
            Self::Memory => "out of memory",
            Self::NoCapacity => "there may be no key",
            Self::TooManyKeys => "there are more keys than there may be",
            Self::KeyTwice => "a key stands twice",
            Self::WrongId => "nothing is allocated under the id of a key, or another key has it",
            Self::NoKey => "something is allocated for no key",
        })
    }
}

impl Error for CacheRestoreFault {}

/// Why a JSON text gives no atlas, or no cache.
#[derive(Copy, Clone, Debug, PartialEq, Eq, Hash)]
pub enum JsonFault<F = RestoreFault> {
    /// It isn't the text of what is saved of this kind, or there was no memory to read it.
    Unreadable,
    /// It was read, and what it says can't be restored.
    Refused(F),
}

impl<F: fmt::Display> fmt::Display for JsonFault<F> {
    fn fmt(&self, f: &mut fmt::Formatter<'_>) -> fmt::Result {
        match self {
            Self::Unreadable => f.write_str("not the text of what is saved of this kind"),
            Self::Refused(fault) => fault.fmt(f),
        }
    }
}

impl<F: Error> Error for JsonFault<F> {}

impl<F> From<F> for JsonFault<F> {
    fn from(fault: F) -> Self {
        Self::Refused(fault)
    }
}

/// Nothing is allocated under the id.
#[derive(Copy, Clone, Debug, PartialEq, Eq, Hash)]
pub struct UnknownId;

impl UnknownId {
    /// The number of the fault, 1.
    #[must_use]
    pub const fn number(self) -> u32 {
        1
    }
}

impl fmt::Display for UnknownId {
    fn fmt(&self, f: &mut fmt::Formatter<'_>) -> fmt::Result {
        f.write_str("nothing is allocated under the id")
    }
}

impl Error for UnknownId {}

/// There was no memory.
#[derive(Copy, Clone, Debug, PartialEq, Eq, Hash)]
pub struct AllocError;

impl fmt::Display for AllocError {
    fn fmt(&self, f: &mut fmt::Formatter<'_>) -> fmt::Result {
        f.write_str("out of memory")
    }
}

impl Error for AllocError {}

/// Why a cache has no place for a key.
#[derive(Clone, Debug, PartialEq, Eq, Hash)]
pub enum GlyphFault {
    /// The key is new, and an empty atlas has no place for its size.
    TooLarge,
    /// The key is new, and there was no memory. These keys were evicted before, the least recently used first.
    Memory(Vec<u64>),
    /// The key is new, and there would be no place though all keys went that weren't used in this frame.
    FrameFull,
}

impl GlyphFault {
    /// The number of the fault.
    #[must_use]
    pub const fn number(&self) -> u32 {
        match self {
            Self::TooLarge => 1,
            Self::Memory(_) => 2,
            Self::FrameFull => 3,
        }
    }
}

impl fmt::Display for GlyphFault {
    fn fmt(&self, f: &mut fmt::Formatter<'_>) -> fmt::Result {
        f.write_str(match self {
            Self::TooLarge => "an empty atlas has no place for the size",
            Self::Memory(_) => "out of memory",
            Self::FrameFull => "the keys used in this frame leave no place for the size",
        })
    }
}

impl Error for GlyphFault {}
