//! Why sizes have no place, and how full atlases are.

use std::error::Error;
use std::fmt;

use crate::Size;

/// Enums of reasons, each with its number and what it says. The fifth has the widest that has room.
macro_rules! reasons {
    ($($(#[$doc:meta])+ $name:ident {
        $($(#[$case_doc:meta])+ $case:ident $({ $(#[$field_doc:meta])+ $field:ident })? = $number:literal, $says:literal;)+
    })+) => {
        $(
            $(#[$doc])+
            #[derive(Copy, Clone, Debug, PartialEq, Eq, Hash)]
            pub enum $name {
                $($(#[$case_doc])+ $case $({ $(#[$field_doc])+ $field: u32 })?,)+
            }

            impl $name {
                /// The number of the reason.
                #[must_use]
                pub const fn number(self) -> u32 {
                    match self {
                        $(Self::$case { .. } => $number,)+
                    }
                }

                /// The reason with this number, and the widest that has room.
                pub(crate) const fn of_number(number: u32, widest: u32) -> Option<Self> {
                    match number {
                        $($number => Some(Self::$case $({ $field: widest })?),)+
                        _ => None,
                    }
                }
            }

            impl fmt::Display for $name {
                fn fmt(&self, f: &mut fmt::Formatter<'_>) -> fmt::Result {
                    f.write_str(match self {
                        $(Self::$case { .. } => $says,)+
                    })
                }
            }

            impl Error for $name {}
        )+
    };
}

reasons! {
    /// Why a size has no place in an [`AtlasAllocator`](crate::AtlasAllocator): the first that holds, in the order of
    /// the numbers.
    Refusal {
        /// A side of the size is below 1.
        NotPositive = 1, "a side of the size is below 1";
        /// A side of the size is above 65535.
        TooLong = 2, "a side of the size is above 65535";
        /// The side along the shelves, rounded up to its alignment, is above the width of a column.
        WiderThanColumn = 3, "the size is wider than a column";
        /// The side across the shelves, rounded up to its alignment, is above that of the atlas.
        TallerThanAtlas = 4, "the size is taller than the atlas";
        /// No shelf that is tall enough has a free item that is wide enough.
        NoRoom {
            /// How long the widest free item of the shelves that are tall enough is along them; 0 where they have none.
            widest
        } = 5, "no shelf has room";
        /// A shelf has room, but the splits of the chosen place would make more than 65535 items.
        NoRecords = 6, "more than 65535 records would be in use";
    }

    /// Why a size has no place in a [`BucketedAtlasAllocator`](crate::BucketedAtlasAllocator): the first that holds, in
    /// the order of the numbers.
    BucketedRefusal {
        /// A side of the size is below 1.
        NotPositive = 1, "a side of the size is below 1";
        /// A side of the size is above 65535.
        TooLong = 2, "a side of the size is above 65535";
        /// The size, rounded up to the alignment, is wider along the shelves than a column.
        WiderThanColumn = 3, "the size is wider than a column";
        /// The size, rounded up to the alignment, is taller across the shelves than the atlas.
        TallerThanAtlas = 4, "the size is taller than the atlas";
        /// No shelf that is tall enough has a bucket with the width left, and there is no space for a new shelf.
        NoRoom {
            /// The greatest width that a bucket of a shelf that is tall enough can give; 0 where none can give any.
            widest
        } = 5, "no shelf has room";
        /// There is space for a new shelf, but too few of the 4095 buckets are left for it.
        NoBuckets = 6, "too few buckets are left";
        /// A bucket of a shelf that is tall enough has the width left, but has given 4095 items.
        ItemsUsedUp = 7, "a bucket has given all its items";
    }
}

/// How full an [`AtlasAllocator`](crate::AtlasAllocator) is.
#[derive(Copy, Clone, Debug, Default, PartialEq, Eq, Hash)]
#[repr(C)]
pub struct Usage {
    /// How many shelves there are.
    pub shelves: u32,
    /// How many of them are empty.
    pub empty_shelves: u32,
    /// How many items are allocated.
    pub items: u32,
    /// How many items are free.
    pub free_items: u32,
    /// How many more items there can be, of 65535 in all.
    pub unused_records: u32,
    /// As [`AtlasAllocator::largest_free`](crate::AtlasAllocator::largest_free) gives it.
    pub largest_free: Size,
}

/// How full a [`BucketedAtlasAllocator`](crate::BucketedAtlasAllocator) is.
#[derive(Copy, Clone, Debug, Default, PartialEq, Eq, Hash)]
#[repr(C)]
pub struct BucketedUsage {
    /// How many shelves there are.
    pub shelves: u32,
    /// How many of them hold nothing.
    pub idle_shelves: u32,
    /// How many buckets they have.
    pub buckets: u32,
    /// How many of these hold nothing.
    pub idle_buckets: u32,
    /// How many items are allocated.
    pub items: u32,
    /// How many buckets can still be made, of 4095.
    pub unused_buckets: u32,
    /// As [`BucketedAtlasAllocator::largest_free`](crate::BucketedAtlasAllocator::largest_free) gives it.
    pub largest_free: Size,
}
