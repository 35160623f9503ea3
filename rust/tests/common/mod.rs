//! Random numbers, and both kinds of atlas called in one way.

use etagere::{AllocId, Allocation, AllocatorOptions, AtlasAllocator, BucketedAtlasAllocator, Size};

/// Numbers that look random, the same ones for each seed.
pub struct Random(u64);

impl Random {
    pub fn new(seed: u64) -> Self {
        Self(seed.wrapping_mul(0x9e37_79b9_7f4a_7c15) | 1)
    }

    /// A number below the bound.
    pub fn below(&mut self, bound: u32) -> u32 {
        self.0 ^= self.0 << 13;
        self.0 ^= self.0 >> 7;
        self.0 ^= self.0 << 17;
        ((self.0 >> 33) % u64::from(bound)) as u32
    }

    /// A side from 1 to the greatest one.
    pub fn side(&mut self, greatest: u32) -> i32 {
        1 + self.below(greatest) as i32
    }
}

/// What both kinds of atlas do for the same commands.
pub trait Atlas {
    fn make(size: Size, options: &AllocatorOptions) -> Self;
    fn place(&mut self, size: Size) -> Option<Allocation>;
    fn give_back(&mut self, id: AllocId);
}

macro_rules! atlas {
    ($name:ident) => {
        impl Atlas for $name {
            fn make(size: Size, options: &AllocatorOptions) -> Self {
                Self::with_options(size, options)
            }
            fn place(&mut self, size: Size) -> Option<Allocation> {
                self.allocate(size)
            }
            fn give_back(&mut self, id: AllocId) {
                self.deallocate(id);
            }
        }
    };
}

atlas!(AtlasAllocator);
atlas!(BucketedAtlasAllocator);
