//! The atlas of buckets.

use std::fmt;
use std::io::{self, Write};

use crate::outcome::{known, or_panic, restore_refused, room, with_memory};
use crate::picture;
use crate::sys::{self, Status};
use crate::{
    AllocError, AllocId, Allocation, AllocatorOptions, BucketedRefusal, BucketedUsage, GrowFault, JsonFault,
    OptionsFault, Rectangle, Size, UnknownId, DEFAULT_OPTIONS,
};

/// An atlas that places rectangles in the buckets of shelves, for many small items that go at about the same time.
///
/// The room of a bucket comes back when all that it gave was given back.
///
/// ```
/// use etagere::{size2, BucketedAtlasAllocator};
///
/// let mut atlas = BucketedAtlasAllocator::new(size2(32, 64));
///
/// let first = atlas.allocate(size2(20, 16)).unwrap();
/// let second = atlas.allocate(size2(24, 16)).unwrap();
/// assert_eq!(second.rectangle.min.y, first.rectangle.max.y);
///
/// atlas.grow(size2(64, 64));
/// assert!(atlas.allocate(size2(64, 16)).is_some());
/// ```
pub struct BucketedAtlasAllocator {
    handle: sys::Bucketed,
}

impl BucketedAtlasAllocator {
    /// An empty atlas of this size with [`DEFAULT_OPTIONS`].
    ///
    /// # Panics
    ///
    /// Where [`try_new`](Self::try_new) has a fault.
    #[must_use]
    #[track_caller]
    pub fn new(size: Size) -> Self {
        Self::with_options(size, &DEFAULT_OPTIONS)
    }

    /// An empty atlas of this size.
    ///
    /// # Panics
    ///
    /// Where [`try_with_options`](Self::try_with_options) has a fault.
    #[must_use]
    #[track_caller]
    pub fn with_options(size: Size, options: &AllocatorOptions) -> Self {
        or_panic(Self::try_with_options(size, options))
    }

    /// An empty atlas of this size with [`DEFAULT_OPTIONS`].
    ///
    /// # Errors
    ///
    /// The first [`OptionsFault`] that applies.
    ///
    /// ```
    /// use etagere::{size2, BucketedAtlasAllocator, OptionsFault};
    ///
    /// assert_eq!(BucketedAtlasAllocator::try_new(size2(0, 5)).err(), Some(OptionsFault::Size));
    /// ```
    pub fn try_new(size: Size) -> Result<Self, OptionsFault> {
        Self::try_with_options(size, &DEFAULT_OPTIONS)
    }

    /// An empty atlas of this size.
    ///
    /// # Errors
    ///
    /// The first [`OptionsFault`] that applies.
    pub fn try_with_options(size: Size, options: &AllocatorOptions) -> Result<Self, OptionsFault> {
        match sys::Bucketed::new(size, options) {
            Ok(handle) => Ok(Self { handle }),
            Err(status) => Err(OptionsFault::of_status(status)),
        }
    }

    /// A rectangle that is at least as large as the size, or none where there is no room for it.
    ///
    /// # Panics
    ///
    /// Where memory runs out.
    #[track_caller]
    pub fn allocate(&mut self, size: Size) -> Option<Allocation> {
        or_panic(self.try_allocate(size))
    }

    /// A rectangle that is at least as large as the size, or none where there is no room for it.
    ///
    /// # Errors
    ///
    /// [`AllocError`], only where a shelf is to be added and there was no memory.
    pub fn try_allocate(&mut self, size: Size) -> Result<Option<Allocation>, AllocError> {
        room(self.handle.allocate(size))
    }

    /// Takes back the rectangle that was given under an id. The last one of a bucket makes that empty.
    ///
    /// # Panics
    ///
    /// Where the id is unknown: where no bucket that holds something has given an item under it since it was empty.
    #[track_caller]
    pub fn deallocate(&mut self, id: AllocId) {
        or_panic(self.try_deallocate(id));
    }

    /// Takes back the rectangle that was given under an id. The last one of a bucket makes that empty.
    ///
    /// # Errors
    ///
    /// [`UnknownId`], exactly where no bucket that holds something has given an item under the id since it was empty.
    /// An id that comes back twice is taken for that of another item of its bucket while that holds others.
    ///
    /// ```
    /// use etagere::{size2, BucketedAtlasAllocator, UnknownId};
    ///
    /// let mut atlas = BucketedAtlasAllocator::new(size2(64, 64));
    /// let item = atlas.allocate(size2(8, 8)).unwrap();
    ///
    /// assert_eq!(atlas.try_deallocate(item.id), Ok(()));
    /// assert_eq!(atlas.try_deallocate(item.id), Err(UnknownId));
    /// ```
    pub fn try_deallocate(&mut self, id: AllocId) -> Result<(), UnknownId> {
        known(self.handle.deallocate(id))
    }

    /// Makes the atlas larger. What is allocated keeps its place and its id.
    ///
    /// # Panics
    ///
    /// Where [`try_grow`](Self::try_grow) has a fault.
    #[track_caller]
    pub fn grow(&mut self, size: Size) {
        or_panic(self.try_grow(size));
    }

    /// Makes the atlas larger. What is allocated keeps its place and its id.
    ///
    /// # Errors
    ///
    /// The first [`GrowFault`] that applies.
    ///
    /// ```
    /// use etagere::{size2, BucketedAtlasAllocator, GrowFault};
    ///
    /// let mut atlas = BucketedAtlasAllocator::new(size2(64, 64));
    ///
    /// assert_eq!(atlas.try_grow(size2(64, 63)), Err(GrowFault::Smaller));
    /// assert_eq!(atlas.try_grow(size2(128, 64)), Ok(()));
    /// assert_eq!(atlas.size(), size2(128, 64));
    /// ```
    pub fn try_grow(&mut self, size: Size) -> Result<(), GrowFault> {
        let refused = |status: Status| match GrowFault::of_number(status.fault()) {
            Some(fault) => fault,
            None => status.unexpected(),
        };
        self.handle.grow(size).map_err(refused)
    }

    /// An atlas in the same state, which gives the same ids and answers and shares nothing with this one.
    ///
    /// # Errors
    ///
    /// [`AllocError`], where there was no memory.
    pub fn try_clone(&self) -> Result<Self, AllocError> {
        let handle = with_memory(self.handle.try_clone())?;
        Ok(Self { handle })
    }

    /// What is needed to make an atlas in the same state, as JSON text: an object `{"bucketed": {..}}`.
    ///
    /// # Errors
    ///
    /// [`AllocError`], where there was no memory.
    ///
    /// ```
    /// use etagere::{size2, BucketedAtlasAllocator};
    ///
    /// let mut atlas = BucketedAtlasAllocator::new(size2(64, 64));
    /// let item = atlas.allocate(size2(8, 8)).unwrap();
    ///
    /// let mut restored = BucketedAtlasAllocator::from_json(&atlas.to_json()?)?;
    /// assert_eq!(restored.allocate(size2(9, 9)), atlas.allocate(size2(9, 9)));
    /// restored.deallocate(item.id);
    /// # Ok::<(), Box<dyn std::error::Error>>(())
    /// ```
    pub fn to_json(&self) -> Result<Vec<u8>, AllocError> {
        with_memory(self.handle.snapshot())
    }

    /// The atlas that [`to_json`](Self::to_json) has saved. The text may come from anybody: what isn't that of an atlas
    /// is refused.
    ///
    /// # Errors
    ///
    /// [`JsonFault::Unreadable`], where the text says no saved atlas of this kind; else a broken rule.
    pub fn from_json(text: &[u8]) -> Result<Self, JsonFault> {
        let handle = sys::Bucketed::restore(text).map_err(restore_refused)?;
        Ok(Self { handle })
    }

    /// Takes everything back at once: the atlas is as new, with its present size and columns.
    pub fn clear(&mut self) {
        self.handle.clear();
    }

    /// The size of the atlas, as it was made or has grown.
    #[must_use]
    pub fn size(&self) -> Size {
        self.handle.size()
    }

    /// Whether nothing is allocated.
    #[must_use]
    pub fn is_empty(&self) -> bool {
        self.handle.is_empty()
    }

    /// The area that the buckets have used, each as tall as its shelf.
    #[must_use]
    pub fn allocated_space(&self) -> i32 {
        self.handle.allocated_space()
    }

    /// The area of the atlas less what the buckets have used.
    #[must_use]
    pub fn free_space(&self) -> i32 {
        self.handle.free_space()
    }

    /// Why the size has no place; none exactly where [`allocate`](Self::allocate) has one, memory aside.
    ///
    /// ```
    /// use etagere::{size2, BucketedAtlasAllocator, BucketedRefusal};
    ///
    /// let atlas = BucketedAtlasAllocator::new(size2(64, 64));
    ///
    /// assert_eq!(atlas.refusal(size2(24, 24)), None);
    /// assert_eq!(atlas.refusal(size2(24, 65)), Some(BucketedRefusal::TallerThanAtlas));
    /// ```
    #[must_use]
    pub fn refusal(&self, size: Size) -> Option<BucketedRefusal> {
        let reason = self.handle.refusal(size);
        BucketedRefusal::of_number(reason.number, reason.widest)
    }

    /// How full the atlas is.
    #[must_use]
    pub fn usage(&self) -> BucketedUsage {
        self.handle.usage()
    }

    /// The widest item that a shelf can give, with the height of that shelf; 0 by 0 where no shelf has room. The space
    /// for a new shelf doesn't count, nor what several idle shelves could make together.
    #[must_use]
    pub fn largest_free(&self) -> Size {
        self.handle.largest_free()
    }

    /// Writes an SVG document: the atlas and every bucket, what is used in blue, what is free in grey.
    ///
    /// # Errors
    ///
    /// That of the output, or [`io::ErrorKind::OutOfMemory`].
    ///
    /// ```
    /// use etagere::{size2, BucketedAtlasAllocator};
    ///
    /// let mut picture = Vec::new();
    /// BucketedAtlasAllocator::new(size2(64, 32)).dump_svg(&mut picture)?;
    ///
    /// assert!(picture.starts_with(b"<svg xmlns=\"http://www.w3.org/2000/svg\" width=\"64\" height=\"32\""));
    /// # Ok::<(), std::io::Error>(())
    /// ```
    pub fn dump_svg(&self, output: &mut dyn Write) -> io::Result<()> {
        picture::write(self.handle.picture(), output)
    }

    /// Writes the lines of [`dump_svg`](Self::dump_svg) without the first and the last one, so that they can be part of
    /// another document. With a rectangle they are moved and scaled to fill it; one without area gets nothing.
    ///
    /// # Errors
    ///
    /// That of the output, or [`io::ErrorKind::OutOfMemory`].
    pub fn dump_into_svg(&self, rect: Option<&Rectangle>, output: &mut dyn Write) -> io::Result<()> {
        picture::write(self.handle.picture_part(rect), output)
    }
}

impl Clone for BucketedAtlasAllocator {
    /// An atlas in the same state, which gives the same ids and answers and shares nothing with this one.
    ///
    /// # Panics
    ///
    /// Where there was no memory.
    #[track_caller]
    fn clone(&self) -> Self {
        or_panic(self.try_clone())
    }
}

impl fmt::Debug for BucketedAtlasAllocator {
    fn fmt(&self, f: &mut fmt::Formatter<'_>) -> fmt::Result {
        f.debug_struct("BucketedAtlasAllocator")
            .field("size", &self.size())
            .field("allocated_space", &self.allocated_space())
            .finish_non_exhaustive()
    }
}
