//! The atlas of shelves.

use std::fmt;
use std::io::{self, Write};
use std::iter::FusedIterator;
use std::marker::PhantomData;
use std::vec;

use crate::outcome::{grown, known, or_panic, restore_refused, room, with_memory};
use crate::picture;
use crate::sys;
use crate::{
    AllocError, AllocId, Allocation, AllocatorOptions, AtlasGrowFault, JsonFault, OptionsFault, Rectangle, Refusal,
    Size, UnknownId, Usage, DEFAULT_OPTIONS,
};

/// An atlas that places rectangles on shelves, and merges what is free.
///
/// ```
/// use etagere::{size2, AllocatorOptions, AtlasAllocator, DEFAULT_OPTIONS};
///
/// let options = AllocatorOptions { alignment: size2(4, 8), num_columns: 2, ..DEFAULT_OPTIONS };
/// let mut atlas = AtlasAllocator::with_options(size2(2048, 2048), &options);
///
/// let item = atlas.allocate(size2(30, 40)).unwrap();
///
/// assert_eq!(item.rectangle.size(), size2(32, 48));
/// assert!(atlas.allocate(size2(1025, 1)).is_none());
/// atlas.deallocate(item.id);
/// assert!(atlas.is_empty());
/// ```
pub struct AtlasAllocator {
    handle: sys::Atlas,
}

impl AtlasAllocator {
    /// An empty atlas of this size with [`DEFAULT_OPTIONS`].
    ///
    /// # Panics
    ///
    /// Where [`try_new`](Self::try_new) has a fault.
    #[must_use]
    #[track_caller]
    pub fn new(size: Size) -> Self {
        Self::with_options(size, &DEFAULT_OPTIONS)
    }

    /// An empty atlas of this size.
    ///
    /// # Panics
    ///
    /// Where [`try_with_options`](Self::try_with_options) has a fault.
    #[must_use]
    #[track_caller]
    pub fn with_options(size: Size, options: &AllocatorOptions) -> Self {
        or_panic(Self::try_with_options(size, options))
    }

    /// An empty atlas of this size with [`DEFAULT_OPTIONS`].
    ///
    /// # Errors
    ///
    /// The first [`OptionsFault`] that applies.
    ///
    /// ```
    /// use etagere::{size2, AtlasAllocator, OptionsFault};
    ///
    /// assert_eq!(AtlasAllocator::try_new(size2(0, 5)).err(), Some(OptionsFault::Size));
    /// ```
    pub fn try_new(size: Size) -> Result<Self, OptionsFault> {
        Self::try_with_options(size, &DEFAULT_OPTIONS)
    }

    /// An empty atlas of this size.
    ///
    /// # Errors
    ///
    /// The first [`OptionsFault`] that applies.
    pub fn try_with_options(size: Size, options: &AllocatorOptions) -> Result<Self, OptionsFault> {
        match sys::Atlas::new(size, options) {
            Ok(handle) => Ok(Self { handle }),
            Err(status) => Err(OptionsFault::of_status(status)),
        }
    }

    /// A rectangle that is at least as large as the size, or none where there is no room for it.
    ///
    /// # Panics
    ///
    /// Where memory runs out.
    #[track_caller]
    pub fn allocate(&mut self, size: Size) -> Option<Allocation> {
        or_panic(self.try_allocate(size))
    }

    /// A rectangle that is at least as large as the size, or none where there is no room for it.
    ///
    /// # Errors
    ///
    /// [`AllocError`], only where the place is to be split and there was no memory.
    pub fn try_allocate(&mut self, size: Size) -> Result<Option<Allocation>, AllocError> {
        room(self.handle.allocate(size))
    }

    /// Takes back the rectangle that is allocated under an id, and merges what is free with its neighbours.
    ///
    /// # Panics
    ///
    /// Where nothing is allocated under the id.
    #[track_caller]
    pub fn deallocate(&mut self, id: AllocId) {
        or_panic(self.try_deallocate(id));
    }

    /// Takes back the rectangle that is allocated under an id, and merges what is free with its neighbours.
    ///
    /// # Errors
    ///
    /// [`UnknownId`], exactly where nothing is allocated under the id.
    ///
    /// ```
    /// use etagere::{size2, AtlasAllocator, UnknownId};
    ///
    /// let mut atlas = AtlasAllocator::new(size2(64, 64));
    /// let item = atlas.allocate(size2(8, 8)).unwrap();
    ///
    /// assert_eq!(atlas.try_deallocate(item.id), Ok(()));
    /// assert_eq!(atlas.try_deallocate(item.id), Err(UnknownId));
    /// ```
    pub fn try_deallocate(&mut self, id: AllocId) -> Result<(), UnknownId> {
        known(self.handle.deallocate(id))
    }

    /// The rectangle that is allocated under an id, as it was first given.
    ///
    /// # Panics
    ///
    /// Where nothing is allocated under the id.
    #[must_use]
    #[track_caller]
    pub fn get(&self, id: AllocId) -> Rectangle {
        or_panic(self.try_get(id))
    }

    /// The rectangle that is allocated under an id, as it was first given.
    ///
    /// # Errors
    ///
    /// [`UnknownId`], exactly where nothing is allocated under the id.
    pub fn try_get(&self, id: AllocId) -> Result<Rectangle, UnknownId> {
        known(self.handle.get(id))
    }

    /// The index of what is allocated under an id: a small number that it keeps as long as it is allocated, and that
    /// nothing else has at that time, as a key for tables beside the atlas.
    ///
    /// # Panics
    ///
    /// Where nothing is allocated under the id.
    #[must_use]
    #[track_caller]
    pub fn get_index(&self, id: AllocId) -> u32 {
        or_panic(self.try_get_index(id))
    }

    /// The index of what is allocated under an id, as [`get_index`](Self::get_index) gives it.
    ///
    /// # Errors
    ///
    /// [`UnknownId`], exactly where nothing is allocated under the id.
    pub fn try_get_index(&self, id: AllocId) -> Result<u32, UnknownId> {
        known(self.handle.get_index(id))
    }

    /// Makes the atlas larger. What is allocated keeps its place, its id and its index.
    ///
    /// # Panics
    ///
    /// Where [`try_grow`](Self::try_grow) has a fault.
    #[track_caller]
    pub fn grow(&mut self, size: Size) {
        or_panic(self.try_grow(size));
    }

    /// Makes the atlas larger. What is allocated keeps its place, its id and its index.
    ///
    /// # Errors
    ///
    /// The first [`AtlasGrowFault`] that applies.
    ///
    /// ```
    /// use etagere::{size2, AtlasAllocator, AtlasGrowFault};
    ///
    /// let mut atlas = AtlasAllocator::new(size2(64, 64));
    ///
    /// assert_eq!(atlas.try_grow(size2(64, 63)), Err(AtlasGrowFault::Smaller));
    /// assert_eq!(atlas.try_grow(size2(128, 64)), Ok(()));
    /// assert_eq!(atlas.size(), size2(128, 64));
    /// ```
    pub fn try_grow(&mut self, size: Size) -> Result<(), AtlasGrowFault> {
        grown(self.handle.grow(size))
    }

    /// An atlas in the same state, which gives the same ids and answers and shares nothing with this one.
    ///
    /// # Errors
    ///
    /// [`AllocError`], where there was no memory.
    pub fn try_clone(&self) -> Result<Self, AllocError> {
        let handle = with_memory(self.handle.try_clone())?;
        Ok(Self { handle })
    }

    /// What is needed to make an atlas in the same state, as JSON text: an object `{"atlas": {..}}`.
    ///
    /// # Errors
    ///
    /// [`AllocError`], where there was no memory.
    ///
    /// ```
    /// use etagere::{size2, AtlasAllocator};
    ///
    /// let mut atlas = AtlasAllocator::new(size2(64, 64));
    /// let item = atlas.allocate(size2(8, 8)).unwrap();
    ///
    /// let mut restored = AtlasAllocator::from_json(&atlas.to_json()?)?;
    /// assert_eq!(restored.allocate(size2(9, 9)), atlas.allocate(size2(9, 9)));
    /// restored.deallocate(item.id);
    /// # Ok::<(), Box<dyn std::error::Error>>(())
    /// ```
    pub fn to_json(&self) -> Result<Vec<u8>, AllocError> {
        with_memory(self.handle.snapshot())
    }

    /// The atlas that [`to_json`](Self::to_json) has saved. The text may come from anybody: what isn't that of an atlas
    /// is refused.
    ///
    /// # Errors
    ///
    /// [`JsonFault::Unreadable`], where the text says no saved atlas of this kind; else a broken rule.
    pub fn from_json(text: &[u8]) -> Result<Self, JsonFault> {
        let handle = sys::Atlas::restore(text).map_err(restore_refused)?;
        Ok(Self { handle })
    }

    /// All that is allocated, by rising index.
    ///
    /// # Panics
    ///
    /// Where there was no memory to list them.
    ///
    /// ```
    /// use etagere::{size2, AtlasAllocator};
    ///
    /// let mut atlas = AtlasAllocator::new(size2(64, 64));
    /// let item = atlas.allocate(size2(8, 8)).unwrap();
    ///
    /// assert!(atlas.iter().eq([item]));
    /// for allocation in &atlas {
    ///     assert_eq!(atlas.get(allocation.id), allocation.rectangle);
    /// }
    /// ```
    #[must_use]
    #[track_caller]
    pub fn iter(&self) -> Iter<'_> {
        or_panic(self.try_iter())
    }

    /// All that is allocated, by rising index.
    ///
    /// # Errors
    ///
    /// [`AllocError`], where there was no memory to list them.
    pub fn try_iter(&self) -> Result<Iter<'_>, AllocError> {
        let allocations = with_memory(self.handle.allocations())?.into_iter();
        Ok(Iter { allocations, atlas: PhantomData })
    }

    /// Takes everything back at once: the atlas is as new, with its present size and columns.
    pub fn clear(&mut self) {
        self.handle.clear();
    }

    /// The size of the atlas, as it was made or has grown.
    #[must_use]
    pub fn size(&self) -> Size {
        self.handle.size()
    }

    /// Whether nothing is allocated.
    #[must_use]
    pub fn is_empty(&self) -> bool {
        self.handle.is_empty()
    }

    /// The areas of everything that is allocated, added up.
    #[must_use]
    pub fn allocated_space(&self) -> i32 {
        self.handle.allocated_space()
    }

    /// The area of the atlas less what is allocated.
    #[must_use]
    pub fn free_space(&self) -> i32 {
        self.handle.free_space()
    }

    /// Whether there would be room for the size if nothing were allocated.
    #[must_use]
    pub fn fits_when_empty(&self, size: Size) -> bool {
        self.handle.fits_when_empty(size)
    }

    /// Why the size has no place; none exactly where [`allocate`](Self::allocate) has one, memory aside.
    ///
    /// ```
    /// use etagere::{size2, AtlasAllocator, Refusal};
    ///
    /// let mut atlas = AtlasAllocator::new(size2(64, 64));
    /// atlas.allocate(size2(40, 64)).unwrap();
    ///
    /// assert_eq!(atlas.refusal(size2(24, 64)), None);
    /// assert_eq!(atlas.refusal(size2(25, 64)), Some(Refusal::NoRoom { widest: 24 }));
    /// assert_eq!(atlas.refusal(size2(65, 1)), Some(Refusal::WiderThanColumn));
    /// ```
    #[must_use]
    pub fn refusal(&self, size: Size) -> Option<Refusal> {
        let reason = self.handle.refusal(size);
        Refusal::of_number(reason.number, reason.widest)
    }

    /// How full the atlas is.
    ///
    /// ```
    /// use etagere::{size2, AtlasAllocator};
    ///
    /// let mut atlas = AtlasAllocator::new(size2(64, 64));
    /// atlas.allocate(size2(40, 64)).unwrap();
    ///
    /// let usage = atlas.usage();
    /// assert_eq!((usage.shelves, usage.items, usage.free_items), (1, 1, 1));
    /// assert_eq!(usage.largest_free, size2(24, 64));
    /// ```
    #[must_use]
    pub fn usage(&self) -> Usage {
        self.handle.usage()
    }

    /// The widest free item along the shelves, and of equally wide ones the tallest; 0 by 0 where none is free. A size
    /// as large may have no place, where its rounded height is above that of the shelf.
    #[must_use]
    pub fn largest_free(&self) -> Size {
        self.handle.largest_free()
    }

    /// Writes an SVG document: the atlas and every item, what is allocated in blue, what is free in grey.
    ///
    /// # Errors
    ///
    /// That of the output, or [`io::ErrorKind::OutOfMemory`].
    ///
    /// ```
    /// use etagere::{size2, AtlasAllocator};
    ///
    /// let mut picture = Vec::new();
    /// AtlasAllocator::new(size2(64, 32)).dump_svg(&mut picture)?;
    ///
    /// assert!(picture.starts_with(b"<svg xmlns=\"http://www.w3.org/2000/svg\" width=\"64\" height=\"32\""));
    /// # Ok::<(), std::io::Error>(())
    /// ```
    pub fn dump_svg(&self, output: &mut dyn Write) -> io::Result<()> {
        picture::write(self.handle.picture(), output)
    }

    /// Writes the lines of [`dump_svg`](Self::dump_svg) without the first and the last one, so that they can be part of
    /// another document. With a rectangle they are moved and scaled to fill it; one without area gets nothing.
    ///
    /// # Errors
    ///
    /// That of the output, or [`io::ErrorKind::OutOfMemory`].
    pub fn dump_into_svg(&self, rect: Option<&Rectangle>, output: &mut dyn Write) -> io::Result<()> {
        picture::write(self.handle.picture_part(rect), output)
    }
}

impl Clone for AtlasAllocator {
    /// An atlas in the same state, which gives the same ids and answers and shares nothing with this one.
    ///
    /// # Panics
    ///
    /// Where there was no memory.
    #[track_caller]
    fn clone(&self) -> Self {
        or_panic(self.try_clone())
    }
}

impl fmt::Debug for AtlasAllocator {
    fn fmt(&self, f: &mut fmt::Formatter<'_>) -> fmt::Result {
        f.debug_struct("AtlasAllocator")
            .field("size", &self.size())
            .field("allocated_space", &self.allocated_space())
            .finish_non_exhaustive()
    }
}

/// All that is allocated in an atlas, by rising index.
#[derive(Clone, Debug)]
pub struct Iter<'l> {
    allocations: vec::IntoIter<Allocation>,
    atlas: PhantomData<&'l AtlasAllocator>,
}

impl Iterator for Iter<'_> {
    type Item = Allocation;

    fn next(&mut self) -> Option<Allocation> {
        self.allocations.next()
    }

    fn size_hint(&self) -> (usize, Option<usize>) {
        self.allocations.size_hint()
    }
}

impl ExactSizeIterator for Iter<'_> {}

impl FusedIterator for Iter<'_> {}

impl<'l> IntoIterator for &'l AtlasAllocator {
    type Item = Allocation;
    type IntoIter = Iter<'l>;

    fn into_iter(self) -> Iter<'l> {
        self.iter()
    }
}
