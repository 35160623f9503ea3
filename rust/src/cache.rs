//! The cache.

use std::fmt;
use std::io::{self, Write};
use std::mem;
use std::num::NonZeroUsize;

use crate::outcome::{cache_restore_refused, grown, with_memory};
use crate::picture;
use crate::sys::{self, Status};
use crate::{
    AllocError, AllocatorOptions, AtlasGrowFault, CacheRestoreFault, GlyphFault, JsonFault, OptionsFault, Rectangle,
    Size,
};

/// Rectangles of an atlas under keys, of which those used least recently are evicted where a new one needs room.
///
/// ```
/// use std::num::NonZeroUsize;
///
/// use etagere::{size2, GlyphCache, DEFAULT_OPTIONS};
///
/// let capacity = NonZeroUsize::new(64).unwrap();
/// let mut cache = GlyphCache::new(size2(16, 16), &DEFAULT_OPTIONS, capacity)?;
///
/// let first = cache.place(1, size2(16, 8))?;
/// let second = cache.place(2, size2(16, 8))?;
///
/// assert_eq!(first.evicted, []);
/// assert_eq!(second.evicted, [1]);
/// assert_eq!(cache.get(2), Some(second.rectangle));
/// # Ok::<(), Box<dyn std::error::Error>>(())
/// ```
pub struct GlyphCache {
    handle: sys::Cache,
    /// Where evicted keys are written, at least as long as there are keys at a call that may evict.
    evicted: Vec<u64>,
}

/// What [`GlyphCache::place`] gives.
#[derive(Clone, Debug, PartialEq, Eq, Hash)]
pub struct Placed {
    /// The rectangle of the key.
    pub rectangle: Rectangle,
    /// The keys that were evicted for it, the least recently used first.
    pub evicted: Vec<u64>,
}

/// A key with its rectangle.
#[repr(C)]
#[derive(Copy, Clone, Debug, PartialEq, Eq, Hash)]
pub struct Entry {
    /// The key.
    pub key: u64,
    /// The rectangle of the key.
    pub rectangle: Rectangle,
}

impl GlyphCache {
    /// An empty cache of at most `capacity` keys, over an atlas of this size.
    ///
    /// # Errors
    ///
    /// The first [`OptionsFault`] that applies.
    pub fn new(size: Size, options: &AllocatorOptions, capacity: NonZeroUsize) -> Result<Self, OptionsFault> {
        match sys::Cache::with_capacity(size, options, capacity.get()) {
            Ok(handle) => Ok(Self { handle, evicted: Vec::new() }),
            Err(status) => Err(OptionsFault::of_status(status)),
        }
    }

    /// The rectangle of a key, which becomes the most recently used.
    ///
    /// The size of a key that is there isn't looked at. A new key gets a rectangle at least as large as the size; where
    /// there is no room, the keys used least recently are evicted before, no more than needed.
    ///
    /// # Errors
    ///
    /// [`GlyphFault::TooLarge`], exactly where the key is new and an empty atlas has no place for the size: nothing has
    /// changed. [`GlyphFault::FrameFull`], where evicting all keys that weren't used in this frame wouldn't make room:
    /// nothing has changed. [`GlyphFault::Memory`], where there was no memory: the keys in it are gone, and the others
    /// stand.
    pub fn place(&mut self, key: u64, size: Size) -> Result<Placed, GlyphFault> {
        if let Some(rectangle) = self.get(key) {
            return Ok(Placed { rectangle, evicted: Vec::new() });
        }
        self.make_room_for_evicted().map_err(|AllocError| GlyphFault::Memory(Vec::new()))?;
        let mut count = 0;
        let answer = self.handle.place(key, size, &mut self.evicted, &mut count);
        match answer {
            Ok(rectangle) => Ok(Placed { rectangle, evicted: self.taken_evicted(count) }),
            Err(Status::CACHE_TOO_LARGE) => Err(GlyphFault::TooLarge),
            Err(Status::CACHE_MEMORY) => Err(GlyphFault::Memory(self.taken_evicted(count))),
            Err(Status::CACHE_FRAME_FULL) => Err(GlyphFault::FrameFull),
            Err(status) => status.unexpected(),
        }
    }

    /// A copy of the keys at the front of the buffer. Where there is no memory for one, the buffer itself goes with them.
    fn taken_evicted(&mut self, count: usize) -> Vec<u64> {
        let mut evicted = Vec::new();
        if evicted.try_reserve_exact(count).is_ok() {
            evicted.extend_from_slice(&self.evicted[..count]);
        } else {
            evicted = mem::take(&mut self.evicted);
            evicted.truncate(count);
        }
        evicted
    }

    /// Makes the buffer as long as there are keys.
    fn make_room_for_evicted(&mut self) -> Result<(), AllocError> {
        let missing = self.len().saturating_sub(self.evicted.len());
        self.evicted.try_reserve(missing).map_err(|_| AllocError)?;
        self.evicted.resize(self.evicted.len() + missing, 0);
        Ok(())
    }

    /// Begins a frame: what is placed or looked up from now on isn't evicted by [`GlyphCache::place`] until the next
    /// frame begins, or all keys are taken out by [`GlyphCache::clear`].
    pub fn begin_frame(&mut self) {
        self.handle.begin_frame();
    }

    /// How many keys were placed or looked up in this frame and are still there: none before the first frame.
    ///
    /// ```
    /// use std::num::NonZeroUsize;
    ///
    /// use etagere::{size2, GlyphCache, GlyphFault, DEFAULT_OPTIONS};
    ///
    /// let capacity = NonZeroUsize::new(64).unwrap();
    /// let mut cache = GlyphCache::new(size2(16, 16), &DEFAULT_OPTIONS, capacity)?;
    ///
    /// cache.place(1, size2(16, 8))?;
    /// cache.begin_frame();
    /// cache.place(2, size2(16, 8))?;
    /// assert_eq!(cache.used_in_frame(), 1);
    ///
    /// // The key 2 was used in this frame, so it stays.
    /// assert_eq!(cache.place(3, size2(16, 16)), Err(GlyphFault::FrameFull));
    /// assert_eq!(cache.used_in_frame(), 1);
    /// # Ok::<(), Box<dyn std::error::Error>>(())
    /// ```
    #[must_use]
    pub fn used_in_frame(&self) -> usize {
        self.handle.used_in_frame()
    }

    /// The rectangle of a key, which becomes the most recently used, or none.
    pub fn get(&mut self, key: u64) -> Option<Rectangle> {
        there(self.handle.get(key))
    }

    /// The rectangle of a key, or none; the order of use stays.
    #[must_use]
    pub fn peek(&self, key: u64) -> Option<Rectangle> {
        there(self.handle.peek(key))
    }

    /// All keys with their rectangles, the most recently used first; the order of use stays.
    ///
    /// # Errors
    ///
    /// [`AllocError`], where there was no memory to list them.
    pub fn entries(&self) -> Result<Vec<Entry>, AllocError> {
        with_memory(self.handle.entries())
    }

    /// Makes the atlas larger. Each key keeps its place, and the order of use stays.
    ///
    /// # Errors
    ///
    /// The first [`AtlasGrowFault`] that applies: nothing has changed.
    pub fn grow(&mut self, size: Size) -> Result<(), AtlasGrowFault> {
        grown(self.handle.grow(size))
    }

    /// Sets how many keys there may be. Where more are there, those used least recently are evicted, no more than
    /// needed; they are returned, the least recently used first.
    ///
    /// # Errors
    ///
    /// [`AllocError`], where there was no memory to list them: nothing has changed.
    pub fn set_capacity(&mut self, capacity: NonZeroUsize) -> Result<Vec<u64>, AllocError> {
        self.make_room_for_evicted()?;
        let mut count = 0;
        with_memory(self.handle.set_capacity(capacity.get(), &mut self.evicted, &mut count))?;
        Ok(self.taken_evicted(count))
    }

    /// Takes a key out, and gives the rectangle that it had, or none.
    pub fn remove(&mut self, key: u64) -> Option<Rectangle> {
        there(self.handle.remove(key))
    }

    /// Asks of each key with its rectangle whether it stays, the least recently used first, and takes out those that
    /// don't. The order of use stays.
    ///
    /// # Errors
    ///
    /// [`AllocError`], where there was no memory to list the keys: none was asked of, and nothing has changed.
    ///
    /// ```
    /// use std::num::NonZeroUsize;
    ///
    /// use etagere::{size2, GlyphCache, DEFAULT_OPTIONS};
    ///
    /// let capacity = NonZeroUsize::new(64).unwrap();
    /// let mut cache = GlyphCache::new(size2(64, 64), &DEFAULT_OPTIONS, capacity)?;
    /// for key in 1..=4 {
    ///     cache.place(key, size2(8, 8))?;
    /// }
    ///
    /// cache.retain(|key, _rectangle| key % 2 == 0)?;
    ///
    /// assert!(cache.entries()?.iter().map(|entry| entry.key).eq([4, 2]));
    /// # Ok::<(), Box<dyn std::error::Error>>(())
    /// ```
    pub fn retain(&mut self, mut keeps: impl FnMut(u64, Rectangle) -> bool) -> Result<(), AllocError> {
        for Entry { key, rectangle } in self.entries()?.into_iter().rev() {
            if !keeps(key, rectangle) {
                self.remove(key);
            }
        }
        Ok(())
    }

    /// What is needed to make a cache in the same state, but for the frame, as JSON text: an object
    /// `{"capacity": .., "atlas": {..}, "keys": [{"key": .., "id": ..}, ..]}`, the most recently used key first.
    ///
    /// # Errors
    ///
    /// [`AllocError`], where there was no memory.
    ///
    /// ```
    /// use std::num::NonZeroUsize;
    ///
    /// use etagere::{size2, GlyphCache, DEFAULT_OPTIONS};
    ///
    /// let capacity = NonZeroUsize::new(2).unwrap();
    /// let mut cache = GlyphCache::new(size2(32, 32), &DEFAULT_OPTIONS, capacity)?;
    /// for key in 1..=2 {
    ///     cache.place(key, size2(32, 8))?;
    /// }
    ///
    /// let mut restored = GlyphCache::from_json(&cache.to_json()?)?;
    /// assert_eq!(restored.entries(), cache.entries());
    /// assert_eq!(restored.place(3, size2(32, 8))?.evicted, [1]);
    /// # Ok::<(), Box<dyn std::error::Error>>(())
    /// ```
    pub fn to_json(&self) -> Result<Vec<u8>, AllocError> {
        with_memory(self.handle.snapshot())
    }

    /// The cache that [`to_json`](Self::to_json) has saved; no frame has begun. The text may come from anybody: what
    /// isn't that of a cache is refused.
    ///
    /// # Errors
    ///
    /// [`JsonFault::Unreadable`], where the text says no saved cache; else a broken rule.
    pub fn from_json(text: &[u8]) -> Result<Self, JsonFault<CacheRestoreFault>> {
        let handle = sys::Cache::restore(text).map_err(cache_restore_refused)?;
        Ok(Self { handle, evicted: Vec::new() })
    }

    /// Takes all keys out: the cache is as new, and no frame has begun.
    pub fn clear(&mut self) {
        self.handle.clear();
    }

    /// How many keys are there.
    #[must_use]
    pub fn len(&self) -> usize {
        self.handle.len()
    }

    /// Whether no key is there.
    #[must_use]
    pub fn is_empty(&self) -> bool {
        self.handle.is_empty()
    }

    /// How many keys there may be.
    #[must_use]
    pub fn capacity(&self) -> usize {
        self.handle.capacity()
    }

    /// The size of the atlas.
    #[must_use]
    pub fn size(&self) -> Size {
        self.handle.size()
    }

    /// The areas of all keys' rectangles, added up.
    #[must_use]
    pub fn allocated_space(&self) -> i32 {
        self.handle.allocated_space()
    }

    /// The area of the atlas less that of all keys' rectangles.
    #[must_use]
    pub fn free_space(&self) -> i32 {
        self.handle.free_space()
    }

    /// Writes a picture of the atlas, as [`AtlasAllocator::dump_svg`](crate::AtlasAllocator::dump_svg) does.
    ///
    /// # Errors
    ///
    /// That of the output, or [`io::ErrorKind::OutOfMemory`].
    pub fn dump_svg(&self, output: &mut dyn Write) -> io::Result<()> {
        picture::write(self.handle.picture(), output)
    }

    /// Writes a part of a document, as [`AtlasAllocator::dump_into_svg`](crate::AtlasAllocator::dump_into_svg) does.
    ///
    /// # Errors
    ///
    /// That of the output, or [`io::ErrorKind::OutOfMemory`].
    pub fn dump_into_svg(&self, rect: Option<&Rectangle>, output: &mut dyn Write) -> io::Result<()> {
        picture::write(self.handle.picture_part(rect), output)
    }
}

/// The rectangle of a key that is there.
fn there(answer: Result<Rectangle, Status>) -> Option<Rectangle> {
    match answer {
        Ok(rectangle) => Some(rectangle),
        Err(Status::UNKNOWN_KEY) => None,
        Err(status) => status.unexpected(),
    }
}

impl fmt::Debug for GlyphCache {
    fn fmt(&self, f: &mut fmt::Formatter<'_>) -> fmt::Result {
        f.debug_struct("GlyphCache")
            .field("size", &self.size())
            .field("len", &self.len())
            .field("capacity", &self.capacity())
            .finish_non_exhaustive()
    }
}
