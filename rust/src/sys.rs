//! The calls of the archive, and handles over them that are safe to use. All unsafe code of the crate is here.
//!
//! The header `etagere.h` says of each call what it gives, what it writes, and what the caller owes. What is owed here:
//!
//! - *The handle is held*: its pointer is null, or was filled by a call and not deleted since, and there is no copy.
//! - *Alone*: `&mut Raw` of a handle is only had through `&mut Handle`, or under the lock of a `&Handle`.
//! - *Places*: each pointer is made of a reference or a slice of the type that the call names, and overlaps no other.

use std::ffi::c_void;
use std::marker::PhantomData;
use std::ptr;
use std::sync::{Mutex, MutexGuard, PoisonError};

use crate::{AllocId, Allocation, AllocatorOptions, BucketedUsage, Entry, Rectangle, Size, Usage};

/// What a call answers.
#[repr(transparent)]
#[derive(Copy, Clone, Debug, PartialEq, Eq)]
pub struct Status(u32);

impl Status {
    pub const OK: Self = Self(0);
    #[cfg(test)]
    const NULL_HANDLE: Self = Self(1);
    #[cfg(test)]
    const HANDLE_IN_USE: Self = Self(2);
    pub const NO_ROOM: Self = Self(3);
    const LENGTH: Self = Self(4);
    pub const UNREADABLE: Self = Self(5);
    pub const MEMORY: Self = Self(6);
    pub const UNKNOWN_KEY: Self = Self(7);
    pub const UNKNOWN_ID: Self = Self(501);
    pub const CACHE_TOO_LARGE: Self = Self(601);
    pub const CACHE_MEMORY: Self = Self(602);
    pub const CACHE_FRAME_FULL: Self = Self(603);

    /// The number of a fault among those of its kind.
    pub const fn fault(self) -> u32 {
        self.0 % 100
    }

    /// Nothing for the one status that says that all went well, else the status.
    fn check(self) -> Result<(), Self> {
        if self == Self::OK {
            Ok(())
        } else {
            Err(self)
        }
    }

    /// Of a call that a handle which isn't null is always answered.
    fn always(self) {
        assert_eq!(self, Self::OK, "the archive has another answer than its header says");
    }

    /// Of a status that the header doesn't name for a call.
    #[cold]
    pub fn unexpected(self) -> ! {
        unreachable!("the archive answered status {}, which its header doesn't name here", self.0)
    }
}

/// A handle as C has it.
#[repr(C)]
pub struct Raw {
    state: *mut c_void,
}

impl Raw {
    const fn null() -> Self {
        Self { state: ptr::null_mut() }
    }
}

// SAFETY: the header says that a handle may go to another thread.
unsafe impl Send for Raw {}

/// The options as C has them.
#[repr(C)]
pub struct Options {
    alignment: Size,
    num_columns: i32,
    vertical_shelves: u32,
}

impl From<&AllocatorOptions> for Options {
    fn from(options: &AllocatorOptions) -> Self {
        Self {
            alignment: options.alignment,
            num_columns: options.num_columns,
            vertical_shelves: options.vertical_shelves.into(),
        }
    }
}

/// Why a size has no place: the number of the reason, and the widest that has room.
#[repr(C)]
#[derive(Copy, Clone, Debug, Default, PartialEq, Eq)]
pub struct Reason {
    pub number: u32,
    pub widest: u32,
}

/// A call that changes a handle and gives nothing.
type Change = unsafe extern "C" fn(*mut Raw) -> Status;
/// A call that looks at a handle and gives one value.
type Look<T> = unsafe extern "C" fn(*mut Raw, *mut T) -> Status;
/// A call that looks at a handle and writes a text.
type Tell = unsafe extern "C" fn(*mut Raw, *mut u8, usize, *mut usize) -> Status;
/// A call that writes the text of a picture in a rectangle.
type TellPart = unsafe extern "C" fn(*mut Raw, Rectangle, *mut u8, usize, *mut usize) -> Status;
/// A call that fills a null handle with an empty atlas.
type Fill = unsafe extern "C" fn(*mut Raw, Size, *const Options) -> Status;
/// A call that fills a null handle with what a text says.
type FillFrom = unsafe extern "C" fn(*mut Raw, *const u8, usize) -> Status;

/// What handles of a kind are asked for by.
pub trait Kind {
    const DELETE: Change;
    const CLEAR: Change;
    const SIZE: Look<Size>;
    const IS_EMPTY: Look<u32>;
    const ALLOCATED_SPACE: Look<i32>;
    const FREE_SPACE: Look<i32>;
    const PICTURE_LENGTH: Look<usize>;
    const PICTURE: Tell;
    const PICTURE_LINES: Tell;
    const PICTURE_PART: TellPart;
    const SNAPSHOT: Tell;
    const RESTORE: FillFrom;
}

/// What handles of atlases are also asked for by.
pub trait AtlasKind: Kind {
    type Usage: Copy + Default;
    const NEW: Fill;
    const ALLOCATE: unsafe extern "C" fn(*mut Raw, Size, *mut Allocation) -> Status;
    const DEALLOCATE: unsafe extern "C" fn(*mut Raw, u32) -> Status;
    const GROW: unsafe extern "C" fn(*mut Raw, Size) -> Status;
    const CLONE: unsafe extern "C" fn(*mut Raw, *mut Raw) -> Status;
    const REFUSAL: unsafe extern "C" fn(*mut Raw, Size, *mut Reason) -> Status;
    const USAGE: Look<Self::Usage>;
    const LARGEST_FREE: Look<Size>;
}

/// A handle that was filled, and is deleted when it is dropped.
pub struct Handle<K: Kind> {
    raw: Mutex<Raw>,
    kind: PhantomData<fn(K)>,
}

pub type Atlas = Handle<Shelves>;
pub type Bucketed = Handle<Buckets>;
pub type Cache = Handle<Keys>;

impl<K: Kind> Handle<K> {
    /// The handle that `fill` fills, or what it answered.
    fn filled(fill: impl FnOnce(&mut Raw) -> Status) -> Result<Self, Status> {
        let mut raw = Raw::null();
        fill(&mut raw).check()?;
        Ok(Self { raw: Mutex::new(raw), kind: PhantomData })
    }

    /// The handle for a call that only looks: even of these the archive takes one at a time.
    fn look(&self) -> MutexGuard<'_, Raw> {
        self.raw.lock().unwrap_or_else(PoisonError::into_inner)
    }

    fn change(&mut self) -> &mut Raw {
        self.raw.get_mut().unwrap_or_else(PoisonError::into_inner)
    }

    pub fn clear(&mut self) {
        // SAFETY: the handle is held and alone.
        unsafe { K::CLEAR(self.change()) }.always();
    }

    pub fn size(&self) -> Size {
        let mut size = Size::default();
        // SAFETY: the handle is held and alone; `size` is a place.
        unsafe { K::SIZE(&mut *self.look(), &mut size) }.always();
        size
    }

    pub fn is_empty(&self) -> bool {
        let mut is_empty = 0;
        // SAFETY: the handle is held and alone; `is_empty` is a place.
        unsafe { K::IS_EMPTY(&mut *self.look(), &mut is_empty) }.always();
        is_empty != 0
    }

    pub fn allocated_space(&self) -> i32 {
        let mut space = 0;
        // SAFETY: the handle is held and alone; `space` is a place.
        unsafe { K::ALLOCATED_SPACE(&mut *self.look(), &mut space) }.always();
        space
    }

    pub fn free_space(&self) -> i32 {
        let mut space = 0;
        // SAFETY: the handle is held and alone; `space` is a place.
        unsafe { K::FREE_SPACE(&mut *self.look(), &mut space) }.always();
        space
    }

    /// The text of a document with the picture.
    pub fn picture(&self) -> Result<Vec<u8>, Status> {
        let mut raw = self.look();
        let (mut length, mut written) = (0, 0);
        // SAFETY: the handle is held and alone; `length` is a place.
        unsafe { K::PICTURE_LENGTH(&mut *raw, &mut length) }.check()?;
        let mut text = filled(length, 0)?;
        // SAFETY: the handle is held and alone; `text` with its length and `written` are places.
        unsafe { K::PICTURE(&mut *raw, text.as_mut_ptr(), text.len(), &mut written) }.check()?;
        text.truncate(written);
        Ok(text)
    }

    /// The text of the picture in another document, in a rectangle of that if there is one.
    pub fn picture_part(&self, rectangle: Option<&Rectangle>) -> Result<Vec<u8>, Status> {
        let mut raw = self.look();
        // SAFETY: the handle is held and alone; `listed` gives places.
        listed(0, |text, length, count| unsafe {
            match rectangle {
                Some(rectangle) => K::PICTURE_PART(&mut *raw, *rectangle, text, length, count),
                None => K::PICTURE_LINES(&mut *raw, text, length, count),
            }
        })
    }

    /// The JSON text of what is saved.
    pub fn snapshot(&self) -> Result<Vec<u8>, Status> {
        let mut raw = self.look();
        // SAFETY: the handle is held and alone; `listed` gives places.
        listed(0, |text, length, count| unsafe { K::SNAPSHOT(&mut *raw, text, length, count) })
    }

    pub fn restore(text: &[u8]) -> Result<Self, Status> {
        // SAFETY: the handle is null and alone; `text` with its length is a place.
        Self::filled(|raw| unsafe { K::RESTORE(raw, text.as_ptr(), text.len()) })
    }
}

impl<K: AtlasKind> Handle<K> {
    pub fn new(size: Size, options: &AllocatorOptions) -> Result<Self, Status> {
        let options = Options::from(options);
        // SAFETY: the handle is null and alone; `options` is a place.
        Self::filled(|raw| unsafe { K::NEW(raw, size, &options) })
    }

    pub fn allocate(&mut self, size: Size) -> Result<Allocation, Status> {
        let mut allocation = NOTHING;
        // SAFETY: the handle is held and alone; `allocation` is a place.
        unsafe { K::ALLOCATE(self.change(), size, &mut allocation) }.check()?;
        Ok(allocation)
    }

    pub fn deallocate(&mut self, id: AllocId) -> Result<(), Status> {
        // SAFETY: the handle is held and alone.
        unsafe { K::DEALLOCATE(self.change(), id.0) }.check()
    }

    pub fn grow(&mut self, size: Size) -> Result<(), Status> {
        // SAFETY: the handle is held and alone.
        unsafe { K::GROW(self.change(), size) }.check()
    }

    pub fn try_clone(&self) -> Result<Self, Status> {
        let mut raw = self.look();
        // SAFETY: the handle is held and alone; the copy is null, alone, and another one.
        Self::filled(|copy| unsafe { K::CLONE(&mut *raw, copy) })
    }

    pub fn refusal(&self, size: Size) -> Reason {
        let mut reason = Reason::default();
        // SAFETY: the handle is held and alone; `reason` is a place.
        unsafe { K::REFUSAL(&mut *self.look(), size, &mut reason) }.always();
        reason
    }

    pub fn usage(&self) -> K::Usage {
        let mut usage = K::Usage::default();
        // SAFETY: the handle is held and alone; `usage` is a place.
        unsafe { K::USAGE(&mut *self.look(), &mut usage) }.always();
        usage
    }

    pub fn largest_free(&self) -> Size {
        let mut size = Size::default();
        // SAFETY: the handle is held and alone; `size` is a place.
        unsafe { K::LARGEST_FREE(&mut *self.look(), &mut size) }.always();
        size
    }
}

impl Atlas {
    /// All that is allocated, by rising index.
    pub fn allocations(&self) -> Result<Vec<Allocation>, Status> {
        let mut raw = self.look();
        // SAFETY: the handle is held and alone; `listed` gives places.
        listed(NOTHING, |buffer, length, count| unsafe { etagere_atlas_allocations(&mut *raw, buffer, length, count) })
    }

    pub fn get(&self, id: AllocId) -> Result<Rectangle, Status> {
        let mut rectangle = Rectangle::default();
        // SAFETY: the handle is held and alone; `rectangle` is a place.
        unsafe { etagere_atlas_get(&mut *self.look(), id.0, &mut rectangle) }.check()?;
        Ok(rectangle)
    }

    pub fn get_index(&self, id: AllocId) -> Result<u32, Status> {
        let mut index = 0;
        // SAFETY: the handle is held and alone; `index` is a place.
        unsafe { etagere_atlas_get_index(&mut *self.look(), id.0, &mut index) }.check()?;
        Ok(index)
    }

    pub fn fits_when_empty(&self, size: Size) -> bool {
        let mut fits = 0;
        // SAFETY: the handle is held and alone; `fits` is a place.
        unsafe { etagere_atlas_fits_when_empty(&mut *self.look(), size, &mut fits) }.always();
        fits != 0
    }
}

impl Cache {
    pub fn with_capacity(size: Size, options: &AllocatorOptions, capacity: usize) -> Result<Self, Status> {
        let options = Options::from(options);
        // SAFETY: the handle is null and alone; `options` is a place.
        Self::filled(|raw| unsafe { etagere_cache_new(raw, size, &options, capacity) })
    }

    /// The rectangle of a key. How many keys were evicted is added to the count, and they stand at the front of the
    /// buffer, which is as long as there are keys.
    pub fn place(&mut self, key: u64, size: Size, evicted: &mut [u64], count: &mut usize) -> Result<Rectangle, Status> {
        let mut rectangle = Rectangle::default();
        let (buffer, length) = (evicted.as_mut_ptr(), evicted.len());
        // SAFETY: the handle is held and alone; `rectangle`, the slice with its length, and `count` are places.
        unsafe { etagere_cache_place(self.change(), key, size, &mut rectangle, buffer, length, count) }.check()?;
        Ok(rectangle)
    }

    pub fn get(&mut self, key: u64) -> Result<Rectangle, Status> {
        let mut rectangle = Rectangle::default();
        // SAFETY: the handle is held and alone; `rectangle` is a place.
        unsafe { etagere_cache_get(self.change(), key, &mut rectangle) }.check()?;
        Ok(rectangle)
    }

    pub fn peek(&self, key: u64) -> Result<Rectangle, Status> {
        let mut rectangle = Rectangle::default();
        // SAFETY: the handle is held and alone; `rectangle` is a place.
        unsafe { etagere_cache_peek(&mut *self.look(), key, &mut rectangle) }.check()?;
        Ok(rectangle)
    }

    /// All keys with their rectangles, the most recently used first.
    pub fn entries(&self) -> Result<Vec<Entry>, Status> {
        let mut raw = self.look();
        // SAFETY: the handle is held and alone; `listed` gives places.
        listed(NO_ENTRY, |buffer, length, count| unsafe { etagere_cache_entries(&mut *raw, buffer, length, count) })
    }

    pub fn grow(&mut self, size: Size) -> Result<(), Status> {
        // SAFETY: the handle is held and alone.
        unsafe { etagere_cache_grow(self.change(), size) }.check()
    }

    /// Sets how many keys there may be. The buffer, as long as there are keys, begins with the evicted ones.
    pub fn set_capacity(&mut self, capacity: usize, evicted: &mut [u64], count: &mut usize) -> Result<(), Status> {
        let (buffer, length) = (evicted.as_mut_ptr(), evicted.len());
        // SAFETY: the handle is held and alone; the slice with its length, and `count` are places.
        unsafe { etagere_cache_set_capacity(self.change(), capacity, buffer, length, count) }.check()
    }

    pub fn remove(&mut self, key: u64) -> Result<Rectangle, Status> {
        let mut rectangle = Rectangle::default();
        // SAFETY: the handle is held and alone; `rectangle` is a place.
        unsafe { etagere_cache_remove(self.change(), key, &mut rectangle) }.check()?;
        Ok(rectangle)
    }

    pub fn begin_frame(&mut self) {
        // SAFETY: the handle is held and alone.
        unsafe { etagere_cache_begin_frame(self.change()) }.always();
    }

    pub fn used_in_frame(&self) -> usize {
        let mut count = 0;
        // SAFETY: the handle is held and alone; `count` is a place.
        unsafe { etagere_cache_used_in_frame(&mut *self.look(), &mut count) }.always();
        count
    }

    pub fn len(&self) -> usize {
        let mut len = 0;
        // SAFETY: the handle is held and alone; `len` is a place.
        unsafe { etagere_cache_len(&mut *self.look(), &mut len) }.always();
        len
    }

    pub fn capacity(&self) -> usize {
        let mut capacity = 0;
        // SAFETY: the handle is held and alone; `capacity` is a place.
        unsafe { etagere_cache_capacity(&mut *self.look(), &mut capacity) }.always();
        capacity
    }
}

impl<K: Kind> Drop for Handle<K> {
    fn drop(&mut self) {
        // SAFETY: the handle is held and alone, and isn't used again.
        unsafe { K::DELETE(self.change()) }.always();
    }
}

/// What stands where an allocation will be written.
const NOTHING: Allocation =
    Allocation { id: AllocId(0), rectangle: Rectangle::new(crate::point2(0, 0), crate::point2(0, 0)) };

/// What stands where an entry will be written.
const NO_ENTRY: Entry = Entry { key: 0, rectangle: NOTHING.rectangle };

/// As many of one value.
fn filled<T: Clone>(count: usize, value: T) -> Result<Vec<T>, Status> {
    let mut values = Vec::new();
    values.try_reserve_exact(count).map_err(|_| Status::MEMORY)?;
    values.resize(count, value);
    Ok(values)
}

/// What a call writes to the front of a buffer, which says how many they are also where that is too short.
///
/// The call gets a place for as many values as it is told, and one for a number.
fn listed<T: Clone>(nothing: T, mut call: impl FnMut(*mut T, usize, *mut usize) -> Status) -> Result<Vec<T>, Status> {
    let mut values = Vec::new();
    let mut count = 0;
    while let Err(status) = call(values.as_mut_ptr(), values.len(), &mut count).check() {
        if status != Status::LENGTH || count <= values.len() {
            return Err(status);
        }
        values = filled(count, nothing.clone())?;
    }
    values.truncate(count);
    Ok(values)
}

/// The kind of an atlas of shelves.
pub struct Shelves;
/// The kind of an atlas of buckets.
pub struct Buckets;
/// The kind of a cache.
pub struct Keys;

impl Kind for Shelves {
    const DELETE: Change = etagere_atlas_delete;
    const CLEAR: Change = etagere_atlas_clear;
    const SIZE: Look<Size> = etagere_atlas_size;
    const IS_EMPTY: Look<u32> = etagere_atlas_is_empty;
    const ALLOCATED_SPACE: Look<i32> = etagere_atlas_allocated_space;
    const FREE_SPACE: Look<i32> = etagere_atlas_free_space;
    const PICTURE_LENGTH: Look<usize> = etagere_atlas_picture_length;
    const PICTURE: Tell = etagere_atlas_picture;
    const PICTURE_LINES: Tell = etagere_atlas_picture_lines;
    const PICTURE_PART: TellPart = etagere_atlas_picture_part;
    const SNAPSHOT: Tell = etagere_atlas_snapshot;
    const RESTORE: FillFrom = etagere_atlas_restore;
}

impl AtlasKind for Shelves {
    type Usage = Usage;
    const NEW: Fill = etagere_atlas_new;
    const ALLOCATE: unsafe extern "C" fn(*mut Raw, Size, *mut Allocation) -> Status = etagere_atlas_allocate;
    const DEALLOCATE: unsafe extern "C" fn(*mut Raw, u32) -> Status = etagere_atlas_deallocate;
    const GROW: unsafe extern "C" fn(*mut Raw, Size) -> Status = etagere_atlas_grow;
    const CLONE: unsafe extern "C" fn(*mut Raw, *mut Raw) -> Status = etagere_atlas_clone;
    const REFUSAL: unsafe extern "C" fn(*mut Raw, Size, *mut Reason) -> Status = etagere_atlas_refusal;
    const USAGE: Look<Usage> = etagere_atlas_usage;
    const LARGEST_FREE: Look<Size> = etagere_atlas_largest_free;
}

impl Kind for Buckets {
    const DELETE: Change = etagere_bucketed_delete;
    const CLEAR: Change = etagere_bucketed_clear;
    const SIZE: Look<Size> = etagere_bucketed_size;
    const IS_EMPTY: Look<u32> = etagere_bucketed_is_empty;
    const ALLOCATED_SPACE: Look<i32> = etagere_bucketed_allocated_space;
    const FREE_SPACE: Look<i32> = etagere_bucketed_free_space;
    const PICTURE_LENGTH: Look<usize> = etagere_bucketed_picture_length;
    const PICTURE: Tell = etagere_bucketed_picture;
    const PICTURE_LINES: Tell = etagere_bucketed_picture_lines;
    const PICTURE_PART: TellPart = etagere_bucketed_picture_part;
    const SNAPSHOT: Tell = etagere_bucketed_snapshot;
    const RESTORE: FillFrom = etagere_bucketed_restore;
}

impl AtlasKind for Buckets {
    type Usage = BucketedUsage;
    const NEW: Fill = etagere_bucketed_new;
    const ALLOCATE: unsafe extern "C" fn(*mut Raw, Size, *mut Allocation) -> Status = etagere_bucketed_allocate;
    const DEALLOCATE: unsafe extern "C" fn(*mut Raw, u32) -> Status = etagere_bucketed_deallocate;
    const GROW: unsafe extern "C" fn(*mut Raw, Size) -> Status = etagere_bucketed_grow;
    const CLONE: unsafe extern "C" fn(*mut Raw, *mut Raw) -> Status = etagere_bucketed_clone;
    const REFUSAL: unsafe extern "C" fn(*mut Raw, Size, *mut Reason) -> Status = etagere_bucketed_refusal;
    const USAGE: Look<BucketedUsage> = etagere_bucketed_usage;
    const LARGEST_FREE: Look<Size> = etagere_bucketed_largest_free;
}

impl Kind for Keys {
    const DELETE: Change = etagere_cache_delete;
    const CLEAR: Change = etagere_cache_clear;
    const SIZE: Look<Size> = etagere_cache_size;
    const IS_EMPTY: Look<u32> = etagere_cache_is_empty;
    const ALLOCATED_SPACE: Look<i32> = etagere_cache_allocated_space;
    const FREE_SPACE: Look<i32> = etagere_cache_free_space;
    const PICTURE_LENGTH: Look<usize> = etagere_cache_picture_length;
    const PICTURE: Tell = etagere_cache_picture;
    const PICTURE_LINES: Tell = etagere_cache_picture_lines;
    const PICTURE_PART: TellPart = etagere_cache_picture_part;
    const SNAPSHOT: Tell = etagere_cache_snapshot;
    const RESTORE: FillFrom = etagere_cache_restore;
}

extern "C" {
    fn etagere_atlas_new(atlas: *mut Raw, size: Size, options: *const Options) -> Status;
    fn etagere_atlas_delete(atlas: *mut Raw) -> Status;
    fn etagere_atlas_allocate(atlas: *mut Raw, size: Size, allocation: *mut Allocation) -> Status;
    fn etagere_atlas_deallocate(atlas: *mut Raw, id: u32) -> Status;
    fn etagere_atlas_get(atlas: *mut Raw, id: u32, rectangle: *mut Rectangle) -> Status;
    fn etagere_atlas_get_index(atlas: *mut Raw, id: u32, index: *mut u32) -> Status;
    fn etagere_atlas_clear(atlas: *mut Raw) -> Status;
    fn etagere_atlas_size(atlas: *mut Raw, size: *mut Size) -> Status;
    fn etagere_atlas_is_empty(atlas: *mut Raw, is_empty: *mut u32) -> Status;
    fn etagere_atlas_allocated_space(atlas: *mut Raw, space: *mut i32) -> Status;
    fn etagere_atlas_free_space(atlas: *mut Raw, space: *mut i32) -> Status;
    fn etagere_atlas_fits_when_empty(atlas: *mut Raw, size: Size, fits: *mut u32) -> Status;
    fn etagere_atlas_refusal(atlas: *mut Raw, size: Size, refusal: *mut Reason) -> Status;
    fn etagere_atlas_usage(atlas: *mut Raw, usage: *mut Usage) -> Status;
    fn etagere_atlas_largest_free(atlas: *mut Raw, size: *mut Size) -> Status;
    fn etagere_atlas_grow(atlas: *mut Raw, size: Size) -> Status;
    fn etagere_atlas_clone(atlas: *mut Raw, copy: *mut Raw) -> Status;
    fn etagere_atlas_picture_length(atlas: *mut Raw, text_length: *mut usize) -> Status;
    fn etagere_atlas_picture(atlas: *mut Raw, buffer: *mut u8, buffer_length: usize, text_length: *mut usize)
        -> Status;
    fn etagere_bucketed_new(atlas: *mut Raw, size: Size, options: *const Options) -> Status;
    fn etagere_bucketed_delete(atlas: *mut Raw) -> Status;
    fn etagere_bucketed_allocate(atlas: *mut Raw, size: Size, allocation: *mut Allocation) -> Status;
    fn etagere_bucketed_deallocate(atlas: *mut Raw, id: u32) -> Status;
    fn etagere_bucketed_clear(atlas: *mut Raw) -> Status;
    fn etagere_bucketed_size(atlas: *mut Raw, size: *mut Size) -> Status;
    fn etagere_bucketed_is_empty(atlas: *mut Raw, is_empty: *mut u32) -> Status;
    fn etagere_bucketed_allocated_space(atlas: *mut Raw, space: *mut i32) -> Status;
    fn etagere_bucketed_free_space(atlas: *mut Raw, space: *mut i32) -> Status;
    fn etagere_bucketed_refusal(atlas: *mut Raw, size: Size, refusal: *mut Reason) -> Status;
    fn etagere_bucketed_usage(atlas: *mut Raw, usage: *mut BucketedUsage) -> Status;
    fn etagere_bucketed_largest_free(atlas: *mut Raw, size: *mut Size) -> Status;
    fn etagere_bucketed_grow(atlas: *mut Raw, size: Size) -> Status;
    fn etagere_bucketed_clone(atlas: *mut Raw, copy: *mut Raw) -> Status;
    fn etagere_bucketed_picture_length(atlas: *mut Raw, text_length: *mut usize) -> Status;
    fn etagere_bucketed_picture(
        atlas: *mut Raw,
        buffer: *mut u8,
        buffer_length: usize,
        text_length: *mut usize,
    ) -> Status;
    fn etagere_cache_new(cache: *mut Raw, size: Size, options: *const Options, capacity: usize) -> Status;
    fn etagere_cache_delete(cache: *mut Raw) -> Status;
    fn etagere_cache_place(
        cache: *mut Raw,
        key: u64,
        size: Size,
        rectangle: *mut Rectangle,
        evicted: *mut u64,
        evicted_length: usize,
        count: *mut usize,
    ) -> Status;
    fn etagere_cache_get(cache: *mut Raw, key: u64, rectangle: *mut Rectangle) -> Status;
    fn etagere_cache_remove(cache: *mut Raw, key: u64, rectangle: *mut Rectangle) -> Status;
    fn etagere_cache_peek(cache: *mut Raw, key: u64, rectangle: *mut Rectangle) -> Status;
    fn etagere_cache_entries(cache: *mut Raw, entries: *mut Entry, entries_length: usize, count: *mut usize) -> Status;
    fn etagere_cache_grow(cache: *mut Raw, size: Size) -> Status;
    fn etagere_cache_set_capacity(
        cache: *mut Raw,
        capacity: usize,
        evicted: *mut u64,
        evicted_length: usize,
        count: *mut usize,
    ) -> Status;
    fn etagere_cache_clear(cache: *mut Raw) -> Status;
    fn etagere_cache_begin_frame(cache: *mut Raw) -> Status;
    fn etagere_cache_used_in_frame(cache: *mut Raw, count: *mut usize) -> Status;
    fn etagere_cache_len(cache: *mut Raw, len: *mut usize) -> Status;
    fn etagere_cache_is_empty(cache: *mut Raw, is_empty: *mut u32) -> Status;
    fn etagere_cache_capacity(cache: *mut Raw, capacity: *mut usize) -> Status;
    fn etagere_cache_size(cache: *mut Raw, size: *mut Size) -> Status;
    fn etagere_cache_allocated_space(cache: *mut Raw, space: *mut i32) -> Status;
    fn etagere_cache_free_space(cache: *mut Raw, space: *mut i32) -> Status;
    fn etagere_cache_picture_length(cache: *mut Raw, text_length: *mut usize) -> Status;
    fn etagere_cache_picture(cache: *mut Raw, buffer: *mut u8, buffer_length: usize, text_length: *mut usize)
        -> Status;
    fn etagere_atlas_picture_lines(
        atlas: *mut Raw,
        buffer: *mut u8,
        buffer_length: usize,
        text_length: *mut usize,
    ) -> Status;
    fn etagere_atlas_picture_part(
        atlas: *mut Raw,
        rectangle: Rectangle,
        buffer: *mut u8,
        buffer_length: usize,
        text_length: *mut usize,
    ) -> Status;
    fn etagere_bucketed_picture_lines(
        atlas: *mut Raw,
        buffer: *mut u8,
        buffer_length: usize,
        text_length: *mut usize,
    ) -> Status;
    fn etagere_bucketed_picture_part(
        atlas: *mut Raw,
        rectangle: Rectangle,
        buffer: *mut u8,
        buffer_length: usize,
        text_length: *mut usize,
    ) -> Status;
    fn etagere_cache_picture_lines(
        atlas: *mut Raw,
        buffer: *mut u8,
        buffer_length: usize,
        text_length: *mut usize,
    ) -> Status;
    fn etagere_cache_picture_part(
        atlas: *mut Raw,
        rectangle: Rectangle,
        buffer: *mut u8,
        buffer_length: usize,
        text_length: *mut usize,
    ) -> Status;
    fn etagere_atlas_snapshot(
        atlas: *mut Raw,
        buffer: *mut u8,
        buffer_length: usize,
        text_length: *mut usize,
    ) -> Status;
    fn etagere_atlas_restore(atlas: *mut Raw, text: *const u8, text_length: usize) -> Status;
    fn etagere_bucketed_snapshot(
        atlas: *mut Raw,
        buffer: *mut u8,
        buffer_length: usize,
        text_length: *mut usize,
    ) -> Status;
    fn etagere_bucketed_restore(atlas: *mut Raw, text: *const u8, text_length: usize) -> Status;
    fn etagere_cache_snapshot(
        cache: *mut Raw,
        buffer: *mut u8,
        buffer_length: usize,
        text_length: *mut usize,
    ) -> Status;
    fn etagere_cache_restore(cache: *mut Raw, text: *const u8, text_length: usize) -> Status;
    fn etagere_atlas_allocations(
        atlas: *mut Raw,
        allocations: *mut Allocation,
        allocations_length: usize,
        count: *mut usize,
    ) -> Status;
}

#[cfg(test)]
mod tests {
    use super::*;
    use crate::{size2, DEFAULT_OPTIONS};

    const SIZE: Size = size2(64, 64);

    /// Each call of a kind on a null handle.
    fn of_null<K: Kind>() -> Vec<Status> {
        let raw = &mut Raw::null();
        let (mut size, mut number, mut space, mut length, mut byte) = (Size::default(), 0, 0, 0, 0);
        // SAFETY: the handle is null and alone; all else are places.
        unsafe {
            vec![
                K::DELETE(raw),
                K::CLEAR(raw),
                K::SIZE(raw, &mut size),
                K::IS_EMPTY(raw, &mut number),
                K::ALLOCATED_SPACE(raw, &mut space),
                K::FREE_SPACE(raw, &mut space),
                K::PICTURE_LENGTH(raw, &mut length),
                K::PICTURE(raw, &mut byte, 1, &mut length),
                K::PICTURE_LINES(raw, &mut byte, 1, &mut length),
                K::PICTURE_PART(raw, Rectangle::default(), &mut byte, 1, &mut length),
                K::SNAPSHOT(raw, &mut byte, 1, &mut length),
            ]
        }
    }

    /// Each further call of a kind of atlas on a null handle.
    fn of_null_atlas<K: AtlasKind>() -> Vec<Status> {
        let raw = &mut Raw::null();
        let (mut allocation, mut copy) = (NOTHING, Raw::null());
        let (mut reason, mut usage, mut size) = (Reason::default(), K::Usage::default(), SIZE);
        // SAFETY: both handles are null and alone; all else are places.
        unsafe {
            vec![
                K::ALLOCATE(raw, SIZE, &mut allocation),
                K::DEALLOCATE(raw, 65536),
                K::GROW(raw, SIZE),
                K::CLONE(raw, &mut copy),
                K::REFUSAL(raw, SIZE, &mut reason),
                K::USAGE(raw, &mut usage),
                K::LARGEST_FREE(raw, &mut size),
            ]
        }
    }

    /// Each further call of one kind alone on a null handle.
    fn of_null_of_one_kind() -> Vec<Status> {
        let raw = &mut Raw::null();
        let (mut rectangle, mut number, mut length) = (Rectangle::default(), 0, 0);
        let (mut allocation, mut key, mut entry) = (NOTHING, 0, NO_ENTRY);
        // SAFETY: the handle is null and alone; all else are places.
        unsafe {
            vec![
                etagere_atlas_get(raw, 65536, &mut rectangle),
                etagere_atlas_get_index(raw, 65536, &mut number),
                etagere_atlas_fits_when_empty(raw, SIZE, &mut number),
                etagere_atlas_allocations(raw, &mut allocation, 1, &mut length),
                etagere_cache_place(raw, 1, SIZE, &mut rectangle, &mut key, 1, &mut length),
                etagere_cache_get(raw, 1, &mut rectangle),
                etagere_cache_remove(raw, 1, &mut rectangle),
                etagere_cache_peek(raw, 1, &mut rectangle),
                etagere_cache_entries(raw, &mut entry, 1, &mut length),
                etagere_cache_grow(raw, SIZE),
                etagere_cache_begin_frame(raw),
                etagere_cache_used_in_frame(raw, &mut length),
                etagere_cache_set_capacity(raw, 1, &mut key, 1, &mut length),
                etagere_cache_len(raw, &mut length),
                etagere_cache_capacity(raw, &mut length),
            ]
        }
    }

    #[test]
    fn a_null_handle_is_told() {
        let mut statuses = [of_null::<Shelves>(), of_null::<Buckets>(), of_null::<Keys>()].concat();
        statuses.extend([of_null_atlas::<Shelves>(), of_null_atlas::<Buckets>(), of_null_of_one_kind()].concat());
        assert_eq!(statuses.len(), 62);
        assert!(statuses.iter().all(|&status| status == Status::NULL_HANDLE), "{statuses:?}");
    }

    /// Each call that fills a handle, on one that is held.
    fn of_held<K: AtlasKind>() -> [Status; 3] {
        let handle = Handle::<K>::new(SIZE, &DEFAULT_OPTIONS).expect("good options");
        let other = Handle::<K>::new(SIZE, &DEFAULT_OPTIONS).expect("good options");
        let text = handle.snapshot().expect("memory");
        let (mut raw, mut copy) = (handle.look(), other.look());
        // SAFETY: both handles are held and alone; all else are places.
        unsafe {
            [
                K::NEW(&mut *raw, SIZE, &Options::from(&DEFAULT_OPTIONS)),
                K::CLONE(&mut *raw, &mut *copy),
                K::RESTORE(&mut *raw, text.as_ptr(), text.len()),
            ]
        }
    }

    #[test]
    fn a_handle_in_use_is_told() {
        assert_eq!(of_held::<Shelves>(), [Status::HANDLE_IN_USE; 3]);
        assert_eq!(of_held::<Buckets>(), [Status::HANDLE_IN_USE; 3]);
        let cache = Cache::with_capacity(SIZE, &DEFAULT_OPTIONS, 1).expect("good options");
        // SAFETY: the handle is held and alone; the options are a place.
        let status = unsafe { etagere_cache_new(&mut *cache.look(), SIZE, &Options::from(&DEFAULT_OPTIONS), 1) };
        assert_eq!(status, Status::HANDLE_IN_USE);
        let text = cache.snapshot().expect("memory");
        // SAFETY: the handle is held and alone; the text with its length is a place.
        let status = unsafe { etagere_cache_restore(&mut *cache.look(), text.as_ptr(), text.len()) };
        assert_eq!(status, Status::HANDLE_IN_USE);
    }

    /// Each call that writes a text, with a buffer that is too short.
    fn of_short_buffer<K: Kind>(handle: &Handle<K>) -> [Status; 3] {
        let mut raw = handle.look();
        let (mut length, mut byte) = (0, 0);
        // SAFETY: the handle is held and alone; all else are places.
        unsafe {
            [
                K::PICTURE(&mut *raw, &mut byte, 1, &mut length),
                K::PICTURE_LINES(&mut *raw, &mut byte, 1, &mut length),
                K::PICTURE_PART(&mut *raw, Rectangle::from_size(SIZE), &mut byte, 1, &mut length),
            ]
        }
    }

    /// A call that writes `abc`, or says how long that is.
    fn abc(buffer: *mut u8, length: usize, count: *mut usize) -> Status {
        // SAFETY: `count` is a place, and `buffer` one for `length` bytes.
        unsafe {
            *count = 3;
            if length < 3 {
                return Status::LENGTH;
            }
            ptr::copy_nonoverlapping(b"abc".as_ptr(), buffer, 3);
        }
        Status::OK
    }

    #[test]
    fn what_is_listed_has_its_length() {
        assert_eq!(listed(0, abc), Ok(b"abc".to_vec()));
        assert_eq!(listed(0_u8, |_, _, _| Status::OK), Ok(Vec::new()));
        assert_eq!(listed(0_u8, |_, _, _| Status::MEMORY), Err(Status::MEMORY));
        assert_eq!(listed(0_u8, |_, _, _| Status::LENGTH), Err(Status::LENGTH));
    }

    /// The call that writes what is saved, with a buffer that is too short.
    fn of_short_snapshot<K: Kind>(handle: &Handle<K>) -> Status {
        let (mut length, mut byte) = (0, 0);
        // SAFETY: the handle is held and alone; all else are places.
        unsafe { K::SNAPSHOT(&mut *handle.look(), &mut byte, 1, &mut length) }
    }

    #[test]
    fn a_short_buffer_is_told() {
        let mut atlas = Atlas::new(SIZE, &DEFAULT_OPTIONS).expect("good options");
        let buckets = Bucketed::new(SIZE, &DEFAULT_OPTIONS).expect("good options");
        let mut cache = Cache::with_capacity(SIZE, &DEFAULT_OPTIONS, 2).expect("good options");
        assert_eq!(of_short_buffer(&atlas), [Status::LENGTH; 3]);
        assert_eq!(of_short_buffer(&buckets), [Status::LENGTH; 3]);
        assert_eq!(of_short_buffer(&cache), [Status::LENGTH; 3]);
        assert_eq!(of_short_snapshot(&atlas), Status::LENGTH);
        assert_eq!(of_short_snapshot(&buckets), Status::LENGTH);
        assert_eq!(of_short_snapshot(&cache), Status::LENGTH);

        let mut count = 0;
        assert!(atlas.allocate(SIZE).is_ok() && cache.place(1, SIZE, &mut [], &mut count).is_ok());
        assert_eq!(cache.place(2, SIZE, &mut [], &mut count), Err(Status::LENGTH));
        assert_eq!(Cache::with_capacity(SIZE, &DEFAULT_OPTIONS, 0).err(), Some(Status::LENGTH));
        assert_eq!(cache.set_capacity(1, &mut [], &mut count), Err(Status::LENGTH));
        assert_eq!(cache.set_capacity(0, &mut [0], &mut count), Err(Status::LENGTH));
        // SAFETY: the handle is held and alone; a list without a buffer is a place for nothing.
        let status = unsafe { etagere_atlas_allocations(&mut *atlas.look(), [].as_mut_ptr(), 0, &mut count) };
        assert_eq!((status, count), (Status::LENGTH, 1));
    }
}
