//! A caller's own calls, written down as a script.

use std::collections::HashMap;
use std::io::{self, Write};

use crate::outcome::or_panic;
use crate::{
    AllocError, AllocId, Allocation, AllocatorOptions, AtlasAllocator, AtlasGrowFault, BucketedAtlasAllocator,
    GrowFault, OptionsFault, Rectangle, Size, UnknownId,
};

/// The kinds of atlas whose calls a [`Recorder`] writes down.
pub trait Recordable: kinds::Kind {}

impl Recordable for AtlasAllocator {}
impl Recordable for BucketedAtlasAllocator {}

mod kinds {
    use super::{
        AllocError, AllocId, Allocation, AllocatorOptions, AtlasAllocator, AtlasGrowFault, BucketedAtlasAllocator,
        GrowFault, OptionsFault, Size, UnknownId,
    };

    /// What both kinds of atlas can do.
    pub trait Kind: Sized {
        /// The first word of a script.
        const NAME: &'static str;
        /// Why it can't grow.
        type GrowFault: std::fmt::Display + PartialEq;
        /// The one of these after which the same call may answer another time.
        const NO_MEMORY: Self::GrowFault;
        fn made(size: Size, options: &AllocatorOptions) -> Result<Self, OptionsFault>;
        fn allocated(&mut self, size: Size) -> Result<Option<Allocation>, AllocError>;
        fn returned(&mut self, id: AllocId) -> Result<(), UnknownId>;
        fn grown(&mut self, size: Size) -> Result<(), Self::GrowFault>;
        fn cleared(&mut self);
    }

    macro_rules! kind {
        ($atlas:ty, $name:literal, $fault:ident) => {
            impl Kind for $atlas {
                const NAME: &'static str = $name;
                type GrowFault = $fault;
                const NO_MEMORY: $fault = $fault::Memory;
                fn made(size: Size, options: &AllocatorOptions) -> Result<Self, OptionsFault> {
                    Self::try_with_options(size, options)
                }
                fn allocated(&mut self, size: Size) -> Result<Option<Allocation>, AllocError> {
                    self.try_allocate(size)
                }
                fn returned(&mut self, id: AllocId) -> Result<(), UnknownId> {
                    self.try_deallocate(id)
                }
                fn grown(&mut self, size: Size) -> Result<(), $fault> {
                    self.try_grow(size)
                }
                fn cleared(&mut self) {
                    self.clear();
                }
            }
        };
    }

    kind!(AtlasAllocator, "atlas", AtlasGrowFault);
    kind!(BucketedAtlasAllocator, "bucketed", GrowFault);
}

/// An atlas whose calls are written down, a line for each, as a script that the tools of the repository read.
///
/// A replay of the script gives the replies that the calls gave. What was returned twice goes to the atlas once: the
/// second time the id is unknown, also to an atlas of buckets, which wouldn't always notice. Calls that find no memory
/// change nothing and aren't written, since a replay may find some.
///
/// The calls answer as those of the atlas, whatever the writer does. After its first error nothing more is written, and
/// [`finish`](Self::finish) returns the error. A line is one small write: hand in a [`BufWriter`](io::BufWriter) for a
/// file. Beside the atlas it takes memory for each id that is live.
///
/// ```
/// use etagere::{size2, AtlasAllocator, Recorder, DEFAULT_OPTIONS};
///
/// let mut atlas = Recorder::<AtlasAllocator, _>::new(size2(1000, 1000), &DEFAULT_OPTIONS, Vec::new());
/// let first = atlas.allocate(size2(100, 100)).unwrap();
/// let second = atlas.allocate(size2(900, 200)).unwrap();
/// atlas.deallocate(first.id);
/// assert_eq!(atlas.get(second.id), second.rectangle);
/// assert!(atlas.atlas().allocated_space() > 0);
///
/// let (_atlas, script) = atlas.finish();
/// assert_eq!(script.unwrap(), b"atlas 1000 1000 1 1 1 h\na 100 100\na 900 200\nr 0\nl 1\n");
/// ```
#[derive(Debug)]
pub struct Recorder<A, W> {
    atlas: A,
    script: Script<W>,
    /// The position of the command that gave each id that is live.
    positions: HashMap<AllocId, u32>,
}

/// The script so far.
#[derive(Debug)]
struct Script<W> {
    writer: W,
    /// The position of the next command.
    next: u32,
    /// The first error, after which nothing is written.
    error: Option<io::Error>,
}

impl<W: Write> Script<W> {
    fn write(&mut self, line: &str) {
        if self.error.is_none() {
            self.error = self.writer.write_all(line.as_bytes()).err();
        }
    }

    /// Writes a command, and gives its position.
    fn add(&mut self, command: &str) -> u32 {
        self.write(command);
        let position = self.next;
        match position.checked_add(1) {
            Some(next) => self.next = next,
            None => {
                let full = || io::Error::new(io::ErrorKind::Other, "a script has no more positions");
                self.error.get_or_insert_with(full);
            }
        }
        position
    }

    /// Writes a command that names a position; that of the command itself, where nothing is ever live, stands for an
    /// id that isn't known.
    fn add_named(&mut self, letter: char, position: Option<u32>) {
        let named = position.unwrap_or(self.next);
        self.add(&format!("{letter} {named}\n"));
    }
}

impl<A: Recordable, W: Write> Recorder<A, W> {
    /// An empty atlas of this size, and a script of its header.
    ///
    /// # Panics
    ///
    /// Where [`try_new`](Self::try_new) has a fault.
    #[must_use]
    #[track_caller]
    pub fn new(size: Size, options: &AllocatorOptions, writer: W) -> Self {
        or_panic(Self::try_new(size, options, writer))
    }

    /// An empty atlas of this size, and a script of its header.
    ///
    /// # Errors
    ///
    /// The first [`OptionsFault`] that applies. Nothing was written then.
    pub fn try_new(size: Size, options: &AllocatorOptions, writer: W) -> Result<Self, OptionsFault> {
        let atlas = A::made(size, options)?;
        let mut script = Script { writer, next: 0, error: None };
        let AllocatorOptions { alignment, vertical_shelves, num_columns } = *options;
        let direction = if vertical_shelves { 'v' } else { 'h' };
        script.write(&format!(
            "{} {} {} {} {} {num_columns} {direction}\n",
            A::NAME,
            size.width,
            size.height,
            alignment.width,
            alignment.height
        ));
        Ok(Self { atlas, script, positions: HashMap::new() })
    }

    /// The atlas itself. What is asked of it isn't written down.
    #[must_use]
    pub const fn atlas(&self) -> &A {
        &self.atlas
    }

    /// As the atlas's `allocate`, written as `a`.
    ///
    /// # Panics
    ///
    /// Where memory runs out.
    #[track_caller]
    pub fn allocate(&mut self, size: Size) -> Option<Allocation> {
        or_panic(self.try_allocate(size))
    }

    /// As the atlas's `try_allocate`, written as `a`.
    ///
    /// # Errors
    ///
    /// [`AllocError`], as of the atlas; nothing was written then.
    pub fn try_allocate(&mut self, size: Size) -> Result<Option<Allocation>, AllocError> {
        let given = self.atlas.allocated(size)?;
        let position = self.script.add(&format!("a {} {}\n", size.width, size.height));
        if let Some(allocation) = given {
            self.positions.insert(allocation.id, position);
        }
        Ok(given)
    }

    /// As the atlas's `deallocate`, written as `r`.
    ///
    /// # Panics
    ///
    /// Where nothing is live under the id.
    #[track_caller]
    pub fn deallocate(&mut self, id: AllocId) {
        or_panic(self.try_deallocate(id));
    }

    /// As the atlas's `try_deallocate`, written as `r`.
    ///
    /// # Errors
    ///
    /// [`UnknownId`], exactly where nothing is live under the id.
    pub fn try_deallocate(&mut self, id: AllocId) -> Result<(), UnknownId> {
        let position = self.positions.remove(&id);
        self.script.add_named('r', position);
        position.ok_or(UnknownId)?;
        self.atlas.returned(id)
    }

    /// As the atlas's `grow`, written as `g`.
    ///
    /// # Panics
    ///
    /// Where [`try_grow`](Self::try_grow) has a fault.
    #[track_caller]
    pub fn grow(&mut self, size: Size) {
        or_panic(self.try_grow(size));
    }

    /// As the atlas's `try_grow`, written as `g`.
    ///
    /// # Errors
    ///
    /// As of the atlas. Where memory ran out, nothing was written.
    pub fn try_grow(&mut self, size: Size) -> Result<(), A::GrowFault> {
        let grown = self.atlas.grown(size);
        if grown.as_ref().err() != Some(&A::NO_MEMORY) {
            self.script.add(&format!("g {} {}\n", size.width, size.height));
        }
        grown
    }

    /// As the atlas's `clear`, written as `c`.
    pub fn clear(&mut self) {
        self.atlas.cleared();
        self.positions.clear();
        self.script.add("c\n");
    }

    /// The atlas, and the writer with the whole script, which was flushed.
    ///
    /// # Errors
    ///
    /// Beside the atlas, the first error of the writer: the script then ends somewhere before it.
    pub fn finish(self) -> (A, io::Result<W>) {
        let Script { mut writer, error, .. } = self.script;
        let flushed = match error {
            None => writer.flush(),
            Some(error) => Err(error),
        };
        (self.atlas, flushed.map(|()| writer))
    }
}

impl<W: Write> Recorder<AtlasAllocator, W> {
    /// As [`AtlasAllocator::get`], written as `l`.
    ///
    /// # Panics
    ///
    /// Where nothing is live under the id.
    #[must_use]
    #[track_caller]
    pub fn get(&mut self, id: AllocId) -> Rectangle {
        or_panic(self.try_get(id))
    }

    /// As [`AtlasAllocator::try_get`], written as `l`.
    ///
    /// # Errors
    ///
    /// [`UnknownId`], exactly where nothing is live under the id.
    pub fn try_get(&mut self, id: AllocId) -> Result<Rectangle, UnknownId> {
        self.script.add_named('l', self.positions.get(&id).copied());
        self.atlas.try_get(id)
    }
}
