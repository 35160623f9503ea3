//! Random calls answer what the programs reply to the same commands.

mod common;

use std::collections::HashSet;
use std::fmt::Write as _;
use std::io::Write as _;
use std::num::NonZeroUsize;
use std::path::PathBuf;
use std::process::{Command, Stdio};
use std::{env, thread};

use common::{Atlas, Random};
use etagere::{
    size2, AllocId, Allocation, AllocatorOptions, AtlasAllocator, AtlasGrowFault, BucketedAtlasAllocator, GlyphCache,
    GlyphFault, GrowFault, Rectangle, Size, DEFAULT_OPTIONS,
};

const COMMANDS: u32 = 10_000;

/// What a program prints for an input, or none where the programs aren't there.
///
/// They are in the folder that `ETAGERE_BIN_DIR` names, else in the release of the repository.
fn printed(program: &str, arguments: &[&str], input: &[u8]) -> Option<String> {
    let folder = env::var_os("ETAGERE_BIN_DIR")
        .map_or_else(|| PathBuf::from(concat!(env!("CARGO_MANIFEST_DIR"), "/../dist/bin")), PathBuf::from);
    let path = folder.join(program);
    if !path.is_file() {
        eprintln!("{} isn't there: nothing is compared with it", path.display());
        return None;
    }
    let mut child =
        Command::new(path).args(arguments).stdin(Stdio::piped()).stdout(Stdio::piped()).spawn().expect("starts");
    let mut stdin = child.stdin.take().expect("piped");
    let output = thread::scope(|scope| {
        scope.spawn(move || stdin.write_all(input).expect("reads its input"));
        child.wait_with_output().expect("ends")
    });
    assert!(output.status.success(), "{program} ends with {}", output.status);
    Some(String::from_utf8(output.stdout).expect("prints text"))
}

/// A script, and what the calls answered in its words.
#[derive(Default)]
struct Session {
    script: String,
    replies: String,
    /// For each command the id that it got, as long as that is live.
    ids: Vec<Option<AllocId>>,
}

/// A script's other commands on an atlas, and what is written of it.
trait Scripted: Atlas {
    const KIND: &'static str;
    fn enlarge(&mut self, size: Size) -> Result<(), u32>;
    fn empty(&mut self);
    fn look(&self, id: AllocId) -> Option<(Rectangle, u32)>;
    fn picture(&self) -> Vec<u8>;
    fn saved(&self) -> Vec<u8>;
}

macro_rules! scripted {
    ($name:ident $kind:literal $fault:ident, |$atlas:ident, $id:ident| $look:expr) => {
        impl Scripted for $name {
            const KIND: &'static str = $kind;
            fn enlarge(&mut self, size: Size) -> Result<(), u32> {
                self.try_grow(size).map_err($fault::number)
            }
            fn empty(&mut self) {
                self.clear();
            }
            fn look(&self, $id: AllocId) -> Option<(Rectangle, u32)> {
                let $atlas = self;
                $look
            }
            fn picture(&self) -> Vec<u8> {
                let mut text = Vec::new();
                self.dump_svg(&mut text).expect("a list takes all");
                text
            }
            fn saved(&self) -> Vec<u8> {
                self.to_json().expect("there is memory")
            }
        }
    };
}

scripted!(AtlasAllocator "atlas" AtlasGrowFault, |atlas, id| Some((atlas.get(id), atlas.get_index(id))));
scripted!(BucketedAtlasAllocator "bucketed" GrowFault, |_atlas, _id| None);

fn corners(rectangle: Rectangle) -> String {
    let (min, max) = (rectangle.min, rectangle.max);
    format!("{} {} {} {}", min.x, min.y, max.x, max.y)
}

impl Session {
    fn begun(header: &str) -> Self {
        Self { script: format!("{header}\n"), ..Self::default() }
    }

    fn add(&mut self, command: &str, reply: &str, id: Option<AllocId>) {
        writeln!(self.script, "{command}").expect("a string takes all");
        writeln!(self.replies, "{reply}").expect("a string takes all");
        self.ids.push(id);
    }

    /// The number of an earlier command, or of this one.
    fn position(&self, random: &mut Random) -> usize {
        random.below(self.ids.len() as u32 + 1) as usize
    }

    fn id(&self, position: usize) -> Option<AllocId> {
        *self.ids.get(position)?
    }

    fn allocate<A: Atlas>(&mut self, atlas: &mut A, size: Size) {
        let command = format!("a {} {}", size.width, size.height);
        match atlas.place(size) {
            Some(Allocation { id, rectangle }) => {
                self.add(&command, &format!("placed {} {}", id.serialize(), corners(rectangle)), Some(id));
            }
            None => self.add(&command, "refused", None),
        }
    }

    fn give_back<A: Atlas>(&mut self, atlas: &mut A, position: usize) {
        let reply = match self.id(position) {
            Some(id) => {
                atlas.give_back(id);
                self.ids[position] = None;
                "returned"
            }
            None => "not live",
        };
        self.add(&format!("r {position}"), reply, None);
    }

    fn look<A: Scripted>(&mut self, atlas: &A, position: usize) {
        let reply = match self.id(position).and_then(|id| atlas.look(id)) {
            Some((rectangle, index)) => format!("at {} {index}", corners(rectangle)),
            None => "not live".to_owned(),
        };
        self.add(&format!("l {position}"), &reply, None);
    }

    fn grow<A: Scripted>(&mut self, atlas: &mut A, size: Size) {
        let reply = match atlas.enlarge(size) {
            Ok(()) => "grown".to_owned(),
            Err(number) => format!("grow refused {number}"),
        };
        self.add(&format!("g {} {}", size.width, size.height), &reply, None);
    }

    fn clear<A: Scripted>(&mut self, atlas: &mut A) {
        atlas.empty();
        self.ids.fill(None);
        self.add("c", "cleared", None);
    }
}

/// Random commands, of items up to a side.
fn run<A: Scripted>(seed: u64, mut size: Size, options: &AllocatorOptions, side: u32) {
    let AllocatorOptions { alignment, num_columns, vertical_shelves } = *options;
    let direction = if vertical_shelves { 'v' } else { 'h' };
    let (width, height) = alignment.to_tuple();
    let header = format!("{} {} {} {width} {height} {num_columns} {direction}", A::KIND, size.width, size.height);
    let mut session = Session::begun(&header);
    let mut atlas = A::make(size, options);
    let mut random = Random::new(seed);
    for _ in 0..COMMANDS {
        let position = session.position(&mut random);
        match random.below(1000) {
            0 => session.clear(&mut atlas),
            1..=3 => {
                let wanted = size + size2(random.below(40) as i32, random.below(40) as i32) - size2(10, 10);
                session.grow(&mut atlas, wanted);
                size = size.max(if session.replies.ends_with("grown\n") { wanted } else { size });
            }
            4..=99 if A::KIND == "atlas" => session.look(&atlas, position),
            4..=549 => session.allocate(&mut atlas, size2(random.side(side), random.side(side))),
            _ => session.give_back(&mut atlas, position),
        }
    }
    assert_eq!(session.ids.len(), COMMANDS as usize);
    if let Some(replies) = printed("etagere_run", &[], session.script.as_bytes()) {
        assert!(replies == session.replies, "the replies to seed {seed} differ");
    }
    if let Some(picture) = printed("etagere_draw", &[], session.script.as_bytes()) {
        assert!(picture.as_bytes() == atlas.picture(), "the pictures of seed {seed} differ");
    }
    if let Some(judged) = printed("etagere_run", &["check"], &atlas.saved()) {
        assert_eq!(judged, "ok\n");
    }
}

const ALIGNED: AllocatorOptions = AllocatorOptions { alignment: size2(4, 8), num_columns: 3, ..DEFAULT_OPTIONS };
const UPRIGHT: AllocatorOptions = AllocatorOptions { vertical_shelves: true, ..ALIGNED };

#[test]
fn an_atlas_of_shelves_answers_as_the_program() {
    run::<AtlasAllocator>(1, size2(256, 256), &DEFAULT_OPTIONS, 40);
    run::<AtlasAllocator>(2, size2(300, 200), &ALIGNED, 60);
    run::<AtlasAllocator>(3, size2(200, 300), &UPRIGHT, 60);
    run::<AtlasAllocator>(4, size2(2048, 2048), &DEFAULT_OPTIONS, 100);
}

#[test]
fn an_atlas_of_buckets_answers_as_the_program() {
    run::<BucketedAtlasAllocator>(5, size2(256, 256), &DEFAULT_OPTIONS, 20);
    run::<BucketedAtlasAllocator>(6, size2(300, 200), &ALIGNED, 30);
    run::<BucketedAtlasAllocator>(7, size2(200, 300), &UPRIGHT, 30);
    run::<BucketedAtlasAllocator>(8, size2(2048, 2048), &DEFAULT_OPTIONS, 60);
}

fn with_keys(mut line: String, keys: &[u64]) -> String {
    if !keys.is_empty() {
        line.push_str(" evicted");
    }
    for key in keys {
        write!(line, " {key}").expect("a string takes all");
    }
    line
}

#[test]
fn a_cache_answers_as_the_program() {
    let capacity = NonZeroUsize::new(60).expect("not 0");
    let mut session = Session::begun("cache 128 128 1 1 1 h 60");
    let mut cache = GlyphCache::new(size2(128, 128), &DEFAULT_OPTIONS, capacity).expect("good options");
    let mut random = Random::new(9);
    for _ in 0..COMMANDS {
        let key = u64::from(random.below(120));
        let size = size2(random.side(30), random.side(30) * random.side(2) * random.side(3));
        let none = || "none".to_owned();
        let (command, reply) = match random.below(1000) {
            0 => {
                cache.clear();
                ("c".to_owned(), "cleared".to_owned())
            }
            1..=100 => (format!("g {key}"), cache.get(key).map_or_else(none, |at| format!("at {}", corners(at)))),
            101..=200 => {
                let removed = cache.remove(key);
                (format!("r {key}"), removed.map_or_else(none, |at| format!("removed {}", corners(at))))
            }
            _ => {
                let reply = match cache.place(key, size) {
                    Ok(placed) => with_keys(format!("placed {}", corners(placed.rectangle)), &placed.evicted),
                    Err(GlyphFault::TooLarge) => "too large".to_owned(),
                    Err(GlyphFault::Memory(keys)) => with_keys("no memory".to_owned(), &keys),
                    Err(GlyphFault::FrameFull) => unreachable!("no frame has begun"),
                };
                (format!("p {key} {} {}", size.width, size.height), reply)
            }
        };
        session.add(&command, &reply, None);
    }
    if let Some(replies) = printed("glyph_run", &[], session.script.as_bytes()) {
        assert!(replies == session.replies, "the replies differ");
    }
}

#[test]
fn a_frame_counts_what_was_used_in_it() {
    let capacity = NonZeroUsize::new(40).expect("not 0");
    let mut cache = GlyphCache::new(size2(96, 96), &DEFAULT_OPTIONS, capacity).expect("good options");
    let mut random = Random::new(10);
    let mut used = HashSet::new();
    cache.begin_frame();
    for _ in 0..COMMANDS {
        let key = u64::from(random.below(80));
        match random.below(100) {
            0..=1 => {
                cache.begin_frame();
                used.clear();
            }
            2..=9 => {
                cache.remove(key);
                used.remove(&key);
            }
            10..=39 if cache.get(key).is_some() => {
                used.insert(key);
            }
            10..=39 => assert!(!used.contains(&key)),
            _ => match cache.place(key, size2(random.side(30), random.side(30))) {
                Ok(placed) => {
                    assert!(placed.evicted.iter().all(|evicted| !used.contains(evicted)));
                    used.insert(key);
                }
                Err(fault) => assert!(fault == GlyphFault::FrameFull && !used.is_empty() && !used.contains(&key)),
            },
        }
        assert_eq!(cache.used_in_frame(), used.len());
    }
}
