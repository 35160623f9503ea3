//! What is recorded is the script of the calls: read again, it gives the answers that the calls gave.

mod common;

use std::io::{self, Write};

use common::{Atlas, Random};
use etagere::{
    size2, AllocId, Allocation, AllocatorOptions, AtlasAllocator, BucketedAtlasAllocator, OptionsFault, Recordable,
    Recorder, UnknownId, DEFAULT_OPTIONS,
};

const ALIGNED: AllocatorOptions = AllocatorOptions { alignment: size2(4, 8), num_columns: 3, vertical_shelves: true };

fn text(script: io::Result<Vec<u8>>) -> String {
    String::from_utf8(script.expect("a list takes all")).expect("a script is text")
}

/// The calls of examples/readme.atlas, whose last command finds nothing.
#[test]
fn the_calls_of_the_readme_are_its_script() {
    let mut atlas = Recorder::<AtlasAllocator, _>::new(size2(1000, 1000), &DEFAULT_OPTIONS, Vec::new());
    let first = atlas.allocate(size2(100, 100)).expect("room");
    atlas.allocate(size2(900, 200)).expect("room");
    atlas.deallocate(first.id);
    let third = atlas.allocate(size2(300, 200)).expect("room");
    assert_eq!(atlas.get(third.id), third.rectangle);
    assert_eq!(atlas.try_deallocate(first.id), Err(UnknownId));

    let (atlas, script) = atlas.finish();

    assert_eq!(atlas.get(third.id), third.rectangle);
    let wanted = "atlas 1000 1000 1 1 1 h\na 100 100\na 900 200\nr 0\na 300 200\nl 3\nr 5\n";
    assert_eq!(text(script), wanted);
}

#[test]
fn all_that_a_script_can_say_is_recorded() {
    let mut atlas = Recorder::<BucketedAtlasAllocator, _>::new(size2(300, 200), &ALIGNED, Vec::new());
    assert_eq!(atlas.allocate(size2(301, 8)), None);
    assert!(atlas.try_grow(size2(8, 8)).is_err());
    atlas.grow(size2(320, 200));
    let item = atlas.allocate(size2(8, 8)).expect("room");
    atlas.clear();
    assert_eq!(atlas.try_deallocate(item.id), Err(UnknownId));
    assert_eq!(text(atlas.finish().1), "bucketed 300 200 4 8 3 v\na 301 8\ng 8 8\ng 320 200\na 8 8\nc\nr 5\n");
    let refused = Recorder::<AtlasAllocator, _>::try_new(size2(0, 1), &DEFAULT_OPTIONS, Vec::new());
    assert_eq!(refused.err(), Some(OptionsFault::Size));
}

/// What the lines of a script behind its header answer: an allocation where one was placed.
fn replayed<A: Atlas>(atlas: &mut A, script: &str) -> Vec<Option<Allocation>> {
    let mut answers: Vec<Option<Allocation>> = Vec::new();
    let mut live: Vec<Option<AllocId>> = Vec::new();
    for line in script.lines().skip(1) {
        let numbers: Vec<i32> = line[2..].split(' ').map(|word| word.parse().expect("a number")).collect();
        let answer = if line.starts_with('a') { atlas.place(size2(numbers[0], numbers[1])) } else { None };
        if line.starts_with('r') {
            let slot = live.get_mut(numbers[0] as usize);
            if let Some(id) = slot.and_then(Option::take) {
                atlas.give_back(id);
            }
        }
        answers.push(answer);
        live.push(answer.map(|allocation| allocation.id));
    }
    answers
}

/// Random calls are recorded, and the script is run on a new atlas. Ids are returned twice now and then.
fn is_replayed<A: Atlas + Recordable>(seed: u64) {
    let mut random = Random::new(seed);
    let mut atlas = Recorder::<A, _>::new(size2(256, 256), &DEFAULT_OPTIONS, Vec::new());
    let mut answers = Vec::new();
    let mut ids = Vec::new();
    for _ in 0..5_000 {
        if ids.is_empty() || random.below(100) < 55 {
            let given = atlas.allocate(size2(random.side(40), random.side(40)));
            ids.extend(given.map(|allocation| allocation.id));
            answers.push(given);
        } else {
            let index = random.below(ids.len() as u32) as usize;
            let id = if random.below(20) == 0 { ids[index] } else { ids.swap_remove(index) };
            let _ = atlas.try_deallocate(id);
            answers.push(None);
        }
    }
    let (_atlas, script) = atlas.finish();
    assert!(replayed(&mut A::make(size2(256, 256), &DEFAULT_OPTIONS), &text(script)) == answers);
}

#[test]
fn a_replay_of_an_atlas_of_shelves_gives_its_answers() {
    is_replayed::<AtlasAllocator>(1);
}

#[test]
fn a_replay_of_an_atlas_of_buckets_gives_its_answers() {
    is_replayed::<BucketedAtlasAllocator>(2);
}

/// Takes so many bytes, and then fails.
struct Short(usize);

impl Write for Short {
    fn write(&mut self, bytes: &[u8]) -> io::Result<usize> {
        let taken = bytes.len().min(self.0);
        self.0 -= taken;
        if taken == 0 {
            return Err(io::Error::new(io::ErrorKind::Other, "full"));
        }
        Ok(taken)
    }

    fn flush(&mut self) -> io::Result<()> {
        Ok(())
    }
}

#[test]
fn a_writer_that_fails_disturbs_no_call() {
    let mut atlas = Recorder::<AtlasAllocator, _>::new(size2(64, 64), &DEFAULT_OPTIONS, Short(20));
    let item = atlas.allocate(size2(8, 8)).expect("room");
    atlas.deallocate(item.id);
    let (atlas, script) = atlas.finish();
    assert!(atlas.is_empty());
    assert_eq!(script.err().map(|error| error.to_string()), Some("full".to_owned()));
}
