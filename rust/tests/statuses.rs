//! Each fault of each call that has one.

use std::io;
use std::num::NonZeroUsize;
use std::panic::{catch_unwind, AssertUnwindSafe};

use etagere::{
    point2, size2, AllocId, AllocatorOptions, AtlasAllocator, AtlasGrowFault, BucketedAtlasAllocator, BucketedRefusal,
    Entry, GlyphCache, GlyphFault, GrowFault, JsonFault, OptionsFault, Rectangle, Refusal, RestoreFault, Size,
    UnknownId, DEFAULT_OPTIONS,
};

/// A size and options for each fault of the options but that for memory, in their order.
fn bad_options() -> [(Size, AllocatorOptions, OptionsFault); 5] {
    let no_alignment = AllocatorOptions { alignment: size2(0, 1), ..DEFAULT_OPTIONS };
    let columns = |num_columns| AllocatorOptions { num_columns, ..DEFAULT_OPTIONS };
    [
        (size2(0, 5), DEFAULT_OPTIONS, OptionsFault::Size),
        (size2(65534, 65534), DEFAULT_OPTIONS, OptionsFault::Area),
        (size2(9, 9), no_alignment, OptionsFault::Alignment),
        (size2(9, 9), columns(0), OptionsFault::Columns),
        (size2(4, 4), columns(5), OptionsFault::ColumnTooNarrow),
    ]
}

fn panics<T>(call: impl FnOnce() -> T) -> bool {
    catch_unwind(AssertUnwindSafe(call)).is_err()
}

#[test]
fn options() {
    let capacity = NonZeroUsize::MIN;
    for (number, (size, options, fault)) in (1..).zip(bad_options()) {
        assert_eq!(AtlasAllocator::try_with_options(size, &options).err(), Some(fault));
        assert_eq!(BucketedAtlasAllocator::try_with_options(size, &options).err(), Some(fault));
        assert_eq!(GlyphCache::new(size, &options, capacity).err(), Some(fault));
        assert!(panics(|| AtlasAllocator::with_options(size, &options)));
        assert!(panics(|| BucketedAtlasAllocator::with_options(size, &options)));
        assert_eq!(fault.number(), number);
    }
    assert_eq!(AtlasAllocator::try_new(size2(65536, 1)).err(), Some(OptionsFault::Size));
    assert_eq!(BucketedAtlasAllocator::try_new(size2(65535, 1)).err(), Some(OptionsFault::Size));
    assert!(panics(|| AtlasAllocator::new(size2(-1, 5))));
    assert!(panics(|| BucketedAtlasAllocator::new(size2(5, -1))));
}

#[test]
fn ids() {
    let mut atlas = AtlasAllocator::new(size2(64, 64));
    let mut buckets = BucketedAtlasAllocator::new(size2(64, 64));
    let id = atlas.allocate(size2(8, 8)).expect("room").id;
    let other = buckets.allocate(size2(8, 8)).expect("room").id;
    for unknown in [0, 7, 65535, u32::MAX].map(AllocId::deserialize) {
        assert_eq!(atlas.try_get(unknown), Err(UnknownId));
        assert_eq!(atlas.try_get_index(unknown), Err(UnknownId));
        assert_eq!(atlas.try_deallocate(unknown), Err(UnknownId));
        assert_eq!(buckets.try_deallocate(unknown), Err(UnknownId));
        assert!(panics(|| atlas.get(unknown)));
        assert!(panics(|| atlas.get_index(unknown)));
        assert!(panics(|| atlas.deallocate(unknown)));
        assert!(panics(|| buckets.deallocate(unknown)));
    }
    assert_eq!((atlas.allocated_space(), buckets.allocated_space()), (64, 64));
    assert_eq!(atlas.try_get(id), Ok(Rectangle::from_size(size2(8, 8))));
    assert_eq!(atlas.try_get_index(id), Ok(0));
    assert_eq!((atlas.try_deallocate(id), buckets.try_deallocate(other)), (Ok(()), Ok(())));
    assert_eq!((atlas.try_deallocate(id), buckets.try_deallocate(other)), (Err(UnknownId), Err(UnknownId)));
    assert_eq!(UnknownId.number(), 1);
}

#[test]
fn room() {
    let mut atlas = AtlasAllocator::new(size2(64, 64));
    let mut buckets = BucketedAtlasAllocator::new(size2(64, 64));
    for size in [size2(65, 1), size2(0, 1), size2(-1, i32::MAX), size2(255, 65599)] {
        assert_eq!(atlas.try_allocate(size), Ok(None));
        assert_eq!(buckets.try_allocate(size), Ok(None));
        assert_eq!((atlas.allocate(size), buckets.allocate(size)), (None, None));
        assert!(!atlas.fits_when_empty(size));
    }
    assert!(atlas.fits_when_empty(size2(64, 64)));
    assert!(atlas.allocate(size2(64, 64)).is_some() && buckets.allocate(size2(64, 64)).is_some());
    assert_eq!((atlas.allocate(size2(1, 1)), buckets.allocate(size2(1, 1))), (None, None));
    assert_eq!((atlas.free_space(), buckets.free_space()), (0, 0));
}

#[test]
fn refusals() {
    let mut atlas = AtlasAllocator::new(size2(64, 64));
    let mut buckets = BucketedAtlasAllocator::new(size2(64, 64));
    let item = size2(40, 64);
    assert!(atlas.allocate(item).is_some() && buckets.allocate(item).is_some());
    let reasons = [
        (size2(0, 1), Refusal::NotPositive, BucketedRefusal::NotPositive),
        (size2(1, 65536), Refusal::TooLong, BucketedRefusal::TooLong),
        (size2(65, 1), Refusal::WiderThanColumn, BucketedRefusal::WiderThanColumn),
        (size2(1, 65), Refusal::TallerThanAtlas, BucketedRefusal::TallerThanAtlas),
        (size2(25, 64), Refusal::NoRoom { widest: 24 }, BucketedRefusal::NoRoom { widest: 24 }),
    ];
    for (number, (size, of_shelves, of_buckets)) in (1..).zip(reasons) {
        assert_eq!((atlas.refusal(size), buckets.refusal(size)), (Some(of_shelves), Some(of_buckets)));
        assert_eq!((of_shelves.number(), of_buckets.number()), (number, number));
    }
    assert_eq!((atlas.refusal(size2(24, 64)), buckets.refusal(size2(24, 64))), (None, None));
    assert_eq!((atlas.largest_free(), buckets.largest_free()), (size2(24, 64), size2(24, 64)));
    let (usage, of_buckets) = (atlas.usage(), buckets.usage());
    assert_eq!((usage.shelves, usage.empty_shelves), (1, 0));
    assert_eq!((usage.items, usage.free_items, usage.unused_records), (1, 1, 65533));
    assert_eq!((of_buckets.shelves, of_buckets.idle_shelves), (1, 0));
    assert_eq!((of_buckets.buckets, of_buckets.idle_buckets, of_buckets.unused_buckets), (1, 0, 4094));
    assert_eq!((of_buckets.items, of_buckets.largest_free), (1, usage.largest_free));
}

/// 65535 columns have as many items, so a size that fits is refused where its shelf is to be split.
#[test]
fn refusal_without_records() {
    let many = AllocatorOptions { num_columns: 65535, ..DEFAULT_OPTIONS };
    let mut atlas = AtlasAllocator::with_options(size2(65535, 32), &many);
    assert_eq!(atlas.usage().unused_records, 0);
    assert_eq!(atlas.refusal(size2(1, 8)), Some(Refusal::NoRecords));
    assert_eq!((Refusal::NoRecords.number(), atlas.allocate(size2(1, 8))), (6, None));
    assert_eq!(atlas.refusal(size2(1, 32)), None);
}

/// Shelves of 8 x 8 pixels have one bucket each, and there are 4095 buckets.
#[test]
fn refusal_without_buckets() {
    let mut atlas = BucketedAtlasAllocator::new(size2(8, 8 * 4096));
    for shelf in 0..4095 {
        let item = atlas.allocate(size2(8, 8)).expect("a bucket");
        assert_eq!(item.rectangle.min, point2(0, 8 * shelf));
    }
    assert_eq!(atlas.usage().unused_buckets, 0);
    assert_eq!(atlas.refusal(size2(8, 8)), Some(BucketedRefusal::NoBuckets));
    assert_eq!((BucketedRefusal::NoBuckets.number(), atlas.allocate(size2(8, 8))), (6, None));
}

/// A shelf of 4096 x 1024 pixels has one bucket, which gives 4095 items; then a pixel of its width is left.
#[test]
fn refusal_without_items() {
    let mut atlas = BucketedAtlasAllocator::new(size2(4096, 1024));
    for place in 0..4095 {
        let item = atlas.allocate(size2(1, 1024)).expect("width");
        assert_eq!(item.rectangle.min, point2(place, 0));
    }
    assert_eq!(atlas.refusal(size2(1, 1024)), Some(BucketedRefusal::ItemsUsedUp));
    assert_eq!((BucketedRefusal::ItemsUsedUp.number(), atlas.allocate(size2(1, 1024))), (7, None));
    assert_eq!(atlas.refusal(size2(2, 1024)), Some(BucketedRefusal::NoRoom { widest: 0 }));
}

#[test]
fn grows() {
    let mut atlas = AtlasAllocator::new(size2(32, 32));
    let faults = [
        (size2(65536, 40), AtlasGrowFault::Size),
        (size2(31, 40), AtlasGrowFault::Smaller),
        (size2(65535, 65535), AtlasGrowFault::Area),
    ];
    for (number, (size, fault)) in (1..).zip(faults) {
        assert_eq!((atlas.try_grow(size), fault.number()), (Err(fault), number));
        assert!(panics(|| atlas.grow(size)));
    }
    let many = AllocatorOptions { num_columns: 65535, ..DEFAULT_OPTIONS };
    let mut full = AtlasAllocator::with_options(size2(65535, 100), &many);
    assert!(full.allocate(size2(1, 92)).is_some());
    assert_eq!(full.try_grow(size2(65535, 200)), Err(AtlasGrowFault::Records));

    let mut buckets = BucketedAtlasAllocator::new(size2(32, 32));
    let faults = [
        (size2(65535, 40), GrowFault::Size),
        (size2(31, 40), GrowFault::Smaller),
        (size2(65534, 65534), GrowFault::Area),
    ];
    for (number, (size, fault)) in (1..).zip(faults) {
        assert_eq!((buckets.try_grow(size), fault.number()), (Err(fault), number));
        assert!(panics(|| buckets.grow(size)));
    }
    assert_eq!((atlas.size(), buckets.size()), (size2(32, 32), size2(32, 32)));
    assert_eq!((atlas.try_grow(size2(64, 40)), buckets.try_grow(size2(64, 40))), (Ok(()), Ok(())));
    assert_eq!((atlas.size(), buckets.size()), (size2(64, 40), size2(64, 40)));
}

#[test]
fn keys() {
    let capacity = NonZeroUsize::new(2).expect("not 0");
    let mut cache = GlyphCache::new(size2(32, 32), &DEFAULT_OPTIONS, capacity).expect("good options");
    assert_eq!(cache.place(1, size2(33, 1)), Err(GlyphFault::TooLarge));
    assert_eq!((cache.get(1), cache.remove(1)), (None, None));
    let placed = cache.place(1, size2(32, 8)).expect("room");
    assert_eq!((placed.rectangle, placed.evicted), (Rectangle::from_size(size2(32, 8)), vec![]));
    assert_eq!((cache.len(), cache.capacity(), cache.size()), (1, 2, size2(32, 32)));
    assert_eq!((cache.allocated_space(), cache.free_space(), cache.is_empty()), (256, 768, false));
    assert!(cache.place(2, size2(32, 8)).is_ok());
    assert_eq!(cache.get(1), Some(placed.rectangle));
    assert_eq!(cache.place(3, size2(32, 8)).map(|placed| placed.evicted), Ok(vec![2]));
    assert_eq!(cache.place(3, size2(99, 99)).map(|placed| placed.evicted), Ok(vec![]));
    assert_eq!(cache.remove(1), Some(placed.rectangle));
    cache.clear();
    assert!(cache.is_empty());
}

#[test]
fn keys_without_use() {
    let three = NonZeroUsize::new(3).expect("not 0");
    let mut cache = GlyphCache::new(size2(32, 32), &DEFAULT_OPTIONS, three).expect("good options");
    assert_eq!((cache.peek(1), cache.entries()), (None, Ok(vec![])));
    let first = cache.place(1, size2(32, 8)).expect("room").rectangle;
    let second = cache.place(2, size2(32, 8)).expect("room").rectangle;
    assert_eq!((first, second), (Rectangle::from_size(size2(32, 8)), Rectangle::new(point2(0, 8), point2(32, 16))));
    assert_eq!((cache.peek(1), cache.peek(3)), (Some(first), None));
    let entries = [Entry { key: 2, rectangle: second }, Entry { key: 1, rectangle: first }];
    assert_eq!(cache.entries().expect("memory"), entries);
    assert_eq!(cache.set_capacity(NonZeroUsize::MIN), Ok(vec![1]));
    assert_eq!((cache.capacity(), cache.entries()), (1, Ok(vec![entries[0]])));
    assert_eq!(cache.set_capacity(three), Ok(vec![]));
}

#[test]
fn frames() {
    let three = NonZeroUsize::new(3).expect("not 0");
    let mut cache = GlyphCache::new(size2(32, 32), &DEFAULT_OPTIONS, three).expect("good options");
    for key in 1..=3 {
        assert!(cache.place(key, size2(32, 8)).is_ok());
    }
    assert_eq!(cache.used_in_frame(), 0);
    cache.begin_frame();
    assert!(cache.get(1).is_some() && cache.peek(2).is_some());
    assert_eq!(cache.used_in_frame(), 1);
    assert_eq!(cache.place(4, size2(32, 8)).map(|placed| placed.evicted), Ok(vec![2]));
    assert_eq!(cache.used_in_frame(), 2);
    assert_eq!(cache.place(5, size2(32, 32)), Err(GlyphFault::FrameFull));
    assert_eq!((cache.len(), GlyphFault::FrameFull.number()), (3, 3));
    cache.begin_frame();
    assert_eq!(cache.place(5, size2(32, 32)).map(|placed| placed.evicted), Ok(vec![3, 1, 4]));
}

#[test]
fn keys_that_are_retained() {
    let ten = NonZeroUsize::new(10).expect("not 0");
    let mut cache = GlyphCache::new(size2(64, 64), &DEFAULT_OPTIONS, ten).expect("good options");
    assert_eq!(cache.retain(|_, _| unreachable!("no key is there")), Ok(()));
    for key in 1..=4 {
        assert!(cache.place(key, size2(8, 8)).is_ok());
    }
    let mut asked = Vec::new();
    let retained = cache.retain(|key, rectangle| {
        asked.push((key, rectangle.min.x));
        key != 2 && rectangle.min.x != 24
    });
    assert_eq!((retained, asked), (Ok(()), vec![(1, 0), (2, 8), (3, 16), (4, 24)]));
    let keys: Vec<u64> = cache.entries().expect("memory").iter().map(|entry| entry.key).collect();
    assert_eq!((keys, cache.allocated_space()), (vec![3, 1], 128));
}

#[test]
fn grow_of_a_cache() {
    let options = AllocatorOptions { num_columns: 65535, ..DEFAULT_OPTIONS };
    let mut cache = GlyphCache::new(size2(65535, 100), &options, NonZeroUsize::MIN).expect("good options");
    let placed = cache.place(1, size2(1, 92)).expect("room").rectangle;
    assert_eq!(cache.grow(size2(0, 100)), Err(AtlasGrowFault::Size));
    assert_eq!(cache.grow(size2(65535, 99)), Err(AtlasGrowFault::Smaller));
    assert_eq!(cache.grow(size2(65535, 65535)), Err(AtlasGrowFault::Area));
    assert_eq!(cache.grow(size2(65535, 200)), Err(AtlasGrowFault::Records));
    assert_eq!(cache.size(), size2(65535, 100));

    let mut cache = GlyphCache::new(size2(32, 32), &DEFAULT_OPTIONS, NonZeroUsize::MIN).expect("good options");
    let whole = cache.place(1, size2(32, 32)).expect("room").rectangle;
    assert_eq!(cache.grow(size2(64, 48)), Ok(()));
    assert_eq!((cache.size(), cache.peek(1)), (size2(64, 48), Some(whole)));
    assert_eq!(placed, Rectangle::from_size(size2(1, 100)));
}

#[test]
fn saved_atlases() {
    let mut atlas = AtlasAllocator::new(size2(32, 32));
    atlas.allocate(size2(8, 8)).expect("room");
    let text = String::from_utf8(atlas.to_json().expect("memory")).expect("text");
    let broken = text.replacen("\"allocated_space\":64", "\"allocated_space\":65", 1);
    assert_eq!(AtlasAllocator::from_json(broken.as_bytes()).err(), Some(JsonFault::Refused(RestoreFault::Space)));
    assert_eq!(BucketedAtlasAllocator::from_json(text.as_bytes()).err(), Some(JsonFault::Unreadable));
    for unreadable in ["", "{", "{\"atlas\":{}}", "\u{fffd}"] {
        assert_eq!(AtlasAllocator::from_json(unreadable.as_bytes()).err(), Some(JsonFault::Unreadable));
        assert_eq!(BucketedAtlasAllocator::from_json(unreadable.as_bytes()).err(), Some(JsonFault::Unreadable));
    }
    let restored = AtlasAllocator::from_json(text.as_bytes()).expect("sound");
    assert!(restored.iter().eq(&atlas));
    assert_eq!(RestoreFault::Memory.number(), 11);
}

/// A writer that takes a number of bytes.
struct Taking(usize);

impl io::Write for Taking {
    fn write(&mut self, bytes: &[u8]) -> io::Result<usize> {
        let taken = bytes.len().min(self.0);
        self.0 -= taken;
        Ok(taken)
    }

    fn flush(&mut self) -> io::Result<()> {
        Ok(())
    }
}

fn text_of(write: impl FnOnce(&mut dyn io::Write) -> io::Result<()>) -> String {
    let mut text = Vec::new();
    write(&mut text).expect("a list takes all");
    String::from_utf8(text).expect("text")
}

#[test]
fn pictures() {
    let mut atlas = AtlasAllocator::new(size2(20, 30));
    atlas.allocate(size2(8, 8)).expect("room");
    let document = text_of(|output| atlas.dump_svg(output));
    let lines = text_of(|output| atlas.dump_into_svg(None, output));
    let inner: Vec<_> = document.lines().collect();
    assert_eq!(lines.lines().collect::<Vec<_>>(), inner[1..inner.len() - 1]);
    let window = Rectangle::new(point2(5, 6), point2(45, 66));
    let part = text_of(|output| atlas.dump_into_svg(Some(&window), output));
    let around =
        "    <svg x=\"5\" y=\"6\" width=\"40\" height=\"60\" viewBox=\"0 0 20 30\" preserveAspectRatio=\"none\">";
    assert_eq!(part, format!("{around}\n{lines}    </svg>\n"));
    let empty = Rectangle::new(point2(5, 6), point2(5, 66));
    assert_eq!(text_of(|output| atlas.dump_into_svg(Some(&empty), output)), "");

    let mut short = Taking(document.len() - 1);
    assert_eq!(atlas.dump_svg(&mut short).map_err(|fault| fault.kind()), Err(io::ErrorKind::WriteZero));
    assert!(atlas.dump_svg(&mut Taking(document.len())).is_ok());

    let mut buckets = BucketedAtlasAllocator::new(size2(16, 16));
    buckets.allocate(size2(10, 8)).expect("room");
    assert!(text_of(|output| buckets.dump_svg(output)).contains("x=\"10\" y=\"0\" width=\"6\" height=\"8\""));
    assert_eq!(text_of(|output| buckets.dump_into_svg(None, output)).lines().count(), 3);
    let capacity = NonZeroUsize::MIN;
    let mut cache = GlyphCache::new(size2(20, 30), &DEFAULT_OPTIONS, capacity).expect("good options");
    cache.place(1, size2(8, 8)).expect("room");
    assert_eq!(text_of(|output| cache.dump_svg(output)), document);
    assert_eq!(text_of(|output| cache.dump_into_svg(Some(&window), output)), part);
}
