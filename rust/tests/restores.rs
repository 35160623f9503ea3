//! Saved atlases and caches that break each rule of a snapshot once.

use std::num::NonZeroUsize;

use etagere::{
    size2, AtlasAllocator, BucketedAtlasAllocator, CacheRestoreFault, GlyphCache, JsonFault, RestoreFault,
    DEFAULT_OPTIONS,
};

/// What is put in place of what, each once.
type Changes<'l> = &'l [(&'l str, &'l str)];

fn changed(text: &str, changes: Changes<'_>) -> String {
    changes.iter().fold(text.to_owned(), |text, (from, to)| {
        assert!(text.contains(from), "{from} isn't in {text}");
        text.replacen(from, to, 1)
    })
}

fn saved(text: Vec<u8>) -> String {
    String::from_utf8(text).expect("it is text")
}

#[test]
fn each_rule_of_shelves() {
    let mut atlas = AtlasAllocator::new(size2(20, 8));
    atlas.allocate(size2(8, 8)).expect("room");
    let text = saved(atlas.to_json().expect("memory"));
    let (_, shelves) = text.split_once("\"shelves\":[").expect("shelves");
    let (shelf, _) = shelves.split_once(']').expect("an end");
    let (_, items) = text.split_once("\"items\":[").expect("items");
    let (_, free_item) = items.trim_end_matches("]}}").split_once("},").expect("two items");
    let allocated = free_item.replace("\"allocated\":false", "\"allocated\":true");
    let unused = format!("{free_item},{allocated}]}}}}");

    let rules: [(RestoreFault, Changes<'_>); 9] = [
        (RestoreFault::Frame, &[("\"width\":20", "\"width\":0")]),
        (RestoreFault::Counts, &[(shelf, "")]),
        (RestoreFault::Link, &[("\"prev\":0", "\"prev\":65535")]),
        (RestoreFault::Shelves, &[("\"y\":0", "\"y\":1")]),
        (RestoreFault::Runs, &[("\"width\":12", "\"width\":11")]),
        (RestoreFault::FreeList, &[("\"first_unallocated\":1", "\"first_unallocated\":65535")]),
        (RestoreFault::Sharing, &[("\"free_items\":65535", "\"free_items\":1")]),
        (
            RestoreFault::Unused,
            &[("\"free_items\":65535", "\"free_items\":2"), (&format!("{free_item}]}}}}"), &unused)],
        ),
        (RestoreFault::Space, &[("\"allocated_space\":64", "\"allocated_space\":65")]),
    ];
    for (rule, changes) in rules {
        let found = AtlasAllocator::from_json(changed(&text, changes).as_bytes()).err();
        assert_eq!(found, Some(JsonFault::Refused(rule)));
    }
    assert!(AtlasAllocator::from_json(text.as_bytes()).is_ok());
}

/// An item that was allocated is free, beside one that is.
#[test]
fn neighbours() {
    let mut atlas = AtlasAllocator::new(size2(20, 8));
    atlas.allocate(size2(8, 8)).expect("room");
    let text = saved(atlas.to_json().expect("memory"));
    let (rest, items) = text.split_once("\"items\":[").expect("items");
    let (first, second) = items.split_once("},").expect("two items");
    let first = with_links(first, 65535, 1).replace("\"allocated\":true", "\"allocated\":false");
    let rest = changed(rest, &[("\"first_unallocated\":1", "\"first_unallocated\":0"), ("_space\":64", "_space\":0")]);
    let text = format!("{rest}\"items\":[{first}}},{}", with_links(second, 0, 65535));
    let found = AtlasAllocator::from_json(text.as_bytes()).err();
    assert_eq!(found, Some(JsonFault::Refused(RestoreFault::Neighbours)), "{text}");
}

/// The text of an item with other links in its free list.
fn with_links(item: &str, before: u32, after: u32) -> String {
    let (front, rest) = item.split_once("\"prev_unallocated\":").expect("a link");
    let (_, end) = rest.split_once(",\"shelf\"").expect("the field behind");
    format!("{front}\"prev_unallocated\":{before},\"next_unallocated\":{after},\"shelf\"{end}")
}

#[test]
fn each_rule_of_buckets() {
    let mut atlas = BucketedAtlasAllocator::new(size2(16, 16));
    for _ in 0..2 {
        atlas.allocate(size2(16, 8)).expect("room");
    }
    let text = saved(atlas.to_json().expect("memory"));
    let (_, buckets) = text.split_once("\"buckets\":[").expect("buckets");
    let (_, last) = buckets.trim_end_matches("]}}").split_once("},").expect("two buckets");
    let another = |count| format!("{last}{}]}}}}", format!(",{last}").repeat(count));
    let (many, one) = (another(4096), another(1));

    let end = format!("{last}]}}}}");
    let unused = ("\"first_unallocated_bucket\":65535", "\"first_unallocated_bucket\":2");
    let emptied = last
        .replace("\"free_space\":0", "\"free_space\":16")
        .replace("\"refcount\":1", "\"refcount\":0")
        .replace("\"item_count\":1", "\"item_count\":0");
    let rules: [(RestoreFault, Changes<'_>); 9] = [
        (RestoreFault::Frame, &[("\"width\":16", "\"width\":0")]),
        (RestoreFault::Counts, &[(&end, &many)]),
        (RestoreFault::Link, &[("\"shelf\":1", "\"shelf\":0")]),
        (RestoreFault::Shelves, &[("\"available_height\":0", "\"available_height\":8")]),
        (RestoreFault::Runs, &[("\"refcount\":1", "\"refcount\":0")]),
        (RestoreFault::Neighbours, &[("\"allocated_space\":256", "\"allocated_space\":128"), (last, &emptied)]),
        (RestoreFault::Sharing, &[("\"next\":65535", "\"next\":0")]),
        (RestoreFault::Unused, &[unused, (&end, &one)]),
        (RestoreFault::Space, &[("\"allocated_space\":256", "\"allocated_space\":255")]),
    ];
    for (rule, changes) in rules {
        let found = BucketedAtlasAllocator::from_json(changed(&text, changes).as_bytes()).err();
        assert_eq!(found, Some(JsonFault::Refused(rule)));
    }
    assert!(BucketedAtlasAllocator::from_json(text.as_bytes()).is_ok());
}

/// A saved cache of two keys, the second of which is the greatest and was used last.
fn saved_cache() -> String {
    let capacity = NonZeroUsize::new(2).expect("not 0");
    let mut cache = GlyphCache::new(size2(32, 32), &DEFAULT_OPTIONS, capacity).expect("good options");
    for key in [1, u64::MAX] {
        cache.place(key, size2(32, 8)).expect("room");
    }
    saved(cache.to_json().expect("memory"))
}

#[test]
fn each_rule_of_a_cache() {
    let text = saved_cache();
    assert!(text.starts_with("{\"capacity\":2,\"atlas\":{\"width\":32,"), "{text}");
    assert!(
        text.ends_with(",\"keys\":[{\"key\":18446744073709551615,\"id\":65537},{\"key\":1,\"id\":65536}]}"),
        "{text}"
    );
    let rules: [(CacheRestoreFault, Changes<'_>); 6] = [
        (CacheRestoreFault::Atlas(RestoreFault::Space), &[("\"allocated_space\":512", "\"allocated_space\":511")]),
        (CacheRestoreFault::NoCapacity, &[("\"capacity\":2", "\"capacity\":0")]),
        (CacheRestoreFault::TooManyKeys, &[("\"capacity\":2", "\"capacity\":1")]),
        (CacheRestoreFault::KeyTwice, &[("\"key\":1,", "\"key\":18446744073709551615,")]),
        (CacheRestoreFault::WrongId, &[("\"id\":65536", "\"id\":65537")]),
        (CacheRestoreFault::NoKey, &[(",{\"key\":1,\"id\":65536}", "")]),
    ];
    for (rule, changes) in rules {
        let found = GlyphCache::from_json(changed(&text, changes).as_bytes()).err();
        assert_eq!(found, Some(JsonFault::Refused(rule)));
    }
    for unreadable in ["", "{}", "{\"atlas\":{}}", &changed(&text, &[("615,", "616,")])] {
        assert_eq!(GlyphCache::from_json(unreadable.as_bytes()).err(), Some(JsonFault::Unreadable));
    }
    let mut cache = GlyphCache::from_json(text.as_bytes()).expect("sound");
    assert_eq!(cache.place(2, size2(32, 32)).map(|placed| placed.evicted), Ok(vec![1, u64::MAX]));
    assert_eq!((CacheRestoreFault::Memory.number(), CacheRestoreFault::NoKey.number()), (11, 16));
}
