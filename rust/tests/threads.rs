//! An atlas of one's own in each thread, one that is sent, and one that several look at.

mod common;

use std::num::NonZeroUsize;
use std::sync::Arc;
use std::thread;

use common::{Atlas, Random};
use etagere::{
    size2, AllocId, AtlasAllocator, BucketedAtlasAllocator, GlyphCache, Iter, OptionsFault, Rectangle, DEFAULT_OPTIONS,
};

fn is_sent_and_shared<T: Send + Sync>() {}

#[test]
fn all_types_may_be_sent_and_shared() {
    is_sent_and_shared::<AtlasAllocator>();
    is_sent_and_shared::<BucketedAtlasAllocator>();
    is_sent_and_shared::<GlyphCache>();
    is_sent_and_shared::<Iter<'static>>();
    is_sent_and_shared::<OptionsFault>();
}

/// Allocates and gives back at random, and says all that was allocated.
fn churn<A: Atlas>(atlas: &mut A, seed: u64) -> Vec<Rectangle> {
    let mut random = Random::new(seed);
    let mut live: Vec<AllocId> = Vec::new();
    let mut given = Vec::new();
    for _ in 0..5000 {
        if random.below(3) == 0 && !live.is_empty() {
            let at = random.below(live.len() as u32) as usize;
            atlas.give_back(live.swap_remove(at));
        } else if let Some(item) = atlas.place(size2(random.side(40), random.side(40))) {
            live.push(item.id);
            given.push(item.rectangle);
        }
    }
    given
}

fn are_answered_alike<A: Atlas>() {
    let run = |seed| churn(&mut A::make(size2(512, 512), &DEFAULT_OPTIONS), seed);
    let together = thread::scope(|scope| {
        let threads = [1, 2].map(|seed| scope.spawn(move || run(seed)));
        threads.map(|thread| thread.join().expect("ends well"))
    });
    assert_eq!(together, [run(1), run(2)]);
}

#[test]
fn two_threads_with_an_atlas_each() {
    are_answered_alike::<AtlasAllocator>();
    are_answered_alike::<BucketedAtlasAllocator>();
}

#[test]
fn an_atlas_goes_on_in_another_thread() {
    let mut atlas = AtlasAllocator::new(size2(512, 512));
    churn(&mut atlas, 3);
    let mut copy = atlas.clone();
    let elsewhere = thread::spawn(move || churn(&mut atlas, 4)).join().expect("ends well");
    assert_eq!(elsewhere, churn(&mut copy, 4));
}

#[test]
fn several_threads_look_at_one_atlas() {
    let mut atlas = AtlasAllocator::new(size2(512, 512));
    churn(&mut atlas, 5);
    let all: Vec<_> = atlas.iter().collect();
    let atlas = Arc::new(atlas);
    let threads: Vec<_> = (0..4)
        .map(|_| {
            let (atlas, all) = (Arc::clone(&atlas), all.clone());
            thread::spawn(move || {
                for item in all {
                    assert_eq!(atlas.get(item.id), item.rectangle);
                    assert!(atlas.allocated_space() >= item.rectangle.area());
                }
            })
        })
        .collect();
    for thread in threads {
        thread.join().expect("ends well");
    }
}

#[test]
fn caches_and_buckets_in_threads() {
    let capacity = NonZeroUsize::new(20).expect("not 0");
    let threads = [6, 7].map(|seed| {
        thread::spawn(move || {
            let mut cache = GlyphCache::new(size2(128, 128), &DEFAULT_OPTIONS, capacity).expect("good options");
            let mut atlas = BucketedAtlasAllocator::new(size2(128, 128));
            let mut random = Random::new(seed);
            for key in 0..2000 {
                let size = size2(random.side(20), random.side(20));
                assert!(cache.place(key, size).is_ok());
                if let Some(item) = atlas.allocate(size) {
                    assert!(random.below(2) == 0 || atlas.try_deallocate(item.id).is_ok());
                }
            }
            assert!(cache.len() <= 20);
        })
    });
    for thread in threads {
        thread.join().expect("ends well");
    }
}
