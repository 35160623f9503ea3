//! Calls to which an allocation is refused, each in turn.
//!
//! This program has its own `malloc`, which can refuse, over that of the C library of GNU.

#![cfg(target_env = "gnu")]

use std::cell::Cell;
use std::ffi::c_void;
use std::num::NonZeroUsize;
use std::ptr;

use etagere::{
    size2, AllocError, AllocatorOptions, AtlasAllocator, AtlasGrowFault, BucketedAtlasAllocator, CacheRestoreFault,
    GlyphCache, GlyphFault, GrowFault, JsonFault, OptionsFault, RestoreFault, DEFAULT_OPTIONS,
};

extern "C" {
    fn __libc_malloc(size: usize) -> *mut c_void;
    fn __libc_calloc(count: usize, size: usize) -> *mut c_void;
    fn __libc_realloc(old: *mut c_void, size: usize) -> *mut c_void;
    fn __libc_free(old: *mut c_void);
}

thread_local! {
    /// How many allocations are granted before one is refused; 0 where none is.
    static BEFORE_REFUSAL: Cell<u32> = const { Cell::new(0) };
}

/// Counts an allocation, and says whether it is to be refused.
fn is_refused() -> bool {
    BEFORE_REFUSAL.with(|left| {
        let refused = left.get() == 1;
        left.set(left.get().saturating_sub(1));
        refused
    })
}

/// # Safety
///
/// That of `malloc`.
#[no_mangle]
pub unsafe extern "C" fn malloc(size: usize) -> *mut c_void {
    if is_refused() {
        return ptr::null_mut();
    }
    // SAFETY: that of the caller.
    unsafe { __libc_malloc(size) }
}

/// # Safety
///
/// That of `calloc`.
#[no_mangle]
pub unsafe extern "C" fn calloc(count: usize, size: usize) -> *mut c_void {
    if is_refused() {
        return ptr::null_mut();
    }
    // SAFETY: that of the caller.
    unsafe { __libc_calloc(count, size) }
}

/// # Safety
///
/// That of `realloc`.
#[no_mangle]
pub unsafe extern "C" fn realloc(old: *mut c_void, size: usize) -> *mut c_void {
    if is_refused() {
        return ptr::null_mut();
    }
    // SAFETY: that of the caller.
    unsafe { __libc_realloc(old, size) }
}

/// # Safety
///
/// That of `free`.
#[no_mangle]
pub unsafe extern "C" fn free(old: *mut c_void) {
    // SAFETY: that of the caller.
    unsafe { __libc_free(old) }
}

/// Refuses the first allocation of a call, then the second, and so on, until none is refused. The calls go over states
/// that are made alike, and are checked. Says how many were refused.
fn refusing<S, T>(mut make: impl FnMut() -> S, call: impl Fn(&mut S) -> T, check: impl Fn(&S, T, bool)) -> u32 {
    for refused in 1.. {
        let mut state = make();
        BEFORE_REFUSAL.with(|left| left.set(refused));
        let answer = call(&mut state);
        let is_done = BEFORE_REFUSAL.with(|left| left.replace(0)) != 0;
        check(&state, answer, !is_done);
        if is_done {
            return refused - 1;
        }
    }
    unreachable!("a call has an end");
}

fn atlas() -> AtlasAllocator {
    let mut atlas = AtlasAllocator::new(size2(64, 64));
    for _ in 0..8 {
        atlas.allocate(size2(16, 16)).expect("room");
    }
    atlas
}

fn buckets() -> BucketedAtlasAllocator {
    let mut atlas = BucketedAtlasAllocator::new(size2(64, 64));
    for _ in 0..4 {
        atlas.allocate(size2(16, 16)).expect("room");
    }
    atlas
}

fn cache() -> GlyphCache {
    let capacity = NonZeroUsize::new(16).expect("not 0");
    let mut cache = GlyphCache::new(size2(64, 64), &DEFAULT_OPTIONS, capacity).expect("good options");
    for key in 0..8 {
        cache.place(key, size2(16, 16)).expect("room");
    }
    cache
}

#[test]
fn an_atlas_is_not_made() {
    let made = |_: &(), answer: Result<AtlasAllocator, _>, refused: bool| {
        assert_eq!(answer.err(), refused.then_some(OptionsFault::Memory));
    };
    assert!(refusing(|| (), |()| AtlasAllocator::try_new(size2(64, 64)), made) > 0);
    let made = |_: &(), answer: Result<BucketedAtlasAllocator, _>, refused: bool| {
        assert_eq!(answer.err(), refused.then_some(OptionsFault::Memory));
    };
    assert!(refusing(|| (), |()| BucketedAtlasAllocator::try_new(size2(64, 64)), made) > 0);
    let made = |_: &(), answer: Result<GlyphCache, _>, refused: bool| {
        assert_eq!(answer.err(), refused.then_some(OptionsFault::Memory));
    };
    let new = |_: &mut ()| GlyphCache::new(size2(64, 64), &DEFAULT_OPTIONS, NonZeroUsize::MIN);
    assert!(refusing(|| (), new, made) > 0);
}

#[test]
fn nothing_is_allocated() {
    let mut refusals = 0;
    // A new atlas has room for the records of 16 items.
    for count in 12..18 {
        let make = || {
            let mut atlas = AtlasAllocator::new(size2(64, 64));
            for _ in 0..count {
                atlas.allocate(size2(9, 9)).expect("room");
            }
            atlas
        };
        refusals += refusing(
            make,
            |atlas| atlas.try_allocate(size2(10, 10)),
            |atlas, answer, refused| {
                assert_eq!(answer.err(), refused.then_some(AllocError));
                assert_eq!(atlas.iter().count(), count + usize::from(!refused));
            },
        );
    }
    assert!(refusals > 0);
    let make = || BucketedAtlasAllocator::new(size2(64, 64));
    let allocate = |atlas: &mut BucketedAtlasAllocator| atlas.try_allocate(size2(20, 30));
    let refusals = refusing(make, allocate, |atlas, answer, refused| {
        assert_eq!(answer.err(), refused.then_some(AllocError));
        assert_eq!(atlas.is_empty(), refused);
    });
    assert!(refusals > 0);
}

#[test]
fn nothing_grows() {
    let wide = size2(4096, 128);
    let mut of_atlas = 0;
    for count in 8..12 {
        let make = || {
            let mut atlas = AtlasAllocator::new(size2(64, 128));
            (0..count).for_each(|_| assert!(atlas.allocate(size2(64, 8)).is_some()));
            atlas
        };
        of_atlas += refusing(
            make,
            |atlas| atlas.try_grow(wide),
            |atlas, answer, refused| {
                assert_eq!(answer.err(), refused.then_some(AtlasGrowFault::Memory));
                assert_eq!(atlas.size() == wide, !refused);
            },
        );
    }
    let of_buckets = refusing(
        buckets,
        |atlas| atlas.try_grow(wide),
        |atlas, answer, refused| {
            assert_eq!(answer.err(), refused.then_some(GrowFault::Memory));
            assert_eq!(atlas.size() == wide, !refused);
        },
    );
    assert!(of_atlas > 0 && of_buckets > 0, "{of_atlas} and {of_buckets}");
}

#[test]
fn no_copy_and_no_list_is_made() {
    let refusals = refusing(
        atlas,
        |atlas| atlas.try_clone(),
        |_, answer, refused| {
            assert_eq!(answer.err(), refused.then_some(AllocError));
        },
    );
    assert!(refusals > 0);
    let refusals = refusing(
        buckets,
        |atlas| atlas.try_clone(),
        |_, answer, refused| {
            assert_eq!(answer.err(), refused.then_some(AllocError));
        },
    );
    assert!(refusals > 0);
    let refusals = refusing(
        atlas,
        |atlas| atlas.try_iter().map(Iterator::count),
        |_, answer, refused| {
            assert_eq!(answer, if refused { Err(AllocError) } else { Ok(8) });
        },
    );
    assert!(refusals > 0);
}

#[test]
fn no_picture_goes_out() {
    let check = |refused, text: &[u8], answer: std::io::Result<()>| {
        let kind = answer.map_err(|fault| fault.kind()).err();
        assert_eq!(kind, if refused { Some(std::io::ErrorKind::OutOfMemory) } else { None });
        assert_eq!(text.is_empty(), refused);
    };
    let make = || (atlas(), Vec::with_capacity(100_000));
    let refusals =
        refusing(make, |(atlas, text)| atlas.dump_svg(text), |(_, text), answer, refused| check(refused, text, answer));
    assert!(refusals > 0);
    let make = || (buckets(), Vec::with_capacity(100_000));
    let refusals = refusing(
        make,
        |(atlas, text)| atlas.dump_into_svg(None, text),
        |(_, text), answer, refused| check(refused, text, answer),
    );
    assert!(refusals > 0);
}

#[test]
fn nothing_is_saved_or_restored() {
    let refusals = refusing(
        atlas,
        |atlas| atlas.to_json(),
        |_, answer, refused| {
            assert_eq!(answer.err(), refused.then_some(AllocError));
        },
    );
    assert!(refusals > 0);
    let text = atlas().to_json().expect("memory");
    let refusals = refusing(
        || (),
        |()| AtlasAllocator::from_json(&text),
        |(), answer, refused| {
            let faults = [JsonFault::Unreadable, JsonFault::Refused(RestoreFault::Memory)];
            assert_eq!(answer.as_ref().is_err_and(|fault| faults.contains(fault)), refused);
        },
    );
    assert!(refusals > 0);
}

#[test]
fn no_cache_is_saved_or_restored() {
    let refusals = refusing(
        cache,
        |cache| cache.to_json(),
        |_, answer, refused| {
            assert_eq!(answer.err(), refused.then_some(AllocError));
        },
    );
    assert!(refusals > 0);
    let text = cache().to_json().expect("memory");
    let refusals = refusing(
        || (),
        |()| GlyphCache::from_json(&text),
        |(), answer, refused| {
            let faults = [JsonFault::Unreadable, JsonFault::Refused(CacheRestoreFault::Memory)];
            assert_eq!(answer.as_ref().is_err_and(|fault| faults.contains(fault)), refused);
        },
    );
    assert!(refusals > 0);
}

#[test]
fn keys_that_were_evicted_are_told() {
    for size in [size2(16, 16), size2(40, 40), size2(64, 64)] {
        refusing(
            cache,
            |cache| cache.place(9, size).map_err(Some),
            |cache, answer, refused| {
                let gone = match answer {
                    Ok(placed) => placed.evicted,
                    Err(Some(GlyphFault::Memory(gone))) if refused => gone,
                    Err(other) => panic!("{other:?}"),
                };
                assert!(gone.iter().copied().eq(0..gone.len() as u64));
                assert!(cache.len() >= 8 - gone.len());
            },
        );
    }
}

#[test]
fn keys_are_not_listed_or_evicted() {
    let refusals = refusing(
        cache,
        |cache| cache.entries(),
        |cache, answer, refused| {
            assert_eq!(answer.err(), refused.then_some(AllocError));
            assert_eq!(cache.len(), 8);
        },
    );
    assert!(refusals > 0);
    let refusals = refusing(
        cache,
        |cache| cache.retain(|key, _| key == 3),
        |cache, answer, refused| {
            assert_eq!(answer, if refused { Err(AllocError) } else { Ok(()) });
            assert_eq!(cache.len(), if refused { 8 } else { 1 });
        },
    );
    assert!(refusals > 0);
    let refusals = refusing(
        cache,
        |cache| cache.set_capacity(NonZeroUsize::MIN),
        |cache, answer, refused| match answer {
            Ok(evicted) => {
                assert!(evicted.iter().copied().eq(0..7));
                assert_eq!((cache.len(), cache.capacity()), (1, 1));
            }
            Err(AllocError) => assert_eq!((refused, cache.len(), cache.capacity()), (true, 8, 16)),
        },
    );
    assert!(refusals > 0);
}

#[test]
fn a_cache_does_not_grow() {
    let make = || {
        let options = AllocatorOptions { num_columns: 4, ..DEFAULT_OPTIONS };
        GlyphCache::new(size2(64, 64), &options, NonZeroUsize::MIN).expect("good options")
    };
    let refusals = refusing(
        make,
        |cache| cache.grow(size2(1024, 64)),
        |cache, answer, refused| {
            assert_eq!(answer.err(), refused.then_some(AtlasGrowFault::Memory));
            assert_eq!(cache.size(), size2(if refused { 64 } else { 1024 }, 64));
        },
    );
    assert!(refusals > 0);
}
