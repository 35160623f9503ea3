/* Makes every call that takes memory, where any request may be refused: prints the name of each call that had none, and
 * fails where such a call has changed something. It gives back all that it has. */

#include <stdio.h>
#include <stdlib.h>
#include <string.h>

#include "etagere.h"

enum { MOST = 256, TEXT = 65536 };

/* All that an atlas shows. */
typedef struct View {
    EtagereSize size;
    int32_t allocated;
    int32_t free;
    size_t count;
    EtagereAllocation allocations[MOST];
} View;

static char written[BUFSIZ];
static uint8_t text[TEXT];
static int failed = 0;

static EtagereSize size2(int32_t width, int32_t height) {
    EtagereSize size;
    size.width = width;
    size.height = height;
    return size;
}

static int is_memory(EtagereStatus status) {
    return status == ETAGERE_MEMORY || status == ETAGERE_OPTIONS_MEMORY || status == ETAGERE_GROW_MEMORY
           || status == ETAGERE_BUCKETED_GROW_MEMORY || status == ETAGERE_RESTORE_MEMORY
           || status == ETAGERE_UNREADABLE || status == ETAGERE_CACHE_MEMORY;
}

/* Whether a call has done what it should; where it had no memory, it should have left all as it was. */
static int went(const char *call, EtagereStatus status, int same) {
    if (status == ETAGERE_OK) {
        return 1;
    }
    if (is_memory(status) && same) {
        printf("%s %u\n", call, (unsigned)status);
    } else {
        failed = 1;
        printf("%s answers %u, %s\n", call, (unsigned)status, same ? "which is no memory" : "and something changed");
    }
    return 0;
}

static View view_of_atlas(EtagereAtlas *atlas) {
    View view;
    memset(&view, 0, sizeof view);
    if (etagere_atlas_size(atlas, &view.size) != ETAGERE_OK
        || etagere_atlas_allocated_space(atlas, &view.allocated) != ETAGERE_OK
        || etagere_atlas_free_space(atlas, &view.free) != ETAGERE_OK
        || etagere_atlas_allocations(atlas, view.allocations, MOST, &view.count) != ETAGERE_OK) {
        failed = 1;
    }
    return view;
}

static View view_of_bucketed(EtagereBucketed *atlas) {
    View view;
    memset(&view, 0, sizeof view);
    if (etagere_bucketed_size(atlas, &view.size) != ETAGERE_OK
        || etagere_bucketed_allocated_space(atlas, &view.allocated) != ETAGERE_OK
        || etagere_bucketed_free_space(atlas, &view.free) != ETAGERE_OK) {
        failed = 1;
    }
    return view;
}

static int is_same(const View *first, const View *second) {
    return memcmp(first, second, sizeof *first) == 0;
}

static int atlas_stays(EtagereAtlas *atlas, const View *before) {
    View now = view_of_atlas(atlas);
    return is_same(before, &now);
}

static int bucketed_stays(EtagereBucketed *atlas, const View *before) {
    View now = view_of_bucketed(atlas);
    return is_same(before, &now);
}

static void fill_atlas(EtagereAtlas *atlas) {
    EtagereAllocation allocation, given[4];
    EtagereSize sizes[4];
    EtagereStatus status;
    View before;
    size_t count = 0;
    int32_t i;

    for (i = 0; i < 60; i += 1) {
        before = view_of_atlas(atlas);
        status = etagere_atlas_allocate(atlas, size2(5 + i % 7 * 9, 4 + i % 5 * 11), &allocation);
        went("etagere_atlas_allocate", status, atlas_stays(atlas, &before));
    }
    for (i = 0; i < 4; i += 1) {
        sizes[i] = size2(3 + i, 60 + 16 * i);
    }
    before = view_of_atlas(atlas);
    status = etagere_atlas_allocate_many(atlas, sizes, 4, given, 4, &count);
    went("etagere_atlas_allocate_many", status, view_of_atlas(atlas).count == before.count + count);
}

static void grow_atlas(EtagereAtlas *atlas) {
    View before = view_of_atlas(atlas);
    EtagereStatus status = etagere_atlas_grow(atlas, size2(400, 900));
    went("etagere_atlas_grow", status, atlas_stays(atlas, &before));
}

static void copy_atlas(EtagereAtlas *atlas) {
    EtagereAtlas copy = ETAGERE_NULL;
    View before = view_of_atlas(atlas);
    EtagereStatus status = etagere_atlas_clone(atlas, &copy);
    if (went("etagere_atlas_clone", status, copy.state == NULL && atlas_stays(atlas, &before))) {
        failed |= !atlas_stays(&copy, &before);
        etagere_atlas_delete(&copy);
    }
}

static void save_atlas(EtagereAtlas *atlas) {
    EtagereAtlas copy = ETAGERE_NULL;
    View before = view_of_atlas(atlas);
    size_t length = 7;
    EtagereStatus status = etagere_atlas_snapshot(atlas, text, TEXT, &length);
    if (went("etagere_atlas_snapshot", status, length == 7 && atlas_stays(atlas, &before))) {
        status = etagere_atlas_restore(&copy, text, length);
        if (went("etagere_atlas_restore", status, copy.state == NULL)) {
            failed |= !atlas_stays(&copy, &before);
            etagere_atlas_delete(&copy);
        }
    }
}

static void draw_atlas(EtagereAtlas *atlas) {
    EtagereRectangle part = { { 0, 0 }, { 9, 9 } };
    size_t length = 7;
    went("etagere_atlas_picture_length", etagere_atlas_picture_length(atlas, &length), length == 7);
    length = 7;
    went("etagere_atlas_picture", etagere_atlas_picture(atlas, text, TEXT, &length), length == 7);
    length = 7;
    went("etagere_atlas_picture_lines", etagere_atlas_picture_lines(atlas, text, TEXT, &length), length == 7);
    length = 7;
    went("etagere_atlas_picture_part", etagere_atlas_picture_part(atlas, part, text, TEXT, &length), length == 7);
}

static void shelf_atlas(void) {
    EtagereAtlas atlas = ETAGERE_NULL;
    EtagereOptions options = ETAGERE_DEFAULT_OPTIONS;
    options.num_columns = 2;
    if (went("etagere_atlas_new", etagere_atlas_new(&atlas, size2(256, 600), &options), atlas.state == NULL)) {
        fill_atlas(&atlas);
        grow_atlas(&atlas);
        fill_atlas(&atlas);
        copy_atlas(&atlas);
        save_atlas(&atlas);
        draw_atlas(&atlas);
        etagere_atlas_delete(&atlas);
    }
}

static void fill_bucketed(EtagereBucketed *atlas) {
    EtagereAllocation allocation;
    EtagereStatus status;
    EtagereSize sizes[2];
    View before;
    size_t count = 0;
    int32_t i;

    for (i = 0; i < 60; i += 1) {
        before = view_of_bucketed(atlas);
        status = etagere_bucketed_allocate(atlas, size2(5 + i % 7 * 9, 4 + i % 5 * 3), &allocation);
        went("etagere_bucketed_allocate", status, bucketed_stays(atlas, &before));
    }
    sizes[0] = size2(8, 90);
    sizes[1] = size2(8, 110);
    before = view_of_bucketed(atlas);
    status = etagere_bucketed_allocate_many(atlas, sizes, 2, &allocation, 1, &count);
    failed |= status != ETAGERE_LENGTH || !bucketed_stays(atlas, &before);
    status = etagere_bucketed_allocate_many(atlas, sizes, 1, &allocation, 1, &count);
    went("etagere_bucketed_allocate_many", status, count == 0 && bucketed_stays(atlas, &before));
}

static void copy_bucketed(EtagereBucketed *atlas) {
    EtagereBucketed copy = ETAGERE_NULL;
    View before = view_of_bucketed(atlas);
    size_t length = 7;
    EtagereStatus status = etagere_bucketed_clone(atlas, &copy);
    if (went("etagere_bucketed_clone", status, copy.state == NULL && bucketed_stays(atlas, &before))) {
        failed |= !bucketed_stays(&copy, &before);
        etagere_bucketed_delete(&copy);
    }
    status = etagere_bucketed_snapshot(atlas, text, TEXT, &length);
    if (went("etagere_bucketed_snapshot", status, length == 7 && bucketed_stays(atlas, &before))) {
        status = etagere_bucketed_restore(&copy, text, length);
        if (went("etagere_bucketed_restore", status, copy.state == NULL)) {
            failed |= !bucketed_stays(&copy, &before);
            etagere_bucketed_delete(&copy);
        }
    }
}

static void draw_bucketed(EtagereBucketed *atlas) {
    EtagereRectangle part = { { 0, 0 }, { 9, 9 } };
    size_t length = 7;
    went("etagere_bucketed_picture_length", etagere_bucketed_picture_length(atlas, &length), length == 7);
    length = 7;
    went("etagere_bucketed_picture", etagere_bucketed_picture(atlas, text, TEXT, &length), length == 7);
    length = 7;
    went("etagere_bucketed_picture_lines", etagere_bucketed_picture_lines(atlas, text, TEXT, &length), length == 7);
    length = 7;
    went("etagere_bucketed_picture_part", etagere_bucketed_picture_part(atlas, part, text, TEXT, &length),
         length == 7);
}

static void grow_bucketed(EtagereBucketed *atlas) {
    View before = view_of_bucketed(atlas);
    EtagereStatus status = etagere_bucketed_grow(atlas, size2(400, 600));
    went("etagere_bucketed_grow", status, bucketed_stays(atlas, &before));
}

static void bucketed_atlas(void) {
    EtagereBucketed atlas = ETAGERE_NULL;
    EtagereOptions options = ETAGERE_DEFAULT_OPTIONS;
    if (went("etagere_bucketed_new", etagere_bucketed_new(&atlas, size2(256, 600), &options), atlas.state == NULL)) {
        fill_bucketed(&atlas);
        grow_bucketed(&atlas);
        copy_bucketed(&atlas);
        draw_bucketed(&atlas);
        etagere_bucketed_delete(&atlas);
    }
}

static void save_cache(EtagereCache *cache) {
    EtagereCache copy = ETAGERE_NULL;
    size_t length = 7, before = 0, after = 0;
    EtagereStatus status = etagere_cache_snapshot(cache, text, TEXT, &length);
    failed |= etagere_cache_len(cache, &before) != ETAGERE_OK;
    if (went("etagere_cache_snapshot", status, length == 7)) {
        status = etagere_cache_restore(&copy, text, length);
        if (went("etagere_cache_restore", status, copy.state == NULL)) {
            failed |= etagere_cache_len(&copy, &after) != ETAGERE_OK || after != before;
            etagere_cache_delete(&copy);
        }
    }
}

static void draw_cache(EtagereCache *cache) {
    EtagereRectangle part = { { 0, 0 }, { 9, 9 } };
    size_t length = 7;
    went("etagere_cache_picture_length", etagere_cache_picture_length(cache, &length), length == 7);
    length = 7;
    went("etagere_cache_picture", etagere_cache_picture(cache, text, TEXT, &length), length == 7);
    length = 7;
    went("etagere_cache_picture_lines", etagere_cache_picture_lines(cache, text, TEXT, &length), length == 7);
    length = 7;
    went("etagere_cache_picture_part", etagere_cache_picture_part(cache, part, text, TEXT, &length), length == 7);
}

/* The keys that an answer names are gone, and all others are there. */
static void place_key(EtagereCache *cache, uint64_t key, EtagereSize of) {
    static uint64_t evicted[MOST];
    EtagereRectangle rectangle;
    size_t before = 0, count = 0, after = 0;
    EtagereStatus status;
    failed |= etagere_cache_len(cache, &before) != ETAGERE_OK;
    status = etagere_cache_place(cache, key, of, &rectangle, evicted, MOST, &count);
    failed |= etagere_cache_len(cache, &after) != ETAGERE_OK;
    went("etagere_cache_place", status, after + count == before);
}

static void fill_cache(EtagereCache *cache) {
    uint64_t key;
    for (key = 0; key < 80; key += 1) {
        place_key(cache, key, size2(5 + (int32_t)(key % 7) * 9, 4 + (int32_t)(key % 5) * 11));
    }
}

/* The new columns need more records than there are. */
static void grow_cache(EtagereCache *cache) {
    EtagereSize size = size2(0, 0);
    EtagereStatus status = etagere_cache_grow(cache, size2(4096, 256));
    failed |= etagere_cache_size(cache, &size) != ETAGERE_OK;
    went("etagere_cache_grow", status, size.width == 128);
}

/* Keys of an earlier frame go, which is tried on a copy of the atlas. */
static void fill_frame(EtagereCache *cache) {
    uint64_t key;
    failed |= etagere_cache_begin_frame(cache) != ETAGERE_OK;
    for (key = 100; key < 110; key += 1) {
        place_key(cache, key, size2(50, 20));
    }
}

static void shrink_cache(EtagereCache *cache) {
    static uint64_t evicted[MOST];
    size_t before = 0, count = 7, after = 0;
    EtagereStatus status;
    failed |= etagere_cache_len(cache, &before) != ETAGERE_OK;
    status = etagere_cache_set_capacity(cache, 1, evicted, MOST, &count);
    failed |= etagere_cache_len(cache, &after) != ETAGERE_OK;
    went("etagere_cache_set_capacity", status, count == 7 && after == before);
}

static void glyph_cache(void) {
    EtagereCache cache = ETAGERE_NULL;
    EtagereOptions options = ETAGERE_DEFAULT_OPTIONS;
    EtagereStatus status;
    options.num_columns = 2;
    status = etagere_cache_new(&cache, size2(128, 256), &options, 40);
    if (went("etagere_cache_new", status, cache.state == NULL)) {
        fill_cache(&cache);
        fill_frame(&cache);
        save_cache(&cache);
        draw_cache(&cache);
        grow_cache(&cache);
        shrink_cache(&cache);
        etagere_cache_delete(&cache);
    }
}

int main(void) {
    setvbuf(stdout, written, _IOFBF, sizeof written);
    shelf_atlas();
    bucketed_atlas();
    glyph_cache();
    return failed;
}
