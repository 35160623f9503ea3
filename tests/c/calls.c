/* Calls of the library from C, also compiled as C++: what the rules say that they answer, and each status. */

#include <stdio.h>
#include <string.h>

#include "checking.h"
#include "etagere.h"

static EtagereAllocation nothing(void) {
    EtagereAllocation allocation;
    memset(&allocation, 0x5a, sizeof allocation);
    return allocation;
}

static int is_nothing(EtagereAllocation allocation) {
    EtagereAllocation other = nothing();
    return memcmp(&allocation, &other, sizeof other) == 0;
}

static void shelf_atlas(void) {
    EtagereAtlas atlas = ETAGERE_NULL;
    EtagereOptions options = ETAGERE_DEFAULT_OPTIONS;
    EtagereAllocation first, second, third, none = nothing();
    EtagereRectangle rectangle;
    EtagereSize size;
    int32_t space;
    uint32_t number;

    CHECK(etagere_atlas_new(&atlas, size2(1000, 1000), &options) == ETAGERE_OK);
    CHECK(etagere_atlas_new(&atlas, size2(10, 10), &options) == ETAGERE_HANDLE_IN_USE);
    CHECK(etagere_atlas_is_empty(&atlas, &number) == ETAGERE_OK && number == 1);
    CHECK(etagere_atlas_allocate(&atlas, size2(100, 100), &first) == ETAGERE_OK);
    CHECK(lies(first.rectangle, 0, 0, 100, 112) && first.id == 65536);
    CHECK(etagere_atlas_allocate(&atlas, size2(900, 200), &second) == ETAGERE_OK);
    CHECK(lies(second.rectangle, 0, 112, 900, 336));
    CHECK(etagere_atlas_deallocate(&atlas, first.id) == ETAGERE_OK);
    CHECK(etagere_atlas_deallocate(&atlas, first.id) == ETAGERE_UNKNOWN_ID);
    CHECK(etagere_atlas_allocate(&atlas, size2(300, 200), &third) == ETAGERE_OK);
    CHECK(lies(third.rectangle, 0, 336, 300, 560));
    CHECK(etagere_atlas_get(&atlas, third.id, &rectangle) == ETAGERE_OK && lies(rectangle, 0, 336, 300, 560));
    CHECK(etagere_atlas_get(&atlas, first.id, &rectangle) == ETAGERE_UNKNOWN_ID && lies(rectangle, 0, 336, 300, 560));
    CHECK(etagere_atlas_get_index(&atlas, third.id, &number) == ETAGERE_OK && number == third.id % 65536);
    CHECK(etagere_atlas_get_index(&atlas, 7, &number) == ETAGERE_UNKNOWN_ID && number == third.id % 65536);
    CHECK(etagere_atlas_allocated_space(&atlas, &space) == ETAGERE_OK && space == 900 * 224 + 300 * 224);
    CHECK(etagere_atlas_free_space(&atlas, &space) == ETAGERE_OK && space == 1000000 - 1200 * 224);
    CHECK(etagere_atlas_allocate(&atlas, size2(1000, 900), &none) == ETAGERE_NO_ROOM && is_nothing(none));
    CHECK(etagere_atlas_fits_when_empty(&atlas, size2(1000, 900), &number) == ETAGERE_OK && number == 1);
    CHECK(etagere_atlas_fits_when_empty(&atlas, size2(1001, 1), &number) == ETAGERE_OK && number == 0);
    CHECK(etagere_atlas_grow(&atlas, size2(999, 2000)) == ETAGERE_GROW_SMALLER);
    CHECK(etagere_atlas_grow(&atlas, size2(0, 2000)) == ETAGERE_GROW_SIZE);
    CHECK(etagere_atlas_grow(&atlas, size2(65535, 65535)) == ETAGERE_GROW_AREA);
    CHECK(etagere_atlas_grow(&atlas, size2(1000, 2000)) == ETAGERE_OK);
    CHECK(etagere_atlas_size(&atlas, &size) == ETAGERE_OK && size.width == 1000 && size.height == 2000);
    CHECK(etagere_atlas_clear(&atlas) == ETAGERE_OK);
    CHECK(etagere_atlas_is_empty(&atlas, &number) == ETAGERE_OK && number == 1);
    CHECK(etagere_atlas_delete(&atlas) == ETAGERE_OK);
    CHECK(etagere_atlas_delete(&atlas) == ETAGERE_NULL_HANDLE);
}

static void refusals_of_shelves(void) {
    EtagereAtlas atlas = ETAGERE_NULL;
    EtagereOptions options = ETAGERE_DEFAULT_OPTIONS;
    EtagereAllocation item;
    EtagereRefusal refusal = { 7, 7 };
    EtagereUsage usage;
    EtagereSize size = size2(7, 7);

    usage.shelves = 7;
    CHECK(etagere_atlas_refusal(&atlas, size2(1, 1), &refusal) == ETAGERE_NULL_HANDLE && refusal.reason == 7);
    CHECK(etagere_atlas_usage(&atlas, &usage) == ETAGERE_NULL_HANDLE && usage.shelves == 7);
    CHECK(etagere_atlas_largest_free(&atlas, &size) == ETAGERE_NULL_HANDLE && size.width == 7);

    CHECK(etagere_atlas_new(&atlas, size2(64, 64), &options) == ETAGERE_OK);
    CHECK(etagere_atlas_allocate(&atlas, size2(40, 64), &item) == ETAGERE_OK);
    CHECK(etagere_atlas_refusal(&atlas, size2(24, 64), &refusal) == ETAGERE_OK);
    CHECK(refusal.reason == 0 && refusal.widest == 0);
    CHECK(etagere_atlas_refusal(&atlas, size2(25, 64), &refusal) == ETAGERE_OK);
    CHECK(refusal.reason == ETAGERE_REFUSAL_NO_ROOM && refusal.widest == 24);
    CHECK(etagere_atlas_refusal(&atlas, size2(0, 1), &refusal) == ETAGERE_OK);
    CHECK(refusal.reason == ETAGERE_REFUSAL_NOT_POSITIVE && refusal.widest == 0);
    CHECK(etagere_atlas_refusal(&atlas, size2(1, 65536), &refusal) == ETAGERE_OK);
    CHECK(refusal.reason == ETAGERE_REFUSAL_TOO_LONG);
    CHECK(etagere_atlas_refusal(&atlas, size2(65, 1), &refusal) == ETAGERE_OK);
    CHECK(refusal.reason == ETAGERE_REFUSAL_WIDER_THAN_COLUMN);
    CHECK(etagere_atlas_refusal(&atlas, size2(1, 65), &refusal) == ETAGERE_OK);
    CHECK(refusal.reason == ETAGERE_REFUSAL_TALLER_THAN_ATLAS);
    CHECK(etagere_atlas_usage(&atlas, &usage) == ETAGERE_OK);
    CHECK(usage.shelves == 1 && usage.empty_shelves == 0 && usage.items == 1 && usage.free_items == 1);
    CHECK(usage.unused_records == 65533 && usage.largest_free.width == 24 && usage.largest_free.height == 64);
    CHECK(etagere_atlas_largest_free(&atlas, &size) == ETAGERE_OK && size.width == 24 && size.height == 64);
    CHECK(etagere_atlas_delete(&atlas) == ETAGERE_OK);
}

static void refusals_of_buckets(void) {
    EtagereBucketed atlas = ETAGERE_NULL;
    EtagereOptions options = ETAGERE_DEFAULT_OPTIONS;
    EtagereAllocation item;
    EtagereRefusal refusal = { 7, 7 };
    EtagereBucketedUsage usage;
    EtagereSize size = size2(7, 7);

    usage.shelves = 7;
    CHECK(etagere_bucketed_refusal(&atlas, size2(1, 1), &refusal) == ETAGERE_NULL_HANDLE && refusal.reason == 7);
    CHECK(etagere_bucketed_usage(&atlas, &usage) == ETAGERE_NULL_HANDLE && usage.shelves == 7);
    CHECK(etagere_bucketed_largest_free(&atlas, &size) == ETAGERE_NULL_HANDLE && size.width == 7);

    CHECK(etagere_bucketed_new(&atlas, size2(32, 16), &options) == ETAGERE_OK);
    CHECK(etagere_bucketed_largest_free(&atlas, &size) == ETAGERE_OK && size.width == 0 && size.height == 0);
    CHECK(etagere_bucketed_allocate(&atlas, size2(20, 16), &item) == ETAGERE_OK);
    CHECK(etagere_bucketed_refusal(&atlas, size2(12, 16), &refusal) == ETAGERE_OK);
    CHECK(refusal.reason == 0 && refusal.widest == 0);
    CHECK(etagere_bucketed_refusal(&atlas, size2(13, 16), &refusal) == ETAGERE_OK);
    CHECK(refusal.reason == ETAGERE_BUCKETED_REFUSAL_NO_ROOM && refusal.widest == 12);
    CHECK(etagere_bucketed_refusal(&atlas, size2(1, -1), &refusal) == ETAGERE_OK);
    CHECK(refusal.reason == ETAGERE_BUCKETED_REFUSAL_NOT_POSITIVE && refusal.widest == 0);
    CHECK(etagere_bucketed_refusal(&atlas, size2(65536, 1), &refusal) == ETAGERE_OK);
    CHECK(refusal.reason == ETAGERE_BUCKETED_REFUSAL_TOO_LONG);
    CHECK(etagere_bucketed_refusal(&atlas, size2(33, 1), &refusal) == ETAGERE_OK);
    CHECK(refusal.reason == ETAGERE_BUCKETED_REFUSAL_WIDER_THAN_COLUMN);
    CHECK(etagere_bucketed_refusal(&atlas, size2(1, 17), &refusal) == ETAGERE_OK);
    CHECK(refusal.reason == ETAGERE_BUCKETED_REFUSAL_TALLER_THAN_ATLAS);
    CHECK(etagere_bucketed_usage(&atlas, &usage) == ETAGERE_OK);
    CHECK(usage.shelves == 1 && usage.idle_shelves == 0 && usage.buckets == 1 && usage.idle_buckets == 0);
    CHECK(usage.items == 1 && usage.unused_buckets == 4094 && usage.largest_free.width == 12);
    CHECK(etagere_bucketed_largest_free(&atlas, &size) == ETAGERE_OK && size.width == 12 && size.height == 16);
    CHECK(etagere_bucketed_delete(&atlas) == ETAGERE_OK);
}

/* 65535 columns have as many items, so a size that fits is refused where its shelf is to be split. */
static void refusal_without_records(void) {
    EtagereAtlas atlas = ETAGERE_NULL;
    EtagereOptions options = ETAGERE_DEFAULT_OPTIONS;
    EtagereAllocation none = nothing();
    EtagereRefusal refusal;
    EtagereUsage usage;

    options.num_columns = 65535;
    CHECK(etagere_atlas_new(&atlas, size2(65535, 32), &options) == ETAGERE_OK);
    CHECK(etagere_atlas_usage(&atlas, &usage) == ETAGERE_OK);
    CHECK(usage.shelves == 65535 && usage.free_items == 65535 && usage.unused_records == 0);
    CHECK(etagere_atlas_refusal(&atlas, size2(1, 8), &refusal) == ETAGERE_OK);
    CHECK(refusal.reason == ETAGERE_REFUSAL_NO_RECORDS && refusal.widest == 0);
    CHECK(etagere_atlas_allocate(&atlas, size2(1, 8), &none) == ETAGERE_NO_ROOM && is_nothing(none));
    CHECK(etagere_atlas_refusal(&atlas, size2(1, 32), &refusal) == ETAGERE_OK && refusal.reason == 0);
    CHECK(etagere_atlas_delete(&atlas) == ETAGERE_OK);
}

/* Shelves of 8 x 8 pixels have one bucket each, and there are 4095 buckets. */
static void refusal_without_buckets(void) {
    EtagereBucketed atlas = ETAGERE_NULL;
    EtagereOptions options = ETAGERE_DEFAULT_OPTIONS;
    EtagereAllocation item, none = nothing();
    EtagereRefusal refusal;
    EtagereBucketedUsage usage;
    int32_t shelf;

    CHECK(etagere_bucketed_new(&atlas, size2(8, 8 * 4096), &options) == ETAGERE_OK);
    for (shelf = 0; shelf < 4095; shelf += 1) {
        CHECK(etagere_bucketed_allocate(&atlas, size2(8, 8), &item) == ETAGERE_OK);
        CHECK(lies(item.rectangle, 0, 8 * shelf, 8, 8 * shelf + 8));
    }
    CHECK(etagere_bucketed_usage(&atlas, &usage) == ETAGERE_OK);
    CHECK(usage.shelves == 4095 && usage.buckets == 4095 && usage.items == 4095 && usage.unused_buckets == 0);
    CHECK(etagere_bucketed_refusal(&atlas, size2(8, 8), &refusal) == ETAGERE_OK);
    CHECK(refusal.reason == ETAGERE_BUCKETED_REFUSAL_NO_BUCKETS && refusal.widest == 0);
    CHECK(etagere_bucketed_allocate(&atlas, size2(8, 8), &none) == ETAGERE_NO_ROOM && is_nothing(none));
    CHECK(etagere_bucketed_deallocate(&atlas, item.id) == ETAGERE_OK);
    CHECK(etagere_bucketed_refusal(&atlas, size2(8, 8), &refusal) == ETAGERE_OK && refusal.reason == 0);
    CHECK(etagere_bucketed_delete(&atlas) == ETAGERE_OK);
}

/* A shelf of 4096 x 1024 pixels has one bucket, which gives 4095 items; then a pixel of its width is left. */
static void refusal_without_items(void) {
    EtagereBucketed atlas = ETAGERE_NULL;
    EtagereOptions options = ETAGERE_DEFAULT_OPTIONS;
    EtagereAllocation item, none = nothing();
    EtagereRefusal refusal;
    EtagereBucketedUsage usage;
    int32_t place;

    CHECK(etagere_bucketed_new(&atlas, size2(4096, 1024), &options) == ETAGERE_OK);
    for (place = 0; place < 4095; place += 1) {
        CHECK(etagere_bucketed_allocate(&atlas, size2(1, 1024), &item) == ETAGERE_OK);
        CHECK(lies(item.rectangle, place, 0, place + 1, 1024));
    }
    CHECK(etagere_bucketed_usage(&atlas, &usage) == ETAGERE_OK && usage.buckets == 1 && usage.items == 4095);
    CHECK(etagere_bucketed_refusal(&atlas, size2(1, 1024), &refusal) == ETAGERE_OK);
    CHECK(refusal.reason == ETAGERE_BUCKETED_REFUSAL_ITEMS_USED_UP && refusal.widest == 0);
    CHECK(etagere_bucketed_allocate(&atlas, size2(1, 1024), &none) == ETAGERE_NO_ROOM && is_nothing(none));
    CHECK(etagere_bucketed_refusal(&atlas, size2(2, 1024), &refusal) == ETAGERE_OK);
    CHECK(refusal.reason == ETAGERE_BUCKETED_REFUSAL_NO_ROOM && refusal.widest == 0);
    CHECK(etagere_bucketed_delete(&atlas) == ETAGERE_OK);
}

static void atlas_that_cannot_be_made(void) {
    EtagereAtlas atlas = ETAGERE_NULL;
    EtagereOptions options = ETAGERE_DEFAULT_OPTIONS;

    CHECK(etagere_atlas_new(&atlas, size2(0, 10), &options) == ETAGERE_OPTIONS_SIZE);
    CHECK(etagere_atlas_new(&atlas, size2(65535, 65535), &options) == ETAGERE_OPTIONS_AREA);
    options.alignment.width = 0;
    CHECK(etagere_atlas_new(&atlas, size2(10, 10), &options) == ETAGERE_OPTIONS_ALIGNMENT);
    options.alignment.width = 1;
    options.num_columns = 0;
    CHECK(etagere_atlas_new(&atlas, size2(10, 10), &options) == ETAGERE_OPTIONS_COLUMNS);
    options.num_columns = 11;
    CHECK(etagere_atlas_new(&atlas, size2(10, 10), &options) == ETAGERE_OPTIONS_COLUMN_TOO_NARROW);
    CHECK(atlas.state == NULL);
}

/* 65535 columns have as many items, so a grow that needs one more is refused. */
static void grow_without_records(void) {
    EtagereAtlas atlas = ETAGERE_NULL;
    EtagereOptions options = ETAGERE_DEFAULT_OPTIONS;
    EtagereAllocation allocation;

    options.num_columns = 65535;
    CHECK(etagere_atlas_new(&atlas, size2(65535, 100), &options) == ETAGERE_OK);
    CHECK(etagere_atlas_allocate(&atlas, size2(1, 92), &allocation) == ETAGERE_OK);
    CHECK(lies(allocation.rectangle, 0, 0, 1, 100));
    CHECK(etagere_atlas_grow(&atlas, size2(65535, 200)) == ETAGERE_GROW_RECORDS);
    CHECK(etagere_atlas_delete(&atlas) == ETAGERE_OK);
}

static void upright_shelves(void) {
    EtagereAtlas atlas = ETAGERE_NULL;
    EtagereOptions options = ETAGERE_DEFAULT_OPTIONS;
    EtagereAllocation allocation;

    options.vertical_shelves = 2;
    CHECK(etagere_atlas_new(&atlas, size2(1000, 1000), &options) == ETAGERE_OK);
    CHECK(etagere_atlas_allocate(&atlas, size2(100, 50), &allocation) == ETAGERE_OK);
    CHECK(lies(allocation.rectangle, 0, 0, 112, 50));
    CHECK(etagere_atlas_delete(&atlas) == ETAGERE_OK);
}

static void copies(void) {
    EtagereAtlas atlas = ETAGERE_NULL, copy = ETAGERE_NULL, other = ETAGERE_NULL;
    EtagereOptions options = ETAGERE_DEFAULT_OPTIONS;
    EtagereAllocation first, second;
    EtagereRectangle rectangle;

    CHECK(etagere_atlas_clone(&atlas, &copy) == ETAGERE_NULL_HANDLE && copy.state == NULL);
    CHECK(etagere_atlas_new(&atlas, size2(64, 64), &options) == ETAGERE_OK);
    CHECK(etagere_atlas_allocate(&atlas, size2(20, 20), &first) == ETAGERE_OK);
    CHECK(etagere_atlas_clone(&atlas, &copy) == ETAGERE_OK);
    CHECK(etagere_atlas_clone(&atlas, &copy) == ETAGERE_HANDLE_IN_USE);
    CHECK(etagere_atlas_clone(&other, &copy) == ETAGERE_NULL_HANDLE && copy.state != NULL);
    CHECK(etagere_atlas_get(&copy, first.id, &rectangle) == ETAGERE_OK && lies(rectangle, 0, 0, 20, 24));
    CHECK(etagere_atlas_allocate(&atlas, size2(20, 20), &first) == ETAGERE_OK);
    CHECK(etagere_atlas_allocate(&copy, size2(20, 20), &second) == ETAGERE_OK);
    CHECK(memcmp(&first, &second, sizeof first) == 0);
    CHECK(etagere_atlas_delete(&atlas) == ETAGERE_OK);
    CHECK(etagere_atlas_deallocate(&copy, second.id) == ETAGERE_OK);
    CHECK(etagere_atlas_delete(&copy) == ETAGERE_OK);
}

static void null_atlas(void) {
    EtagereAtlas atlas = ETAGERE_NULL;
    EtagereAllocation none = nothing();
    EtagereRectangle rectangle = none.rectangle;
    EtagereSize size = size2(3, 3);
    int32_t space = 3;
    uint32_t number = 3;

    CHECK(etagere_atlas_allocate(&atlas, size2(1, 1), &none) == ETAGERE_NULL_HANDLE && is_nothing(none));
    CHECK(etagere_atlas_deallocate(&atlas, 65536) == ETAGERE_NULL_HANDLE);
    CHECK(etagere_atlas_get(&atlas, 65536, &rectangle) == ETAGERE_NULL_HANDLE);
    CHECK(etagere_atlas_get_index(&atlas, 65536, &number) == ETAGERE_NULL_HANDLE && number == 3);
    CHECK(etagere_atlas_clear(&atlas) == ETAGERE_NULL_HANDLE);
    CHECK(etagere_atlas_size(&atlas, &size) == ETAGERE_NULL_HANDLE && size.width == 3);
    CHECK(etagere_atlas_is_empty(&atlas, &number) == ETAGERE_NULL_HANDLE && number == 3);
    CHECK(etagere_atlas_allocated_space(&atlas, &space) == ETAGERE_NULL_HANDLE && space == 3);
    CHECK(etagere_atlas_free_space(&atlas, &space) == ETAGERE_NULL_HANDLE && space == 3);
    CHECK(etagere_atlas_fits_when_empty(&atlas, size2(1, 1), &number) == ETAGERE_NULL_HANDLE && number == 3);
    CHECK(etagere_atlas_grow(&atlas, size2(1, 1)) == ETAGERE_NULL_HANDLE);
    CHECK(etagere_atlas_delete(&atlas) == ETAGERE_NULL_HANDLE);
    CHECK(atlas.state == NULL);
}

static void batches(void) {
    EtagereAtlas atlas = ETAGERE_NULL;
    EtagereOptions options = ETAGERE_DEFAULT_OPTIONS;
    EtagereSize sizes[4];
    EtagereAllocation given[5];
    uint32_t ids[4];
    size_t count = 77, i;

    sizes[0] = size2(64, 16);
    sizes[1] = size2(32, 16);
    sizes[2] = size2(65, 1);
    sizes[3] = size2(1, 1);
    for (i = 0; i < 5; i += 1) {
        given[i] = nothing();
    }
    CHECK(etagere_atlas_allocate_many(&atlas, sizes, 4, given, 5, &count) == ETAGERE_NULL_HANDLE && count == 77);
    CHECK(etagere_atlas_new(&atlas, size2(64, 64), &options) == ETAGERE_OK);
    CHECK(etagere_atlas_allocate_many(&atlas, sizes, 4, given, 3, &count) == ETAGERE_LENGTH && count == 77);
    CHECK(is_nothing(given[0]));
    CHECK(etagere_atlas_allocate_many(&atlas, sizes, 4, given, 5, &count) == ETAGERE_NO_ROOM && count == 2);
    CHECK(lies(given[0].rectangle, 0, 0, 64, 16) && lies(given[1].rectangle, 0, 16, 32, 32) && is_nothing(given[2]));
    CHECK(etagere_atlas_allocate_many(&atlas, sizes + 3, 1, given + 2, 1, &count) == ETAGERE_OK && count == 1);
    CHECK(etagere_atlas_allocate_many(&atlas, sizes, 0, given, 0, &count) == ETAGERE_OK && count == 0);
    ids[0] = given[2].id;
    ids[1] = given[0].id;
    ids[2] = given[0].id;
    ids[3] = given[1].id;
    CHECK(etagere_atlas_deallocate_many(&atlas, ids, 4, &count) == ETAGERE_UNKNOWN_ID && count == 2);
    CHECK(etagere_atlas_deallocate_many(&atlas, ids + 3, 1, &count) == ETAGERE_OK && count == 1);
    CHECK(etagere_atlas_delete(&atlas) == ETAGERE_OK);
    CHECK(etagere_atlas_deallocate_many(&atlas, ids, 4, &count) == ETAGERE_NULL_HANDLE && count == 1);
}

static void listing(void) {
    EtagereAtlas atlas = ETAGERE_NULL;
    EtagereOptions options;
    EtagereSize sizes[3];
    EtagereAllocation given[3], listed[4];
    size_t count = 77;

    sizes[0] = sizes[1] = sizes[2] = size2(10, 10);
    listed[0] = listed[2] = nothing();
    memset(&options, 0x5a, sizeof options);
    CHECK(etagere_default_options(&options) == ETAGERE_OK);
    CHECK(options.alignment.width == 1 && options.alignment.height == 1);
    CHECK(options.num_columns == 1 && options.vertical_shelves == 0);
    CHECK(etagere_atlas_allocations(&atlas, listed, 4, &count) == ETAGERE_NULL_HANDLE && count == 77);
    CHECK(etagere_atlas_new(&atlas, size2(64, 64), &options) == ETAGERE_OK);
    CHECK(etagere_atlas_allocations(&atlas, listed, 0, &count) == ETAGERE_OK && count == 0);
    CHECK(etagere_atlas_allocate_many(&atlas, sizes, 3, given, 3, &count) == ETAGERE_OK);
    CHECK(etagere_atlas_deallocate(&atlas, given[1].id) == ETAGERE_OK);
    CHECK(etagere_atlas_allocations(&atlas, listed, 1, &count) == ETAGERE_LENGTH && count == 2);
    CHECK(is_nothing(listed[0]));
    CHECK(etagere_atlas_allocations(&atlas, listed, 4, &count) == ETAGERE_OK && count == 2);
    CHECK(memcmp(&listed[0], &given[0], sizeof given[0]) == 0 && memcmp(&listed[1], &given[2], sizeof given[0]) == 0);
    CHECK(is_nothing(listed[2]));
    CHECK(etagere_atlas_delete(&atlas) == ETAGERE_OK);
}

static void pictures(void) {
    EtagereAtlas atlas = ETAGERE_NULL;
    EtagereOptions options = ETAGERE_DEFAULT_OPTIONS;
    uint8_t buffer[4096];
    size_t needed = 7, written = 7;

    CHECK(etagere_atlas_picture_length(&atlas, &needed) == ETAGERE_NULL_HANDLE && needed == 7);
    CHECK(etagere_atlas_picture(&atlas, buffer, sizeof buffer, &written) == ETAGERE_NULL_HANDLE && written == 7);
    CHECK(etagere_atlas_new(&atlas, size2(64, 64), &options) == ETAGERE_OK);
    CHECK(etagere_atlas_picture_length(&atlas, &needed) == ETAGERE_OK && needed > 100 && needed < sizeof buffer);
    memset(buffer, '#', sizeof buffer);
    CHECK(etagere_atlas_picture(&atlas, buffer, needed - 1, &written) == ETAGERE_LENGTH && written == 7);
    CHECK(buffer[0] == '#');
    CHECK(etagere_atlas_picture(&atlas, buffer, sizeof buffer, &written) == ETAGERE_OK && written == needed);
    CHECK(memcmp(buffer, "<svg", 4) == 0 && buffer[needed] == '#' && buffer[needed - 1] != '#');
    CHECK(etagere_atlas_picture(&atlas, buffer, needed, &written) == ETAGERE_OK);
    CHECK(etagere_atlas_delete(&atlas) == ETAGERE_OK);
}

static void buckets(void) {
    EtagereBucketed atlas = ETAGERE_NULL, copy = ETAGERE_NULL;
    EtagereOptions options = ETAGERE_DEFAULT_OPTIONS;
    EtagereAllocation first, second, none = nothing();
    EtagereSize size;
    uint8_t buffer[4096];
    size_t length, count;
    int32_t space;
    uint32_t number;

    CHECK(etagere_bucketed_allocate(&atlas, size2(1, 1), &none) == ETAGERE_NULL_HANDLE && is_nothing(none));
    CHECK(etagere_bucketed_new(&atlas, size2(65535, 1), &options) == ETAGERE_OPTIONS_SIZE);
    CHECK(etagere_bucketed_new(&atlas, size2(32, 64), &options) == ETAGERE_OK);
    CHECK(etagere_bucketed_new(&atlas, size2(32, 64), &options) == ETAGERE_HANDLE_IN_USE);
    CHECK(etagere_bucketed_allocate(&atlas, size2(20, 16), &first) == ETAGERE_OK);
    CHECK(lies(first.rectangle, 0, 0, 20, 16));
    CHECK(etagere_bucketed_allocate(&atlas, size2(24, 16), &second) == ETAGERE_OK);
    CHECK(lies(second.rectangle, 0, 16, 24, 32));
    CHECK(etagere_bucketed_allocate(&atlas, size2(33, 1), &none) == ETAGERE_NO_ROOM && is_nothing(none));
    CHECK(etagere_bucketed_allocated_space(&atlas, &space) == ETAGERE_OK && space == 44 * 16);
    CHECK(etagere_bucketed_free_space(&atlas, &space) == ETAGERE_OK && space == 32 * 64 - 44 * 16);
    CHECK(etagere_bucketed_picture_length(&atlas, &length) == ETAGERE_OK && length < sizeof buffer);
    CHECK(etagere_bucketed_picture(&atlas, buffer, length - 1, &count) == ETAGERE_LENGTH);
    CHECK(etagere_bucketed_picture(&atlas, buffer, sizeof buffer, &count) == ETAGERE_OK && count == length);
    CHECK(etagere_bucketed_clone(&atlas, &copy) == ETAGERE_OK);
    CHECK(etagere_bucketed_clone(&atlas, &copy) == ETAGERE_HANDLE_IN_USE);
    CHECK(etagere_bucketed_deallocate(&copy, second.id) == ETAGERE_OK);
    CHECK(etagere_bucketed_deallocate(&copy, second.id) == ETAGERE_UNKNOWN_ID);
    CHECK(etagere_bucketed_delete(&copy) == ETAGERE_OK && etagere_bucketed_delete(&copy) == ETAGERE_NULL_HANDLE);
    CHECK(etagere_bucketed_deallocate_many(&atlas, &second.id, 1, &count) == ETAGERE_OK && count == 1);
    size = size2(24, 16);
    CHECK(etagere_bucketed_allocate_many(&atlas, &size, 1, &second, 1, &count) == ETAGERE_OK && count == 1);
    CHECK(etagere_bucketed_grow(&atlas, size2(31, 64)) == ETAGERE_BUCKETED_GROW_SMALLER);
    CHECK(etagere_bucketed_grow(&atlas, size2(65535, 64)) == ETAGERE_BUCKETED_GROW_SIZE);
    CHECK(etagere_bucketed_grow(&atlas, size2(65534, 65534)) == ETAGERE_BUCKETED_GROW_AREA);
    CHECK(etagere_bucketed_grow(&atlas, size2(64, 64)) == ETAGERE_OK);
    CHECK(etagere_bucketed_size(&atlas, &size) == ETAGERE_OK && size.width == 64 && size.height == 64);
    CHECK(etagere_bucketed_is_empty(&atlas, &number) == ETAGERE_OK && number == 0);
    CHECK(etagere_bucketed_clear(&atlas) == ETAGERE_OK);
    CHECK(etagere_bucketed_is_empty(&atlas, &number) == ETAGERE_OK && number == 1);
    CHECK(etagere_bucketed_delete(&atlas) == ETAGERE_OK);
}

static void glyph_cache(void) {
    EtagereCache cache = ETAGERE_NULL;
    EtagereOptions options = ETAGERE_DEFAULT_OPTIONS;
    EtagereRectangle rectangle;
    EtagereSize size;
    uint64_t evicted[3] = { 9, 9, 9 };
    uint8_t buffer[4096];
    size_t count = 7, length;
    int32_t space;
    uint32_t number;

    CHECK(etagere_cache_place(&cache, 1, size2(1, 1), &rectangle, evicted, 3, &count) == ETAGERE_NULL_HANDLE);
    CHECK(etagere_cache_new(&cache, size2(32, 32), &options, 0) == ETAGERE_LENGTH);
    CHECK(etagere_cache_new(&cache, size2(32, 0), &options, 3) == ETAGERE_OPTIONS_SIZE);
    CHECK(etagere_cache_new(&cache, size2(32, 32), &options, 3) == ETAGERE_OK);
    CHECK(etagere_cache_new(&cache, size2(32, 32), &options, 3) == ETAGERE_HANDLE_IN_USE);
    CHECK(etagere_cache_is_empty(&cache, &number) == ETAGERE_OK && number == 1);
    CHECK(etagere_cache_place(&cache, 1, size2(32, 8), &rectangle, evicted, 0, &count) == ETAGERE_OK && count == 0);
    CHECK(etagere_cache_place(&cache, 2, size2(32, 8), &rectangle, evicted, 1, &count) == ETAGERE_OK && count == 0);
    CHECK(etagere_cache_place(&cache, 3, size2(32, 8), &rectangle, evicted, 2, &count) == ETAGERE_OK && count == 0);
    CHECK(etagere_cache_get(&cache, 1, &rectangle) == ETAGERE_OK && lies(rectangle, 0, 0, 32, 8));
    CHECK(etagere_cache_get(&cache, 7, &rectangle) == ETAGERE_UNKNOWN_KEY && lies(rectangle, 0, 0, 32, 8));
    count = 7;
    CHECK(etagere_cache_place(&cache, 4, size2(32, 8), &rectangle, evicted, 2, &count) == ETAGERE_LENGTH && count == 7);
    CHECK(etagere_cache_place(&cache, 4, size2(33, 8), &rectangle, evicted, 3, &count) == ETAGERE_CACHE_TOO_LARGE);
    CHECK(count == 7 && evicted[0] == 9);
    CHECK(etagere_cache_place(&cache, 4, size2(32, 8), &rectangle, evicted, 3, &count) == ETAGERE_OK);
    CHECK(count == 1 && evicted[0] == 2 && evicted[1] == 9 && lies(rectangle, 0, 8, 32, 16));
    CHECK(etagere_cache_place(&cache, 5, size2(32, 32), &rectangle, evicted, 3, &count) == ETAGERE_OK);
    CHECK(count == 3 && evicted[0] == 3 && evicted[1] == 1 && evicted[2] == 4 && lies(rectangle, 0, 0, 32, 32));
    CHECK(etagere_cache_len(&cache, &length) == ETAGERE_OK && length == 1);
    CHECK(etagere_cache_capacity(&cache, &length) == ETAGERE_OK && length == 3);
    CHECK(etagere_cache_size(&cache, &size) == ETAGERE_OK && size.width == 32 && size.height == 32);
    CHECK(etagere_cache_allocated_space(&cache, &space) == ETAGERE_OK && space == 1024);
    CHECK(etagere_cache_free_space(&cache, &space) == ETAGERE_OK && space == 0);
    CHECK(etagere_cache_picture_length(&cache, &length) == ETAGERE_OK && length < sizeof buffer);
    CHECK(etagere_cache_picture(&cache, buffer, sizeof buffer, &count) == ETAGERE_OK && count == length);
    CHECK(etagere_cache_remove(&cache, 6, &rectangle) == ETAGERE_UNKNOWN_KEY);
    CHECK(etagere_cache_remove(&cache, 5, &rectangle) == ETAGERE_OK && lies(rectangle, 0, 0, 32, 32));
    CHECK(etagere_cache_is_empty(&cache, &number) == ETAGERE_OK && number == 1);
    CHECK(etagere_cache_clear(&cache) == ETAGERE_OK);
    CHECK(etagere_cache_delete(&cache) == ETAGERE_OK && etagere_cache_delete(&cache) == ETAGERE_NULL_HANDLE);
}

static const char background[] =
    "    <rect x=\"0\" y=\"0\" width=\"8\" height=\"8\" fill=\"rgb(40,40,40)\" stroke=\"rgb(0,0,0)\" "
    "stroke-width=\"1\"/>\n";

static const char free_item[] =
    "    <rect x=\"0\" y=\"0\" width=\"8\" height=\"8\" fill=\"rgb(50,50,50)\" stroke=\"rgb(0,0,0)\" "
    "stroke-width=\"1\"/>\n";

static const char part_begin[] =
    "    <svg x=\"1\" y=\"2\" width=\"3\" height=\"4\" viewBox=\"0 0 8 8\" preserveAspectRatio=\"none\">\n";

static int begins(const uint8_t *text, const char *with) {
    return memcmp(text, with, strlen(with)) == 0;
}

/* The rectangle of the parts below, and one without area. */
static EtagereRectangle part_of(int32_t height) {
    EtagereRectangle part;
    part.min.x = 1;
    part.min.y = 2;
    part.max.x = 4;
    part.max.y = 2 + height;
    return part;
}

static void shelf_picture_parts(void) {
    EtagereAtlas atlas = ETAGERE_NULL;
    EtagereOptions options = ETAGERE_DEFAULT_OPTIONS;
    uint8_t buffer[1024];
    size_t lines = strlen(background) + strlen(free_item), count = 7;

    CHECK(etagere_atlas_picture_lines(&atlas, buffer, 1024, &count) == ETAGERE_NULL_HANDLE && count == 7);
    CHECK(etagere_atlas_picture_part(&atlas, part_of(4), buffer, 1024, &count) == ETAGERE_NULL_HANDLE && count == 7);
    CHECK(etagere_atlas_new(&atlas, size2(8, 8), &options) == ETAGERE_OK);
    memset(buffer, '#', sizeof buffer);
    CHECK(etagere_atlas_picture_lines(&atlas, buffer, lines - 1, &count) == ETAGERE_LENGTH && count == lines);
    CHECK(buffer[0] == '#');
    CHECK(etagere_atlas_picture_lines(&atlas, buffer, 1024, &count) == ETAGERE_OK && count == lines);
    CHECK(begins(buffer, background) && begins(buffer + strlen(background), free_item) && buffer[count] == '#');
    CHECK(etagere_atlas_picture_part(&atlas, part_of(4), buffer, lines, &count) == ETAGERE_LENGTH && count > lines);
    CHECK(etagere_atlas_picture_part(&atlas, part_of(4), buffer, 1024, &count) == ETAGERE_OK);
    CHECK(begins(buffer, part_begin) && begins(buffer + strlen(part_begin), background) && buffer[count] == '#');
    CHECK(etagere_atlas_picture_part(&atlas, part_of(0), buffer, 0, &count) == ETAGERE_OK && count == 0);
    CHECK(etagere_atlas_delete(&atlas) == ETAGERE_OK);
}

static void bucketed_picture_parts(void) {
    EtagereBucketed atlas = ETAGERE_NULL;
    EtagereOptions options = ETAGERE_DEFAULT_OPTIONS;
    uint8_t buffer[1024];
    size_t lines = strlen(background), count = 7;

    CHECK(etagere_bucketed_picture_lines(&atlas, buffer, 1024, &count) == ETAGERE_NULL_HANDLE && count == 7);
    CHECK(etagere_bucketed_picture_part(&atlas, part_of(4), buffer, 1024, &count) == ETAGERE_NULL_HANDLE && count == 7);
    CHECK(etagere_bucketed_new(&atlas, size2(8, 8), &options) == ETAGERE_OK);
    CHECK(etagere_bucketed_picture_lines(&atlas, buffer, lines - 1, &count) == ETAGERE_LENGTH && count == lines);
    CHECK(etagere_bucketed_picture_lines(&atlas, buffer, 1024, &count) == ETAGERE_OK && count == lines);
    CHECK(begins(buffer, background));
    CHECK(etagere_bucketed_picture_part(&atlas, part_of(4), buffer, lines, &count) == ETAGERE_LENGTH && count > lines);
    CHECK(etagere_bucketed_picture_part(&atlas, part_of(4), buffer, 1024, &count) == ETAGERE_OK);
    CHECK(begins(buffer, part_begin) && begins(buffer + strlen(part_begin), background));
    CHECK(etagere_bucketed_picture_part(&atlas, part_of(0), buffer, 0, &count) == ETAGERE_OK && count == 0);
    CHECK(etagere_bucketed_delete(&atlas) == ETAGERE_OK);
}

static void cache_picture_parts(void) {
    EtagereCache cache = ETAGERE_NULL;
    EtagereOptions options = ETAGERE_DEFAULT_OPTIONS;
    uint8_t buffer[1024];
    size_t lines = strlen(background) + strlen(free_item), count = 7;

    CHECK(etagere_cache_picture_lines(&cache, buffer, 1024, &count) == ETAGERE_NULL_HANDLE && count == 7);
    CHECK(etagere_cache_picture_part(&cache, part_of(4), buffer, 1024, &count) == ETAGERE_NULL_HANDLE && count == 7);
    CHECK(etagere_cache_picture_length(&cache, &count) == ETAGERE_NULL_HANDLE && count == 7);
    CHECK(etagere_cache_picture(&cache, buffer, 1024, &count) == ETAGERE_NULL_HANDLE && count == 7);
    CHECK(etagere_cache_new(&cache, size2(8, 8), &options, 1) == ETAGERE_OK);
    CHECK(etagere_cache_picture(&cache, buffer, lines, &count) == ETAGERE_LENGTH && count == 7);
    CHECK(etagere_cache_picture_lines(&cache, buffer, lines - 1, &count) == ETAGERE_LENGTH && count == lines);
    CHECK(etagere_cache_picture_lines(&cache, buffer, 1024, &count) == ETAGERE_OK && count == lines);
    CHECK(begins(buffer, background) && begins(buffer + strlen(background), free_item));
    CHECK(etagere_cache_picture_part(&cache, part_of(4), buffer, lines, &count) == ETAGERE_LENGTH && count > lines);
    CHECK(etagere_cache_picture_part(&cache, part_of(4), buffer, 1024, &count) == ETAGERE_OK);
    CHECK(begins(buffer, part_begin) && begins(buffer + strlen(part_begin), background));
    CHECK(etagere_cache_picture_part(&cache, part_of(0), buffer, 0, &count) == ETAGERE_OK && count == 0);
    CHECK(etagere_cache_delete(&cache) == ETAGERE_OK);
}

static void null_buckets(void) {
    EtagereBucketed atlas = ETAGERE_NULL, copy = ETAGERE_NULL;
    EtagereSize size = size2(3, 3);
    EtagereAllocation none = nothing();
    uint32_t number = 3;
    int32_t space = 3;
    size_t count = 7;
    uint8_t buffer[8];

    CHECK(etagere_bucketed_deallocate(&atlas, 0) == ETAGERE_NULL_HANDLE);
    CHECK(etagere_bucketed_clear(&atlas) == ETAGERE_NULL_HANDLE);
    CHECK(etagere_bucketed_size(&atlas, &size) == ETAGERE_NULL_HANDLE && size.width == 3);
    CHECK(etagere_bucketed_is_empty(&atlas, &number) == ETAGERE_NULL_HANDLE && number == 3);
    CHECK(etagere_bucketed_allocated_space(&atlas, &space) == ETAGERE_NULL_HANDLE && space == 3);
    CHECK(etagere_bucketed_free_space(&atlas, &space) == ETAGERE_NULL_HANDLE && space == 3);
    CHECK(etagere_bucketed_grow(&atlas, size2(9, 9)) == ETAGERE_NULL_HANDLE);
    CHECK(etagere_bucketed_clone(&atlas, &copy) == ETAGERE_NULL_HANDLE && copy.state == NULL);
    CHECK(etagere_bucketed_allocate_many(&atlas, &size, 1, &none, 1, &count) == ETAGERE_NULL_HANDLE && count == 7);
    CHECK(etagere_bucketed_deallocate_many(&atlas, &number, 1, &count) == ETAGERE_NULL_HANDLE && count == 7);
    CHECK(etagere_bucketed_picture_length(&atlas, &count) == ETAGERE_NULL_HANDLE && count == 7);
    CHECK(etagere_bucketed_picture(&atlas, buffer, 8, &count) == ETAGERE_NULL_HANDLE && count == 7);
    CHECK(is_nothing(none));
}

static void buckets_that_cannot_be_made(void) {
    EtagereBucketed atlas = ETAGERE_NULL;
    EtagereOptions options = ETAGERE_DEFAULT_OPTIONS;

    CHECK(etagere_bucketed_new(&atlas, size2(65534, 65534), &options) == ETAGERE_OPTIONS_AREA);
    options.alignment.height = 0;
    CHECK(etagere_bucketed_new(&atlas, size2(10, 10), &options) == ETAGERE_OPTIONS_ALIGNMENT);
    options.alignment.height = 1;
    options.num_columns = 0;
    CHECK(etagere_bucketed_new(&atlas, size2(10, 10), &options) == ETAGERE_OPTIONS_COLUMNS);
    options.num_columns = 11;
    CHECK(etagere_bucketed_new(&atlas, size2(10, 10), &options) == ETAGERE_OPTIONS_COLUMN_TOO_NARROW);
    CHECK(atlas.state == NULL);
}

static void bucket_batches(void) {
    EtagereBucketed atlas = ETAGERE_NULL;
    EtagereOptions options = ETAGERE_DEFAULT_OPTIONS;
    EtagereSize sizes[2];
    EtagereAllocation given[2];
    uint32_t ids[2];
    size_t count = 7;

    sizes[0] = size2(8, 8);
    sizes[1] = size2(9, 8);
    CHECK(etagere_bucketed_new(&atlas, size2(8, 8), &options) == ETAGERE_OK);
    CHECK(etagere_bucketed_allocate_many(&atlas, sizes, 2, given, 1, &count) == ETAGERE_LENGTH && count == 7);
    CHECK(etagere_bucketed_allocate_many(&atlas, sizes, 2, given, 2, &count) == ETAGERE_NO_ROOM && count == 1);
    ids[0] = ids[1] = given[0].id;
    CHECK(etagere_bucketed_deallocate_many(&atlas, ids, 2, &count) == ETAGERE_UNKNOWN_ID && count == 1);
    CHECK(etagere_bucketed_delete(&atlas) == ETAGERE_OK);
}

static void cache_looked_at(void) {
    EtagereCache cache = ETAGERE_NULL;
    EtagereOptions options = ETAGERE_DEFAULT_OPTIONS;
    EtagereRectangle rectangle;
    EtagereEntry entries[3];
    uint64_t evicted[2] = { 9, 9 };
    size_t count = 7;

    memset(entries, 0x5a, sizeof entries);
    CHECK(etagere_cache_new(&cache, size2(32, 32), &options, 3) == ETAGERE_OK);
    CHECK(etagere_cache_place(&cache, 1, size2(32, 8), &rectangle, evicted, 2, &count) == ETAGERE_OK);
    CHECK(etagere_cache_place(&cache, 2, size2(32, 8), &rectangle, evicted, 2, &count) == ETAGERE_OK);
    CHECK(etagere_cache_peek(&cache, 1, &rectangle) == ETAGERE_OK && lies(rectangle, 0, 0, 32, 8));
    CHECK(etagere_cache_peek(&cache, 7, &rectangle) == ETAGERE_UNKNOWN_KEY && lies(rectangle, 0, 0, 32, 8));
    CHECK(etagere_cache_entries(&cache, entries, 1, &count) == ETAGERE_LENGTH && count == 2);
    CHECK(entries[0].key == entries[2].key);
    CHECK(etagere_cache_entries(&cache, entries, 3, &count) == ETAGERE_OK && count == 2);
    CHECK(entries[0].key == 2 && lies(entries[0].rectangle, 0, 8, 32, 16));
    CHECK(entries[1].key == 1 && lies(entries[1].rectangle, 0, 0, 32, 8));
    CHECK(etagere_cache_set_capacity(&cache, 0, evicted, 2, &count) == ETAGERE_LENGTH);
    CHECK(etagere_cache_set_capacity(&cache, 1, evicted, 1, &count) == ETAGERE_LENGTH && count == 2);
    CHECK(etagere_cache_set_capacity(&cache, 1, evicted, 2, &count) == ETAGERE_OK && count == 1);
    CHECK(evicted[0] == 1 && evicted[1] == 9);
    CHECK(etagere_cache_entries(&cache, entries, 3, &count) == ETAGERE_OK && count == 1 && entries[0].key == 2);
    CHECK(etagere_cache_delete(&cache) == ETAGERE_OK);
}

static void cache_frames(void) {
    EtagereCache cache = ETAGERE_NULL;
    EtagereOptions options = ETAGERE_DEFAULT_OPTIONS;
    EtagereRectangle rectangle;
    uint64_t key, evicted[3] = { 9, 9, 9 };
    size_t count, length;

    CHECK(etagere_cache_begin_frame(&cache) == ETAGERE_NULL_HANDLE);
    CHECK(etagere_cache_new(&cache, size2(32, 32), &options, 3) == ETAGERE_OK);
    for (key = 1; key <= 3; key += 1) {
        CHECK(etagere_cache_place(&cache, key, size2(32, 8), &rectangle, evicted, 3, &count) == ETAGERE_OK);
    }
    CHECK(etagere_cache_used_in_frame(&cache, &length) == ETAGERE_OK && length == 0);
    CHECK(etagere_cache_begin_frame(&cache) == ETAGERE_OK);
    CHECK(etagere_cache_get(&cache, 1, &rectangle) == ETAGERE_OK);
    CHECK(etagere_cache_used_in_frame(&cache, &length) == ETAGERE_OK && length == 1);
    CHECK(etagere_cache_place(&cache, 4, size2(32, 8), &rectangle, evicted, 3, &count) == ETAGERE_OK);
    CHECK(count == 1 && evicted[0] == 2 && lies(rectangle, 0, 8, 32, 16));
    CHECK(etagere_cache_used_in_frame(&cache, &length) == ETAGERE_OK && length == 2);
    CHECK(etagere_cache_place(&cache, 5, size2(32, 32), &rectangle, evicted, 3, &count) == ETAGERE_CACHE_FRAME_FULL);
    CHECK(count == 1 && evicted[0] == 2 && lies(rectangle, 0, 8, 32, 16));
    CHECK(etagere_cache_len(&cache, &length) == ETAGERE_OK && length == 3);
    CHECK(etagere_cache_begin_frame(&cache) == ETAGERE_OK);
    CHECK(etagere_cache_place(&cache, 5, size2(32, 32), &rectangle, evicted, 3, &count) == ETAGERE_OK);
    CHECK(count == 3 && evicted[0] == 3 && evicted[1] == 1 && evicted[2] == 4);
    CHECK(etagere_cache_delete(&cache) == ETAGERE_OK);
}

/* 65535 columns have as many items, so a grow that needs one more is refused. */
static void cache_grown(void) {
    EtagereCache cache = ETAGERE_NULL;
    EtagereOptions options = ETAGERE_DEFAULT_OPTIONS;
    EtagereRectangle rectangle;
    EtagereSize size;
    uint64_t evicted[1];
    size_t count;

    options.num_columns = 65535;
    CHECK(etagere_cache_new(&cache, size2(65535, 100), &options, 1) == ETAGERE_OK);
    CHECK(etagere_cache_place(&cache, 1, size2(1, 92), &rectangle, evicted, 1, &count) == ETAGERE_OK);
    CHECK(lies(rectangle, 0, 0, 1, 100));
    CHECK(etagere_cache_grow(&cache, size2(0, 100)) == ETAGERE_GROW_SIZE);
    CHECK(etagere_cache_grow(&cache, size2(65535, 99)) == ETAGERE_GROW_SMALLER);
    CHECK(etagere_cache_grow(&cache, size2(65535, 65535)) == ETAGERE_GROW_AREA);
    CHECK(etagere_cache_grow(&cache, size2(65535, 200)) == ETAGERE_GROW_RECORDS);
    CHECK(etagere_cache_size(&cache, &size) == ETAGERE_OK && size.width == 65535 && size.height == 100);
    CHECK(etagere_cache_delete(&cache) == ETAGERE_OK);

    options.num_columns = 1;
    CHECK(etagere_cache_new(&cache, size2(32, 32), &options, 1) == ETAGERE_OK);
    CHECK(etagere_cache_place(&cache, 1, size2(32, 32), &rectangle, evicted, 1, &count) == ETAGERE_OK);
    CHECK(etagere_cache_grow(&cache, size2(64, 48)) == ETAGERE_OK);
    CHECK(etagere_cache_peek(&cache, 1, &rectangle) == ETAGERE_OK && lies(rectangle, 0, 0, 32, 32));
    CHECK(etagere_cache_size(&cache, &size) == ETAGERE_OK && size.width == 64 && size.height == 48);
    CHECK(etagere_cache_delete(&cache) == ETAGERE_OK);
}

static void null_cache(void) {
    EtagereCache cache = ETAGERE_NULL;
    EtagereRectangle rectangle = nothing().rectangle;
    EtagereEntry entries[1];
    uint64_t evicted[1];
    EtagereSize size = size2(3, 3);
    uint32_t number = 3;
    int32_t space = 3;
    size_t count = 7;

    CHECK(etagere_cache_get(&cache, 1, &rectangle) == ETAGERE_NULL_HANDLE);
    CHECK(etagere_cache_remove(&cache, 1, &rectangle) == ETAGERE_NULL_HANDLE);
    CHECK(etagere_cache_peek(&cache, 1, &rectangle) == ETAGERE_NULL_HANDLE);
    CHECK(etagere_cache_entries(&cache, entries, 1, &count) == ETAGERE_NULL_HANDLE && count == 7);
    CHECK(etagere_cache_grow(&cache, size2(9, 9)) == ETAGERE_NULL_HANDLE);
    CHECK(etagere_cache_set_capacity(&cache, 1, evicted, 1, &count) == ETAGERE_NULL_HANDLE && count == 7);
    CHECK(etagere_cache_clear(&cache) == ETAGERE_NULL_HANDLE);
    CHECK(etagere_cache_len(&cache, &count) == ETAGERE_NULL_HANDLE && count == 7);
    CHECK(etagere_cache_is_empty(&cache, &number) == ETAGERE_NULL_HANDLE && number == 3);
    CHECK(etagere_cache_capacity(&cache, &count) == ETAGERE_NULL_HANDLE && count == 7);
    CHECK(etagere_cache_used_in_frame(&cache, &count) == ETAGERE_NULL_HANDLE && count == 7);
    CHECK(etagere_cache_size(&cache, &size) == ETAGERE_NULL_HANDLE && size.width == 3);
    CHECK(etagere_cache_allocated_space(&cache, &space) == ETAGERE_NULL_HANDLE && space == 3);
    CHECK(etagere_cache_free_space(&cache, &space) == ETAGERE_NULL_HANDLE && space == 3);
}

static void cache_that_cannot_be_made(void) {
    EtagereCache cache = ETAGERE_NULL;
    EtagereOptions options = ETAGERE_DEFAULT_OPTIONS;

    CHECK(etagere_cache_new(&cache, size2(65535, 65535), &options, 1) == ETAGERE_OPTIONS_AREA);
    options.alignment.width = -1;
    CHECK(etagere_cache_new(&cache, size2(10, 10), &options, 1) == ETAGERE_OPTIONS_ALIGNMENT);
    options.alignment.width = 1;
    options.num_columns = 0;
    CHECK(etagere_cache_new(&cache, size2(10, 10), &options, 1) == ETAGERE_OPTIONS_COLUMNS);
    options.num_columns = 11;
    CHECK(etagere_cache_new(&cache, size2(10, 10), &options, 1) == ETAGERE_OPTIONS_COLUMN_TOO_NARROW);
    CHECK(cache.state == NULL);
}

int main(void) {
    shelf_atlas();
    refusals_of_shelves();
    refusals_of_buckets();
    refusal_without_records();
    refusal_without_buckets();
    refusal_without_items();
    atlas_that_cannot_be_made();
    grow_without_records();
    upright_shelves();
    copies();
    null_atlas();
    batches();
    listing();
    pictures();
    shelf_picture_parts();
    buckets();
    bucketed_picture_parts();
    null_buckets();
    buckets_that_cannot_be_made();
    bucket_batches();
    glyph_cache();
    cache_looked_at();
    cache_frames();
    cache_grown();
    cache_picture_parts();
    null_cache();
    cache_that_cannot_be_made();
    if (failures > 0) {
        return 1;
    }
    puts("all calls answer as the rules say");
    return 0;
}
