/* Atlases and caches saved as JSON text and made from it, also compiled as C++: what texts say, and the rule that each
 * breaks. */

#include <stdio.h>
#include <string.h>

#include "checking.h"
#include "etagere.h"

enum { MOST_TEXT = 600000, TOO_MANY_BUCKETS = 4096 };

/* A new atlas of 10x10. */
static const char new_atlas[] =
    "{\"atlas\":{\"width\":10,\"height\":10,\"alignment_width\":1,\"alignment_height\":1,\"vertical_shelves\":false,"
    "\"shelf_width\":10,\"first_shelf\":0,\"free_items\":65535,\"free_shelves\":65535,\"allocated_space\":0,"
    "\"shelves\":[{\"x\":0,\"y\":0,\"height\":10,\"prev\":65535,\"next\":65535,\"first_item\":0,"
    "\"first_unallocated\":0,\"is_empty\":true}],"
    "\"items\":[{\"x\":0,\"width\":10,\"prev\":65535,\"next\":65535,\"prev_unallocated\":65535,"
    "\"next_unallocated\":65535,\"shelf\":0,\"allocated\":false,\"generation\":1}]}}";

/* A new bucketed atlas of 8x8. */
static const char new_buckets[] =
    "{\"bucketed\":{\"width\":8,\"height\":8,\"alignment_width\":1,\"alignment_height\":1,\"vertical_shelves\":false,"
    "\"column_width\":8,\"num_columns\":1,\"current_column\":0,\"available_height\":8,"
    "\"first_unallocated_bucket\":65535,\"allocated_space\":0,\"shelves\":[],\"buckets\":[]}}";

/* An atlas of 20x8 with one allocation of 8x8, written with spaces, in another order, and with a field too many. */
static const char given[] =
    "{ \"atlas\" : {\"note\":[1.5,null], \"height\":8,\"width\":20,\"alignment_width\":1,\"alignment_height\":1,"
    "\"vertical_shelves\":false,\"shelf_width\":20,\"first_shelf\":0,\"free_items\":65535,\"free_shelves\":65535,"
    "\"allocated_space\":64,\n"
    "\"shelves\":[{\"x\":0,\"y\":0,\"height\":8,\"prev\":65535,\"next\":65535,\"first_item\":0,"
    "\"first_unallocated\":1,\"is_empty\":false}],\n"
    "\"items\":[{\"x\":0,\"width\":8,\"prev\":65535,\"next\":1,\"prev_unallocated\":7,\"next_unallocated\":7,"
    "\"shelf\":0,\"allocated\":true,\"generation\":1},\n"
    "{\"x\":8,\"width\":12,\"prev\":0,\"next\":65535,\"prev_unallocated\":65535,\"next_unallocated\":65535,"
    "\"shelf\":0,\"allocated\":false,\"generation\":1}]}}\n";

/* A bucketed atlas of 16x16 with two allocations of 16x8. */
static const char filled[] =
    "{\"bucketed\":{\"width\":16,\"height\":16,\"alignment_width\":1,\"alignment_height\":1,"
    "\"vertical_shelves\":false,\"column_width\":16,\"num_columns\":1,\"current_column\":0,\"available_height\":0,"
    "\"first_unallocated_bucket\":65535,\"allocated_space\":256,"
    "\"shelves\":[{\"x\":0,\"y\":0,\"height\":8,\"bucket_width\":16,\"first_bucket\":0},"
    "{\"x\":0,\"y\":8,\"height\":8,\"bucket_width\":16,\"first_bucket\":1}],"
    "\"buckets\":[{\"x\":0,\"free_space\":0,\"next\":65535,\"refcount\":1,\"item_count\":1,\"shelf\":0,"
    "\"generation\":0},"
    "{\"x\":0,\"free_space\":0,\"next\":65535,\"refcount\":1,\"item_count\":1,\"shelf\":1,\"generation\":0}]}}";

static const char bucket[] =
    "{\"x\":0,\"free_space\":16,\"next\":65535,\"refcount\":1,\"item_count\":1,\"shelf\":0,\"generation\":0}";

/* A cache of 10x10 for two keys, with the greatest one. */
static const char one_key[] =
    "{\"capacity\":2,\"atlas\":{\"width\":10,\"height\":10,\"alignment_width\":1,\"alignment_height\":1,"
    "\"vertical_shelves\":false,\"shelf_width\":10,\"first_shelf\":0,\"free_items\":65535,\"free_shelves\":65535,"
    "\"allocated_space\":100,"
    "\"shelves\":[{\"x\":0,\"y\":0,\"height\":10,\"prev\":65535,\"next\":65535,\"first_item\":0,"
    "\"first_unallocated\":65535,\"is_empty\":false}],"
    "\"items\":[{\"x\":0,\"width\":10,\"prev\":65535,\"next\":65535,\"prev_unallocated\":65535,"
    "\"next_unallocated\":65535,\"shelf\":0,\"allocated\":true,\"generation\":1}]},"
    "\"keys\":[{\"key\":18446744073709551615,\"id\":65536}]}";

/* The text of a call, and its length. */
static char text[MOST_TEXT];
static size_t length;

static const uint8_t *bytes(void) {
    return (const uint8_t *)text;
}

static void take(const char *other) {
    length = strlen(other);
    memcpy(text, other, length + 1);
}

/* Puts `to` where `from` stands first. */
static void change(const char *from, const char *to) {
    char *at = strstr(text, from);
    CHECK(at != NULL);
    if (at != NULL) {
        memmove(at + strlen(to), at + strlen(from), strlen(at + strlen(from)) + 1);
        memcpy(at, to, strlen(to));
        length = strlen(text);
    }
}

static void take_changed(const char *other, const char *from, const char *to) {
    take(other);
    change(from, to);
}

static void shelf_atlas(void) {
    EtagereAtlas atlas = ETAGERE_NULL, other = ETAGERE_NULL;
    EtagereOptions options = ETAGERE_DEFAULT_OPTIONS;
    EtagereRectangle rectangle;
    EtagereAllocation first, second;
    uint8_t buffer[1024];
    size_t count = 7;

    CHECK(etagere_atlas_snapshot(&atlas, buffer, 1024, &count) == ETAGERE_NULL_HANDLE && count == 7);
    CHECK(etagere_atlas_new(&atlas, size2(10, 10), &options) == ETAGERE_OK);
    memset(buffer, '#', sizeof buffer);
    CHECK(etagere_atlas_snapshot(&atlas, buffer, strlen(new_atlas) - 1, &count) == ETAGERE_LENGTH);
    CHECK(count == strlen(new_atlas) && buffer[0] == '#');
    CHECK(etagere_atlas_snapshot(&atlas, buffer, 1024, &count) == ETAGERE_OK && count == strlen(new_atlas));
    CHECK(memcmp(buffer, new_atlas, count) == 0 && buffer[count] == '#');
    CHECK(etagere_atlas_restore(&atlas, buffer, count) == ETAGERE_HANDLE_IN_USE);
    CHECK(etagere_atlas_delete(&atlas) == ETAGERE_OK);

    take(given);
    CHECK(etagere_atlas_restore(&atlas, bytes(), length) == ETAGERE_OK);
    CHECK(etagere_atlas_get(&atlas, 65536, &rectangle) == ETAGERE_OK && lies(rectangle, 0, 0, 8, 8));
    CHECK(etagere_atlas_snapshot(&atlas, buffer, 1024, &count) == ETAGERE_OK);
    CHECK(etagere_atlas_restore(&other, buffer, count) == ETAGERE_OK);
    CHECK(etagere_atlas_allocate(&atlas, size2(9, 8), &first) == ETAGERE_OK && lies(first.rectangle, 8, 0, 20, 8));
    CHECK(etagere_atlas_allocate(&other, size2(9, 8), &second) == ETAGERE_OK && second.id == first.id);
    CHECK(etagere_atlas_delete(&atlas) == ETAGERE_OK && etagere_atlas_delete(&other) == ETAGERE_OK);
}

/* The statuses of texts from which no atlas is made, which leave the handle null. */
static void unreadable_texts(void) {
    EtagereAtlas atlas = ETAGERE_NULL;
    EtagereBucketed buckets = ETAGERE_NULL;

    take("");
    CHECK(etagere_atlas_restore(&atlas, bytes(), length) == ETAGERE_UNREADABLE);
    CHECK(etagere_bucketed_restore(&buckets, bytes(), length) == ETAGERE_UNREADABLE);
    take(new_buckets);
    CHECK(etagere_atlas_restore(&atlas, bytes(), length) == ETAGERE_UNREADABLE);
    take(given);
    CHECK(etagere_bucketed_restore(&buckets, bytes(), length) == ETAGERE_UNREADABLE);
    CHECK(etagere_atlas_restore(&atlas, bytes(), length - 3) == ETAGERE_UNREADABLE);
    take_changed(given, "\"note\":[1.5,null], ", "\"note\":\"\xff\",");
    CHECK(etagere_atlas_restore(&atlas, bytes(), length) == ETAGERE_UNREADABLE);
    take_changed(given, "\"generation\":1}]}}\n", "\"generation\":1}]}} 1");
    CHECK(etagere_atlas_restore(&atlas, bytes(), length) == ETAGERE_UNREADABLE);
    take_changed(given, "\"width\":12", "\"width\":65536");
    CHECK(etagere_atlas_restore(&atlas, bytes(), length) == ETAGERE_UNREADABLE);
    take_changed(given, "\"width\":12,", "");
    CHECK(etagere_atlas_restore(&atlas, bytes(), length) == ETAGERE_UNREADABLE);
    take_changed(given, "\"width\":12", "\"width\":12,\"width\":12");
    CHECK(etagere_atlas_restore(&atlas, bytes(), length) == ETAGERE_UNREADABLE);
    CHECK(atlas.state == NULL && buckets.state == NULL);
}

/* Makes the text of the given atlas one of a cache for four keys, whose key 7 has the allocation. */
static void take_as_cache(void) {
    change("{ ", "{ \"keys\":[{\"key\":7,\"id\":65536}],\"capacity\":4,");
}

static void broken_shelves(void) {
    EtagereAtlas atlas = ETAGERE_NULL;
    EtagereCache cache = ETAGERE_NULL;

    take_changed(given, "\"width\":20", "\"width\":0");
    CHECK(etagere_atlas_restore(&atlas, bytes(), length) == ETAGERE_RESTORE_FRAME);
    take_as_cache();
    CHECK(etagere_cache_restore(&cache, bytes(), length) == ETAGERE_RESTORE_FRAME);
    take_changed(given,
                 "{\"x\":0,\"y\":0,\"height\":8,\"prev\":65535,\"next\":65535,\"first_item\":0,"
                 "\"first_unallocated\":1,\"is_empty\":false}",
                 "");
    CHECK(etagere_atlas_restore(&atlas, bytes(), length) == ETAGERE_RESTORE_COUNTS);
    take_as_cache();
    CHECK(etagere_cache_restore(&cache, bytes(), length) == ETAGERE_RESTORE_COUNTS);
    take_changed(given, "\"prev\":0", "\"prev\":65535");
    CHECK(etagere_atlas_restore(&atlas, bytes(), length) == ETAGERE_RESTORE_LINK);
    take_as_cache();
    CHECK(etagere_cache_restore(&cache, bytes(), length) == ETAGERE_RESTORE_LINK);
    take_changed(given, "\"y\":0", "\"y\":1");
    CHECK(etagere_atlas_restore(&atlas, bytes(), length) == ETAGERE_RESTORE_SHELVES);
    take_as_cache();
    CHECK(etagere_cache_restore(&cache, bytes(), length) == ETAGERE_RESTORE_SHELVES);
    take_changed(given, "\"width\":12", "\"width\":11");
    CHECK(etagere_atlas_restore(&atlas, bytes(), length) == ETAGERE_RESTORE_RUNS);
    take_as_cache();
    CHECK(etagere_cache_restore(&cache, bytes(), length) == ETAGERE_RESTORE_RUNS);
    take_changed(given, "\"allocated\":true", "\"allocated\":false");
    change("\"allocated_space\":64", "\"allocated_space\":0");
    change("\"first_unallocated\":1", "\"first_unallocated\":0");
    change("\"prev_unallocated\":65535", "\"prev_unallocated\":0");
    change("\"prev_unallocated\":7,\"next_unallocated\":7", "\"prev_unallocated\":65535,\"next_unallocated\":1");
    CHECK(etagere_atlas_restore(&atlas, bytes(), length) == ETAGERE_RESTORE_NEIGHBOURS);
    take_as_cache();
    CHECK(etagere_cache_restore(&cache, bytes(), length) == ETAGERE_RESTORE_NEIGHBOURS);
    take_changed(given, "\"next_unallocated\":65535", "\"next_unallocated\":1");
    CHECK(etagere_atlas_restore(&atlas, bytes(), length) == ETAGERE_RESTORE_FREE_LIST);
    take_as_cache();
    CHECK(etagere_cache_restore(&cache, bytes(), length) == ETAGERE_RESTORE_FREE_LIST);
    take_changed(given, "\"free_items\":65535", "\"free_items\":1");
    CHECK(etagere_atlas_restore(&atlas, bytes(), length) == ETAGERE_RESTORE_SHARING);
    take_as_cache();
    CHECK(etagere_cache_restore(&cache, bytes(), length) == ETAGERE_RESTORE_SHARING);
    take_changed(given, "\"free_items\":65535", "\"free_items\":2");
    change("\"generation\":1}]",
           "\"generation\":1},{\"x\":0,\"width\":1,\"prev\":65535,\"next\":65535,\"prev_unallocated\":65535,"
           "\"next_unallocated\":65535,\"shelf\":0,\"allocated\":true,\"generation\":1}]");
    CHECK(etagere_atlas_restore(&atlas, bytes(), length) == ETAGERE_RESTORE_UNUSED);
    take_as_cache();
    CHECK(etagere_cache_restore(&cache, bytes(), length) == ETAGERE_RESTORE_UNUSED);
    take_changed(given, "\"allocated_space\":64", "\"allocated_space\":65");
    CHECK(etagere_atlas_restore(&atlas, bytes(), length) == ETAGERE_RESTORE_SPACE);
    take_as_cache();
    CHECK(etagere_cache_restore(&cache, bytes(), length) == ETAGERE_RESTORE_SPACE);
    CHECK(atlas.state == NULL && cache.state == NULL);
}

static void bucketed_atlas(void) {
    EtagereBucketed atlas = ETAGERE_NULL, other = ETAGERE_NULL;
    EtagereOptions options = ETAGERE_DEFAULT_OPTIONS;
    EtagereAllocation first, second;
    uint8_t buffer[1024];
    size_t count = 7;

    CHECK(etagere_bucketed_snapshot(&atlas, buffer, 1024, &count) == ETAGERE_NULL_HANDLE && count == 7);
    CHECK(etagere_bucketed_new(&atlas, size2(8, 8), &options) == ETAGERE_OK);
    memset(buffer, '#', sizeof buffer);
    CHECK(etagere_bucketed_snapshot(&atlas, buffer, strlen(new_buckets) - 1, &count) == ETAGERE_LENGTH);
    CHECK(count == strlen(new_buckets) && buffer[0] == '#');
    CHECK(etagere_bucketed_snapshot(&atlas, buffer, 1024, &count) == ETAGERE_OK && count == strlen(new_buckets));
    CHECK(memcmp(buffer, new_buckets, count) == 0 && buffer[count] == '#');
    CHECK(etagere_bucketed_restore(&atlas, buffer, count) == ETAGERE_HANDLE_IN_USE);
    CHECK(etagere_bucketed_delete(&atlas) == ETAGERE_OK);

    take(filled);
    CHECK(etagere_bucketed_restore(&atlas, bytes(), length) == ETAGERE_OK);
    CHECK(etagere_bucketed_snapshot(&atlas, buffer, 1024, &count) == ETAGERE_OK);
    CHECK(count == length && memcmp(buffer, text, count) == 0);
    CHECK(etagere_bucketed_restore(&other, buffer, count) == ETAGERE_OK);
    CHECK(etagere_bucketed_deallocate(&atlas, 4097) == ETAGERE_OK);
    CHECK(etagere_bucketed_deallocate(&other, 4097) == ETAGERE_OK);
    CHECK(etagere_bucketed_allocate(&atlas, size2(9, 8), &first) == ETAGERE_OK && lies(first.rectangle, 0, 8, 9, 16));
    CHECK(etagere_bucketed_allocate(&other, size2(9, 8), &second) == ETAGERE_OK && second.id == first.id);
    CHECK(etagere_bucketed_delete(&atlas) == ETAGERE_OK && etagere_bucketed_delete(&other) == ETAGERE_OK);
}

static void glyph_cache(void) {
    EtagereCache cache = ETAGERE_NULL, other = ETAGERE_NULL;
    EtagereOptions options = ETAGERE_DEFAULT_OPTIONS;
    EtagereRectangle rectangle;
    uint64_t evicted[2];
    uint8_t buffer[1024];
    size_t count = 7;

    CHECK(etagere_cache_snapshot(&cache, buffer, 1024, &count) == ETAGERE_NULL_HANDLE && count == 7);
    CHECK(etagere_cache_new(&cache, size2(10, 10), &options, 2) == ETAGERE_OK);
    CHECK(etagere_cache_place(&cache, UINT64_MAX, size2(10, 10), &rectangle, evicted, 2, &count) == ETAGERE_OK);
    memset(buffer, '#', sizeof buffer);
    CHECK(etagere_cache_snapshot(&cache, buffer, strlen(one_key) - 1, &count) == ETAGERE_LENGTH);
    CHECK(count == strlen(one_key) && buffer[0] == '#');
    CHECK(etagere_cache_snapshot(&cache, buffer, 1024, &count) == ETAGERE_OK && count == strlen(one_key));
    CHECK(memcmp(buffer, one_key, count) == 0 && buffer[count] == '#');
    CHECK(etagere_cache_restore(&cache, buffer, count) == ETAGERE_HANDLE_IN_USE);
    CHECK(etagere_cache_restore(&other, buffer, count) == ETAGERE_OK);
    CHECK(etagere_cache_peek(&other, UINT64_MAX, &rectangle) == ETAGERE_OK && lies(rectangle, 0, 0, 10, 10));
    CHECK(etagere_cache_capacity(&other, &count) == ETAGERE_OK && count == 2);
    CHECK(etagere_cache_place(&other, 1, size2(10, 10), &rectangle, evicted, 2, &count) == ETAGERE_OK && count == 1);
    CHECK(evicted[0] == UINT64_MAX);
    CHECK(etagere_cache_delete(&cache) == ETAGERE_OK && etagere_cache_delete(&other) == ETAGERE_OK);

    take(given);
    take_as_cache();
    CHECK(etagere_cache_restore(&cache, bytes(), length) == ETAGERE_OK);
    CHECK(etagere_cache_get(&cache, 7, &rectangle) == ETAGERE_OK && lies(rectangle, 0, 0, 8, 8));
    CHECK(etagere_cache_delete(&cache) == ETAGERE_OK);
}

/* The text of a cache of 32x32 for two keys, 1 and 2. */
static void take_two_keys(void) {
    EtagereCache cache = ETAGERE_NULL;
    EtagereOptions options = ETAGERE_DEFAULT_OPTIONS;
    EtagereRectangle rectangle;
    uint64_t key, evicted[2];
    size_t count;

    CHECK(etagere_cache_new(&cache, size2(32, 32), &options, 2) == ETAGERE_OK);
    for (key = 1; key <= 2; key += 1) {
        CHECK(etagere_cache_place(&cache, key, size2(32, 8), &rectangle, evicted, 2, &count) == ETAGERE_OK && count == 0);
    }
    CHECK(etagere_cache_snapshot(&cache, (uint8_t *)text, MOST_TEXT - 1, &length) == ETAGERE_OK);
    text[length] = 0;
    CHECK(etagere_cache_delete(&cache) == ETAGERE_OK);
}

static void broken_caches(void) {
    EtagereCache cache = ETAGERE_NULL;

    take(new_atlas);
    CHECK(etagere_cache_restore(&cache, bytes(), length) == ETAGERE_UNREADABLE);
    take_changed(one_key, "18446744073709551615", "18446744073709551616");
    CHECK(etagere_cache_restore(&cache, bytes(), length) == ETAGERE_UNREADABLE);
    take_changed(one_key, "\"capacity\":2", "\"capacity\":0");
    CHECK(etagere_cache_restore(&cache, bytes(), length) == ETAGERE_CACHE_RESTORE_NO_CAPACITY);
    take_two_keys();
    change("\"capacity\":2", "\"capacity\":1");
    CHECK(etagere_cache_restore(&cache, bytes(), length) == ETAGERE_CACHE_RESTORE_TOO_MANY_KEYS);
    take_two_keys();
    change("\"key\":2", "\"key\":1");
    CHECK(etagere_cache_restore(&cache, bytes(), length) == ETAGERE_CACHE_RESTORE_KEY_TWICE);
    take_changed(one_key, "\"id\":65536", "\"id\":65537");
    CHECK(etagere_cache_restore(&cache, bytes(), length) == ETAGERE_CACHE_RESTORE_WRONG_ID);
    take_changed(one_key, "{\"key\":18446744073709551615,\"id\":65536}", "");
    CHECK(etagere_cache_restore(&cache, bytes(), length) == ETAGERE_CACHE_RESTORE_NO_KEY);
    CHECK(cache.state == NULL);
}

/* The text of an atlas with more buckets than there may be. */
static void take_too_many_buckets(void) {
    char *at;
    int i;
    take_changed(filled, "}]}}", "},");
    at = text + length;
    for (i = 0; i < TOO_MANY_BUCKETS; i += 1) {
        memcpy(at, bucket, sizeof bucket);
        at += strlen(bucket);
        *at = ',';
        at += 1;
    }
    memcpy(at - 1, "]}}", sizeof "]}}");
    length = strlen(text);
}

static void broken_buckets(void) {
    EtagereBucketed atlas = ETAGERE_NULL;

    take_changed(filled, "\"width\":16", "\"width\":0");
    CHECK(etagere_bucketed_restore(&atlas, bytes(), length) == ETAGERE_RESTORE_FRAME);
    take_too_many_buckets();
    CHECK(etagere_bucketed_restore(&atlas, bytes(), length) == ETAGERE_RESTORE_COUNTS);
    take_changed(filled, "\"shelf\":1", "\"shelf\":0");
    CHECK(etagere_bucketed_restore(&atlas, bytes(), length) == ETAGERE_RESTORE_LINK);
    take_changed(filled, "\"available_height\":0", "\"available_height\":8");
    CHECK(etagere_bucketed_restore(&atlas, bytes(), length) == ETAGERE_RESTORE_SHELVES);
    take_changed(filled, "\"refcount\":1", "\"refcount\":0");
    CHECK(etagere_bucketed_restore(&atlas, bytes(), length) == ETAGERE_RESTORE_RUNS);
    take_changed(filled, "\"allocated_space\":256", "\"allocated_space\":128");
    change("\"free_space\":0,\"next\":65535,\"refcount\":1,\"item_count\":1,\"shelf\":1",
           "\"free_space\":16,\"next\":65535,\"refcount\":0,\"item_count\":0,\"shelf\":1");
    CHECK(etagere_bucketed_restore(&atlas, bytes(), length) == ETAGERE_RESTORE_NEIGHBOURS);
    take_changed(filled, "\"next\":65535", "\"next\":0");
    CHECK(etagere_bucketed_restore(&atlas, bytes(), length) == ETAGERE_RESTORE_SHARING);
    take_changed(filled, "\"first_unallocated_bucket\":65535", "\"first_unallocated_bucket\":2");
    change("\"generation\":0}]",
           "\"generation\":0},{\"x\":0,\"free_space\":16,\"next\":65535,\"refcount\":1,\"item_count\":1,\"shelf\":0,"
           "\"generation\":0}]");
    CHECK(etagere_bucketed_restore(&atlas, bytes(), length) == ETAGERE_RESTORE_UNUSED);
    take_changed(filled, "\"allocated_space\":256", "\"allocated_space\":255");
    CHECK(etagere_bucketed_restore(&atlas, bytes(), length) == ETAGERE_RESTORE_SPACE);
    CHECK(atlas.state == NULL);
}

int main(void) {
    shelf_atlas();
    unreadable_texts();
    broken_shelves();
    glyph_cache();
    broken_caches();
    bucketed_atlas();
    broken_buckets();
    if (failures > 0) {
        return 1;
    }
    puts("all texts are restored or refused as the rules say");
    return 0;
}
