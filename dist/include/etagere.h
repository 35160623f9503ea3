/* etagere: a shelf-packing texture atlas allocator, to be called from C and C++.
 *
 * Three kinds of handles: EtagereAtlas (rectangles on shelves), EtagereBucketed (many small items that go at about the
 * same time) and EtagereCache (rectangles under keys, of which those used least recently are evicted). Lengths are
 * whole pixels; in a rectangle `max` is the first pixel past it.
 *
 * Handles. A handle is a struct of one pointer that the caller keeps. It begins as ETAGERE_NULL; `.._new`, `.._clone`
 * and `.._restore` fill a null one, and `.._delete` frees what it holds and makes it null again. It may be moved, never
 * used twice: after a copy only one of the two is used. Each other call answers ETAGERE_NULL_HANDLE of a null handle,
 * and changes nothing.
 *
 * Statuses. Each call answers a status. After any status but ETAGERE_OK nothing has changed and nothing was written to
 * what the caller passed, unless the comment of the function says so. The last two digits of a status from 100 on are
 * the number of the fault among those of its kind.
 *
 * What the caller owes, since no call can tell it:
 *   - A handle is ETAGERE_NULL, or was filled by a call and not deleted since, under this or another copy. Its pointer
 *     is never written or read.
 *   - No two calls at the same time share a handle; that includes calls that only read. A handle may go to another
 *     thread, ordered by a lock, a start or join of a thread, or an atomic. Different handles share nothing.
 *   - Each pointer that is passed points to what its type says, aligned, and isn't NULL, for a length of 0 too. A
 *     pointer with a length has as many in a row. What a call writes to overlaps nothing else that was passed.
 *   - malloc, realloc and free are of one allocator, and align a block to each power of two up to 16 that divides its
 *     size. No call is made from a signal handler, nor from the forked child of a process with threads.
 *
 * No call keeps a pointer that it was passed, prints, stops the program, or waits. */

#ifndef ETAGERE_H
#define ETAGERE_H

#include <stddef.h>
#include <stdint.h>

#ifdef __cplusplus
extern "C" {
#endif

/* The release that this header belongs to, as is its libetagere.a. */
#define ETAGERE_VERSION "0.9.33"

/* One of the numbers below. */
typedef uint32_t EtagereStatus;

enum {
    ETAGERE_OK = 0,
    /* The handle is null. */
    ETAGERE_NULL_HANDLE = 1,
    /* The handle that is to be filled isn't null. */
    ETAGERE_HANDLE_IN_USE = 2,
    /* There is no place for the size now. */
    ETAGERE_NO_ROOM = 3,
    /* A buffer is too short, or a capacity is 0. */
    ETAGERE_LENGTH = 4,
    /* The bytes aren't the text of what is saved of the kind, or memory ran out while they were read. */
    ETAGERE_UNREADABLE = 5,
    /* There was no memory. */
    ETAGERE_MEMORY = 6,
    /* The cache hasn't the key. */
    ETAGERE_UNKNOWN_KEY = 7,

    /* Why an atlas or a cache can't be made. The first that applies is answered, in this order. */
    /* A side is below 1, or above 65535 (of a bucketed atlas above 65534). */
    ETAGERE_OPTIONS_SIZE = 101,
    /* Width times height is above 2147483647. */
    ETAGERE_OPTIONS_AREA = 102,
    /* An alignment is below 1. */
    ETAGERE_OPTIONS_ALIGNMENT = 103,
    /* The number of columns is below 1. */
    ETAGERE_OPTIONS_COLUMNS = 104,
    /* A column, an equal share rounded down to the alignment, would be 0 wide. */
    ETAGERE_OPTIONS_COLUMN_TOO_NARROW = 105,
    /* There was no memory. */
    ETAGERE_OPTIONS_MEMORY = 106,

    /* Why an atlas can't grow to a size. The first that applies is answered, in this order. */
    /* A side is below 1 or above 65535. */
    ETAGERE_GROW_SIZE = 201,
    /* A side is below the present one. */
    ETAGERE_GROW_SMALLER = 202,
    /* Width times height is above 2147483647. */
    ETAGERE_GROW_AREA = 203,
    /* More records are needed than there can be, 65535 in use. */
    ETAGERE_GROW_RECORDS = 204,
    /* There was no memory. */
    ETAGERE_GROW_MEMORY = 205,

    /* Why a bucketed atlas can't grow to a size. The first that applies is answered, in this order. */
    /* A side is below 1 or above 65534. */
    ETAGERE_BUCKETED_GROW_SIZE = 301,
    /* A side is below the present one. */
    ETAGERE_BUCKETED_GROW_SMALLER = 302,
    /* Width times height is above 2147483647. */
    ETAGERE_BUCKETED_GROW_AREA = 303,
    /* There was no memory. */
    ETAGERE_BUCKETED_GROW_MEMORY = 304,

    /* Why a text isn't restored: a rule that its snapshot breaks. Where it breaks several, any of them is answered. */
    /* A side, the area, an alignment or the width of a column is out of its range. */
    ETAGERE_RESTORE_FRAME = 401,
    /* There are too few or too many records of a kind. */
    ETAGERE_RESTORE_COUNTS = 402,
    /* A link names no record, a link back another than the one before, or a record another shelf than its own. */
    ETAGERE_RESTORE_LINK = 403,
    /* The shelves don't stand column after column, from the column's begin on; those of a shelf atlas fill each. */
    ETAGERE_RESTORE_SHELVES = 404,
    /* The items of a shelf, or its buckets, don't fill it as they must. */
    ETAGERE_RESTORE_RUNS = 405,
    /* Two free items stand side by side, or two empty shelves of a column; the last shelf of buckets holds nothing. */
    ETAGERE_RESTORE_NEIGHBOURS = 406,
    /* The free list of a shelf hasn't each of its free items once. */
    ETAGERE_RESTORE_FREE_LIST = 407,
    /* A record is in no list or in two, or a list doesn't end. */
    ETAGERE_RESTORE_SHARING = 408,
    /* A record that became unused is marked as allocated. */
    ETAGERE_RESTORE_UNUSED = 409,
    /* The allocated space is not that of what is allocated. */
    ETAGERE_RESTORE_SPACE = 410,
    /* There was no memory. */
    ETAGERE_RESTORE_MEMORY = 411,
    /* There may be no key. */
    ETAGERE_CACHE_RESTORE_NO_CAPACITY = 412,
    /* There are more keys than there may be. */
    ETAGERE_CACHE_RESTORE_TOO_MANY_KEYS = 413,
    /* A key stands twice. */
    ETAGERE_CACHE_RESTORE_KEY_TWICE = 414,
    /* A key has an id under which nothing is allocated, or which another key has too. */
    ETAGERE_CACHE_RESTORE_WRONG_ID = 415,
    /* Something is allocated for no key. */
    ETAGERE_CACHE_RESTORE_NO_KEY = 416,

    /* Nothing is allocated under the id. */
    ETAGERE_UNKNOWN_ID = 501,

    /* Why a cache has no place for a key. */
    /* The key is new, and an empty atlas of the same size and options has no place for its size. */
    ETAGERE_CACHE_TOO_LARGE = 601,
    /* The key is new, and there was no memory. */
    ETAGERE_CACHE_MEMORY = 602,
    /* The key is new, and there would be no place though all keys went that weren't used in this frame. */
    ETAGERE_CACHE_FRAME_FULL = 603
};

/* Why a size has no place in an atlas of shelves: the first that holds is told, in this order. */
enum {
    /* A side of the size is below 1. */
    ETAGERE_REFUSAL_NOT_POSITIVE = 1,
    /* A side of the size is above 65535. */
    ETAGERE_REFUSAL_TOO_LONG = 2,
    /* The side along the shelves, rounded up to its alignment, is above the width of a column. */
    ETAGERE_REFUSAL_WIDER_THAN_COLUMN = 3,
    /* The side across the shelves, rounded up to its alignment, is above that of the atlas. */
    ETAGERE_REFUSAL_TALLER_THAN_ATLAS = 4,
    /* No shelf that is tall enough has a free item that is wide enough. */
    ETAGERE_REFUSAL_NO_ROOM = 5,
    /* A shelf has room, but the splits of the chosen place would make more than 65535 items. */
    ETAGERE_REFUSAL_NO_RECORDS = 6
};

/* Why a size has no place in a bucketed atlas: the first that holds is told, in this order. */
enum {
    /* A side of the size is below 1. */
    ETAGERE_BUCKETED_REFUSAL_NOT_POSITIVE = 1,
    /* A side of the size is above 65535. */
    ETAGERE_BUCKETED_REFUSAL_TOO_LONG = 2,
    /* The size, rounded up to the alignment, is wider along the shelves than a column. */
    ETAGERE_BUCKETED_REFUSAL_WIDER_THAN_COLUMN = 3,
    /* The size, rounded up to the alignment, is taller across the shelves than the atlas. */
    ETAGERE_BUCKETED_REFUSAL_TALLER_THAN_ATLAS = 4,
    /* No shelf that is tall enough has a bucket with the width left, and there is no space for a new shelf. */
    ETAGERE_BUCKETED_REFUSAL_NO_ROOM = 5,
    /* There is space for a new shelf, but too few of the 4095 buckets are left for it. */
    ETAGERE_BUCKETED_REFUSAL_NO_BUCKETS = 6,
    /* A bucket of a shelf that is tall enough has the width left, but has given 4095 items. */
    ETAGERE_BUCKETED_REFUSAL_ITEMS_USED_UP = 7
};

/* A place in pixels. */
typedef struct EtagerePoint {
    int32_t x;
    int32_t y;
} EtagerePoint;

/* Two sides in pixels. */
typedef struct EtagereSize {
    int32_t width;
    int32_t height;
} EtagereSize;

/* The pixels from `min` on, up to `max`, which is not part of it. */
typedef struct EtagereRectangle {
    EtagerePoint min;
    EtagerePoint max;
} EtagereRectangle;

/* A rectangle of an atlas, and the id by which it is given back. */
typedef struct EtagereAllocation {
    uint32_t id;
    EtagereRectangle rectangle;
} EtagereAllocation;

/* A key of a cache with its rectangle. */
typedef struct EtagereEntry {
    uint64_t key;
    EtagereRectangle rectangle;
} EtagereEntry;

/* Why a size has no place. Both are 0 where it has one. */
typedef struct EtagereRefusal {
    /* ETAGERE_REFUSAL_.., of a bucketed atlas ETAGERE_BUCKETED_REFUSAL_.. */
    uint32_t reason;
    /* Where the reason is .._NO_ROOM, how long the widest item along the shelves is that those which are tall enough
     * have room for, 0 where they have none; of any other reason 0. */
    uint32_t widest;
} EtagereRefusal;

/* How full an atlas of shelves is. */
typedef struct EtagereUsage {
    /* How many shelves there are, and how many of them are empty. */
    uint32_t shelves;
    uint32_t empty_shelves;
    /* How many items are allocated, how many are free, and how many more there can be, of 65535 in all. */
    uint32_t items;
    uint32_t free_items;
    uint32_t unused_records;
    /* As etagere_atlas_largest_free gives it. */
    EtagereSize largest_free;
} EtagereUsage;

/* How full a bucketed atlas is. */
typedef struct EtagereBucketedUsage {
    /* How many shelves there are, and how many of them hold nothing. */
    uint32_t shelves;
    uint32_t idle_shelves;
    /* How many buckets they have, and how many of these hold nothing. */
    uint32_t buckets;
    uint32_t idle_buckets;
    /* How many items are allocated. */
    uint32_t items;
    /* How many buckets can still be made, of 4095. */
    uint32_t unused_buckets;
    /* As etagere_bucketed_largest_free gives it. */
    EtagereSize largest_free;
} EtagereBucketedUsage;

/* How an atlas is divided and what it rounds sizes to. */
typedef struct EtagereOptions {
    /* Each width is rounded up to a multiple of `alignment.width`, each height to one of `alignment.height`. */
    EtagereSize alignment;
    /* How many columns are asked for, at least 1, each with shelves of its own. */
    int32_t num_columns;
    /* 0 where the shelves lie one above another; any other number where they stand upright, side by side. */
    uint32_t vertical_shelves;
} EtagereOptions;

/* No alignment, one column, shelves that lie: EtagereOptions options = ETAGERE_DEFAULT_OPTIONS; */
#define ETAGERE_DEFAULT_OPTIONS { { 1, 1 }, 1, 0 }

/* A null handle: EtagereAtlas atlas = ETAGERE_NULL; */
#define ETAGERE_NULL { NULL }

/* An atlas that places rectangles on shelves. */
typedef struct EtagereAtlas {
    void *state;
} EtagereAtlas;

/* An atlas that places rectangles in the buckets of shelves. */
typedef struct EtagereBucketed {
    void *state;
} EtagereBucketed;

/* Rectangles of an atlas of shelves, under keys. */
typedef struct EtagereCache {
    void *state;
} EtagereCache;

/* Gives the options of ETAGERE_DEFAULT_OPTIONS: no alignment, one column, shelves that lie.
 * Answers ETAGERE_OK. Takes constant time. */
EtagereStatus etagere_default_options(EtagereOptions *options);

/* ---- An atlas of shelves ---------------------------------------------------------------------------------------- */

/* Fills a null handle with an empty atlas.
 * Answers ETAGERE_OK; ETAGERE_HANDLE_IN_USE where the handle isn't null; ETAGERE_OPTIONS_.., the first fault,
 * ETAGERE_OPTIONS_MEMORY only where there is no other and no memory. Takes memory for the records of each column,
 * and goes through the columns. */
EtagereStatus etagere_atlas_new(EtagereAtlas *atlas, EtagereSize size, const EtagereOptions *options);

/* Frees an atlas with all that it holds, and makes the handle null.
 * Answers ETAGERE_OK; ETAGERE_NULL_HANDLE. Takes constant time, and that of free. */
EtagereStatus etagere_atlas_delete(EtagereAtlas *atlas);

/* Gives a rectangle that is at least as large as the size, with the id under which it is allocated.
 * Answers ETAGERE_OK; ETAGERE_NULL_HANDLE; ETAGERE_NO_ROOM where there is no place; ETAGERE_MEMORY, only where the
 * place is to be split and there was no memory. Finds where the shelves begin that are tall enough, where they did last
 * time or by binary search, and goes through them by height, in each that may have an item wide enough through its
 * free list. */
EtagereStatus etagere_atlas_allocate(EtagereAtlas *atlas, EtagereSize size, EtagereAllocation *allocation);

/* Takes back the rectangle that is allocated under an id, and merges what is free with its neighbours.
 * Answers ETAGERE_OK; ETAGERE_NULL_HANDLE; ETAGERE_UNKNOWN_ID exactly where nothing is allocated under the id. Takes
 * no memory. Looks at the record and those beside it, and finds the shelf by binary search; where shelves merge, the next
 * allocation moves them in the list by height. */
EtagereStatus etagere_atlas_deallocate(EtagereAtlas *atlas, uint32_t id);

/* Gives the rectangle that is allocated under an id, as it was first given. The atlas stays.
 * Answers ETAGERE_OK; ETAGERE_NULL_HANDLE; ETAGERE_UNKNOWN_ID exactly where nothing is allocated under the id. Takes
 * no memory, and constant time. */
EtagereStatus etagere_atlas_get(EtagereAtlas *atlas, uint32_t id, EtagereRectangle *rectangle);

/* Gives the index of what is allocated under an id: a small number that it keeps as long as it is allocated, and
 * that nothing else has at that time. The atlas stays.
 * Answers ETAGERE_OK; ETAGERE_NULL_HANDLE; ETAGERE_UNKNOWN_ID exactly where nothing is allocated under the id. Takes
 * no memory, and constant time. */
EtagereStatus etagere_atlas_get_index(EtagereAtlas *atlas, uint32_t id, uint32_t *index);

/* Gives all that is allocated, by rising index: writes it to the front of the buffer, and how many there are to *count.
 * What is behind stays, and the atlas does.
 * Answers ETAGERE_OK; ETAGERE_NULL_HANDLE; ETAGERE_LENGTH where the buffer is shorter than there are allocations: then
 * *count is written too, and nothing else. Takes no memory, and goes through all records twice. */
EtagereStatus etagere_atlas_allocations(
    EtagereAtlas *atlas, EtagereAllocation *allocations, size_t allocations_length, size_t *count);

/* Takes everything back at once: the atlas is as new, with its present size and columns.
 * Answers ETAGERE_OK; ETAGERE_NULL_HANDLE. Takes no memory, and goes through the columns. */
EtagereStatus etagere_atlas_clear(EtagereAtlas *atlas);

/* Gives the size of the atlas, as it was made or has grown. The atlas stays.
 * Answers ETAGERE_OK; ETAGERE_NULL_HANDLE. Takes constant time. */
EtagereStatus etagere_atlas_size(EtagereAtlas *atlas, EtagereSize *size);

/* Gives 1 where nothing is allocated, and else 0. The atlas stays.
 * Answers ETAGERE_OK; ETAGERE_NULL_HANDLE. Takes constant time. */
EtagereStatus etagere_atlas_is_empty(EtagereAtlas *atlas, uint32_t *is_empty);

/* Gives the areas of everything that is allocated, added up, in square pixels. The atlas stays.
 * Answers ETAGERE_OK; ETAGERE_NULL_HANDLE. Takes constant time. */
EtagereStatus etagere_atlas_allocated_space(EtagereAtlas *atlas, int32_t *space);

/* Gives the area of the atlas less what is allocated, in square pixels. The atlas stays.
 * Answers ETAGERE_OK; ETAGERE_NULL_HANDLE. Takes constant time. */
EtagereStatus etagere_atlas_free_space(EtagereAtlas *atlas, int32_t *space);

/* Gives 1 where the atlas would have a place for the size if it were empty, and else 0. The atlas stays.
 * Answers ETAGERE_OK; ETAGERE_NULL_HANDLE. Takes constant time. */
EtagereStatus etagere_atlas_fits_when_empty(EtagereAtlas *atlas, EtagereSize size, uint32_t *fits);

/* Tells why the size has no place: refusal->reason is ETAGERE_REFUSAL_.., the first that holds, or 0 exactly where
 * etagere_atlas_allocate has a place for it, memory aside. The atlas stays.
 * Answers ETAGERE_OK; ETAGERE_NULL_HANDLE. Takes no memory. Takes constant time where the size alone is the reason,
 * and else goes through all shelves and the free items of those that are tall enough. */
EtagereStatus etagere_atlas_refusal(EtagereAtlas *atlas, EtagereSize size, EtagereRefusal *refusal);

/* Gives how full the atlas is. The atlas stays.
 * Answers ETAGERE_OK; ETAGERE_NULL_HANDLE. Takes no memory, and goes through all shelves and free items. */
EtagereStatus etagere_atlas_usage(EtagereAtlas *atlas, EtagereUsage *usage);

/* Gives the widest free item along the shelves, and of equally wide ones the tallest; 0 by 0 where none is free. A
 * size as large may have no place, where its rounded height is above that of the shelf. The atlas stays.
 * Answers ETAGERE_OK; ETAGERE_NULL_HANDLE. Takes no memory, and goes through all shelves and free items. */
EtagereStatus etagere_atlas_largest_free(EtagereAtlas *atlas, EtagereSize *size);

/* Makes the atlas larger. What is allocated keeps its place, its id and its index.
 * Answers ETAGERE_OK; ETAGERE_NULL_HANDLE; ETAGERE_GROW_.., the first fault, ETAGERE_GROW_MEMORY only where there is
 * no other, the grow needs records and there was no memory. Takes constant time where columns stay as they are; else
 * it goes through all shelves, for wider columns through all items too, and sorts the shelves. */
EtagereStatus etagere_atlas_grow(EtagereAtlas *atlas, EtagereSize size);

/* Fills a null handle with an atlas that equals this one, its ids and later answers too. The atlas stays, and shares
 * nothing with the copy.
 * Answers ETAGERE_OK; ETAGERE_NULL_HANDLE where the atlas is null; ETAGERE_HANDLE_IN_USE where the copy isn't;
 * ETAGERE_MEMORY. Takes memory for all records, and goes through them. */
EtagereStatus etagere_atlas_clone(EtagereAtlas *atlas, EtagereAtlas *copy);

/* Allocates many sizes, one after the other, as etagere_atlas_allocate does, up to the first that isn't given a
 * place. Writes how many were to *count, and their allocations to the front of the buffer; what is behind stays.
 * What was allocated stays so whatever the status.
 * Answers ETAGERE_OK where all were; ETAGERE_NULL_HANDLE and ETAGERE_LENGTH (the buffer is shorter than the sizes),
 * with nothing written; ETAGERE_NO_ROOM or ETAGERE_MEMORY, of the size with the number *count. Costs as the single
 * calls. */
EtagereStatus etagere_atlas_allocate_many(
    EtagereAtlas *atlas, const EtagereSize *sizes, size_t sizes_length, EtagereAllocation *allocations, size_t
    allocations_length, size_t *count);

/* Takes many ids back, one after the other, as etagere_atlas_deallocate does, up to the first that is unknown.
 * Writes how many were taken back to *count; they are gone whatever the status.
 * Answers ETAGERE_OK where all were; ETAGERE_NULL_HANDLE, with nothing written; ETAGERE_UNKNOWN_ID, of the id with
 * the number *count. Costs as the single calls. */
EtagereStatus etagere_atlas_deallocate_many(EtagereAtlas *atlas, const uint32_t *ids, size_t ids_length,
                                            size_t *count);

/* Gives the length in bytes of the picture of etagere_atlas_picture. The atlas stays.
 * Answers ETAGERE_OK; ETAGERE_NULL_HANDLE; ETAGERE_MEMORY. Takes memory for the text, and goes through all items. */
EtagereStatus etagere_atlas_picture_length(EtagereAtlas *atlas, size_t *text_length);

/* Writes an SVG document to the front of the buffer, without a zero behind it, and its length to *text_length: the
 * atlas and every item, what is allocated in blue, what is free in grey. What is behind stays, and the atlas does.
 * Answers ETAGERE_OK; ETAGERE_NULL_HANDLE; ETAGERE_LENGTH where the buffer is shorter than
 * etagere_atlas_picture_length says, with nothing written; ETAGERE_MEMORY. Takes memory for the text, and goes
 * through all items. */
EtagereStatus etagere_atlas_picture(EtagereAtlas *atlas, uint8_t *buffer, size_t buffer_length, size_t *text_length);

/* Writes the rectangles of etagere_atlas_picture to the front of the buffer, as lines for another SVG document that
 * show the atlas at its origin, and how long they are to *text_length. What is behind stays, and the atlas does.
 * Answers ETAGERE_OK; ETAGERE_NULL_HANDLE; ETAGERE_LENGTH where the buffer is shorter than the lines: then *text_length
 * is written too, and nothing else; ETAGERE_MEMORY. Takes memory for the text, and goes through all items. */
EtagereStatus etagere_atlas_picture_lines(
    EtagereAtlas *atlas, uint8_t *buffer, size_t buffer_length, size_t *text_length);

/* Writes the same lines as etagere_atlas_picture_lines, moved and scaled to fill a rectangle of the other document;
 * nothing where a side of it isn't positive. What is behind stays, and the atlas does.
 * Answers ETAGERE_OK; ETAGERE_NULL_HANDLE; ETAGERE_LENGTH where the buffer is shorter than the lines: then *text_length
 * is written too, and nothing else; ETAGERE_MEMORY. Takes memory for the text, and goes through all items. */
EtagereStatus etagere_atlas_picture_part(
    EtagereAtlas *atlas, EtagereRectangle rectangle, uint8_t *buffer, size_t buffer_length, size_t *text_length);

/* Writes what the atlas is saved as to the front of the buffer, and its length to *text_length: the JSON text of an
 * object whose one key is "atlas", without a space or a zero behind it. What is behind stays, and the atlas does.
 * Answers ETAGERE_OK; ETAGERE_NULL_HANDLE; ETAGERE_LENGTH where the buffer is shorter than the text: then *text_length
 * is written too, and nothing else; ETAGERE_MEMORY. Takes memory for all records and the text, goes through both, and
 * reads the text once to see that it is right. */
EtagereStatus etagere_atlas_snapshot(EtagereAtlas *atlas, uint8_t *buffer, size_t buffer_length, size_t *text_length);

/* Fills a null handle with the atlas that a text is saved as, whoever wrote it: what etagere_atlas_snapshot gives, or
 * the same with its keys in another order, others that are passed over, or spaces between.
 * Answers ETAGERE_OK; ETAGERE_HANDLE_IN_USE where the handle isn't null; ETAGERE_UNREADABLE where the bytes are no such
 * text, or there was no memory for what they say; ETAGERE_RESTORE_.., the number of a rule that the snapshot breaks, or
 * ETAGERE_RESTORE_MEMORY where there was no memory for the atlas. Takes memory for the snapshot, for its records twice
 * and as much as the text has bytes, and time linear in the bytes and records but for a sort of the shelves. */
EtagereStatus etagere_atlas_restore(EtagereAtlas *atlas, const uint8_t *text, size_t text_length);

/* ---- An atlas of buckets ---------------------------------------------------------------------------------------- */

/* Fills a null handle with an empty bucketed atlas.
 * Answers ETAGERE_OK; ETAGERE_HANDLE_IN_USE; ETAGERE_OPTIONS_.., the first fault, ETAGERE_OPTIONS_MEMORY only where
 * there is no other and no memory for what the handle points to. Takes constant time. */
EtagereStatus etagere_bucketed_new(EtagereBucketed *atlas, EtagereSize size, const EtagereOptions *options);

/* Frees a bucketed atlas with all that it holds, and makes the handle null.
 * Answers ETAGERE_OK; ETAGERE_NULL_HANDLE. Takes constant time, and that of free. */
EtagereStatus etagere_bucketed_delete(EtagereBucketed *atlas);

/* Gives a rectangle that is at least as large as the size, with the id under which it is allocated.
 * Answers ETAGERE_OK; ETAGERE_NULL_HANDLE; ETAGERE_NO_ROOM where there is no place; ETAGERE_MEMORY, only where a
 * shelf is to be added and there was no memory. Passes over 512 shelves at once, and goes through those that may fit. */
EtagereStatus etagere_bucketed_allocate(EtagereBucketed *atlas, EtagereSize size, EtagereAllocation *allocation);

/* Takes back the rectangle that was given under an id. The last one of a bucket makes that empty, and shelves at the
 * end that hold nothing are dropped.
 * Answers ETAGERE_OK; ETAGERE_NULL_HANDLE; ETAGERE_UNKNOWN_ID exactly where no bucket that holds something has given
 * an item under the id since it was empty. That an id comes back once is the caller's part: a second return of one
 * is taken for that of another item of its bucket. Takes no memory, and constant time but for the shelves that are
 * dropped. */
EtagereStatus etagere_bucketed_deallocate(EtagereBucketed *atlas, uint32_t id);

/* Takes everything back at once: the atlas is as new, with its present size and columns.
 * Answers ETAGERE_OK; ETAGERE_NULL_HANDLE. Takes no memory, and constant time with up to 32 shelves, else a step for
 * each 8. */
EtagereStatus etagere_bucketed_clear(EtagereBucketed *atlas);

/* Gives the size of the atlas, as it was made or has grown. The atlas stays.
 * Answers ETAGERE_OK; ETAGERE_NULL_HANDLE. Takes constant time. */
EtagereStatus etagere_bucketed_size(EtagereBucketed *atlas, EtagereSize *size);

/* Gives 1 where nothing is allocated, and else 0. The atlas stays.
 * Answers ETAGERE_OK; ETAGERE_NULL_HANDLE. Takes constant time. */
EtagereStatus etagere_bucketed_is_empty(EtagereBucketed *atlas, uint32_t *is_empty);

/* Gives the area that the buckets have used, each as tall as its shelf, in square pixels. The atlas stays.
 * Answers ETAGERE_OK; ETAGERE_NULL_HANDLE. Takes constant time. */
EtagereStatus etagere_bucketed_allocated_space(EtagereBucketed *atlas, int32_t *space);

/* Gives the area of the atlas less what the buckets have used, in square pixels. The atlas stays.
 * Answers ETAGERE_OK; ETAGERE_NULL_HANDLE. Takes constant time. */
EtagereStatus etagere_bucketed_free_space(EtagereBucketed *atlas, int32_t *space);

/* Tells why the size has no place: refusal->reason is ETAGERE_BUCKETED_REFUSAL_.., the first that holds, or 0
 * exactly where etagere_bucketed_allocate has a place for it, memory aside. The atlas stays.
 * Answers ETAGERE_OK; ETAGERE_NULL_HANDLE. Takes no memory. Where there is a place, it costs the search of
 * etagere_bucketed_allocate; else it goes through the shelves once more, and through the buckets of those that are
 * tall enough. */
EtagereStatus etagere_bucketed_refusal(EtagereBucketed *atlas, EtagereSize size, EtagereRefusal *refusal);

/* Gives how full the atlas is. The atlas stays.
 * Answers ETAGERE_OK; ETAGERE_NULL_HANDLE. Takes no memory, and goes through all shelves and buckets. */
EtagereStatus etagere_bucketed_usage(EtagereBucketed *atlas, EtagereBucketedUsage *usage);

/* Gives the widest item that a shelf can give, with the height of that shelf; 0 by 0 where no shelf has room. The
 * space for a new shelf doesn't count, nor what several idle shelves could make together. The atlas stays.
 * Answers ETAGERE_OK; ETAGERE_NULL_HANDLE. Takes no memory, and goes through the shelves. */
EtagereStatus etagere_bucketed_largest_free(EtagereBucketed *atlas, EtagereSize *size);

/* Makes the atlas larger. What is allocated keeps its place and its id.
 * Answers ETAGERE_OK; ETAGERE_NULL_HANDLE; ETAGERE_BUCKETED_GROW_.., the first fault, ETAGERE_BUCKETED_GROW_MEMORY
 * only where there is no other, buckets are to be made and there was no memory. Goes through all shelves. */
EtagereStatus etagere_bucketed_grow(EtagereBucketed *atlas, EtagereSize size);

/* Fills a null handle with an atlas that equals this one, its ids and later answers too. The atlas stays, and shares
 * nothing with the copy.
 * Answers ETAGERE_OK; ETAGERE_NULL_HANDLE where the atlas is null; ETAGERE_HANDLE_IN_USE where the copy isn't;
 * ETAGERE_MEMORY. Takes memory for all records, and goes through them. */
EtagereStatus etagere_bucketed_clone(EtagereBucketed *atlas, EtagereBucketed *copy);

/* Allocates many sizes, one after the other, as etagere_bucketed_allocate does, up to the first that isn't given a
 * place. Writes how many were to *count, and their allocations to the front of the buffer; what is behind stays.
 * What was allocated stays so whatever the status.
 * Answers ETAGERE_OK where all were; ETAGERE_NULL_HANDLE and ETAGERE_LENGTH (the buffer is shorter than the sizes),
 * with nothing written; ETAGERE_NO_ROOM or ETAGERE_MEMORY, of the size with the number *count. Costs as the single
 * calls. */
EtagereStatus etagere_bucketed_allocate_many(
    EtagereBucketed *atlas, const EtagereSize *sizes, size_t sizes_length, EtagereAllocation *allocations,
    size_t allocations_length, size_t *count);

/* Takes many ids back, one after the other, as etagere_bucketed_deallocate does, up to the first that is unknown.
 * Writes how many were taken back to *count; they are gone whatever the status.
 * Answers ETAGERE_OK where all were; ETAGERE_NULL_HANDLE, with nothing written; ETAGERE_UNKNOWN_ID, of the id with
 * the number *count. Costs as the single calls. */
EtagereStatus etagere_bucketed_deallocate_many(
    EtagereBucketed *atlas, const uint32_t *ids, size_t ids_length, size_t *count);

/* Gives the length in bytes of the picture of etagere_bucketed_picture. The atlas stays.
 * Answers ETAGERE_OK; ETAGERE_NULL_HANDLE; ETAGERE_MEMORY. Takes memory for the text, and goes through all buckets. */
EtagereStatus etagere_bucketed_picture_length(EtagereBucketed *atlas, size_t *text_length);

/* Writes an SVG document to the front of the buffer, without a zero behind it, and its length to *text_length: the
 * atlas and every bucket, what is used in blue, what is free in grey. What is behind stays, and the atlas does.
 * Answers ETAGERE_OK; ETAGERE_NULL_HANDLE; ETAGERE_LENGTH where the buffer is shorter than
 * etagere_bucketed_picture_length says, with nothing written; ETAGERE_MEMORY. Takes memory for the text, and goes
 * through all buckets. */
EtagereStatus etagere_bucketed_picture(
    EtagereBucketed *atlas, uint8_t *buffer, size_t buffer_length, size_t *text_length);

/* Writes the rectangles of etagere_bucketed_picture to the front of the buffer, as lines for another SVG document that
 * show the atlas at its origin, and how long they are to *text_length. What is behind stays, and the atlas does.
 * Answers ETAGERE_OK; ETAGERE_NULL_HANDLE; ETAGERE_LENGTH where the buffer is shorter than the lines: then *text_length
 * is written too, and nothing else; ETAGERE_MEMORY. Takes memory for the text, and goes through all buckets. */
EtagereStatus etagere_bucketed_picture_lines(
    EtagereBucketed *atlas, uint8_t *buffer, size_t buffer_length, size_t *text_length);

/* Writes the same lines as etagere_bucketed_picture_lines, moved and scaled to fill a rectangle of the other document;
 * nothing where a side of it isn't positive. What is behind stays, and the atlas does.
 * Answers ETAGERE_OK; ETAGERE_NULL_HANDLE; ETAGERE_LENGTH where the buffer is shorter than the lines: then *text_length
 * is written too, and nothing else; ETAGERE_MEMORY. Takes memory for the text, and goes through all buckets. */
EtagereStatus etagere_bucketed_picture_part(
    EtagereBucketed *atlas, EtagereRectangle rectangle, uint8_t *buffer, size_t buffer_length, size_t *text_length);

/* Writes what the atlas is saved as to the front of the buffer, and its length to *text_length: the JSON text of an
 * object whose one key is "bucketed", without a space or a zero behind it. What is behind stays, and the atlas does.
 * Answers ETAGERE_OK; ETAGERE_NULL_HANDLE; ETAGERE_LENGTH where the buffer is shorter than the text: then *text_length
 * is written too, and nothing else; ETAGERE_MEMORY. Takes memory for all records and the text, goes through both, and
 * reads the text once to see that it is right. */
EtagereStatus etagere_bucketed_snapshot(
    EtagereBucketed *atlas, uint8_t *buffer, size_t buffer_length, size_t *text_length);

/* Fills a null handle with the atlas that a text is saved as, whoever wrote it: what etagere_bucketed_snapshot gives,
 * or the same with its keys in another order, others that are passed over, or spaces between.
 * Answers ETAGERE_OK; ETAGERE_HANDLE_IN_USE where the handle isn't null; ETAGERE_UNREADABLE where the bytes are no such
 * text, or there was no memory for what they say; ETAGERE_RESTORE_.. but ETAGERE_RESTORE_FREE_LIST, the number of a
 * rule that the snapshot breaks, or ETAGERE_RESTORE_MEMORY where there was no memory for the atlas. Takes memory for
 * the snapshot, for its records twice and as much as the text has bytes, and time linear in the bytes and records. */
EtagereStatus etagere_bucketed_restore(EtagereBucketed *atlas, const uint8_t *text, size_t text_length);

/* ---- A cache ---------------------------------------------------------------------------------------------------- */

/* Fills a null handle with an empty cache of at most `capacity` keys, over an atlas of this size.
 * Answers ETAGERE_OK; ETAGERE_HANDLE_IN_USE; ETAGERE_LENGTH where the capacity is 0; ETAGERE_OPTIONS_.., the first
 * fault, ETAGERE_OPTIONS_MEMORY only where there is no other and no memory. Takes memory for the atlas and for a
 * table of so many keys, or, where they may be more than 16384, for one that grows as they come, and goes through the
 * columns and the table. */
EtagereStatus etagere_cache_new(EtagereCache *cache, EtagereSize size, const EtagereOptions *options, size_t capacity);

/* Frees a cache with all that it holds, and makes the handle null.
 * Answers ETAGERE_OK; ETAGERE_NULL_HANDLE. Goes through the keys. */
EtagereStatus etagere_cache_delete(EtagereCache *cache);

/* Gives the rectangle of a key. A key that is there becomes the most recently used; its size isn't looked at. A new
 * key gets a rectangle at least as large as the size and becomes the most recently used; where there is no room, the
 * keys used least recently are evicted before, no more than needed. Writes the evicted keys to the front of the
 * buffer, the least recently used first, and how many to *count; what is behind stays.
 * Answers ETAGERE_OK; ETAGERE_NULL_HANDLE; ETAGERE_LENGTH where the buffer is shorter than etagere_cache_len says,
 * with nothing written; ETAGERE_CACHE_TOO_LARGE exactly where the key is new and an empty atlas has no place for the
 * size, with nothing written; ETAGERE_CACHE_FRAME_FULL exactly where the key is new and evicting all keys that weren't
 * used in this frame wouldn't make room, memory aside, with nothing written; ETAGERE_CACHE_MEMORY, only for a new key:
 * then the evicted keys and *count are written too, these keys are gone, and the others stand. Asks the atlas once, and
 * once more for each key that is evicted; where keys were used in this frame, it first tries that on a copy of the
 * atlas. */
EtagereStatus etagere_cache_place(
    EtagereCache *cache, uint64_t key, EtagereSize size, EtagereRectangle *rectangle, uint64_t *evicted, size_t
    evicted_length, size_t *count);

/* Begins a frame: what is placed or looked up from now on isn't evicted by etagere_cache_place until the next frame
 * begins, or the cache is cleared.
 * Answers ETAGERE_OK; ETAGERE_NULL_HANDLE. Takes no memory, and constant time. */
EtagereStatus etagere_cache_begin_frame(EtagereCache *cache);

/* Gives how many keys were placed or looked up in this frame and are still there: none before the first frame. The
 * cache stays.
 * Answers ETAGERE_OK; ETAGERE_NULL_HANDLE. Takes no memory, and goes through these keys. */
EtagereStatus etagere_cache_used_in_frame(EtagereCache *cache, size_t *count);

/* Gives the rectangle of a key, which becomes the most recently used.
 * Answers ETAGERE_OK; ETAGERE_NULL_HANDLE; ETAGERE_UNKNOWN_KEY. Takes no memory, and constant time on average. */
EtagereStatus etagere_cache_get(EtagereCache *cache, uint64_t key, EtagereRectangle *rectangle);

/* Takes a key out, and gives the rectangle that it had.
 * Answers ETAGERE_OK; ETAGERE_NULL_HANDLE; ETAGERE_UNKNOWN_KEY. Takes no memory, and costs what
 * etagere_atlas_deallocate does. */
EtagereStatus etagere_cache_remove(EtagereCache *cache, uint64_t key, EtagereRectangle *rectangle);

/* Gives the rectangle of a key, without using it. The cache stays, with the order of use.
 * Answers ETAGERE_OK; ETAGERE_NULL_HANDLE; ETAGERE_UNKNOWN_KEY. Takes no memory, and constant time on average. */
EtagereStatus etagere_cache_peek(EtagereCache *cache, uint64_t key, EtagereRectangle *rectangle);

/* Gives all keys with their rectangles, the most recently used first: writes them to the front of the buffer, and how
 * many there are to *count. What is behind stays, and the cache does, with the order of use.
 * Answers ETAGERE_OK; ETAGERE_NULL_HANDLE; ETAGERE_LENGTH where the buffer is shorter than there are keys: then *count
 * is written too, and nothing else. Takes no memory, and goes through the keys. */
EtagereStatus etagere_cache_entries(EtagereCache *cache, EtagereEntry *entries, size_t entries_length, size_t *count);

/* Makes the atlas larger. Each key keeps its place, and the order of use stays.
 * Answers ETAGERE_OK; ETAGERE_NULL_HANDLE; ETAGERE_GROW_.., the first fault, ETAGERE_GROW_MEMORY only where there is
 * no other, the grow needs records and there was no memory. Costs what etagere_atlas_grow does. */
EtagereStatus etagere_cache_grow(EtagereCache *cache, EtagereSize size);

/* Sets how many keys there may be. Where more are there, those used least recently are evicted, no more than needed.
 * Writes the evicted keys to the front of the buffer, the least recently used first, and how many to *count; what is
 * behind stays.
 * Answers ETAGERE_OK; ETAGERE_NULL_HANDLE; ETAGERE_LENGTH where the capacity is 0, or the buffer is shorter than
 * etagere_cache_len says; ETAGERE_MEMORY, only where keys have to go. Takes memory for a list of these keys, and a
 * smaller table of the keys where there is memory for one; goes through the keys, and takes each evicted rectangle
 * back as etagere_atlas_deallocate does. */
EtagereStatus etagere_cache_set_capacity(
    EtagereCache *cache, size_t capacity, uint64_t *evicted, size_t evicted_length, size_t *count);

/* Takes all keys out: the cache is as new, and no frame has begun.
 * Answers ETAGERE_OK; ETAGERE_NULL_HANDLE. Takes no memory, and goes through the keys and the columns. */
EtagereStatus etagere_cache_clear(EtagereCache *cache);

/* Gives how many keys are there. The cache stays.
 * Answers ETAGERE_OK; ETAGERE_NULL_HANDLE. Takes constant time. */
EtagereStatus etagere_cache_len(EtagereCache *cache, size_t *len);

/* Gives 1 where no key is there, and else 0. The cache stays.
 * Answers ETAGERE_OK; ETAGERE_NULL_HANDLE. Takes constant time. */
EtagereStatus etagere_cache_is_empty(EtagereCache *cache, uint32_t *is_empty);

/* Gives how many keys there may be. The cache stays.
 * Answers ETAGERE_OK; ETAGERE_NULL_HANDLE. Takes constant time. */
EtagereStatus etagere_cache_capacity(EtagereCache *cache, size_t *capacity);

/* Gives the size of the atlas. The cache stays.
 * Answers ETAGERE_OK; ETAGERE_NULL_HANDLE. Takes constant time. */
EtagereStatus etagere_cache_size(EtagereCache *cache, EtagereSize *size);

/* Gives the areas of all keys' rectangles, added up, in square pixels. The cache stays.
 * Answers ETAGERE_OK; ETAGERE_NULL_HANDLE. Takes constant time. */
EtagereStatus etagere_cache_allocated_space(EtagereCache *cache, int32_t *space);

/* Gives the area of the atlas less that of all keys' rectangles, in square pixels. The cache stays.
 * Answers ETAGERE_OK; ETAGERE_NULL_HANDLE. Takes constant time. */
EtagereStatus etagere_cache_free_space(EtagereCache *cache, int32_t *space);

/* Gives the length in bytes of the picture of etagere_cache_picture. The cache stays.
 * Answers ETAGERE_OK; ETAGERE_NULL_HANDLE; ETAGERE_MEMORY. Takes memory for the text, and goes through all items. */
EtagereStatus etagere_cache_picture_length(EtagereCache *cache, size_t *text_length);

/* Writes the picture of the atlas, as etagere_atlas_picture does. The cache stays.
 * Answers ETAGERE_OK; ETAGERE_NULL_HANDLE; ETAGERE_LENGTH where the buffer is shorter than
 * etagere_cache_picture_length says, with nothing written; ETAGERE_MEMORY. Takes memory for the text, and goes
 * through all items. */
EtagereStatus etagere_cache_picture(EtagereCache *cache, uint8_t *buffer, size_t buffer_length, size_t *text_length);

/* Writes the rectangles of etagere_cache_picture to the front of the buffer, as lines for another SVG document that
 * show the cache at its origin, and how long they are to *text_length. What is behind stays, and the cache does.
 * Answers ETAGERE_OK; ETAGERE_NULL_HANDLE; ETAGERE_LENGTH where the buffer is shorter than the lines: then *text_length
 * is written too, and nothing else; ETAGERE_MEMORY. Takes memory for the text, and goes through all items. */
EtagereStatus etagere_cache_picture_lines(
    EtagereCache *cache, uint8_t *buffer, size_t buffer_length, size_t *text_length);

/* Writes the same lines as etagere_cache_picture_lines, moved and scaled to fill a rectangle of the other document;
 * nothing where a side of it isn't positive. What is behind stays, and the cache does.
 * Answers ETAGERE_OK; ETAGERE_NULL_HANDLE; ETAGERE_LENGTH where the buffer is shorter than the lines: then *text_length
 * is written too, and nothing else; ETAGERE_MEMORY. Takes memory for the text, and goes through all items. */
EtagereStatus etagere_cache_picture_part(
    EtagereCache *cache, EtagereRectangle rectangle, uint8_t *buffer, size_t buffer_length, size_t *text_length);

/* Writes what the cache is saved as to the front of the buffer, and its length to *text_length: the JSON text of an
 * object with the keys "capacity", "atlas" and "keys", without a space or a zero behind it; the frame isn't saved. What
 * is behind stays, and the cache does.
 * Answers ETAGERE_OK; ETAGERE_NULL_HANDLE; ETAGERE_LENGTH where the buffer is shorter than the text: then *text_length
 * is written too, and nothing else; ETAGERE_MEMORY. Takes memory for all records and keys, for the text, and for the
 * text as a JSON value, and goes through all of these. */
EtagereStatus etagere_cache_snapshot(EtagereCache *cache, uint8_t *buffer, size_t buffer_length, size_t *text_length);

/* Fills a null handle with the cache that a text is saved as, whoever wrote it: what etagere_cache_snapshot gives, or
 * the same with its keys in another order, others that are passed over, or spaces between. No frame has begun.
 * Answers ETAGERE_OK; ETAGERE_HANDLE_IN_USE where the handle isn't null; ETAGERE_UNREADABLE where the bytes are no such
 * text, or there was no memory for what they say; ETAGERE_RESTORE_.. or ETAGERE_CACHE_RESTORE_.., the number of a rule
 * that the snapshot breaks, or ETAGERE_RESTORE_MEMORY where there was no memory for the cache. Takes memory for the
 * snapshot, for the text as a JSON value, and for the cache with a copy of its atlas; goes through all of these, and
 * takes each rectangle of the copy back as etagere_atlas_deallocate does. */
EtagereStatus etagere_cache_restore(EtagereCache *cache, const uint8_t *text, size_t text_length);

#ifdef __cplusplus
}
#endif

#endif
