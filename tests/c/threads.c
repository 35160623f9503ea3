/* Two threads, each with atlases of its own, and a handle that goes from one thread to another by a join. */

#define _POSIX_C_SOURCE 200809L

#include <pthread.h>
#include <stdio.h>
#include <string.h>

#include "etagere.h"

enum { ITEMS = 200, ROUNDS = 40 };

/* What a thread works on, and hands back. */
typedef struct Work {
    EtagereAtlas atlas;
    EtagereAllocation allocations[ITEMS];
    size_t count;
    int failed;
} Work;

static EtagereSize size2(int32_t width, int32_t height) {
    EtagereSize size;
    size.width = width;
    size.height = height;
    return size;
}

static void fill(Work *work) {
    size_t i;
    work->failed |= etagere_atlas_clear(&work->atlas) != ETAGERE_OK;
    for (i = 0; i < ITEMS; i += 1) {
        EtagereSize size = size2(4 + (int32_t)(i % 9) * 3, 6 + (int32_t)(i % 4) * 9);
        work->failed |= etagere_atlas_allocate(&work->atlas, size, &work->allocations[i]) != ETAGERE_OK;
    }
    for (i = 0; i < ITEMS; i += 3) {
        work->failed |= etagere_atlas_deallocate(&work->atlas, work->allocations[i].id) != ETAGERE_OK;
    }
}

static void *run(void *given) {
    Work *work = (Work *)given;
    EtagereOptions options = ETAGERE_DEFAULT_OPTIONS;
    int round;
    work->failed |= etagere_atlas_new(&work->atlas, size2(512, 512), &options) != ETAGERE_OK;
    for (round = 0; round < ROUNDS; round += 1) {
        fill(work);
    }
    work->failed |= etagere_atlas_allocations(&work->atlas, work->allocations, ITEMS, &work->count) != ETAGERE_OK;
    return NULL;
}

int main(void) {
    static Work works[2];
    pthread_t threads[2];
    int failed = 0;
    size_t i;

    for (i = 0; i < 2; i += 1) {
        if (pthread_create(&threads[i], NULL, run, &works[i]) != 0) {
            return 1;
        }
    }
    for (i = 0; i < 2; i += 1) {
        failed |= pthread_join(threads[i], NULL) != 0 || works[i].failed;
        failed |= etagere_atlas_delete(&works[i].atlas) != ETAGERE_OK;
    }
    failed |= works[0].count != works[1].count || works[0].count == 0;
    failed |= memcmp(works[0].allocations, works[1].allocations, works[0].count * sizeof(EtagereAllocation)) != 0;
    puts(failed ? "the threads disagree" : "two threads agree, each with an atlas of its own");
    return failed;
}
