/* The program of the README, in C and C++: prints `0 336`. */

#include <stdio.h>

#include "etagere.h"

int main(void) {
    EtagereAtlas atlas = ETAGERE_NULL;
    EtagereOptions options = ETAGERE_DEFAULT_OPTIONS;
    EtagereSize whole = { 1000, 1000 }, small = { 100, 100 }, wide = { 900, 200 }, tall = { 300, 200 };
    EtagereAllocation first, second, last;
    int status = 1;

    if (etagere_atlas_new(&atlas, whole, &options) == ETAGERE_OK
        && etagere_atlas_allocate(&atlas, small, &first) == ETAGERE_OK
        && etagere_atlas_allocate(&atlas, wide, &second) == ETAGERE_OK
        && etagere_atlas_deallocate(&atlas, first.id) == ETAGERE_OK
        && etagere_atlas_allocate(&atlas, tall, &last) == ETAGERE_OK) {
        printf("%d %d\n", (int)last.rectangle.min.x, (int)last.rectangle.min.y);
        status = 0;
    }
    etagere_atlas_delete(&atlas);
    return status;
}
