/* What the calls are checked with. */

#ifndef CHECKING_H
#define CHECKING_H

#include <stdio.h>

#include "etagere.h"

static int failures = 0;

#define CHECK(holds)                                                      \
    do {                                                                  \
        if (!(holds)) {                                                   \
            printf("%s:%d: not so: %s\n", __FILE__, __LINE__, #holds);    \
            failures += 1;                                                \
        }                                                                 \
    } while (0)

static EtagereSize size2(int32_t width, int32_t height) {
    EtagereSize size;
    size.width = width;
    size.height = height;
    return size;
}

static int lies(EtagereRectangle rectangle, int32_t x0, int32_t y0, int32_t x1, int32_t y1) {
    return rectangle.min.x == x0 && rectangle.min.y == y0 && rectangle.max.x == x1 && rectangle.max.y == y1;
}

#endif
