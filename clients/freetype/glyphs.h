/* Glyphs of one font in several sizes, whose pixels are kept in an atlas. */

#ifndef GLYPHS_H
#define GLYPHS_H

#include <ft2build.h>
#include FT_FREETYPE_H
#include <stddef.h>
#include <stdint.h>

#include "etagere.h"
#include "image.h"

enum {
    /* How many pixels around a glyph are left empty, so that a sampler that reads beside it finds no other. */
    PADDING = 1,
    SIZES = 3
};

/* Where the bitmap of a glyph lies, seen from the pen, in pixels; `top` is upwards. */
typedef struct Metrics {
    int is_known;
    int32_t left;
    int32_t top;
    int32_t width;
    int32_t rows;
    int32_t advance;
} Metrics;

typedef struct Glyphs {
    FT_Library library;
    FT_Face face;
    /* The number of the size that is in use, and for each one the metrics of all glyphs of the font. */
    int size;
    int32_t pixels[SIZES];
    Metrics *metrics[SIZES];

    EtagereCache cache;
    Image atlas;
    /* Room for the keys that a call evicts. */
    uint64_t *evicted;
    size_t capacity;
    /* Whether each glyph is rendered anew at the corner of the atlas, without the cache, to compare with. */
    int is_direct;

    size_t drawn_count;
    size_t rendered_count;
    size_t evicted_count;
} Glyphs;

/* Where a glyph goes, seen from the pen, and where its pixels are in the atlas until the next one is asked for. */
typedef struct Quad {
    int32_t x;
    int32_t y;
    int32_t width;
    int32_t height;
    EtagerePoint from;
} Quad;

/* Opens a font in three sizes, given in pixels, with an atlas of side x side pixels for at most so many glyphs.
 * `glyphs` is zero before. Answers whether it went well, and prints why not; it is closed in both cases. */
int glyphs_open(Glyphs *glyphs, const char *font, const int32_t *pixels, int32_t side, size_t capacity);

void glyphs_close(Glyphs *glyphs);

/* Takes one of the sizes for what follows. */
int glyphs_use(Glyphs *glyphs, int size);

/* How far a line of the size in use is below the one before. */
int32_t glyphs_line_height(const Glyphs *glyphs);

/* How many pixels the pen moves between two glyphs, before the second one. */
int32_t glyphs_kerning(const Glyphs *glyphs, FT_UInt before, FT_UInt glyph);

/* The metrics of a glyph in the size in use, or NULL. */
const Metrics *glyphs_metrics(Glyphs *glyphs, FT_UInt glyph);

/* Makes sure that a glyph that has pixels is in the atlas with its padding, and gives its quad. */
int glyphs_quad(Glyphs *glyphs, FT_UInt glyph, Quad *quad);

#endif
