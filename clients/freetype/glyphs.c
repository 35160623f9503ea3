#include "glyphs.h"

#include <stdio.h>
#include <stdlib.h>
#include <string.h>

/* Prints what went wrong, and answers 0. */
static int fails(const char *what, long status) {
    fprintf(stderr, "typeset: %s: %ld\n", what, status);
    return 0;
}

static int open_font(Glyphs *glyphs, const char *font) {
    FT_Error error = FT_Init_FreeType(&glyphs->library);
    if (error == 0) {
        error = FT_New_Face(glyphs->library, font, 0, &glyphs->face);
    }
    return error == 0 || fails("the font isn't opened, by FreeType's error", error);
}

static int open_atlas(Glyphs *glyphs, int32_t side, size_t capacity) {
    EtagereOptions options = ETAGERE_DEFAULT_OPTIONS;
    EtagereSize size;
    EtagereStatus status;
    size.width = side;
    size.height = side;
    status = etagere_cache_new(&glyphs->cache, size, &options, capacity);
    if (status != ETAGERE_OK) {
        return fails("the cache isn't made, by the status", status);
    }
    glyphs->capacity = capacity;
    glyphs->evicted = calloc(capacity, sizeof *glyphs->evicted);
    if (glyphs->evicted == NULL || !image_make(&glyphs->atlas, side, side, 0)) {
        return fails("no memory for the atlas, of side", side);
    }
    return 1;
}

int glyphs_open(Glyphs *glyphs, const char *font, const int32_t *pixels, int32_t side, size_t capacity) {
    int size;
    if (!open_font(glyphs, font) || !open_atlas(glyphs, side, capacity)) {
        return 0;
    }
    for (size = 0; size < SIZES; size += 1) {
        glyphs->pixels[size] = pixels[size];
        glyphs->metrics[size] = calloc((size_t)glyphs->face->num_glyphs, sizeof *glyphs->metrics[size]);
        if (glyphs->metrics[size] == NULL) {
            return fails("no memory for glyphs", glyphs->face->num_glyphs);
        }
    }
    return glyphs_use(glyphs, 0);
}

void glyphs_close(Glyphs *glyphs) {
    int size;
    for (size = 0; size < SIZES; size += 1) {
        free(glyphs->metrics[size]);
    }
    free(glyphs->evicted);
    image_free(&glyphs->atlas);
    etagere_cache_delete(&glyphs->cache);
    FT_Done_Face(glyphs->face);
    FT_Done_FreeType(glyphs->library);
}

int glyphs_use(Glyphs *glyphs, int size) {
    FT_Error error = FT_Set_Pixel_Sizes(glyphs->face, 0, (FT_UInt)glyphs->pixels[size]);
    glyphs->size = size;
    return error == 0 || fails("the font hasn't the size, by FreeType's error", error);
}

int32_t glyphs_line_height(const Glyphs *glyphs) {
    return (int32_t)(glyphs->face->size->metrics.height >> 6);
}

int32_t glyphs_kerning(const Glyphs *glyphs, FT_UInt before, FT_UInt glyph) {
    FT_Vector kerning;
    if (FT_Get_Kerning(glyphs->face, before, glyph, FT_KERNING_DEFAULT, &kerning) != 0) {
        return 0;
    }
    return (int32_t)(kerning.x >> 6);
}

/* Renders a glyph, as a bitmap of one byte a pixel, into the slot of the face. */
static int render(Glyphs *glyphs, FT_UInt glyph) {
    FT_Error error = FT_Load_Glyph(glyphs->face, glyph, FT_LOAD_RENDER | FT_LOAD_NO_BITMAP);
    return error == 0 || fails("a glyph isn't rendered, by FreeType's error", error);
}

const Metrics *glyphs_metrics(Glyphs *glyphs, FT_UInt glyph) {
    Metrics *metrics = &glyphs->metrics[glyphs->size][glyph];
    if (!metrics->is_known) {
        FT_GlyphSlot slot = glyphs->face->glyph;
        if (!render(glyphs, glyph)) {
            return NULL;
        }
        metrics->is_known = 1;
        metrics->left = slot->bitmap_left;
        metrics->top = slot->bitmap_top;
        metrics->width = (int32_t)slot->bitmap.width;
        metrics->rows = (int32_t)slot->bitmap.rows;
        metrics->advance = (int32_t)(slot->advance.x >> 6);
    }
    return metrics;
}

/* Empties a rectangle of the atlas, where another glyph may have been, and copies the bitmap inside its padding. */
static void upload(Glyphs *glyphs, EtagereRectangle to) {
    const FT_Bitmap *bitmap = &glyphs->face->glyph->bitmap;
    int32_t y, rows = (int32_t)bitmap->rows;
    for (y = to.min.y; y < to.max.y; y += 1) {
        memset(image_row(&glyphs->atlas, y) + to.min.x, 0, (size_t)(to.max.x - to.min.x));
    }
    for (y = 0; y < rows; y += 1) {
        memcpy(image_row(&glyphs->atlas, to.min.y + PADDING + y) + to.min.x + PADDING,
               bitmap->buffer + (ptrdiff_t)y * bitmap->pitch, bitmap->width);
    }
}

/* Finds a place in the atlas for a glyph, and renders it there where it isn't yet. */
static int place(Glyphs *glyphs, FT_UInt glyph, EtagereSize padded, EtagereRectangle *rectangle) {
    uint64_t key = (uint64_t)glyphs->size << 32 | glyph;
    size_t count = 0;
    EtagereStatus status;
    if (glyphs->is_direct) {
        rectangle->min.x = rectangle->min.y = 0;
        rectangle->max.x = padded.width;
        rectangle->max.y = padded.height;
    } else {
        if (etagere_cache_get(&glyphs->cache, key, rectangle) == ETAGERE_OK) {
            return 1;
        }
        status = etagere_cache_place(&glyphs->cache, key, padded, rectangle, glyphs->evicted, glyphs->capacity, &count);
        if (status != ETAGERE_OK) {
            return fails("a glyph has no place in the atlas, by the status", status);
        }
    }
    glyphs->evicted_count += count;
    glyphs->rendered_count += 1;
    if (!render(glyphs, glyph)) {
        return 0;
    }
    upload(glyphs, *rectangle);
    return 1;
}

int glyphs_quad(Glyphs *glyphs, FT_UInt glyph, Quad *quad) {
    const Metrics *metrics = glyphs_metrics(glyphs, glyph);
    EtagereRectangle rectangle;
    EtagereSize padded;
    if (metrics == NULL) {
        return 0;
    }
    memset(quad, 0, sizeof *quad);
    if (metrics->width == 0 || metrics->rows == 0) {
        return 1;
    }
    padded.width = metrics->width + 2 * PADDING;
    padded.height = metrics->rows + 2 * PADDING;
    if (!place(glyphs, glyph, padded, &rectangle)) {
        return 0;
    }
    glyphs->drawn_count += 1;
    quad->x = metrics->left - PADDING;
    quad->y = -metrics->top - PADDING;
    quad->width = padded.width;
    quad->height = padded.height;
    quad->from = rectangle.min;
    return 1;
}
