/* Lays a text out in three sizes, through a cache of glyphs in an atlas, and writes the page and the atlas as PNG.
 *
 *   typeset [-s SIDE] [-k KEYS] [-d] FONT TEXT PAGE.png ATLAS.png
 *
 * The atlas is SIDE x SIDE pixels large (160) and holds at most KEYS glyphs (1000); with -d each glyph goes past the
 * cache. A line of the text that begins with `# ` is a title, one with `> ` a note. An empty line ends a paragraph. */

#define _POSIX_C_SOURCE 200809L

#include <stdint.h>
#include <stdio.h>
#include <stdlib.h>
#include <string.h>
#include <unistd.h>

#include "glyphs.h"
#include "image.h"

enum { PAGE_WIDTH = 560, PAGE_HEIGHT = 600, MARGIN = 28, MOST_LETTERS = 64, PAPER = 255 };

enum { TITLE, BODY, NOTE };

static const int32_t pixels[SIZES] = { 34, 15, 11 };

typedef struct Page {
    Image image;
    Glyphs glyphs;
    int32_t x;
    int32_t baseline;
} Page;

/* The glyphs of a word, with the width in pixels that it takes. */
typedef struct Word {
    FT_UInt glyphs[MOST_LETTERS];
    size_t count;
    int32_t width;
} Word;

/* Takes a character of UTF-8 from the front of a text. What isn't one is taken as a byte. */
static uint32_t next_character(const char **text) {
    const unsigned char *bytes = (const unsigned char *)*text;
    uint32_t character = bytes[0];
    int more = character >= 0xf0 ? 3 : character >= 0xe0 ? 2 : character >= 0xc0 ? 1 : 0;
    int i;
    if (more > 0) {
        character &= 0x3fU >> more;
    }
    for (i = 1; i <= more; i += 1) {
        if ((bytes[i] & 0xc0U) != 0x80U) {
            *text += 1;
            return bytes[0];
        }
        character = character << 6 | (bytes[i] & 0x3fU);
    }
    *text += 1 + more;
    return character;
}

/* Takes a word from the front of a text, up to a space or the end. */
static int next_word(Glyphs *glyphs, const char **text, Word *word) {
    word->count = 0;
    word->width = 0;
    while (**text != '\0' && **text != ' ' && **text != '\n' && word->count < MOST_LETTERS) {
        FT_UInt glyph = FT_Get_Char_Index(glyphs->face, next_character(text));
        const Metrics *metrics = glyphs_metrics(glyphs, glyph);
        if (metrics == NULL) {
            return 0;
        }
        if (word->count > 0) {
            word->width += glyphs_kerning(glyphs, word->glyphs[word->count - 1], glyph);
        }
        word->width += metrics->advance;
        word->glyphs[word->count] = glyph;
        word->count += 1;
    }
    return 1;
}

/* Darkens the page by the pixels of a quad, padding and all, as far as they lie on it. */
static void blend(Page *page, const Quad *quad) {
    int32_t x, y;
    for (y = 0; y < quad->height; y += 1) {
        const uint8_t *from = image_row(&page->glyphs.atlas, quad->from.y + y) + quad->from.x;
        int32_t row = page->baseline + quad->y + y;
        for (x = 0; x < quad->width; x += 1) {
            int32_t column = page->x + quad->x + x;
            if (row >= 0 && row < PAGE_HEIGHT && column >= 0 && column < PAGE_WIDTH) {
                uint8_t *to = image_row(&page->image, row) + column;
                *to = (uint8_t)(*to * (255 - from[x]) / 255);
            }
        }
    }
}

static int draw_word(Page *page, const Word *word) {
    size_t i;
    for (i = 0; i < word->count; i += 1) {
        Quad quad;
        if (i > 0) {
            page->x += glyphs_kerning(&page->glyphs, word->glyphs[i - 1], word->glyphs[i]);
        }
        if (!glyphs_quad(&page->glyphs, word->glyphs[i], &quad)) {
            return 0;
        }
        blend(page, &quad);
        page->x += glyphs_metrics(&page->glyphs, word->glyphs[i])->advance;
    }
    return 1;
}

static void break_line(Page *page) {
    page->x = MARGIN;
    page->baseline += glyphs_line_height(&page->glyphs);
}

/* Draws the words up to an empty line or the end, and leaves the text behind them. */
static int draw_paragraph(Page *page, const char **text, int size) {
    const Metrics *space;
    if (!glyphs_use(&page->glyphs, size)) {
        return 0;
    }
    space = glyphs_metrics(&page->glyphs, FT_Get_Char_Index(page->glyphs.face, ' '));
    if (space == NULL) {
        return 0;
    }
    break_line(page);
    while (**text != '\0' && strncmp(*text, "\n\n", 2) != 0) {
        Word word;
        if (**text == ' ' || **text == '\n') {
            *text += 1;
            continue;
        }
        if (!next_word(&page->glyphs, text, &word)) {
            return 0;
        }
        if (page->x > MARGIN && page->x + word.width > PAGE_WIDTH - MARGIN) {
            break_line(page);
        }
        if (!draw_word(page, &word)) {
            return 0;
        }
        page->x += space->advance;
    }
    page->baseline += glyphs_line_height(&page->glyphs) / 2;
    return 1;
}

static int draw_text(Page *page, const char *text) {
    page->baseline = MARGIN / 2;
    while (*text != '\0') {
        int size = BODY;
        if (*text == '\n') {
            text += 1;
            continue;
        }
        if (strncmp(text, "# ", 2) == 0 || strncmp(text, "> ", 2) == 0) {
            size = *text == '#' ? TITLE : NOTE;
            text += 2;
        }
        if (!draw_paragraph(page, &text, size)) {
            return 0;
        }
    }
    return 1;
}

/* The content of a file with a zero behind it, or NULL. */
static char *read_text(const char *path) {
    enum { MOST = 1 << 20 };
    FILE *file = fopen(path, "rb");
    char *text = file == NULL ? NULL : malloc(MOST + 1);
    if (text != NULL) {
        text[fread(text, 1, MOST, file)] = '\0';
    }
    if (file != NULL) {
        fclose(file);
    }
    return text;
}

static void report(Page *page) {
    const Glyphs *glyphs = &page->glyphs;
    int32_t space = 0;
    size_t keys = 0;
    etagere_cache_allocated_space(&page->glyphs.cache, &space);
    etagere_cache_len(&page->glyphs.cache, &keys);
    printf("%zu glyphs drawn, %zu rendered, %zu evicted; %zu are in the atlas, on %.0f %% of its area\n",
           glyphs->drawn_count, glyphs->rendered_count, glyphs->evicted_count, keys,
           100.0 * space / ((double)glyphs->atlas.width * glyphs->atlas.height));
}

/* Draws a text, and writes the page and the atlas. */
static int typeset(Page *page, const char *text, const char *page_path, const char *atlas_path) {
    if (!image_make(&page->image, PAGE_WIDTH, PAGE_HEIGHT, PAPER) || !draw_text(page, text)) {
        return 0;
    }
    report(page);
    if (!image_write(&page->image, page_path) || !image_write(&page->glyphs.atlas, atlas_path)) {
        fprintf(stderr, "typeset: %s or %s can't be written\n", page_path, atlas_path);
        return 0;
    }
    return 1;
}

int main(int count, char **words) {
    static Page page;
    long side = 160, keys = 1000;
    char *text;
    int option, went;

    while ((option = getopt(count, words, "s:k:d")) != -1) {
        switch (option) {
        case 's':
            side = strtol(optarg, NULL, 10);
            break;
        case 'k':
            keys = strtol(optarg, NULL, 10);
            break;
        case 'd':
            page.glyphs.is_direct = 1;
            break;
        default:
            count = 0;
        }
    }
    if (count - optind != 4 || side < 1 || side > 4096 || keys < 1 || keys > 1000000) {
        fputs("usage: typeset [-s SIDE] [-k KEYS] [-d] FONT TEXT PAGE.png ATLAS.png\n", stderr);
        return 2;
    }
    words += optind;
    text = read_text(words[1]);
    if (text == NULL) {
        fprintf(stderr, "typeset: %s can't be read\n", words[1]);
        return 1;
    }
    went = glyphs_open(&page.glyphs, words[0], pixels, (int32_t)side, (size_t)keys)
           && typeset(&page, text, words[2], words[3]);
    glyphs_close(&page.glyphs);
    image_free(&page.image);
    free(text);
    return went ? 0 : 1;
}
