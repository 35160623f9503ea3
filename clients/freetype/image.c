#include "image.h"

#include <png.h>
#include <setjmp.h>
#include <stdio.h>
#include <stdlib.h>
#include <string.h>

int image_make(Image *image, int32_t width, int32_t height, uint8_t shade) {
    size_t count = (size_t)width * (size_t)height;
    image->width = width;
    image->height = height;
    image->pixels = malloc(count);
    if (image->pixels == NULL) {
        return 0;
    }
    memset(image->pixels, shade, count);
    return 1;
}

void image_free(Image *image) {
    free(image->pixels);
    image->pixels = NULL;
}

uint8_t *image_row(const Image *image, int32_t y) {
    return image->pixels + (size_t)y * (size_t)image->width;
}

/* Writes to an open file. libpng jumps back to here where it fails. */
static int write_png(const Image *image, FILE *file) {
    png_structp png = png_create_write_struct(PNG_LIBPNG_VER_STRING, NULL, NULL, NULL);
    png_infop info = png == NULL ? NULL : png_create_info_struct(png);
    int32_t y;

    if (info == NULL || setjmp(png_jmpbuf(png)) != 0) {
        png_destroy_write_struct(&png, &info);
        return 0;
    }
    png_init_io(png, file);
    png_set_compression_level(png, 9);
    png_set_IHDR(png, info, (png_uint_32)image->width, (png_uint_32)image->height, 8, PNG_COLOR_TYPE_GRAY,
                 PNG_INTERLACE_NONE, PNG_COMPRESSION_TYPE_DEFAULT, PNG_FILTER_TYPE_DEFAULT);
    png_write_info(png, info);
    for (y = 0; y < image->height; y += 1) {
        png_write_row(png, image_row(image, y));
    }
    png_write_end(png, info);
    png_destroy_write_struct(&png, &info);
    return 1;
}

int image_write(const Image *image, const char *path) {
    FILE *file = fopen(path, "wb");
    int written;

    if (file == NULL) {
        return 0;
    }
    written = write_png(image, file);
    return fclose(file) == 0 && written;
}
