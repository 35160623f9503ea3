/* Pictures of one byte a pixel. */

#ifndef IMAGE_H
#define IMAGE_H

#include <stdint.h>

typedef struct Image {
    int32_t width;
    int32_t height;
    uint8_t *pixels;
} Image;

/* Fills an image with one shade. Answers whether there was memory. */
int image_make(Image *image, int32_t width, int32_t height, uint8_t shade);

/* Frees the pixels. */
void image_free(Image *image);

/* The row of pixels at `y`. */
uint8_t *image_row(const Image *image, int32_t y);

/* Writes an image as a PNG file of 8 bits of grey. Answers whether it was written. */
int image_write(const Image *image, const char *path);

#endif
