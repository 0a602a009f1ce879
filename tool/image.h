/* Images of points, each the number of a colour: a class, or one of the inks. They are written as PNG. */
#ifndef IMAGE_H
#define IMAGE_H

#include "classes.h"

enum { INK_PAPER = HLQ_MOST_SLOTS, INK_BLACK, INK_GREY, INK_LIVE, INK_HIDDEN, INK_NONE, INKS };

typedef struct {
    uint32_t width, height;
    uint8_t *points; /* row by row */
} image;

image new_image(uint32_t width, uint32_t height);
void give_back_image(image *i);

/* The PNG of an image in the classes' colours, in memory of its own or into a file. */
uint8_t *png_bytes(const image *i, const class_names *c, size_t *length);
void write_png(const image *i, const class_names *c, FILE *file);

/* Nothing is drawn past the edges. */
void draw_point(image *i, int64_t x, int64_t y, int ink);
void draw_box(image *i, int64_t x, int64_t y, int64_t width, int64_t height, int ink);
void draw_frame(image *i, int64_t x, int64_t y, int64_t width, int64_t height, int64_t thick, int ink);
/* The width of a text in letters of this size, 1 or more times 7 by 13 points; letters past Latin-1 become question
 * marks. */
int64_t text_width(const char *text, int size);
void draw_text(image *i, int64_t x, int64_t y, const char *text, int size, int ink);

enum { LETTER_WIDTH = 7, LETTER_HEIGHT = 13 };

#endif
