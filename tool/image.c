/* Images: points, boxes and letters, written by libpng. The letters are those that netpbm's library brings along. */
#define _DEFAULT_SOURCE
#include "image.h"

#include <netpbm/pbm.h>
#include <netpbm/pbmfont.h>
#undef max
#undef min
#include <png.h>
#include <stdlib.h>
#include <string.h>

image new_image(uint32_t width, uint32_t height) {
    return (image){ width, height, room_for((size_t)width * height, 1) };
}

void give_back_image(image *i) { free(i->points); }

static _Noreturn void end_of_png(png_structp png, png_const_charp words) {
    (void)png;
    fail(STATUS_IO, "a picture cannot be written: %s", words);
}

static void fill_palette(png_color palette[INKS], const class_names *c) {
    static const uint32_t inks[] = { 0xffffff, 0x101010, 0x787878, 0xd00000, 0x3a3a3a, 0xffffff };
    for (int i = 0; i < INKS; i++) {
        uint32_t colour = i < HLQ_MOST_SLOTS ? c->colours[i] : inks[i - HLQ_MOST_SLOTS];
        palette[i].red = (png_byte)(colour >> 16);
        palette[i].green = (png_byte)(colour >> 8);
        palette[i].blue = (png_byte)colour;
    }
}

void write_png(const image *i, const class_names *c, FILE *file) {
    png_color palette[INKS];
    png_byte seen[INKS];
    png_structp png = png_create_write_struct(PNG_LIBPNG_VER_STRING, NULL, end_of_png, NULL);
    png_infop info = png ? png_create_info_struct(png) : NULL;
    if (!info) fail(STATUS_MEMORY, "no memory for a picture");
    png_init_io(png, file);
    png_set_IHDR(png, info, i->width, i->height, 8, PNG_COLOR_TYPE_PALETTE, PNG_INTERLACE_NONE,
                 PNG_COMPRESSION_TYPE_DEFAULT, PNG_FILTER_TYPE_DEFAULT);
    fill_palette(palette, c);
    png_set_PLTE(png, info, palette, INKS);
    memset(seen, 255, sizeof seen);
    seen[INK_NONE] = 0;
    if (memchr(i->points, INK_NONE, (size_t)i->width * i->height)) png_set_tRNS(png, info, seen, INKS, NULL);
    png_write_info(png, info);
    for (uint32_t y = 0; y < i->height; y++) png_write_row(png, i->points + (size_t)y * i->width);
    png_write_end(png, NULL);
    png_destroy_write_struct(&png, &info);
}

uint8_t *png_bytes(const image *i, const class_names *c, size_t *length) {
    char *bytes = NULL;
    FILE *file = open_memstream(&bytes, length);
    if (!file) fail(STATUS_MEMORY, "no memory for a picture");
    write_png(i, c, file);
    if (fclose(file) != 0) fail(STATUS_MEMORY, "no memory for a picture");
    return (uint8_t *)bytes;
}

void draw_point(image *i, int64_t x, int64_t y, int ink) {
    if (x >= 0 && y >= 0 && x < i->width && y < i->height) i->points[(size_t)y * i->width + (size_t)x] = (uint8_t)ink;
}

void draw_box(image *i, int64_t x, int64_t y, int64_t width, int64_t height, int ink) {
    for (int64_t v = y < 0 ? 0 : y; v < y + height && v < i->height; v++)
        for (int64_t u = x < 0 ? 0 : x; u < x + width && u < i->width; u++) draw_point(i, u, v, ink);
}

void draw_frame(image *i, int64_t x, int64_t y, int64_t width, int64_t height, int64_t thick, int ink) {
    draw_box(i, x, y, width, thick, ink);
    draw_box(i, x, y + height - thick, width, thick, ink);
    draw_box(i, x, y, thick, height, ink);
    draw_box(i, x + width - thick, y, thick, height, ink);
}

/* The next letter of a text in UTF-8 as Latin-1. */
static unsigned char next_letter(const char **text) {
    unsigned char first = (unsigned char)*(*text)++, letter = '?';
    if (first < 0x80) return first < ' ' ? '?' : first;
    if ((first == 0xc2 || first == 0xc3) && ((unsigned char)**text >> 6) == 2)
        letter = (unsigned char)((first & 3) << 6 | ((unsigned char)**text & 63));
    while (((unsigned char)**text >> 6) == 2) (*text)++;
    return letter;
}

int64_t text_width(const char *text, int size) {
    int64_t letters = 0;
    for (; *text; letters++) next_letter(&text);
    return letters * LETTER_WIDTH * size;
}

void draw_text(image *i, int64_t x, int64_t y, const char *text, int size, int ink) {
    static struct font *letters;
    if (!letters) letters = pbm_defaultfont("fixed");
    for (; *text; x += LETTER_WIDTH * size) {
        const struct glyph *g = letters->glyph[next_letter(&text)];
        if (!g) g = letters->glyph['?'];
        for (unsigned v = 0; g && v < g->height; v++)
            for (unsigned u = 0; u < g->width; u++)
                if (g->bmap[v * g->width + u])
                    draw_box(i, x + (g->x + (int64_t)u) * size,
                             y + (LETTER_HEIGHT - g->y - (int64_t)g->height + (int64_t)v) * size, size, size, ink);
    }
}
