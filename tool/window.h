/* Where things lie: windows and pixels of the command line, in rows and columns or in coordinates; the sheets that a
 * window meets; blocks by their sheet and key. */
#ifndef WINDOW_H
#define WINDOW_H

#include "sheet.h"

/* A window that lies in the survey: it has a pixel, and reaches over no edge. */
typedef struct {
    uint32_t row, column, height, width;
} window;

/* The window of the command line: four words from words[at] on, or --box. It is clipped to the survey; one without a
 * pixel there is refused, 6, and with --strict one that reaches over the edge too. */
window window_of(const line *l, const arguments *a, int at);
/* How many words of the command line the window takes: 0 with --box, else 4. */
int window_words(const arguments *a);
window whole_survey(const line *l);
/* The same from numbers; 0 where it has no pixel in the survey. */
int clip_window(const line *l, long long row, long long column, uint64_t height, uint64_t width, window *clipped);

/* The pixel of two words from words[at] on, or of --xy; refused, 6, where it is not in the survey. */
void pixel_of(const line *l, const arguments *a, int at, uint32_t *row, uint32_t *column);

/* The line's coordinates of a column's western edge and a row's northern edge. */
double x_of(const line *l, double column);
double y_of(const line *l, double row);

/* The sheets that a window meets, one after the other in reading order; the sheet is given back with the next one:
 *     for (walk r = sheets_of(&l, w); next_sheet(&r);) .. r.sheet .. */
typedef struct {
    line *l;
    window w;
    uint32_t i, j;
    int begun, to_paint;
    sheet sheet;
} walk;

walk sheets_of(line *l, window w);
/* The same, with room for one more paint in each sheet's log. */
walk sheets_to_paint(line *l, window w);
int next_sheet(walk *r);

/* The window as the clipped calls take it on a sheet: its row and column there, as signed numbers. */
hlq_dragged on_sheet(const sheet *a, window w);
/* The part of a window that lies on a sheet, in the sheet's rows and columns. */
hlq_window part_on(const sheet *a, window w);

/* A block: its sheet and its key. */
typedef struct {
    uint32_t i, j, key;
} block;

/* Blocks, as many as there are. */
typedef struct {
    block *at;
    size_t count, room;
} block_list;
void add_block(block_list *list, block b);
/* The largest blocks of a class that lie in a window, sheet by sheet in reading order, by key on each (queries.c). */
block_list select_blocks(line *l, window w, uint32_t class);

/* The pixels of each class in a window, more than are there already (areas.c). */
void measure_areas(line *l, window w, uint64_t pixels[HLQ_MOST_SLOTS]);

/* A block as people write it: i.j:KEY, and on a line of one sheet the key alone. */
enum { KEY_TEXT = 16, BLOCK_TEXT = 40 };
void block_text(const line *l, block b, char text[BLOCK_TEXT]);
void sheet_text(uint32_t i, uint32_t j, char text[BLOCK_TEXT]);
/* Ends where the text is no block of this line; the message begins with `what`. */
block block_of(const line *l, const char *text, const char *what, int status);
/* A sheet from "i.j"; ends where it is none of this line. */
void sheet_of(const line *l, const char *text, const char *what, int status, uint32_t *i, uint32_t *j);

/* Keys as their m digits; 0 is the whole sheet, and @N the key with the number N. */
void key_text(uint32_t m, uint32_t key, char text[KEY_TEXT]);
uint32_t key_of(uint32_t m, const char *text, const char *what, int status);

/* The square of a block in the survey's rows and columns. It may reach past the survey's edge. */
typedef struct {
    uint32_t row, column, side, level;
} square;
square square_of(const line *l, block b);

#endif
