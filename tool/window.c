/* Windows, pixels, sheets and blocks: places in words, in numbers and in coordinates. */
#include "window.h"

#include <math.h>
#include <stdlib.h>
#include <string.h>

window whole_survey(const line *l) { return (window){ 0, 0, l->rows, l->columns }; }

/* One direction: from `first` on so many, clipped to 0 .. all; 0 where nothing is left. */
static int clip(long long first, uint64_t count, uint32_t all, uint32_t *begin, uint32_t *length) {
    if (first >= (long long)all || count == 0) return 0;
    uint64_t before = first < 0 ? (uint64_t)0 - (uint64_t)first : 0;
    if (before >= count) return 0;
    *begin = first < 0 ? 0 : (uint32_t)first;
    count -= before;
    *length = count < all - *begin ? (uint32_t)count : all - *begin;
    return 1;
}

int clip_window(const line *l, long long row, long long column, uint64_t height, uint64_t width, window *clipped) {
    return clip(row, height, l->rows, &clipped->row, &clipped->height) &&
           clip(column, width, l->columns, &clipped->column, &clipped->width);
}

double x_of(const line *l, double column) { return l->west + column * l->cell; }
double y_of(const line *l, double row) { return l->north - row * l->cell; }

/* The first and the last place along one direction whose centre lies between two distances from the survey's edge. */
static int between(double from, double to, uint32_t all, long long *first, uint64_t *count) {
    double least = ceil(from - 0.5), most = floor(to - 0.5);
    if (!(least <= most) || most < 0 || least >= all) return 0;
    if (least < 0) least = 0;
    if (most >= all) most = all - 1.0;
    *first = (long long)least;
    *count = (uint64_t)(most - least) + 1;
    return 1;
}

/* The pixels whose centres lie in the box. */
static window box_of(const line *l, char **words) {
    double west = decimal_of(words[0], "WEST"), south = decimal_of(words[1], "SOUTH");
    double east = decimal_of(words[2], "EAST"), north = decimal_of(words[3], "NORTH");
    if (west > east || south > north)
        fail(STATUS_USAGE, "--box is WEST SOUTH EAST NORTH, and %s lies past %s", west > east ? "WEST" : "SOUTH",
             west > east ? "EAST" : "NORTH");
    long long row, column;
    uint64_t height, width;
    window w = { 0 };
    if (!between((west - l->west) / l->cell, (east - l->west) / l->cell, l->columns, &column, &width) ||
        !between((l->north - north) / l->cell, (l->north - south) / l->cell, l->rows, &row, &height) ||
        !clip_window(l, row, column, height, width, &w))
        accept_or_end(HLQ_WINDOW, "--box: no pixel's centre of the survey lies in it");
    return w;
}

int window_words(const arguments *a) { return a->given[OPTION_BOX] ? 0 : 4; }

window window_of(const line *l, const arguments *a, int at) {
    need_survey(l);
    if (a->given[OPTION_BOX]) return box_of(l, a->given[OPTION_BOX]);
    if (a->count < at + 4) fail(STATUS_USAGE, "a window is ROW COLUMN HEIGHT WIDTH, or --box WEST SOUTH EAST NORTH");
    long long row = signed_number_of(a->words[at], "ROW"), column = signed_number_of(a->words[at + 1], "COLUMN");
    uint32_t height = number_of(a->words[at + 2], "HEIGHT"), width = number_of(a->words[at + 3], "WIDTH");
    window w;
    if (!clip_window(l, row, column, height, width, &w)) accept_or_end(HLQ_WINDOW, NULL);
    if (a->given[OPTION_STRICT] && (w.height != height || w.width != width)) accept_or_end(HLQ_WINDOW, "--strict");
    return w;
}

void pixel_of(const line *l, const arguments *a, int at, uint32_t *row, uint32_t *column) {
    need_survey(l);
    window w;
    long long r, c;
    if (a->given[OPTION_XY]) {
        double x = decimal_of(a->given[OPTION_XY][0], "X"), y = decimal_of(a->given[OPTION_XY][1], "Y");
        double across = floor((x - l->west) / l->cell), down = floor((l->north - y) / l->cell);
        if (!(across >= 0 && across < l->columns && down >= 0 && down < l->rows))
            accept_or_end(HLQ_WINDOW, "--xy: not a pixel of the survey");
        r = (long long)down, c = (long long)across;
    } else {
        if (a->count < at + 2) fail(STATUS_USAGE, "a pixel is ROW COLUMN, or --xy X Y");
        r = signed_number_of(a->words[at], "ROW"), c = signed_number_of(a->words[at + 1], "COLUMN");
    }
    if (!clip_window(l, r, c, 1, 1, &w)) accept_or_end(HLQ_WINDOW, NULL);
    *row = w.row, *column = w.column;
}

walk sheets_of(line *l, window w) { return (walk){ .l = l, .w = w, .i = w.row >> l->m, .j = w.column >> l->m }; }

walk sheets_to_paint(line *l, window w) {
    walk r = sheets_of(l, w);
    r.to_paint = 1;
    return r;
}

int next_sheet(walk *r) {
    uint32_t m = r->l->m, last_i = (r->w.row + r->w.height - 1) >> m, last_j = (r->w.column + r->w.width - 1) >> m;
    if (r->begun) {
        give_back_sheet(&r->sheet);
        r->j++;
    }
    r->begun = 1;
    if (r->j > last_j) r->j = r->w.column >> m, r->i++;
    if (r->i > last_i) return 0;
    r->sheet = r->to_paint ? read_sheet_to_paint(r->l, r->i, r->j) : read_sheet(r->l, r->i, r->j);
    return 1;
}

hlq_dragged on_sheet(const sheet *a, window w) {
    uint32_t m = a->map.list.m;
    return (hlq_dragged){ (int32_t)w.row - (int32_t)(a->i << m), (int32_t)w.column - (int32_t)(a->j << m), w.height,
                          w.width };
}

hlq_window part_on(const sheet *a, window w) {
    uint32_t m = a->map.list.m, side = (uint32_t)1 << m, top = a->i << m, left = a->j << m;
    uint32_t row = w.row > top ? w.row : top, column = w.column > left ? w.column : left;
    uint32_t bottom = w.row + w.height < top + side ? w.row + w.height : top + side;
    uint32_t right = w.column + w.width < left + side ? w.column + w.width : left + side;
    return (hlq_window){ row - top, column - left, bottom - row, right - column };
}

void add_block(block_list *list, block b) {
    if (list->count == list->room) list->at = more_room_for(list->at, list->room = list->room * 2 + 64, sizeof b);
    list->at[list->count++] = b;
}

void key_text(uint32_t m, uint32_t key, char text[KEY_TEXT]) {
    uint32_t digits = m ? m : 1;
    text[digits] = 0;
    for (uint32_t i = digits; i > 0; i--, key /= 5) text[i - 1] = (char)('0' + key % 5);
}

uint32_t key_of(uint32_t m, const char *text, const char *what, int status) {
    long long number;
    uint32_t key = 0;
    if (*text == '@') {
        if (!is_number(text + 1, 0, UINT32_MAX, &number)) fail(status, "%s: '%s' is not a number", what, text + 1);
        key = (uint32_t)number;
    } else if (strcmp(text, "0") != 0) {
        if (strlen(text) != m || strspn(text, "01234") != m)
            fail(status, "%s: '%s' is not a key of this line, which has %u digits from 0 to 4", what, text, m);
        for (; *text; text++) key = key * 5 + (uint32_t)(*text - '0');
    }
    accept_or_end(hlq_block_of(m, key).refusal, what);
    return key;
}

void sheet_text(uint32_t i, uint32_t j, char text[BLOCK_TEXT]) { snprintf(text, BLOCK_TEXT, "%u.%u", i, j); }

void block_text(const line *l, block b, char text[BLOCK_TEXT]) {
    char key[KEY_TEXT];
    key_text(l->m, b.key, key);
    if (sheet_rows(l) == 1 && sheet_columns(l) == 1) snprintf(text, BLOCK_TEXT, "%s", key);
    else snprintf(text, BLOCK_TEXT, "%u.%u:%s", b.i, b.j, key);
}

void sheet_of(const line *l, const char *text, const char *what, int status, uint32_t *i, uint32_t *j) {
    char *copy = text_of("%s", text), *dot = strchr(copy, '.');
    long long down = -1, across = -1;
    if (dot) *dot = 0;
    if (!dot || !is_number(copy, 0, UINT32_MAX, &down) || !is_number(dot + 1, 0, UINT32_MAX, &across))
        fail(status, "%s: '%s' is not a sheet, like 0.1", what, text);
    if (down >= sheet_rows(l) || across >= sheet_columns(l))
        fail(status, "%s: there is no sheet %s; the last one is %u.%u", what, text, sheet_rows(l) - 1,
             sheet_columns(l) - 1);
    *i = (uint32_t)down, *j = (uint32_t)across;
    free(copy);
}

block block_of(const line *l, const char *text, const char *what, int status) {
    block b = { 0 };
    const char *colon = strchr(text, ':');
    if (colon) {
        char *front = text_of("%.*s", (int)(colon - text), text);
        sheet_of(l, front, what, status, &b.i, &b.j);
        free(front);
    } else if (sheet_rows(l) > 1 || sheet_columns(l) > 1) {
        fail(status, "%s: '%s' is not a block, like 0.1:KEY; the line has %u sheets", what, text,
             sheet_rows(l) * sheet_columns(l));
    }
    b.key = key_of(l->m, colon ? colon + 1 : text, what, status);
    return b;
}

square square_of(const line *l, block b) {
    hlq_block at = hlq_block_of(l->m, b.key);
    accept_or_end(at.refusal, NULL);
    return (square){ (uint32_t)at.row + (b.i << l->m), (uint32_t)at.column + (b.j << l->m), (uint32_t)at.side,
                     (uint32_t)at.level };
}
