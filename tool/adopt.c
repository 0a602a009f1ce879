/* adopt: waivers that the former checker kept by the place of a record become waivers by block. With the list of that
 * day a place names a block; in today's list another block may stand there, and then the former checker's waiver has
 * slid. */
#include "answer.h"
#include "classes.h"
#include "commands.h"
#include "files.h"
#include "waivers.h"

#include <stdlib.h>
#include <string.h>

/* The map of that day, and that of the same ground today. Its first pixel is (row, column) of the survey. */
typedef struct {
    sheet old, today;
    uint32_t m, row, column;
} two_days;

static sheet read_list(const char *path, uint32_t *m) {
    size_t length;
    uint32_t s;
    uint8_t *file = read_file(path, HLQ_FILE_BYTES(HLQ_MOST_RECORDS(HLQ_DEEPEST_M), HLQ_MOST_SLOTS), &length);
    accept_or_end(hlq_file_settings(file, length, m, &s), path);
    sheet a = new_sheet(*m, s, 0, 0, 0);
    accept_or_end(hlq_sheet_load(&a.map, file, length), path);
    free(file);
    return a;
}

/* Today's ground as a map of the old one's side; past the survey's edge it has the line's filler. */
static sheet list_of_today(line *l, uint32_t m, uint32_t row, uint32_t column) {
    size_t side = (size_t)1 << m;
    uint8_t *ground = room_for(side * side, 1);
    sheet today = new_sheet(m, l->slots, 0, 0, 0);
    window w;
    memset(ground, (int)l->filler, side * side);
    if (!clip_window(l, row, column, side, side, &w)) accept_or_end(HLQ_WINDOW, NULL);
    for (walk r = sheets_of(l, w); next_sheet(&r);) {
        hlq_window part = part_on(&r.sheet, w);
        uint8_t *raster = raster_of(&r.sheet);
        for (uint32_t y = 0; y < part.height; y++)
            memcpy(ground + ((r.sheet.i << l->m) + part.row + y - row) * side +
                       ((r.sheet.j << l->m) + part.column - column),
                   raster + (((size_t)part.row + y) << l->m) + part.column, part.width);
        free(raster);
    }
    accept_or_end(hlq_sheet_build(&today.map, ground, side * side), NULL);
    free(ground);
    return today;
}

static two_days read_days(line *l, const arguments *a) {
    two_days d = { 0 };
    uint32_t i = 0, j = 0;
    need_survey(l);
    d.old = read_list(a->words[1], &d.m);
    if (a->given[OPTION_SHEET]) sheet_of(l, value_of(a, OPTION_SHEET), "--sheet", STATUS_USAGE, &i, &j);
    d.row = i << l->m, d.column = j << l->m;
    d.today = list_of_today(l, d.m, d.row, d.column);
    return d;
}

/* The square of a record in the survey's rows and columns. */
static square square_of_record(const two_days *d, uint32_t key) {
    hlq_block at = hlq_block_of(d->m, key);
    return (square){ (uint32_t)at.row + d->row, (uint32_t)at.column + d->column, (uint32_t)at.side,
                     (uint32_t)at.level };
}

/* The blocks of the line that make up a square: one, or every sheet in it where it is larger than these. */
static void add_square(block_list *to, const line *l, square q) {
    uint32_t side = side_of(l), level = l->m;
    for (uint32_t size = q.side; size > 1 && level > 0; size /= 2) level--;
    for (uint32_t row = q.row; row < q.row + q.side && row < l->rows; row += side)
        for (uint32_t column = q.column; column < q.column + q.side && column < l->columns; column += side) {
            hlq_keyed at = hlq_key_at(l->m, row & (side - 1), column & (side - 1), level);
            accept_or_end(at.refusal, NULL);
            add_block(to, (block){ row >> l->m, column >> l->m, (uint32_t)at.key });
        }
}

/* The class of a record, or that it has several. */
static const char *class_of_record(const class_names *c, uint32_t bits) {
    uint32_t f = 0;
    while (f + 1 < HLQ_MOST_SLOTS && !(bits >> f & 1)) f++;
    return bits >> f == 1 ? c->names[f] : "several";
}

typedef struct {
    uint32_t office, rule;
    size_t place;
} kept; /* by place */

static kept kept_at(const two_days *d, const csv *file, size_t row, const char *path) {
    kept k = { (uint32_t)number_at(file, row, column_of(file, "office"), 0, UINT32_MAX),
               (uint32_t)number_at(file, row, column_of(file, "rule"), 0, UINT32_MAX),
               (size_t)number_at(file, row, column_of(file, "place"), 0, UINT32_MAX) };
    if (k.place >= d->old.map.list.n)
        fail(STATUS_DATA, "%s, line %zu: place %zu, but the list of %s has %zu records, from place 0 on", file->path,
             file->lines[row], k.place, path, d->old.map.list.n);
    return k;
}

static void write_record(const two_days *d, const class_names *c, const hlq_list *list, size_t place) {
    char key[KEY_TEXT];
    if (place >= list->n) {
        for (int i = 0; i < 5; i++) cell_nothing();
        return;
    }
    square q = square_of_record(d, list->keys[place]);
    key_text(d->m, list->keys[place], key);
    cell_words(key);
    cell_number(q.row);
    cell_number(q.column);
    cell_number(q.side);
    cell_words(class_of_record(c, list->bits[place]));
}

/* A waiver has slid where today another block, or none, stands at its place. */
static int has_slid(const two_days *d, size_t place) {
    const hlq_list *old = &d->old.map.list, *today = &d->today.map.list;
    return place >= today->n || today->keys[place] != old->keys[place];
}

static void write_places(const two_days *d, const class_names *c, const csv *file, const char *path) {
    static const column columns[] = { { "office", 6 },     { "rule", 6 },        { "place", 6 },      { "key", -10 },
                                      { "row", 6 },        { "column", 6 },      { "side", 5 },       { "class", -10 },
                                      { "today_key", -10 }, { "today_row", 9 },  { "today_column", 12 },
                                      { "today_side", 10 }, { "today_class", -11 }, { "slid", -4 } };
    table_begin("places", columns, 14);
    for (size_t row = 0; row < file->rows; row++) {
        kept k = kept_at(d, file, row, path);
        cell_number(k.office);
        cell_number(k.rule);
        cell_number(k.place);
        write_record(d, c, &d->old.map.list, k.place);
        write_record(d, c, &d->today.map.list, k.place);
        cell_truth(has_slid(d, k.place));
    }
    table_end();
}

typedef struct {
    waiver *at;
    size_t count;
} waiver_list;

/* A place may name a block of several sheets, so of several rows. */
static waiver_list waivers_of(line *l, const arguments *a, const two_days *d, const csv *file, const char *who,
                              const char *when) {
    size_t note = column_if_any(file, "note");
    waiver_list w = { 0 };
    for (size_t row = 0; row < file->rows; row++) {
        kept k = kept_at(d, file, row, a->words[1]);
        char *where = where_in(file, row);
        block_list blocks = { 0 };
        if (k.office > 1) accept_or_end(HLQ_OFFICE, where);
        add_square(&blocks, l, square_of_record(d, d->old.map.list.keys[k.place]));
        w.at = more_room_for(w.at, w.count + blocks.count, sizeof *w.at);
        for (size_t i = 0; i < blocks.count; i++)
            w.at[w.count++] = (waiver){ k.office, k.rule, blocks.at[i], field_at(file, row, note), who, when, where };
        if (blocks.count == 0) free(where);
        free(blocks.at);
    }
    return w;
}

static void give_back_waivers(waiver_list *w) {
    for (size_t i = 0; i < w->count; i++)
        if (i == 0 || w->at[i].where != w->at[i - 1].where) free((char *)w->at[i].where);
    free(w->at);
}

void run_adopt(const arguments *a) {
    csv file = read_csv(a->words[2]);
    line l = open_line(a, TO_WRITE);
    class_names classes = read_classes(&l);
    two_days d = read_days(&l, a);
    char *who = editor_of(a), *when = now_text();
    waiver_list w = waivers_of(&l, a, &d, &file, who, when);
    uint64_t added = add_waivers(&l, w.at, w.count), slid = 0;
    for (size_t row = 0; row < file.rows; row++)
        slid += (uint64_t)has_slid(&d, kept_at(&d, &file, row, a->words[1]).place);
    commit_line(&l);
    answer_begin(a);
    fact_number("read", file.rows);
    fact_number("added", added);
    fact_number("slid", slid);
    write_places(&d, &classes, &file, a->words[1]);
    answer_end();
    give_back_waivers(&w);
    give_back_sheet(&d.old);
    give_back_sheet(&d.today);
    give_back_classes(&classes);
    give_back_csv(&file);
    free(who);
    free(when);
    close_line(&l);
}
