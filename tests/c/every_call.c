#include "every_call.h"

#include <stdlib.h>
#include <string.h>

/* A call by the library and by the reference. U and B are slices of numbers and of bytes, by their place. */
#define U(i) (uint32_t *)t->slices[i].at, t->slices[i].len
#define B(i) (uint8_t *)t->slices[i].at, t->slices[i].len
#define RULES(i) (const hlq_rule *)t->slices[i].at, t->slices[i].len
#define QUESTIONS(i) (const hlq_question *)t->slices[i].at, t->slices[i].len
#define LIST t->m, t->s, U(0), U(1), t->n
#define WINDOW t->row, t->column, t->height, t->width
#define DRAGGED (int32_t)t->row - 1, (int32_t)t->column - 1, t->height + 1, t->width + 1
#define EDITED t->m, t->s, U(0), U(1), t->n, U(2), U(3), U(4), t->used, t->in_force
#define BOTH(name, type, ...) \
    static void library_##name(task *t) { \
        type r = hlq_##name(__VA_ARGS__); \
        memcpy(t->result, &r, sizeof r); \
    } \
    static void reference_##name(task *t) { \
        type r = ref_##name(__VA_ARGS__); \
        memcpy(t->result, &r, sizeof r); \
    }

BOTH(key_at, hlq_keyed, t->m, t->row, t->column, t->level)
BOTH(block_of, hlq_block, t->m, t->key)
BOTH(build, hlq_counted, t->m, t->s, B(0), U(1), U(2), U(3))
BOTH(raster, hlq_done, LIST, B(2))
BOTH(standing, hlq_stands, LIST, t->key)
BOTH(part, hlq_span, LIST, t->key)
BOTH(exist, hlq_exists, LIST, WINDOW, t->feature)
BOTH(report, hlq_reported, LIST, WINDOW)
BOTH(select, hlq_counted, LIST, WINDOW, t->feature, U(2))
BOTH(combine, hlq_counted, LIST, t->m2, t->s2, U(2), U(3), t->n2, t->s3, B(4), U(5), U(6))
BOTH(fill_summary, hlq_done, LIST, U(2))
BOTH(area, hlq_measured, LIST, U(2), WINDOW, t->feature)
BOTH(exist_clipped, hlq_exists, LIST, DRAGGED, t->feature)
BOTH(report_clipped, hlq_reported, LIST, DRAGGED)
BOTH(select_clipped, hlq_counted, LIST, DRAGGED, t->feature, U(2))
BOTH(area_clipped, hlq_measured, LIST, U(2), DRAGGED, t->feature)
BOTH(batch, hlq_counted, LIST, QUESTIONS(2), U(3), U(4))
BOTH(paint, hlq_edited, EDITED, t->key, t->feature)
BOTH(paint_window, hlq_edited, EDITED, WINDOW, t->feature)
BOTH(take_back, hlq_edited, EDITED)
BOTH(redo, hlq_edited, EDITED)
BOTH(add_waiver, hlq_counted, t->m, t->office, U(0), U(1), U(2), t->rows, t->id, t->key)
BOTH(remove_waiver, hlq_counted, t->m, t->office, U(0), U(1), U(2), t->rows, t->id, t->key)
BOTH(findings, hlq_found, LIST, t->office, RULES(2), U(3), U(4), U(5), t->rows, U(6), U(7))
BOTH(store, hlq_counted, LIST, B(2))
BOTH(load, hlq_loaded, B(0), U(1), U(2))
BOTH(store_log, hlq_counted, t->m, t->s, U(0), U(1), t->used, t->in_force, B(2))
BOTH(load_log, hlq_loaded_log, B(0), U(1), U(2))
BOTH(read_leaves, hlq_counted, t->m, t->s, U(0), U(1), t->leaves, U(2), U(3))
BOTH(write_leaves, hlq_counted, LIST, U(2), U(3))
BOTH(write_bit_strings, hlq_strings, LIST, B(2), B(3))
BOTH(read_bit_strings, hlq_counted, t->m, t->s, B(0), B(1), U(2), U(3))

/* The two calls that the reference has not: they are lent nothing. */
static void library_interface(task *t) { t->result[0] = hlq_interface(); }
static void reference_interface(task *t) { t->result[0] = HLQ_INTERFACE; }
static void library_empty(task *t) {
    hlq_emptied emptied = hlq_empty();
    memcpy(t->result, &emptied, sizeof emptied);
}
static void reference_empty(task *t) { t->result[0] = t->result[1] = 0; }

enum { INTERFACE, KEY_AT, BLOCK_OF, BUILD, RASTER, STANDING, PART, EXIST, REPORT, SELECT, COMBINE, FILL_SUMMARY, AREA,
       EXIST_CLIPPED, REPORT_CLIPPED, SELECT_CLIPPED, AREA_CLIPPED, BATCH, PAINT, PAINT_WINDOW, TAKE_BACK, REDO, EMPTY,
       ADD_WAIVER, REMOVE_WAIVER, FINDINGS, STORE, LOAD, STORE_LOG, LOAD_LOG, READ_LEAVES, WRITE_LEAVES,
       WRITE_BIT_STRINGS, READ_BIT_STRINGS };

#define KNOWN(place, name) [place] = { #name, library_##name, reference_##name }
const known_call every_call[EVERY_CALL] = {
    KNOWN(INTERFACE, interface), KNOWN(KEY_AT, key_at), KNOWN(BLOCK_OF, block_of), KNOWN(BUILD, build),
    KNOWN(RASTER, raster), KNOWN(STANDING, standing), KNOWN(PART, part), KNOWN(EXIST, exist), KNOWN(REPORT, report),
    KNOWN(SELECT, select), KNOWN(COMBINE, combine), KNOWN(FILL_SUMMARY, fill_summary), KNOWN(AREA, area),
    KNOWN(EXIST_CLIPPED, exist_clipped), KNOWN(REPORT_CLIPPED, report_clipped), KNOWN(SELECT_CLIPPED, select_clipped),
    KNOWN(AREA_CLIPPED, area_clipped), KNOWN(BATCH, batch), KNOWN(PAINT, paint), KNOWN(PAINT_WINDOW, paint_window),
    KNOWN(TAKE_BACK, take_back), KNOWN(REDO, redo), KNOWN(EMPTY, empty), KNOWN(ADD_WAIVER, add_waiver),
    KNOWN(REMOVE_WAIVER, remove_waiver), KNOWN(FINDINGS, findings), KNOWN(STORE, store), KNOWN(LOAD, load),
    KNOWN(STORE_LOG, store_log), KNOWN(LOAD_LOG, load_log), KNOWN(READ_LEAVES, read_leaves),
    KNOWN(WRITE_LEAVES, write_leaves), KNOWN(WRITE_BIT_STRINGS, write_bit_strings),
    KNOWN(READ_BIT_STRINGS, read_bit_strings),
};

/* A slice with these elements, or with any where there are none. */
static void give(task *t, size_t size, size_t len, const void *from, int written) {
    slice *a = &t->slices[t->count++];
    *a = (slice){ room_for(size * len), size, len, written };
    if (from) memcpy(a->at, from, size * len);
    else for (size_t i = 0; i < size * len; i++) ((uint8_t *)a->at)[i] = (uint8_t)below(256);
}

static void give_list(task *t, const map *a, size_t room, int written) {
    give(t, 4, room, NULL, written), give(t, 4, room, NULL, written);
    memcpy(t->slices[t->count - 2].at, a->keys, 4 * a->n);
    memcpy(t->slices[t->count - 1].at, a->bits, 4 * a->n);
}

static map map_of(uint32_t m, uint32_t s, const uint8_t *raster) {
    size_t most = HLQ_MOST_RECORDS(m);
    map a = { m, s, 0, room_for(4 * most), room_for(4 * most) };
    a.n = ref_list(m, s, raster, (size_t)1 << 2 * m, a.keys, most, a.bits, most).count;
    return a;
}

task copy_of_task(const task *t) {
    task c = *t;
    c.count = 0;
    for (int i = 0; i < t->count; i++)
        give(&c, t->slices[i].size, t->slices[i].len, t->slices[i].at, t->slices[i].written);
    return c;
}

void free_task(task *t) {
    for (int i = 0; i < t->count; i++) free(t->slices[i].at);
    t->count = 0;
}

int same_task(const task *a, const task *b) {
    if (memcmp(a->result, b->result, sizeof a->result) != 0) return 0;
    for (int i = 0; i < a->count; i++)
        if (memcmp(a->slices[i].at, b->slices[i].at, a->slices[i].size * a->slices[i].len) != 0) return 0;
    return 1;
}

/* The slices from the first to the last are shortened to what the call needs: a number of its result, and at least so
 * much as it holds before. */
static void shorten(task *t, int first, int last, uint64_t needed, size_t held) {
    for (int i = first; i <= last; i++) {
        must(needed <= t->slices[i].len, "a task has room");
        t->slices[i].len = needed > held ? needed : held;
    }
}

/* What the call gives on a copy. */
static void tried(int which, const task *t, uint64_t result[RESULT]) {
    task c = copy_of_task(t);
    every_call[which].reference(&c);
    must(which == INTERFACE || which == PART || c.result[0] == HLQ_ACCEPTED, every_call[which].name);
    memcpy(result, c.result, sizeof c.result);
    free_task(&c);
}

/* List, summary and a log of two steps, of which the second is taken back for a redo. */
static void give_edited(task *t, int which, const uint8_t *raster, const map *a) {
    size_t most = HLQ_MOST_RECORDS(t->m), pixels = (size_t)1 << 2 * t->m, log = 2 * (most + 3 * pixels) + 64;
    uint64_t result[RESULT];
    give_list(t, a, most, 1);
    give(t, 4, HLQ_SUMMARY_PLACES(t->m, t->s), NULL, 1);
    ref_summary(t->m, t->s, raster, t->slices[2].at);
    give(t, 4, log, NULL, 1), give(t, 4, log, NULL, 1);
    static const int steps[] = { PAINT, PAINT_WINDOW, TAKE_BACK };
    for (int i = 0; i < (which == REDO ? 3 : 2); i++) {
        every_call[steps[i]].reference(t);
        must(t->result[0] == HLQ_ACCEPTED, "a task's log");
        t->n = t->result[1], t->used = t->result[2], t->in_force = t->result[3];
    }
    if (which == STORE_LOG || which == LOAD_LOG) return;
    t->key = random_key(t->m), t->feature = below(t->s);
    tried(which, t, result);
    shorten(t, 0, 1, result[1], t->n);
    shorten(t, 3, 4, result[2], t->used);
}

/* Only the log of such a task, and a file of it: as what is written, or as what is read. */
static void give_log(task *t, int which, const uint8_t *raster, const map *a) {
    task e = *t;
    give_edited(&e, which, raster, a);
    size_t length = HLQ_LOG_FILE_BYTES(e.used);
    t->used = e.used, t->in_force = e.in_force;
    give(t, 4, e.used, e.slices[3].at, 0), give(t, 4, e.used, e.slices[4].at, 0);
    give(t, 1, length, NULL, 1);
    free_task(&e);
    if (which == STORE_LOG) return;
    reference_store_log(t);
    slice keys = t->slices[0], file = t->slices[2];
    t->slices[0] = file, t->slices[2] = keys;
    t->slices[0].written = 0, t->slices[1].written = t->slices[2].written = 1;
}

/* A table of some rows of both offices, for the rules 1 to 3: a second row for a rule is of the first quarter, where
 * the map has one. */
static void give_table(task *t, int written) {
    enum { ROWS = 9 };
    static const uint32_t offices[ROWS] = { 0, 0, 0, 0, 0, 1, 1, 1, 1 }, ids[ROWS] = { 1, 1, 2, 3, 3, 1, 2, 2, 3 };
    uint32_t *column[3];
    for (int i = 0; i < 3; i++) {
        give(t, 4, HLQ_TABLE_PLACES, NULL, written);
        column[i] = t->slices[t->count - 1].at;
    }
    t->rows = 0;
    for (int i = 0; i < ROWS; i++) {
        int second = i > 0 && offices[i] == offices[i - 1] && ids[i] == ids[i - 1];
        if (second && t->m == 0) continue;
        column[0][t->rows] = offices[i], column[1][t->rows] = ids[i];
        column[2][t->rows++] = second ? ref_power(5, t->m - 1) : 0;
    }
}

static void give_findings(task *t) {
    uint32_t edge = 1u << t->m;
    size_t most = 3 * (size_t)edge * edge;
    hlq_rule rules[3] = { { 1, 0, 0, edge, edge, t->feature }, { 2, t->row, t->column, t->height, t->width, 0 },
                          { 3, edge / 2, 0, edge - edge / 2, edge, t->s - 1 } };
    uint64_t result[RESULT];
    give(t, sizeof *rules, 3, rules, 0);
    give_table(t, 0);
    give(t, 4, most, NULL, 1), give(t, 4, most, NULL, 1);
    tried(FINDINGS, t, result);
    shorten(t, 6, 7, result[1], 0);
}

static void give_questions(task *t) {
    hlq_question questions[] = { { 0, (int32_t)t->row, -1, t->height, 2, t->feature },
                                 { 1, (int32_t)t->row - 1, -1, t->height, 2, 0 },
                                 { 0, -9, -9, 1, 1, 0 } };
    give(t, sizeof *questions, 3, questions, 0);
    give(t, 4, 3, NULL, 1), give(t, 4, 3, NULL, 1);
}

/* Calls whose last slices are an answer: their room, and then exactly so much as is needed. */
static void give_answer(task *t, int which, size_t size, int slices, size_t most) {
    uint64_t result[RESULT];
    int first = t->count;
    for (int i = 0; i < slices; i++) give(t, size, most, NULL, 1);
    tried(which, t, result);
    for (int i = 0; i < slices; i++)
        shorten(t, first + i, first + i, result[which == WRITE_BIT_STRINGS ? 1 + i : 1], 0);
}

/* The call that reads what another one has written: that one's answer first, and the lists that it was made from, as
 * room for the list. */
static void turn(task *t, int which, int slices, size_t n) {
    slice list[2] = { t->slices[0], t->slices[1] };
    every_call[which].reference(t);
    for (int i = 0; i < slices; i++) t->slices[i] = t->slices[2 + i], t->slices[i].written = 0;
    for (int i = 0; i < 2; i++) t->slices[slices + i] = list[i], t->slices[slices + i].written = 1;
    for (int i = 0; i < 2; i++) must(t->slices[slices + i].len == n, "a task's list is exact");
}

static void combine_with(task *t, uint32_t kind) {
    uint64_t result[RESULT];
    uint8_t *raster = room_for((size_t)1 << 2 * t->m), *table;
    t->m2 = t->m, t->s2 = 1 + below(4), t->s3 = t->s;
    fill_raster(raster, t->m2, t->s2, kind);
    map b = map_of(t->m2, t->s2, raster);
    t->n2 = b.n;
    give_list(t, &b, b.n, 0);
    give(t, 1, (size_t)t->s * t->s2, NULL, 0);
    table = t->slices[4].at;
    for (size_t i = 0; i < t->slices[4].len; i++) table[i] = (uint8_t)below(t->s3);
    give(t, 4, t->n + t->n2, NULL, 1), give(t, 4, t->n + t->n2, NULL, 1);
    tried(COMBINE, t, result);
    shorten(t, 5, 6, result[1], 0);
    free_map(b);
    free(raster);
}

static void give_for(task *t, int which, const uint8_t *raster, const map *a, uint32_t kind) {
    size_t pixels = (size_t)1 << 2 * t->m, places = HLQ_SUMMARY_PLACES(t->m, t->s);
    switch (which) {
    case INTERFACE: case KEY_AT: case BLOCK_OF: case EMPTY: return;
    case PAINT: case PAINT_WINDOW: case TAKE_BACK: case REDO: give_edited(t, which, raster, a); return;
    case STORE_LOG: case LOAD_LOG: give_log(t, which, raster, a); return;
    case ADD_WAIVER: case REMOVE_WAIVER:
        give_table(t, 1);
        t->office = 1, t->id = which == ADD_WAIVER ? 4 : 2, t->key = 0;
        return;
    case BUILD:
        give(t, 1, pixels, raster, 0), give(t, 4, a->n, NULL, 1), give(t, 4, a->n, NULL, 1);
        give(t, 4, places, NULL, 1);
        return;
    default: give_list(t, a, a->n, 0);
    }
    switch (which) {
    case RASTER: give(t, 1, pixels, NULL, 1); break;
    case SELECT: case SELECT_CLIPPED: give_answer(t, which, 4, 1, pixels); break;
    case COMBINE: combine_with(t, kind); break;
    case FILL_SUMMARY: give(t, 4, places, NULL, 1); break;
    case AREA: case AREA_CLIPPED:
        give(t, 4, places, NULL, 0);
        ref_summary(t->m, t->s, raster, t->slices[2].at);
        break;
    case BATCH: give_questions(t); break;
    case FINDINGS: give_findings(t); break;
    case STORE: case LOAD:
        give_answer(t, STORE, 1, 1, HLQ_FILE_BYTES(a->n, t->s));
        if (which == LOAD) turn(t, STORE, 1, a->n);
        break;
    case WRITE_LEAVES: case READ_LEAVES:
        give_answer(t, WRITE_LEAVES, 4, 2, pixels);
        t->leaves = t->slices[2].len;
        if (which == READ_LEAVES) turn(t, WRITE_LEAVES, 2, a->n);
        break;
    case WRITE_BIT_STRINGS: case READ_BIT_STRINGS:
        give_answer(t, WRITE_BIT_STRINGS, 1, 2, HLQ_NODE_STRING_BYTES(a->n) + 1);
        if (which == READ_BIT_STRINGS) turn(t, WRITE_BIT_STRINGS, 2, a->n);
        break;
    }
}

task new_task(int which, uint32_t m, uint32_t s, uint32_t kind) {
    uint32_t edge = 1u << m;
    size_t pixels = (size_t)edge * edge;
    uint8_t *raster = room_for(pixels);
    if (which == WRITE_BIT_STRINGS || which == READ_BIT_STRINGS) s = 2;
    fill_raster(raster, m, s, kind);
    task t = { .m = m, .s = s, .key = random_key(m), .level = below(m + 1) };
    t.feature = raster[below((uint32_t)pixels)];
    t.height = 1 + below(edge), t.width = 1 + below(edge);
    t.row = below(edge - t.height + 1), t.column = below(edge - t.width + 1);
    map a = map_of(m, s, raster);
    t.n = a.n;
    give_for(&t, which, raster, &a, kind);
    memset(t.result, 0, sizeof t.result);
    free_map(a);
    free(raster);
    return t;
}
