#include "survey.h"

#include <stdlib.h>
#include <string.h>

static void same_survey(const survey *a, const survey *b) {
    same_buffers("keys after an edit", a->keys, b->keys);
    same_buffers("bits after an edit", a->bits, b->bits);
    same_buffers("summary after an edit", a->summary, b->summary);
    same_buffers("log keys after an edit", a->log_keys, b->log_keys);
    same_buffers("log values after an edit", a->log_values, b->log_values);
}

survey copy_survey(const survey *a) {
    survey b = *a;
    b.keys = copy_of(a->keys), b.bits = copy_of(a->bits), b.summary = copy_of(a->summary);
    b.log_keys = copy_of(a->log_keys), b.log_values = copy_of(a->log_values);
    return b;
}

void free_survey(survey *a) {
    give_back(a->keys), give_back(a->bits), give_back(a->summary), give_back(a->log_keys), give_back(a->log_values);
}

/* Both implementations gave their answers; the survey goes on from the library's buffers. Gives the refusal. */
static uint64_t edited(call which, survey *a, survey *b, hlq_edited x, hlq_edited y) {
    same_results(which, y.refusal, &x, &y, sizeof x);
    same_survey(a, b);
    if (x.refusal == 0) a->n = x.n, a->used = x.used, a->in_force = x.in_force;
    free_survey(b);
    return x.refusal;
}

#define LENT(a) (a)->m, (a)->s, start((a)->keys), (a)->keys.len, start((a)->bits), (a)->bits.len, (a)->n, \
                start((a)->summary), (a)->summary.len, start((a)->log_keys), (a)->log_keys.len, \
                start((a)->log_values), (a)->log_values.len, (a)->used, (a)->in_force
#define WINDOW(w) (w).row, (w).column, (w).height, (w).width

uint64_t paint(survey *a, uint32_t key, uint32_t feature) {
    survey b = copy_survey(a);
    hlq_edited x = hlq_paint(LENT(a), key, feature);
    return edited(CALL_PAINT, a, &b, x, ref_paint(LENT(&b), key, feature));
}

uint64_t paint_window(survey *a, window w, uint32_t feature) {
    survey b = copy_survey(a);
    hlq_edited x = hlq_paint_window(LENT(a), WINDOW(w), feature);
    return edited(CALL_PAINT_WINDOW, a, &b, x, ref_paint_window(LENT(&b), WINDOW(w), feature));
}

uint64_t take_back(survey *a) {
    survey b = copy_survey(a);
    hlq_edited x = hlq_take_back(LENT(a));
    return edited(CALL_TAKE_BACK, a, &b, x, ref_take_back(LENT(&b)));
}

uint64_t redo(survey *a) {
    survey b = copy_survey(a);
    hlq_edited x = hlq_redo(LENT(a));
    return edited(CALL_REDO, a, &b, x, ref_redo(LENT(&b)));
}

survey new_survey(uint32_t m, uint32_t s, const uint8_t *raster, size_t room, size_t log_room) {
    size_t pixels = (size_t)1 << 2 * m;
    survey a = { m, s, lend(room, 4), lend(room + below(3), 4), lend(HLQ_SUMMARY_PLACES(m, s), 4),
                 lend(log_room + below(3), 4), lend(log_room, 4), 0, 0, 0 };
    ref_summary(m, s, raster, start(a.summary));
    hlq_counted c = ref_list(m, s, raster, pixels, start(a.keys), a.keys.len, start(a.bits), a.bits.len);
    a.n = c.count;
    return a;
}

/* The records of a block; through the pointer its features. */
static size_t count_block(uint32_t m, const uint8_t *raster, uint32_t row, uint32_t column, uint32_t side,
                          uint32_t *bits) {
    size_t count = 1;
    if (side == 1) {
        *bits |= 1u << raster[((size_t)row << m) + column];
        return count;
    }
    uint32_t own = 0, half = side / 2;
    for (uint32_t q = 0; q < 4; q++)
        count += count_block(m, raster, row + q / 2 * half, column + q % 2 * half, half, &own);
    *bits |= own;
    return (own & (own - 1)) == 0 ? 1 : count;
}

size_t records_of(uint32_t m, const uint8_t *raster, uint32_t key) {
    uint32_t bits = 0;
    window w = window_of(m, key);
    return count_block(m, raster, w.row, w.column, w.height, &bits);
}

void same_as_fresh(const survey *a, const uint8_t *raster) {
    lent keys = copy_of(a->keys), bits = copy_of(a->bits), summary = copy_of(a->summary);
    ref_summary(a->m, a->s, raster, start(summary));
    same_buffers("summary of a fresh build", a->summary, summary);
    hlq_counted fresh =
        ref_list(a->m, a->s, raster, (size_t)1 << 2 * a->m, start(keys), keys.len, start(bits), bits.len);
    must(fresh.refusal == 0 && fresh.count == a->n, "the list has as many records as a fresh build");
    same_buffers("keys of a fresh build", a->keys, keys);
    same_buffers("bits of a fresh build", a->bits, bits);
    give_back(keys), give_back(bits), give_back(summary);
}

window random_window(uint32_t m) {
    uint32_t edge = 1u << m, height = 1 + below(below(4) ? edge : edge / 4 + 1), width = 1 + below(edge);
    if (below(8) == 0) return window_of(m, random_key(m));
    return (window){ below(edge - height + 1), below(edge - width + 1), height, width };
}

void fill_window(uint32_t m, uint8_t *raster, window w, uint32_t feature) {
    for (uint32_t r = w.row; r < w.row + w.height; r++)
        memset(raster + ((size_t)r << m) + w.column, (int)feature, w.width);
}

window window_of(uint32_t m, uint32_t key) {
    window w;
    ref_block(m, key, &w.row, &w.column, &w.height);
    w.width = w.height;
    return w;
}

static int lies_in(window w, uint32_t row, uint32_t column, uint32_t side) {
    return w.row <= row && row + side <= w.row + w.height && w.column <= column &&
           column + side <= w.column + w.width;
}

static int by_key(const void *a, const void *b) {
    uint32_t x = *(const uint32_t *)a, y = *(const uint32_t *)b;
    return (x > y) - (x < y);
}

size_t largest_blocks(uint32_t m, window w, uint32_t *blocks) {
    size_t count = 0;
    for (uint32_t side = 1, level = m; side <= 1u << m; side *= 2, level--)
        for (uint32_t r = w.row / side * side; r < w.row + w.height; r += side)
            for (uint32_t c = w.column / side * side; c < w.column + w.width; c += side) {
                uint32_t parent = 2 * side;
                if (!lies_in(w, r, c, side)) continue;
                if (level > 0 && lies_in(w, r / parent * parent, c / parent * parent, parent)) continue;
                blocks[count++] = (uint32_t)ref_key_at(m, r, c, level).key;
            }
    qsort(blocks, count, sizeof *blocks, by_key);
    return count;
}

model new_model(const survey *a, size_t steps) {
    return (model){ copy_of(a->log_keys), copy_of(a->log_values), room_for(sizeof(size_t) * (steps + 1)), 0, 0 };
}

void free_model(model *l) {
    free(l->ends);
    give_back(l->keys), give_back(l->values);
}

size_t end_of(const model *l, size_t steps) { return steps ? l->ends[steps - 1] : 0; }

/* The list of a raster. */
static map list_of(uint32_t m, const uint8_t *raster) {
    size_t most = HLQ_MOST_RECORDS(m);
    map all = { m, HLQ_MOST_SLOTS, 0, room_for(4 * most), room_for(4 * most) };
    all.n = ref_list(m, all.s, raster, (size_t)1 << 2 * m, all.keys, most, all.bits, most).count;
    return all;
}

/* The entry of a paint of a block, from a place on: its records among those of the raster before, or one of its own
 * inside a leaf. Gives the place after it. */
static size_t write_entry(uint32_t *keys, uint32_t *values, size_t from, const uint8_t *before, const map *all,
                          uint32_t key, uint32_t feature) {
    uint32_t step = 1;
    window w = window_of(all->m, key);
    size_t at = from, low = 0, high = all->n;
    for (uint32_t i = w.height; i > 1; i /= 2) step *= 5;
    while (low < high) {
        size_t middle = (low + high) / 2;
        if (all->keys[middle] < key) low = middle + 1;
        else high = middle;
    }
    for (; low < all->n && all->keys[low] - key < step; low++) keys[at] = all->keys[low], values[at++] = all->bits[low];
    if (at == from) keys[at] = key, values[at++] = 1u << before[((size_t)w.row << all->m) + w.column];
    keys[at] = key, values[at] = (uint32_t)(at - from);
    keys[at + 1] = key, values[at + 1] = feature;
    return at + 2;
}

/* A step of so many blocks. The steps past those in force are dropped. */
static void log_step(model *l, uint32_t m, const uint8_t *before, const uint32_t *blocks, size_t count, int group,
                     uint32_t feature) {
    size_t at = end_of(l, l->in_force);
    uint32_t *keys = start(l->keys), *values = start(l->values);
    map all = list_of(m, before);
    for (size_t i = at; i < end_of(l, l->count); i++) keys[i] = values[i] = 0;
    for (size_t i = 0; i < count; i++) at = write_entry(keys, values, at, before, &all, blocks[i], feature);
    if (group) {
        keys[at] = keys[at + 1] = 0;
        values[at] = (uint32_t)count, values[at + 1] = 255;
        at += 2;
    }
    l->ends[l->in_force++] = at;
    l->count = l->in_force;
    free_map(all);
}

void log_block(model *l, uint32_t m, const uint8_t *before, uint32_t key, uint32_t feature) {
    log_step(l, m, before, &key, 1, 0, feature);
}

void log_window(model *l, uint32_t m, const uint8_t *before, window w, uint32_t feature) {
    uint32_t *blocks = room_for(4 * (size_t)w.height * w.width);
    size_t count = largest_blocks(m, w, blocks);
    log_step(l, m, before, blocks, count, 1, feature);
    free(blocks);
}

void same_log(const survey *a, const model *l) {
    must(a->used == end_of(l, l->count), "the log uses the places of its steps");
    must(a->in_force == end_of(l, l->in_force), "in force are the steps of the paints not taken back");
    same_buffers("log keys of the model", a->log_keys, l->keys);
    same_buffers("log values of the model", a->log_values, l->values);
}

void append_record(survey *a, uint32_t key, uint32_t value) {
    ((uint32_t *)start(a->log_keys))[a->used] = key;
    ((uint32_t *)start(a->log_values))[a->used++] = value;
}

void append(survey *a, const uint8_t *raster, uint32_t key, uint32_t feature) {
    map all = list_of(a->m, raster);
    a->used = write_entry(start(a->log_keys), start(a->log_values), a->used, raster, &all, key, feature);
    free_map(all);
}
