/* Paint, paint window, take back, redo and empty against the reference, over long random histories: after every step
 * list and summary are compared with a fresh build, the log with a model of it, record by record, and the model says
 * when taking back and redo must be refused. The histories rest: list and log are stored, and loaded into slices with
 * more room for the list or with less. Tight rooms, damaged logs and counts, logs from another map, wrong summaries. */
#include "survey.h"

#include <stdlib.h>
#include <string.h>

/* A paint of a block or of a window, in the survey and, where it is accepted, in the raster and the model of the log;
 * sometimes of what is no block, no window or no feature. */
static int paint_one(survey *a, model *l, uint8_t *raster, int whole) {
    uint32_t m = a->m, key = below(12) ? random_key(m) : below(0xFFFFFFFFu), feature = below(a->s + (below(10) == 0));
    window w = random_window(m);
    if (below(12) == 0) w.height = below(0xFFFFFFFFu);
    if ((whole ? paint_window(a, w, feature) : paint(a, key, feature)) != 0) return 0;
    if (whole) log_window(l, m, raster, w, feature);
    else log_block(l, m, raster, key, feature);
    fill_window(m, raster, whole ? w : window_of(m, key), feature);
    return 1;
}

/* A rest: the list is stored, and loaded into other buffers with so much room, their summary is filled, and the log is
 * stored and loaded. */
static void rest(survey *a, size_t room) {
    size_t length = HLQ_FILE_BYTES(a->n, a->s), log_length = HLQ_LOG_FILE_BYTES(a->used);
    uint8_t *file = room_for(length), *log_file = room_for(log_length);
    survey b = *a;
    b.keys = lend(room, 4), b.bits = lend(room + below(3), 4), b.summary = lend(a->summary.len, 4);
    b.log_keys = lend(a->log_keys.len, 4), b.log_values = lend(a->log_values.len, 4);
    hlq_counted stored = hlq_store(a->m, a->s, start(a->keys), a->keys.len, start(a->bits), a->bits.len, a->n,
                                   file, length);
    must(stored.refusal == 0 && stored.count == length, "the list of a history is stored");
    hlq_loaded loaded = hlq_load(file, length, start(b.keys), b.keys.len, start(b.bits), b.bits.len);
    must(loaded.refusal == 0 && loaded.m == a->m && loaded.s == a->s && loaded.n == a->n, "and loaded");
    hlq_done filled = hlq_fill_summary(b.m, b.s, start(b.keys), b.keys.len, start(b.bits), b.bits.len, b.n,
                                       start(b.summary), b.summary.len);
    must(filled.refusal == 0, "and its summary filled");
    stored = hlq_store_log(a->m, a->s, start(a->log_keys), a->log_keys.len, start(a->log_values), a->log_values.len,
                           a->used, a->in_force, log_file, log_length);
    must(stored.refusal == 0 && stored.count == log_length, "its log is stored");
    hlq_loaded_log log = hlq_load_log(log_file, log_length, start(b.log_keys), b.log_keys.len, start(b.log_values),
                                      b.log_values.len);
    must(log.refusal == 0 && log.used == a->used && log.in_force == a->in_force, "and loaded");
    free(file), free(log_file);
    free_survey(a);
    *a = b;
}

/* Map A, block 24 painted with 1, at rest: the list has 5 records and had 9, so in fewer than 9 places taking back is
 * refused, with the map's own log. */
static void map_a_rests(void) {
    static const uint8_t map_a[] = { 0, 0, 1, 1, 0, 0, 1, 2, 2, 2, 0, 0, 2, 2, 0, 0 };
    for (size_t room = 5; room <= 9; room++) {
        survey a = new_survey(2, 3, map_a, 9, 3);
        must(paint(&a, 14, 1) == 0 && a.n == 5 && a.used == 3, "Map A, 24 painted with 1");
        rest(&a, room);
        must(take_back(&a) == (room < 9 ? HLQ_LIST_ROOM : HLQ_ACCEPTED), "Map A is taken back in 9 places alone");
        must(redo(&a) == (room < 9 ? HLQ_NO_REDO : HLQ_ACCEPTED), "and then redone");
        free_survey(&a);
    }
}

/* What an edit that leads to a raster must be refused with, in a list's room. */
static uint64_t fits(uint32_t m, const uint8_t *raster, size_t room) {
    return records_of(m, raster, 0) > room ? HLQ_LIST_ROOM : HLQ_ACCEPTED;
}

/* Demand 3: the rasters of the history in a row, with a place that paint and redo move on and taking back moves back;
 * the row begins anew when the log is emptied, and ends with an accepted paint, or with a rest that leaves the steps to
 * redo behind. */
static void history(uint32_t m, uint32_t steps, uint32_t kind, uint32_t tight) {
    size_t pixels = (size_t)1 << 2 * m, most = HLQ_MOST_RECORDS(m);
    uint32_t s = 1 + below(m <= 3 ? 4 : HLQ_MOST_SLOTS);
    uint8_t **rasters = room_for(sizeof *rasters * (steps + 2));
    size_t at = 0, last = 0;
    rasters[0] = room_for(pixels);
    fill_raster(rasters[0], m, s, kind);
    size_t n = records_of(m, rasters[0], 0), room = tight ? n + below(2 * m + 6) : most;
    survey a = new_survey(m, s, rasters[0], room, tight ? 3 + below(40) : 4 * most + 64);
    model l = new_model(&a, steps);
    for (uint32_t i = 0; i < steps; i++) {
        uint32_t what = below(41);
        if (what < 20) {
            uint8_t *next = room_for(pixels);
            memcpy(next, rasters[at], pixels);
            if (paint_one(&a, &l, next, m < 8 ? what < 8 : what < 1)) {
                while (last > at) free(rasters[last--]);
                rasters[last = ++at] = next;
            } else free(next);
        } else if (what < 31) {
            uint64_t refusal = take_back(&a);
            must(refusal == (at == 0 ? HLQ_LOG_EMPTY : fits(m, rasters[at - 1], room)),
                 "taking back is refused exactly when no paint is in force, or a rest led to less room");
            if (refusal == 0) at--, l.in_force--;
        } else if (what < 39) {
            uint64_t refusal = redo(&a);
            must(refusal == (at == last ? HLQ_NO_REDO : fits(m, rasters[at + 1], room)),
                 "redo is refused exactly when no paint is there to redo, or a rest led to less room");
            if (refusal == 0) at++, l.in_force++;
        } else if (what == 39) {
            if (below(3) == 0) {
                a.used = a.in_force, l.count = l.in_force;
                while (last > at) free(rasters[last--]);
            }
            uint32_t next = below(3);
            room = next == 0 ? most : next == 1 ? room + below(3) : a.n + below(6);
            rest(&a, room);
            give_back(l.keys), give_back(l.values);
            l.keys = copy_of(a.log_keys), l.values = copy_of(a.log_values);
        } else {
            hlq_emptied emptied = hlq_empty();
            must(emptied.used == 0 && emptied.in_force == 0, "an emptied log has no used places and none in force");
            a.used = emptied.used, a.in_force = emptied.in_force;
            l.count = l.in_force = 0;
            while (last > at) free(rasters[last--]);
            for (size_t j = 0; j < at; j++) free(rasters[j]);
            rasters[0] = rasters[at], at = last = 0;
        }
        same_log(&a, &l);
        same_as_fresh(&a, rasters[at]);
    }
    for (size_t i = 0; i <= last; i++) free(rasters[i]);
    free(rasters);
    free_model(&l);
    free_survey(&a);
}

/* One of many ways to spoil a log or its counts (some may leave a log). */
static void spoil(survey *a, uint32_t m) {
    uint32_t *log_keys = start(a->log_keys), *log_values = start(a->log_values);
    size_t i = below((uint32_t)a->used);
    switch (below(12)) {
    case 0: log_keys[i] ^= 1u << below(32); break;
    case 1: log_values[i] ^= 1u << below(32); break;
    case 2: log_values[a->used - 2] = below(3) ? 0 : 0xFFFFFFFFu - below(2); break;
    case 3: a->used = below((uint32_t)a->used + 3); break;
    case 4: log_keys[a->used - 1] = random_key(m); break;
    case 5: log_keys[a->used - 2] = random_key(m); break;
    case 6: log_keys[a->used - 1] = log_keys[a->used - 2] = random_key(m); break;
    case 7: log_values[a->used - 1] = a->s + below(2); break;
    case 8: a->in_force = a->used + below(3); break;
    case 9: a->in_force = (size_t)-1; break;
    case 10: a->used = (size_t)-1; break;
    default: a->in_force = below((uint32_t)a->used + 1);
    }
}

/* Each of the four calls, from the same survey. */
static void each(survey *a, uint32_t key, uint32_t feature) {
    survey b = copy_survey(a), c = copy_survey(a);
    paint(&b, key, feature), take_back(&b), redo(&b);
    paint_window(&b, (window){ 0, 0, 1u << b.m % 32, 1 }, feature);
    take_back(&c), redo(&c), redo(&c);
    redo(a), take_back(a), take_back(a);
    free_survey(&b), free_survey(&c);
}

/* Any log at all: spoilt ones, and sound ones of other maps, for which 9 can come on taking back and on redo. */
static void other_logs(uint32_t m) {
    size_t pixels = (size_t)1 << 2 * m;
    uint32_t s = 1 + below(HLQ_MOST_SLOTS);
    uint8_t *raster = room_for(pixels), *other = room_for(pixels);
    fill_raster(raster, m, s, below(3)), fill_raster(other, m, s, below(5));
    size_t n = records_of(m, raster, 0);
    survey a = new_survey(m, s, raster, n + below(3), records_of(m, other, 0) + 12 + below(12));
    /* the other map's root as an entry, and leaves of small blocks */
    size_t ends[5] = { 0 }, entries = 1 + below(3), root = below(4);
    for (size_t i = 0; i < entries; i++) {
        uint32_t key = random_key(m);
        if (i == root) append(&a, other, 0, below(s));
        else {
            append_record(&a, key, 1u << below(s));
            append_record(&a, key, 1);
            append_record(&a, key, below(s));
        }
        ends[i + 1] = a.used;
    }
    a.in_force = ends[below((uint32_t)entries + 1)];
    if (below(2)) spoil(&a, m);
    /* one number off, in a place of its own each time; the edits go on with the right one */
    uint32_t *wrong = (uint32_t *)start(a.summary) + below((uint32_t)a.summary.len);
    if (below(4) == 0) {
        survey b = copy_survey(&a);
        ((uint32_t *)start(b.summary))[wrong - (uint32_t *)start(a.summary)] += 1;
        each(&b, below(3) ? random_key(m) : 0xFFFFFFFFu, below(s));
        free_survey(&b);
    }
    if (below(8) == 0) {
        survey b = copy_survey(&a);
        b.summary.len--;
        each(&b, random_key(m), below(s));
        b.summary.len++;
        free_survey(&b);
    }
    if (below(4) == 0) {
        survey b = copy_survey(&a);
        b.n -= below(2);
        each(&b, below(2) ? 0 : 0xFFFFFFFFu, s);
        b.s = below(2) ? 0 : HLQ_MOST_SLOTS + 1;
        each(&b, 0, s);
        free_survey(&b);
    }
    each(&a, below(4) ? random_key(m) : 0xFFFFFFFFu, below(s + (below(4) == 0)));
    free_survey(&a);
    free(raster), free(other);
}

int main(void) {
    map_a_rests();
    for (uint32_t m = 0; m <= 6; m++)
        for (uint32_t i = 0; i < SOME(m <= 4 ? 24u : 6u); i++) {
            seed(5000 * m + i);
            history(m, m <= 3 ? 260 : m <= 5 ? 120 : 80, below(5), i % 2);
        }
    for (uint32_t m = 7; m <= HLQ_DEEPEST_M; m++) {
        seed(m);
        history(m, m == HLQ_DEEPEST_M ? SOME(200) : 30, 1, m % 2);
    }
    /* long ones, in a log that is often full */
    for (uint32_t i = 0; i < 2; i++) {
        seed(77 + i);
        history(2 + i, SOME(12000u), 1, i);
    }
    for (uint32_t m = 0; m <= 5; m++)
        for (uint32_t i = 0; i < SOME(300u); i++) {
            seed(31 + 700 * m + i);
            other_logs(m);
        }
    expect_pairs(CALL_PAINT, 1u << 0 | 1u << 1 | 1u << 4 | 1u << 18 | 1u << 5 | 1u << 8 | 1u << 7 | 1u << 10 | 1u << 9);
    expect_pairs(CALL_PAINT_WINDOW,
                 1u << 0 | 1u << 1 | 1u << 4 | 1u << 18 | 1u << 5 | 1u << 6 | 1u << 7 | 1u << 10 | 1u << 9);
    expect_pairs(CALL_TAKE_BACK, 1u << 0 | 1u << 1 | 1u << 4 | 1u << 18 | 1u << 5 | 1u << 11 | 1u << 9);
    expect_pairs(CALL_REDO, 1u << 0 | 1u << 1 | 1u << 4 | 1u << 18 | 1u << 5 | 1u << 20 | 1u << 9);
    return finish("edit");
}
