/* Classes 0 and 31 at s = 32 through every call, each answer worked out by hand: the first and the last slot of a
 * bitstring, and nothing else, so that a lost upper half or a wrong shift shows. Then the same calls against the
 * reference with rasters of both halves, and files that earlier programs wrote. */
#include "support.h"

#include <stdio.h>
#include <stdlib.h>
#include <string.h>

enum { M = 1, S = 32, N = 5, FIRST = 0, LAST = 31, PLACES = HLQ_SUMMARY_PLACES(M, S), ROOM = 8, LOG = 16 };

static const uint32_t FIRST_SLOT = 1u, LAST_SLOT = 0x80000000u;
/* The raster 0 31 / 31 0, its list and its file. */
static const uint8_t pixels[4] = { FIRST, LAST, LAST, FIRST };
static const uint32_t list_keys[N] = { 0, 1, 2, 3, 4 };
static const uint32_t list_bits[N] = { 0x80000001u, 1u, 0x80000000u, 0x80000000u, 1u };
static const uint8_t list_file[] = {
    0x48, 0x4C, 0x51, 0, 2, 1, 32, 0, 0, 0, 5,                                 /* HLQ, version 2, m, s, n */
    0, 0, 0, 0, 0x80, 0, 0, 1, 0, 0, 0, 1, 0, 0, 0, 1, 0, 0, 0, 2, 0x80, 0, 0, 0, /* the root, its NW and NE */
    0, 0, 0, 3, 0x80, 0, 0, 0, 0, 0, 0, 4, 0, 0, 0, 1,                         /* its SW and SE */
};

static uint32_t keys[ROOM], bits[ROOM], summary[PLACES], log_keys[LOG], log_values[LOG];

static void fresh(void) {
    memset(keys, 0, sizeof keys), memset(bits, 0, sizeof bits), memset(summary, 0, sizeof summary);
    hlq_counted built = hlq_build(M, S, pixels, 4, keys, ROOM, bits, ROOM, summary, PLACES);
    must(built.refusal == 0 && built.count == N, "build");
    must(memcmp(keys, list_keys, sizeof list_keys) == 0 && memcmp(bits, list_bits, sizeof list_bits) == 0,
         "the list of classes 0 and 31");
}

static void reads(void) {
    uint8_t back[4] = { 9, 9, 9, 9 };
    uint32_t answer[4] = { 0 }, filled[PLACES];
    fresh();
    must(hlq_raster(M, S, keys, ROOM, bits, ROOM, N, back, 4).refusal == 0 && memcmp(back, pixels, 4) == 0, "raster");
    hlq_stands at = hlq_standing(M, S, keys, ROOM, bits, ROOM, N, 3);
    must(at.refusal == 0 && at.kind == HLQ_LISTED && at.place == 3, "standing");
    hlq_span part = hlq_part(M, S, keys, ROOM, bits, ROOM, N, 0);
    must(part.start == 0 && part.length == N, "part");
    for (uint32_t f = 0; f < S; f++) {
        uint64_t wanted = f == FIRST || f == LAST;
        must(hlq_exist(M, S, keys, ROOM, bits, ROOM, N, 0, 0, 2, 2, f).yes == wanted, "exist");
        must(hlq_exist_clipped(M, S, keys, ROOM, bits, ROOM, N, -1, 0, 2, 1, f).yes == (f == FIRST), "exist clipped");
        must(hlq_area(M, S, keys, ROOM, bits, ROOM, N, summary, PLACES, 0, 0, 2, 2, f).pixels == 2 * wanted, "area");
        must(summary[f] == (f == FIRST) && summary[S + f] == (f == LAST), "summary of the first two pixels");
    }
    must(hlq_exist(M, S, keys, ROOM, bits, ROOM, N, 0, 0, 2, 2, S).refusal == HLQ_FEATURE, "feature 32 is none");
    must(hlq_report(M, S, keys, ROOM, bits, ROOM, N, 0, 0, 2, 2).bits == (FIRST_SLOT | LAST_SLOT), "report of both");
    must(hlq_report(M, S, keys, ROOM, bits, ROOM, N, 0, 1, 1, 1).bits == LAST_SLOT, "report of class 31 alone");
    hlq_counted picked = hlq_select(M, S, keys, ROOM, bits, ROOM, N, 0, 0, 2, 2, LAST, answer, 4);
    must(picked.refusal == 0 && picked.count == 2 && answer[0] == 2 && answer[1] == 3, "select of class 31");
    hlq_done done = hlq_fill_summary(M, S, keys, ROOM, bits, ROOM, N, filled, PLACES);
    must(done.refusal == 0 && memcmp(filled, summary, sizeof summary) == 0, "fill summary");
    /* the check: no other bitstring of the root is taken, and none of these records at 31 slots */
    for (uint32_t f = 0; f < S; f++) {
        bits[0] ^= 1u << f;
        must(hlq_standing(M, S, keys, ROOM, bits, ROOM, N, 0).refusal == HLQ_LIST, "a bit off in the root");
        bits[0] ^= 1u << f;
    }
    must(hlq_standing(M, S - 1, keys, ROOM, bits, ROOM, N, 0).refusal == HLQ_LIST, "slot 31 is none of 31 slots");
    must(hlq_standing(M, S + 1, keys, ROOM, bits, ROOM, N, 0).refusal == HLQ_SETTINGS, "33 slots");
}

static void edits(void) {
    fresh();
    hlq_edited e =
        hlq_paint(M, S, keys, ROOM, bits, ROOM, N, summary, PLACES, log_keys, LOG, log_values, LOG, 0, 0, 0, LAST);
    must(e.refusal == 0 && e.n == 1 && bits[0] == LAST_SLOT && summary[LAST] == 1 && summary[FIRST] == 0,
         "the sheet painted with class 31");
    e = hlq_paint(M, S, keys, ROOM, bits, ROOM, e.n, summary, PLACES, log_keys, LOG, log_values, LOG, e.used,
                  e.in_force, 0, S);
    must(e.refusal == HLQ_FEATURE, "no paint with class 32");
    size_t used = N + 2;
    must(log_values[0] == list_bits[0] && log_values[2] == LAST_SLOT, "the log has both slots");
    e = hlq_take_back(M, S, keys, ROOM, bits, ROOM, 1, summary, PLACES, log_keys, LOG, log_values, LOG, used, used);
    must(e.refusal == 0 && e.n == N && e.in_force == 0 && memcmp(bits, list_bits, sizeof list_bits) == 0, "taken back");
    e = hlq_redo(M, S, keys, ROOM, bits, ROOM, N, summary, PLACES, log_keys, LOG, log_values, LOG, used, 0);
    must(e.refusal == 0 && e.n == 1 && e.in_force == used && bits[0] == LAST_SLOT, "and put back after all");
}

/* The two columns as windows: the second makes one leaf of the sheet, and both are taken back. */
static void window_edits(void) {
    fresh();
    hlq_edited e = hlq_paint_window(M, S, keys, ROOM, bits, ROOM, N, summary, PLACES, log_keys, LOG, log_values, LOG, 0,
                                    0, 0, 0, 2, 1, LAST);
    must(e.refusal == 0 && e.n == N && e.used == 8 && bits[1] == LAST_SLOT && bits[4] == FIRST_SLOT,
         "a column painted with class 31");
    e = hlq_paint_window(M, S, keys, ROOM, bits, ROOM, e.n, summary, PLACES, log_keys, LOG, log_values, LOG, e.used,
                         e.in_force, 0, 1, 2, 1, LAST);
    must(e.refusal == 0 && e.n == 1 && e.used == 16 && bits[0] == LAST_SLOT && summary[3 * S + LAST] == 1,
         "and the other one");
    must(log_values[0] == FIRST_SLOT && log_values[3] == LAST_SLOT && log_values[5] == LAST, "the log has both slots");
    for (int i = 0; i < 2; i++)
        e = hlq_take_back(M, S, keys, ROOM, bits, ROOM, e.n, summary, PLACES, log_keys, LOG, log_values, LOG, e.used,
                          e.in_force);
    must(e.refusal == 0 && e.n == N && e.in_force == 0 && memcmp(bits, list_bits, sizeof list_bits) == 0,
         "both columns taken back");
    e = hlq_redo(M, S, keys, ROOM, bits, ROOM, N, summary, PLACES, log_keys, LOG, log_values, LOG, e.used, e.in_force);
    must(e.refusal == 0 && e.n == N && e.in_force == 8 && bits[1] == LAST_SLOT, "a column put back after all");
    e = hlq_paint_window(M, S, keys, ROOM, bits, ROOM, e.n, summary, PLACES, log_keys, LOG, log_values, LOG, e.used,
                         e.in_force, 0, 0, 2, 1, HLQ_GROUP_MARK);
    must(e.refusal == HLQ_FEATURE, "the mark is no class");
}

static void findings(void) {
    static const hlq_rule rules[2] = { { 1, 0, 0, 2, 2, FIRST }, { 7, 0, 0, 2, 2, LAST } };
    static const uint32_t offices[HLQ_TABLE_PLACES] = { 0 }, ids[HLQ_TABLE_PLACES] = { 7 };
    static const uint32_t waived[HLQ_TABLE_PLACES] = { 3 };
    uint32_t found_ids[4], found_keys[4];
    fresh();
    hlq_found f =
        hlq_findings(M, S, keys, ROOM, bits, ROOM, N, 0, rules, 2, offices, HLQ_TABLE_PLACES, ids, HLQ_TABLE_PLACES,
                     waived, HLQ_TABLE_PLACES, 1, found_ids, 4, found_keys, 4);
    must(f.refusal == 0 && f.live == 3 && f.hidden == 1, "findings of classes 0 and 31");
    must(found_ids[2] == 7 && found_keys[2] == 2, "class 31 in block 2 is live, in block 3 it is waived");
}

static void files(void) {
    uint8_t file[sizeof list_file];
    uint32_t other_keys[N] = { 0 }, other_bits[N] = { 0 };
    fresh();
    must(sizeof list_file == HLQ_FILE_BYTES(N, S), "11 + 8n");
    hlq_counted stored = hlq_store(M, S, keys, ROOM, bits, ROOM, N, file, sizeof file);
    must(stored.refusal == 0 && stored.count == sizeof file && memcmp(file, list_file, sizeof file) == 0,
         "the file of version 2, byte for byte");
    hlq_loaded l = hlq_load(file, sizeof file, other_keys, N, other_bits, N);
    must(l.refusal == 0 && l.m == M && l.s == S && l.n == N && memcmp(other_bits, list_bits, sizeof list_bits) == 0,
         "loaded again");
}

/* Leaves of classes 0 and 31, a batch that asks for both, and class 31 combined with class 0. */
static void other_shapes(void) {
    static const uint32_t leaf_keys[4] = { 1, 2, 3, 4 }, leaf_features[4] = { FIRST, LAST, LAST, FIRST };
    static const hlq_question asked[2] = { { 0, 0, 1, 1, 1, LAST }, { 1, -1, -1, 3, 3, 0 } };
    static uint8_t table[S * S];
    uint32_t written_keys[4], written_features[4], other_keys[N], other_bits[N], refusals[2], values[2];
    fresh();
    hlq_counted w = hlq_write_leaves(M, S, keys, ROOM, bits, ROOM, N, written_keys, 4, written_features, 4);
    must(w.refusal == 0 && w.count == 4 && memcmp(written_keys, leaf_keys, sizeof leaf_keys) == 0 &&
             memcmp(written_features, leaf_features, sizeof leaf_features) == 0,
         "write leaves");
    hlq_counted r = hlq_read_leaves(M, S, leaf_keys, 4, leaf_features, 4, 4, other_keys, N, other_bits, N);
    must(r.refusal == 0 && r.count == N && memcmp(other_bits, list_bits, sizeof list_bits) == 0, "read leaves");
    hlq_counted b = hlq_batch(M, S, keys, ROOM, bits, ROOM, N, asked, 2, refusals, 2, values, 2);
    must(b.refusal == 0 && refusals[0] == 0 && values[0] == 1 && values[1] == (FIRST_SLOT | LAST_SLOT), "batch");
    for (uint32_t f = 0; f < S; f++) table[f * S + f] = (uint8_t)f;
    hlq_counted c = hlq_combine(M, S, keys, ROOM, bits, ROOM, N, M, S, keys, ROOM, bits, ROOM, N, S, table,
                                sizeof table, other_keys, N, other_bits, N);
    must(c.refusal == 0 && c.count == N && memcmp(other_bits, list_bits, sizeof list_bits) == 0, "combine");
}

/* One digit. */
static uint8_t digit(char c) { return (uint8_t)(c <= '9' ? c - '0' : c - 'A' + 10); }

/* Map A as a program of one version stored it, in hexadecimal: the layout of specification S15, worked out by hand. */
static void former_file(void) {
    static const char text[] = "484C51000102030000000900000000000700000005000100"
                               "00000A00060000000B00020000000C00020000000D000200"
                               "00000E00040000000F0004000000140001";
    static const uint32_t map_a_keys[9] = { 0, 5, 10, 11, 12, 13, 14, 15, 20 },
                          map_a_bits[9] = { 7, 1, 6, 2, 2, 2, 4, 4, 1 };
    uint8_t file[65], again[65];
    uint32_t k[9], b[9];
    must(sizeof text == 2 * sizeof file + 1, "the former file's length");
    for (size_t i = 0; i < sizeof file; i++) file[i] = (uint8_t)(digit(text[2 * i]) << 4 | digit(text[2 * i + 1]));
    hlq_loaded l = hlq_load(file, sizeof file, k, 9, b, 9);
    must(l.refusal == 0 && l.m == 2 && l.s == 3 && l.n == 9, "the former file is loaded");
    must(memcmp(k, map_a_keys, sizeof k) == 0 && memcmp(b, map_a_bits, sizeof b) == 0, "as Map A");
    hlq_counted stored = hlq_store(2, 3, k, 9, b, 9, 9, again, sizeof again);
    must(stored.refusal == 0 && stored.count == sizeof file && memcmp(file, again, sizeof file) == 0,
         "and stored byte for byte as it was");
}

/* Rasters whose classes lie in the upper half, the lower half, or both, through build, raster, store and load. */
static void random_classes(uint32_t m) {
    size_t count = (size_t)1 << 2 * m, most = HLQ_MOST_RECORDS(m);
    uint32_t s = 17 + below(16), from = below(2) ? 16 : below(s);
    lent raster = lend(count, 1), k = lend(most, 4), b = lend(most, 4), sum = lend(HLQ_SUMMARY_PLACES(m, s), 4);
    lent ref_k = copy_of(k), ref_b = copy_of(b), ref_sum = copy_of(sum), back = copy_of(raster);
    fill_raster(start(raster), m, s - from, below(5));
    for (size_t i = 0; i < count; i++) ((uint8_t *)start(raster))[i] = (uint8_t)(((uint8_t *)start(raster))[i] + from);
    hlq_counted x = hlq_build(m, s, start(raster), count, start(k), most, start(b), most, start(sum), sum.len);
    hlq_counted y =
        ref_build(m, s, start(raster), count, start(ref_k), most, start(ref_b), most, start(ref_sum), sum.len);
    same_results(CALL_BUILD, y.refusal, &x, &y, sizeof x);
    same_buffers("keys", k, ref_k), same_buffers("bits", b, ref_b), same_buffers("summary", sum, ref_sum);
    size_t n = y.count, bytes = HLQ_FILE_BYTES(n, s);
    lent file = lend(bytes, 1), ref_file = copy_of(file);
    x = hlq_store(m, s, start(k), most, start(b), most, n, start(file), bytes);
    y = ref_store(m, s, start(k), most, start(b), most, n, start(ref_file), bytes);
    same_results(CALL_STORE, y.refusal, &x, &y, sizeof x);
    same_buffers("file", file, ref_file);
    hlq_loaded p = hlq_load(start(file), bytes, start(k), n, start(b), n);
    hlq_loaded q = ref_load(start(file), bytes, start(ref_k), n, start(ref_b), n);
    same_results(CALL_LOAD, q.refusal, &p, &q, sizeof p);
    same_buffers("keys loaded", k, ref_k), same_buffers("bits loaded", b, ref_b);
    hlq_done d = hlq_raster(m, s, start(k), most, start(b), most, n, start(back), count);
    must(d.refusal == 0 && memcmp(start(back), start(raster), count) == 0, "the raster comes back from the file");
    give_back(raster), give_back(k), give_back(b), give_back(sum), give_back(ref_k), give_back(ref_b);
    give_back(ref_sum), give_back(back), give_back(file), give_back(ref_file);
}

int main(void) {
    reads();
    edits();
    window_edits();
    findings();
    files();
    other_shapes();
    former_file();
    for (uint32_t m = 0; m <= 6; m++)
        for (uint32_t i = 0; i < SOME(m <= 4 ? 60u : 8u); i++) {
            seed(31000 + 100 * m + i);
            random_classes(m);
        }
    expect_pairs(CALL_BUILD, 1u << 0);
    expect_pairs(CALL_STORE, 1u << 0);
    expect_pairs(CALL_LOAD, 1u << 0);
    return finish("classes");
}
