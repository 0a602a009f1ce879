/* The bytes of a list's file and of a log's file, handed to hlq_load and hlq_load_log with more or less room. What is
 * taken is stored again, as the same bytes; a list that is taken has the reference's raster and summary. */
#include "compare.h"

static void load_list(const uint8_t *file, size_t size, size_t keys_room, size_t bits_room) {
    pair keys = lend(keys_room), bits = lend(bits_room);
    hlq_loaded ours = hlq_load(file, size, keys.ours, keys.len, bits.ours, bits.len);
    hlq_loaded theirs = ref_load(file, size, keys.theirs, keys.len, bits.theirs, bits.len);
    SAME_ANSWER(ours, theirs, "hlq_load answers otherwise");
    if (ours.refusal == HLQ_ACCEPTED) {
        uint32_t m = (uint32_t)ours.m, s = (uint32_t)ours.s;
        uint8_t *again = malloc(size), *raster = malloc((size_t)1 << 2 * m), *other = malloc((size_t)1 << 2 * m);
        hlq_counted stored = hlq_store(m, s, keys.ours, keys.len, bits.ours, bits.len, ours.n, again, size);
        must(stored.refusal == 0 && stored.count == size && memcmp(again, file, size) == 0, "hlq_store, other bytes");
        hlq_done made = hlq_raster(m, s, keys.ours, keys.len, bits.ours, bits.len, ours.n, raster, (size_t)1 << 2 * m);
        hlq_done scanned = ref_raster(m, s, keys.ours, keys.len, bits.ours, bits.len, ours.n, other,
                                      (size_t)1 << 2 * m);
        must(made.refusal == 0 && scanned.refusal == 0 && memcmp(raster, other, (size_t)1 << 2 * m) == 0,
             "hlq_raster, another raster");
        pair summary = lend(HLQ_SUMMARY_PLACES(m, s));
        made = hlq_fill_summary(m, s, keys.ours, keys.len, bits.ours, bits.len, ours.n, summary.ours, summary.len);
        scanned = ref_fill_summary(m, s, keys.ours, keys.len, bits.ours, bits.len, ours.n, summary.theirs, summary.len);
        must(made.refusal == 0 && scanned.refusal == 0, "hlq_fill_summary refuses");
        same(&summary, "hlq_fill_summary writes otherwise");
        free(again);
        free(raster);
        free(other);
    }
    same(&keys, "hlq_load writes other keys");
    same(&bits, "hlq_load writes other bits");
}

static void load_log(const uint8_t *file, size_t size, size_t keys_room, size_t values_room) {
    pair keys = lend(keys_room), values = lend(values_room);
    hlq_loaded_log ours = hlq_load_log(file, size, keys.ours, keys.len, values.ours, values.len);
    hlq_loaded_log theirs = ref_load_log(file, size, keys.theirs, keys.len, values.theirs, values.len);
    SAME_ANSWER(ours, theirs, "hlq_load_log answers otherwise");
    if (ours.refusal == HLQ_ACCEPTED) {
        uint8_t *again = malloc(size);
        hlq_counted stored = hlq_store_log((uint32_t)ours.m, (uint32_t)ours.s, keys.ours, keys.len, values.ours,
                                           values.len, ours.used, ours.in_force, again, size);
        must(stored.refusal == 0 && stored.count == size && memcmp(again, file, size) == 0,
             "hlq_store_log, other bytes");
        free(again);
    }
    same(&keys, "hlq_load_log writes other keys");
    same(&values, "hlq_load_log writes other values");
}

int LLVMFuzzerTestOneInput(const uint8_t *bytes, size_t size) {
    input in = { bytes, size };
    uint8_t how = take_byte(&in);
    /* ample, or short by some; deep maps are slow in the reference, which scans their rasters */
    size_t ample = in.left / 6 + 1, room = how & 2 ? ample : how >> 4;
    if (in.left > 5 && in.at[5] > 4 && in.at[5] <= HLQ_DEEPEST_M) return -1;
    uint8_t *file = exactly(in.at, in.left);
    if (how & 1) load_log(file, in.left, room, how & 8 ? room + 1 : room);
    else load_list(file, in.left, room, how & 8 ? room + 1 : room);
    free(file);
    return 0;
}
