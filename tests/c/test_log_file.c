/* Store and load of a log against the reference: logs of painted blocks and windows, some of their steps taken back;
 * files written and read back, cut, lengthened and spoilt byte by byte, other counts, tight rooms. */
#include "support.h"

#include <stdlib.h>
#include <string.h>

typedef struct {
    uint32_t m, s;
    size_t used, in_force;
    uint32_t *keys, *values;
} diary;

/* A log of a few paints of blocks and windows on a random map, of which some are taken back. */
static diary random_log(uint32_t m) {
    map a = random_map(m);
    size_t most = HLQ_MOST_RECORDS(m), places = HLQ_SUMMARY_PLACES(m, a.s), room = 18 * most + 99, n = a.n;
    uint32_t *keys = room_for(most * sizeof *keys), *bits = room_for(most * sizeof *bits);
    uint32_t *summary = room_for(places * sizeof *summary), side = 1u << m;
    diary d = { m, a.s, 0, 0, room_for(room * sizeof *d.keys), room_for(room * sizeof *d.values) };
    memcpy(keys, a.keys, n * sizeof *keys);
    memcpy(bits, a.bits, n * sizeof *bits);
    ref_fill_summary(m, a.s, keys, most, bits, most, n, summary, places);
    for (uint32_t steps = below(6); steps > 0; steps--) {
        hlq_edited x;
        uint32_t row = below(side), column = below(side), feature = below(a.s);
        if (below(2))
            x = ref_paint(m, a.s, keys, most, bits, most, n, summary, places, d.keys, room, d.values, room, d.used,
                          d.in_force, random_key(m), feature);
        else
            x = ref_paint_window(m, a.s, keys, most, bits, most, n, summary, places, d.keys, room, d.values, room,
                                 d.used, d.in_force, row, column, 1 + below(side - row), 1 + below(side - column),
                                 feature);
        if (x.refusal == HLQ_ACCEPTED) n = x.n, d.used = x.used, d.in_force = x.in_force;
    }
    for (uint32_t steps = below(3); steps > 0; steps--) {
        hlq_edited x = ref_take_back(m, a.s, keys, most, bits, most, n, summary, places, d.keys, room, d.values, room,
                                     d.used, d.in_force);
        if (x.refusal == HLQ_ACCEPTED) n = x.n, d.in_force = x.in_force;
    }
    free(keys), free(bits), free(summary);
    free_map(a);
    return d;
}

static void try_store(diary d, size_t keys_len, size_t values_len, size_t file_len) {
    lent file = lend(file_len, 1), ref_file = copy_of(file);
    hlq_counted x = hlq_store_log(d.m, d.s, d.keys, keys_len, d.values, values_len, d.used, d.in_force, start(file),
                                  file_len);
    hlq_counted y = ref_store_log(d.m, d.s, d.keys, keys_len, d.values, values_len, d.used, d.in_force,
                                  start(ref_file), file_len);
    same_results(CALL_STORE_LOG, y.refusal, &x, &y, sizeof x);
    same_buffers("file after store_log", file, ref_file);
    give_back(file), give_back(ref_file);
}

/* Loads, and stores what was loaded: an accepted file is the only one of its log. */
static uint64_t try_load(const uint8_t *file, size_t file_len, size_t keys_len, size_t values_len) {
    lent keys = lend(keys_len, 4), values = lend(values_len, 4), ref_keys = copy_of(keys), ref_values = copy_of(values);
    hlq_loaded_log x = hlq_load_log(file, file_len, start(keys), keys_len, start(values), values_len);
    hlq_loaded_log y = ref_load_log(file, file_len, start(ref_keys), keys_len, start(ref_values), values_len);
    same_results(CALL_LOAD_LOG, y.refusal, &x, &y, sizeof x);
    same_buffers("log keys after load_log", keys, ref_keys);
    same_buffers("log values after load_log", values, ref_values);
    if (x.refusal == HLQ_ACCEPTED) {
        lent again = lend(file_len, 1);
        hlq_counted z = hlq_store_log((uint32_t)x.m, (uint32_t)x.s, start(keys), keys_len, start(values), values_len,
                                      (size_t)x.used, (size_t)x.in_force, start(again), file_len);
        must(z.refusal == HLQ_ACCEPTED && z.count == file_len && memcmp(start(again), file, file_len) == 0,
             "a loaded log is stored as the same bytes");
        give_back(again);
    }
    give_back(keys), give_back(values), give_back(ref_keys), give_back(ref_values);
    return x.refusal;
}

/* Both counts wrong in many ways, and the settings. */
static void other_counts(diary d) {
    size_t length = HLQ_LOG_FILE_BYTES(d.used), used = d.used, in_force = d.in_force;
    for (size_t i = 0; i < 4; i++) {
        d.in_force = below((uint32_t)used + 3);
        try_store(d, used, used, length);
    }
    d.in_force = in_force;
    d.used = below((uint32_t)used + 1);
    try_store(d, used, used, length);
    d.used = used + 1;
    try_store(d, used, used + 1, length);
    try_store(d, used + 1, used, length);
    d.used = used;
    d.s = below(2) ? 0 : HLQ_MOST_SLOTS + 1;
    try_store(d, used, used, length);
    d.in_force = used + 1;
    try_store(d, used, used, 0);
}

static void round_of(uint32_t m) {
    diary d = random_log(m);
    size_t length = HLQ_LOG_FILE_BYTES(d.used), head = HLQ_LOG_FILE_BYTES(0), used = d.used;
    try_store(d, used, used, length);
    try_store(d, used + below(3), used + below(3), length + below(9));
    try_store(d, used, used, below((uint32_t)length));
    other_counts(d);
    lent file = lend(length + 9, 1);
    uint8_t *bytes = start(file);
    ref_store_log(d.m, d.s, d.keys, used, d.values, used, used, d.in_force, bytes, length);
    must(try_load(bytes, length, used, used) == HLQ_ACCEPTED, "what was stored is loaded");
    try_load(bytes, length, used + below(4), used + below(4));
    if (used > 0) {
        must(try_load(bytes, length, used - 1, used) == HLQ_LOG_ROOM, "a key's place too few");
        must(try_load(bytes, length, used, used - 1) == HLQ_LOG_ROOM, "a value's place too few");
    }
    for (uint32_t i = 0; i < 3; i++) try_load(bytes, below((uint32_t)length + 9), used, used);
    try_load(bytes, below((uint32_t)head), used, used);
    for (uint32_t i = 0; i < 24; i++) {
        lent spoilt = copy_of(file);
        uint8_t *at = start(spoilt);
        for (uint32_t j = 1 + below(2); j > 0; j--)
            at[below((uint32_t)(below(2) ? head : length))] ^= (uint8_t)(1u << below(8));
        try_load(at, length, used + below(2), used);
        give_back(spoilt);
    }
    if (length <= 120)
        for (size_t i = 0; i < length; i++)
            for (uint32_t bit = 0; bit < 8; bit++) {
                bytes[i] ^= (uint8_t)(1u << bit);
                try_load(bytes, length, used, used);
                bytes[i] ^= (uint8_t)(1u << bit);
            }
    give_back(file);
    free(d.keys), free(d.values);
}

/* Each refusal, and with it the next of the order: the first is given. */
static void neighbours(void) {
    /* Map A's log after the paint of block 24 with 1 */
    static const uint8_t of_a[47] = { 'H', 'L', 'G', 0, 1, 2, 3, 0, 0, 0, 0, 0, 0, 0, 3, 0, 0, 0, 0, 0, 0, 0, 3,
                                      0, 0, 0, 14, 0, 0, 0, 4, 0, 0, 0, 14, 0, 0, 0, 1, 0, 0, 0, 14, 0, 0, 0, 1 };
    static uint32_t keys[3] = { 14, 14, 14 }, values[3] = { 4, 1, 1 };
    uint8_t bytes[47];
    diary d = { 2, 3, 3, 3, keys, values };
    hlq_counted x = hlq_store_log(2, 3, keys, 3, values, 3, 3, 3, bytes, sizeof bytes);
    must(x.refusal == HLQ_ACCEPTED && x.count == 47 && memcmp(bytes, of_a, 47) == 0, "Map A's log, byte for byte");
    must(try_load(of_a, 47, 3, 3) == HLQ_ACCEPTED, "and back");
    d.in_force = 2;
    try_store(d, 3, 3, 46); /* 5 before 12 */
    d.s = 33;
    try_store(d, 3, 3, 47); /* 1 before 5 */
    bytes[2] = 'Q';
    must(try_load(bytes, 22, 3, 3) == HLQ_FILE_LENGTH, "15 before 16");
    bytes[4] = 2;
    must(try_load(bytes, 47, 3, 3) == HLQ_FILE_MARK, "16 before 17");
    bytes[2] = 'G', bytes[5] = 11;
    must(try_load(bytes, 47, 3, 3) == HLQ_FILE_VERSION, "17 before 1");
    bytes[4] = 1;
    must(try_load(bytes, 46, 3, 3) == HLQ_SETTINGS, "1 before 15");
    bytes[5] = 2, bytes[22] = 2, bytes[14] = 4;
    must(try_load(bytes, 47, 3, 3) == HLQ_FILE_LENGTH, "15 before 5");
    bytes[14] = 3;
    must(try_load(bytes, 47, 2, 3) == HLQ_LOG, "5 before 10");
    bytes[22] = 0;
    must(try_load(bytes, 47, 3, 3) == HLQ_ACCEPTED, "a step taken back");
    bytes[7] = 32;
    must(try_load(bytes, 47, 3, 3) == HLQ_FILE_LENGTH, "eight times the count passes 64 bits");
}

/* A list's file is no log's file, nor the other way round. */
static void either_kind(void) {
    static uint32_t keys[9], bits[9];
    static uint8_t file[HLQ_FILE_BYTES(9, 3)];
    map a = random_map(2);
    for (uint32_t i = 0; a.n != 9 && i < 999; i++) free_map(a), a = random_map(2);
    size_t length = HLQ_FILE_BYTES(a.n, a.s);
    uint8_t *stored = room_for(length);
    ref_store(a.m, a.s, a.keys, a.n, a.bits, a.n, a.n, stored, length);
    must(try_load(stored, length, 9, 9) == (length < 23 ? HLQ_FILE_LENGTH : HLQ_FILE_MARK), "a list's file");
    free(stored);
    free_map(a);
    must(hlq_store_log(2, 3, keys, 0, bits, 0, 0, 0, file, sizeof file).count == 23, "the file of no records");
    must(hlq_load(file, 23, keys, 9, bits, 9).refusal == HLQ_FILE_MARK, "a log's file");
}

int main(void) {
    neighbours();
    for (uint32_t m = 0; m <= 5; m++)
        for (uint32_t i = 0; i < SOME(m <= 3 ? 150u : 25u); i++) {
            seed(3600 + 900 * m + i);
            round_of(m);
        }
    either_kind();
    expect_pairs(CALL_STORE_LOG, 1u << 0 | 1u << 1 | 1u << 5 | 1u << 12);
    expect_pairs(CALL_LOAD_LOG, 1u << 0 | 1u << 15 | 1u << 16 | 1u << 17 | 1u << 1 | 1u << 5 | 1u << 10);
    return finish("log_file");
}
