/* Build, raster, standing and part against the reference: every m, many kinds of raster, unequal slices, tight rooms,
 * damaged lists, several errors in one call. */
#include "support.h"

#include <stdlib.h>
#include <string.h>

static void try_build(uint32_t m, uint32_t s, const uint8_t *raster, size_t raster_len, size_t keys_len,
                      size_t bits_len, size_t summary_len) {
    lent keys = lend(keys_len, 4), bits = lend(bits_len, 4), summary = lend(summary_len, 4);
    lent ref_keys = copy_of(keys), ref_bits = copy_of(bits), ref_summary_buffer = copy_of(summary);
    hlq_counted a = hlq_build(m, s, raster, raster_len, start(keys), keys_len, start(bits), bits_len, start(summary),
                              summary_len);
    hlq_counted b = ref_build(m, s, raster, raster_len, start(ref_keys), keys_len, start(ref_bits), bits_len,
                              start(ref_summary_buffer), summary_len);
    same_results(CALL_BUILD, b.refusal, &a, &b, sizeof a);
    same_buffers("keys after build", keys, ref_keys);
    same_buffers("bits after build", bits, ref_bits);
    same_buffers("summary after build", summary, ref_summary_buffer);
    give_back(keys), give_back(bits), give_back(summary);
    give_back(ref_keys), give_back(ref_bits), give_back(ref_summary_buffer);
}

static void builds(uint32_t m) {
    size_t pixels = (size_t)1 << 2 * m;
    uint8_t *raster = room_for(pixels + 1);
    uint32_t s = 1 + below(HLQ_MOST_SLOTS);
    fill_raster(raster, m, s, below(5));
    raster[pixels] = 0;
    size_t most = HLQ_MOST_RECORDS(m), places = HLQ_SUMMARY_PLACES(m, s);
    lent keys = lend(most, 4), bits = lend(most, 4);
    size_t n = ref_list(m, s, raster, pixels, start(keys), most, start(bits), most).count;
    give_back(keys), give_back(bits);
    try_build(m, s, raster, pixels, n, n, places);
    try_build(m, s, raster, pixels, n + below(5), n + below(5), places);
    try_build(m, s, raster, pixels, most, most + below(3), places);
    try_build(m, s, raster, pixels, n - 1, n + 1, places);
    try_build(m, s, raster, pixels, n + 1, n - 1, places);
    try_build(m, s, raster, pixels, 0, 0, places);
    try_build(m, s, raster, pixels, n, n, places - 1);
    try_build(m, s, raster, pixels, n, n, places + 1 + below(3));
    try_build(m, s, raster, pixels, n - 1, n, 0);
    try_build(m, s, raster, pixels - 1, n, n, places);
    try_build(m, s, raster, pixels + 1, n, n, 0);
    try_build(m, 0, raster, pixels, n, n, places);
    try_build(m, HLQ_MOST_SLOTS + 1 + below(1000), raster, pixels, n, n, places);
    try_build(HLQ_DEEPEST_M + 1 + below(40), s, raster, pixels, n, n, places);
    try_build(0xFFFFFFFFu, 0, raster, 0, n, n, 0);
    raster[below((uint32_t)pixels)] = (uint8_t)(s + below(256 - s));
    try_build(m, s, raster, pixels, n, n, places);
    try_build(m, s, raster, pixels, n, n, places + 1);
    try_build(m, s, raster, pixels - 1, 0, 0, 0);
    try_build(m, 0, raster, pixels - 1, 0, 0, 0);
    try_build(m, s, raster, pixels, 0, n, places);
    free(raster);
}

/* The three calls that read a list, on a list that may be damaged. */
static void try_list(map a, size_t keys_len, size_t bits_len, size_t n, uint32_t key, size_t raster_len) {
    lent keys = lend(keys_len, 4), bits = lend(bits_len, 4), raster = lend(raster_len, 1);
    memcpy(start(keys), a.keys, 4 * (keys_len < a.n ? keys_len : a.n));
    memcpy(start(bits), a.bits, 4 * (bits_len < a.n ? bits_len : a.n));
    lent kept_keys = copy_of(keys), kept_bits = copy_of(bits), ref_raster_buffer = copy_of(raster);
    hlq_done a1 = hlq_raster(a.m, a.s, start(keys), keys_len, start(bits), bits_len, n, start(raster), raster_len);
    hlq_done b1 =
        ref_raster(a.m, a.s, start(keys), keys_len, start(bits), bits_len, n, start(ref_raster_buffer), raster_len);
    same_results(CALL_RASTER, b1.refusal, &a1, &b1, sizeof a1);
    same_buffers("raster", raster, ref_raster_buffer);
    hlq_stands a2 = hlq_standing(a.m, a.s, start(keys), keys_len, start(bits), bits_len, n, key);
    hlq_stands b2 = ref_standing(a.m, a.s, start(keys), keys_len, start(bits), bits_len, n, key);
    same_results(CALL_STANDING, b2.refusal, &a2, &b2, sizeof a2);
    hlq_span a3 = hlq_part(a.m, a.s, start(keys), keys_len, start(bits), bits_len, n, key);
    hlq_span b3 = ref_part(a.m, a.s, start(keys), keys_len, start(bits), bits_len, n, key);
    same_results(CALL_PART, b2.refusal, &a3, &b3, sizeof a3);
    hlq_span told = { a2.place, a2.kind == HLQ_LISTED ? a2.records : a2.kind == HLQ_INSIDE };
    same_results(CALL_PART, b2.refusal, &told, &a3, sizeof told);
    if (a2.kind == HLQ_INSIDE) {
        uint64_t leaf[2] = { a2.leaf, a2.level };
        uint64_t there[2] = { a.keys[a2.place], hlq_block_of(a.m, a.keys[a2.place]).level };
        same_results(CALL_STANDING, 0, leaf, there, sizeof leaf);
    }
    same_buffers("keys, only read", keys, kept_keys);
    same_buffers("bits, only read", bits, kept_bits);
    give_back(keys), give_back(bits), give_back(raster), give_back(kept_keys), give_back(kept_bits),
        give_back(ref_raster_buffer);
}

static void lists(uint32_t m) {
    map a = random_map(m);
    size_t pixels = (size_t)1 << 2 * m;
    try_list(a, a.n, a.n, a.n, random_key(m), pixels);
    try_list(a, a.n + below(4), a.n + below(4), a.n, a.keys[below((uint32_t)a.n)], pixels);
    try_list(a, a.n, a.n, a.n, below(2) ? below(0xFFFFFFFFu) : ref_power(5, m) + below(5), pixels);
    try_list(a, a.n, a.n, a.n, random_key(m), pixels - 1);
    try_list(a, a.n, a.n, a.n + 1, random_key(m), pixels);
    try_list(a, a.n - 1, a.n, a.n, random_key(m), pixels);
    try_list(a, a.n, a.n - 1, a.n, random_key(m), pixels + 1);
    try_list(a, a.n + 3, a.n + 3, a.n + 1 + below(2), random_key(m), pixels);
    try_list(a, a.n, a.n, 0, random_key(m), pixels);
    try_list(a, a.n, a.n, (size_t)-1, 0, pixels);
    for (uint32_t i = 0; i < 6 && m < 8; i++) {
        map b = a;
        b.keys = room_for(4 * (a.n + 8)), b.bits = room_for(4 * (a.n + 8));
        memcpy(b.keys, a.keys, 4 * a.n), memcpy(b.bits, a.bits, 4 * a.n);
        for (uint32_t j = 1 + below(2); j > 0 && b.n > 0; j--) damage(&b);
        try_list(b, b.n, b.n + below(2), b.n, random_key(b.m), (size_t)1 << 2 * b.m);
        free_map(b);
    }
    a.s = below(2) ? 0 : HLQ_MOST_SLOTS + 1;
    try_list(a, a.n, a.n, a.n, 0xFFFFFFFFu, 0);
    free_map(a);
}

int main(void) {
    for (uint32_t m = 0; m <= HLQ_DEEPEST_M; m++) {
        uint32_t rounds = m <= 4 ? 300 : m <= 6 ? 40 : m <= 8 ? 4 : 1;
        for (uint32_t i = 0; i < SOME(rounds); i++) {
            seed(1000 * m + i);
            builds(m);
            lists(m);
        }
    }
    expect_pairs(CALL_BUILD, 1u << 0 | 1u << 1 | 1u << 2 | 1u << 3 | 1u << 18 | 1u << 9);
    expect_pairs(CALL_RASTER, 1u << 0 | 1u << 1 | 1u << 4 | 1u << 2);
    expect_pairs(CALL_STANDING, 1u << 0 | 1u << 1 | 1u << 4 | 1u << 8);
    expect_pairs(CALL_PART, 1u << 0 | 1u << 1 | 1u << 4 | 1u << 8);
    return finish("list");
}
