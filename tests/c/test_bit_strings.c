/* Bit strings against the reference: all maps of two features at m up to 2, random ones up to the deepest m, strings
 * cut, prolonged, with every single bit flipped, and random bytes. */
#include "support.h"

#include <stdlib.h>
#include <string.h>

static void try_write(map a, size_t n, size_t node_len, size_t leaf_len) {
    lent nodes = lend(node_len, 1), leaves = lend(leaf_len, 1);
    lent ref_nodes = copy_of(nodes), ref_leaves = copy_of(leaves);
    hlq_strings x = hlq_write_bit_strings(a.m, a.s, a.keys, a.n, a.bits, a.n, n, start(nodes), node_len, start(leaves),
                                          leaf_len);
    hlq_strings y = ref_write_bit_strings(a.m, a.s, a.keys, a.n, a.bits, a.n, n, start(ref_nodes), node_len,
                                          start(ref_leaves), leaf_len);
    same_results(CALL_WRITE_BIT_STRINGS, y.refusal, &x, &y, sizeof x);
    same_buffers("node bits after writing", nodes, ref_nodes);
    same_buffers("leaf bits after writing", leaves, ref_leaves);
    give_back(nodes), give_back(leaves), give_back(ref_nodes), give_back(ref_leaves);
}

/* Two strings of their own. */
typedef struct {
    uint8_t *nodes, *leaves;
    size_t node_len, leaf_len;
} pair;

static uint64_t try_read(uint32_t m, uint32_t s, pair p, size_t keys_len, size_t bits_len) {
    lent keys = lend(keys_len, 4), bits = lend(bits_len, 4), ref_keys = copy_of(keys), ref_bits = copy_of(bits);
    hlq_counted x = hlq_read_bit_strings(m, s, p.nodes, p.node_len, p.leaves, p.leaf_len, start(keys), keys_len,
                                         start(bits), bits_len);
    hlq_counted y = ref_read_bit_strings(m, s, p.nodes, p.node_len, p.leaves, p.leaf_len, start(ref_keys), keys_len,
                                         start(ref_bits), bits_len);
    same_results(CALL_READ_BIT_STRINGS, y.refusal, &x, &y, sizeof x);
    same_buffers("keys after reading", keys, ref_keys);
    same_buffers("bits after reading", bits, ref_bits);
    give_back(keys), give_back(bits), give_back(ref_keys), give_back(ref_bits);
    return x.refusal;
}

static map two_class_map(uint32_t m, const uint8_t *raster) {
    size_t most = HLQ_MOST_RECORDS(m);
    map a = { m, 2, 0, room_for(4 * most), room_for(4 * most) };
    a.n = ref_list(m, 2, raster, (size_t)1 << 2 * m, a.keys, most, a.bits, most).count;
    return a;
}

/* The strings of a list, with 2 bytes of room past each. */
static pair strings_of(map a) {
    pair p = { room_for(HLQ_NODE_STRING_BYTES(a.n) + 2), room_for(HLQ_LEAF_STRING_BYTES(a.n) + 2),
               HLQ_NODE_STRING_BYTES(a.n), HLQ_LEAF_STRING_BYTES(a.n) };
    memset(p.nodes, 0, p.node_len + 2), memset(p.leaves, 0, p.leaf_len + 2);
    hlq_strings x = hlq_write_bit_strings(a.m, a.s, a.keys, a.n, a.bits, a.n, a.n, p.nodes, p.node_len, p.leaves,
                                          p.leaf_len);
    must(x.refusal == HLQ_ACCEPTED && x.node_bytes == p.node_len && x.leaf_bytes == p.leaf_len, "the strings fit");
    return p;
}

static void free_pair(pair p) { free(p.nodes), free(p.leaves); }

/* What was written reads back as the list, and what was read writes back as the strings. */
static void there_and_back(map a, pair p) {
    size_t most = HLQ_MOST_RECORDS(a.m);
    map b = { a.m, 2, 0, room_for(4 * most), room_for(4 * most) };
    hlq_counted x = hlq_read_bit_strings(a.m, 2, p.nodes, p.node_len, p.leaves, p.leaf_len, b.keys, most, b.bits, most);
    b.n = x.count;
    must(x.refusal == HLQ_ACCEPTED && b.n == a.n, "the list is read back");
    must(!memcmp(a.keys, b.keys, 4 * a.n) && !memcmp(a.bits, b.bits, 4 * a.n), "its records too");
    pair q = strings_of(b);
    must(!memcmp(p.nodes, q.nodes, p.node_len) && !memcmp(p.leaves, q.leaves, p.leaf_len), "the bytes come back");
    free_pair(q), free_map(b);
}

/* Each with one bit, one byte or one length of it changed. */
static void spoil(map a, pair p, uint32_t flips) {
    size_t bits = 8 * (p.node_len + p.leaf_len), step = bits / flips + 1;
    for (size_t i = below((uint32_t)step); i < bits; i += step) {
        uint8_t *byte = i < 8 * p.node_len ? p.nodes + i / 8 : p.leaves + (i - 8 * p.node_len) / 8;
        *byte ^= (uint8_t)(128u >> i % 8);
        try_read(a.m, 2, p, a.n + 4, a.n + 4);
        *byte ^= (uint8_t)(128u >> i % 8);
    }
    for (int more = -1; more <= 2; more++)
        for (int further = -1; further <= 2; further++) {
            pair q = { p.nodes, p.leaves, p.node_len + (size_t)more, p.leaf_len + (size_t)further };
            try_read(a.m, 2, q, a.n, a.n);
        }
    p.node_len = below((uint32_t)p.node_len + 1);
    try_read(a.m, 2, p, a.n, a.n);
}

/* Every map of two features at m. */
static void all_maps(uint32_t m) {
    uint32_t pixels = 1u << 2 * m;
    uint8_t raster[16];
    for (uint32_t which = 0; which < 1u << pixels; which++) {
        for (uint32_t i = 0; i < pixels; i++) raster[i] = which >> i & 1;
        map a = two_class_map(m, raster);
        pair p = strings_of(a);
        try_write(a, a.n, p.node_len, p.leaf_len);
        try_read(m, 2, p, a.n, a.n);
        there_and_back(a, p);
        if (which % 97 == 0) spoil(a, p, 64);
        free_pair(p), free_map(a);
    }
}

/* One pair in seven of those of one byte each, or of two and one: most are refused, the others are read alike. */
static void all_short_pairs(uint32_t m) {
    for (uint32_t which = 0; which < 1u << 16; which++) {
        uint8_t nodes[2] = { (uint8_t)(which >> 8), 0x80 }, leaves[2] = { (uint8_t)which, 0 };
        pair p = { nodes, leaves, 1 + below(2), 1 };
        if (which % 7 == 0) try_read(m, 2, p, 16, 16);
    }
}

static void round_of(uint32_t m) {
    size_t pixels = (size_t)1 << 2 * m;
    uint8_t *raster = room_for(pixels);
    fill_raster(raster, m, 2, below(5));
    map a = two_class_map(m, raster);
    free(raster);
    pair p = strings_of(a);
    try_write(a, a.n, p.node_len + below(3), p.leaf_len + below(3));
    try_write(a, a.n, p.node_len - 1, p.leaf_len);
    try_write(a, a.n, p.node_len, p.leaf_len - 1);
    try_write(a, a.n, 0, 0);
    try_write(a, a.n - 1, 0, 0);
    try_write(a, a.n + 1, p.node_len, p.leaf_len);
    try_read(m, 2, p, a.n + below(3), a.n + below(3));
    try_read(m, 2, p, a.n - 1, a.n);
    try_read(m, 2, p, a.n, a.n - 1);
    try_read(m, 3, p, 0, 0);
    try_read(HLQ_DEEPEST_M + 1, 3, p, 0, 0);
    if (m > 0) try_read(m - 1, 2, p, a.n, a.n);
    if (m < HLQ_DEEPEST_M) try_read(m + 1, 2, p, a.n, a.n);
    there_and_back(a, p);
    spoil(a, p, m < 6 ? 200 : 6);
    p.nodes[0] ^= 0x80;
    try_read(m, 2, p, 0, 0);
    for (size_t i = 0; i < p.node_len; i++) p.nodes[i] = (uint8_t)below(256);
    for (size_t i = 0; i < p.leaf_len; i++) p.leaves[i] = (uint8_t)below(256);
    try_read(m, 2, p, a.n, a.n);
    a.s = 1;
    try_write(a, a.n - 1, 0, 0);
    a.s = 3;
    try_write(a, a.n - 1, p.node_len, p.leaf_len);
    a.m = HLQ_DEEPEST_M + 1;
    try_write(a, a.n - 1, 0, 0);
    free_pair(p), free_map(a);
}

int main(void) {
    seed(1212);
    for (uint32_t m = 0; m <= 2; m++) all_maps(m);
    for (uint32_t m = 0; m <= 2; m++) all_short_pairs(m);
    for (uint32_t m = 0; m <= HLQ_DEEPEST_M; m++)
        for (uint32_t i = 0; i < SOME(m <= 4 ? 60u : m <= 6 ? 10u : 2u); i++) {
            seed(120000 + 900 * m + i);
            round_of(m);
        }
    expect_pairs(CALL_WRITE_BIT_STRINGS, 1u << 0 | 1u << 1 | 1u << 23 | 1u << 4 | 1u << 12);
    expect_pairs(CALL_READ_BIT_STRINGS, 1u << 0 | 1u << 1 | 1u << 23 | 1u << 9);
    return finish("bit strings");
}
