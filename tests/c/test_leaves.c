/* Leaf lists against the reference: deliveries merged and in parts at random depths, gaps, overlaps, wrong orders, keys
 * of no block, features of no slot, no leaf at all, unequal slices, tight rooms, several errors in one call; the leaves
 * of lists and of damaged lists; and reading what was written. */
#include "support.h"

#include <stdlib.h>
#include <string.h>

/* A delivery, with room for two leaves more. */
typedef struct {
    uint32_t m, s;
    size_t count;
    uint32_t *keys, *features;
} delivery;

/* Of a block with one feature: how many of 16 are delivered in parts. */
static uint32_t parted;

static int is_alike(const uint8_t *raster, uint32_t edge, uint32_t row, uint32_t column, uint32_t side) {
    uint8_t first = raster[(size_t)row * edge + column];
    for (uint32_t r = row; r < row + side; r++)
        for (uint32_t c = column; c < column + side; c++)
            if (raster[(size_t)r * edge + c] != first) return 0;
    return 1;
}

static void deliver(delivery *d, const uint8_t *raster, uint32_t row, uint32_t column, uint32_t side, uint32_t key,
                    uint32_t step) {
    uint32_t edge = 1u << d->m, half = side / 2;
    if (side == 1 || (is_alike(raster, edge, row, column, side) && below(16) >= parted)) {
        d->keys[d->count] = key;
        d->features[d->count++] = raster[(size_t)row * edge + column];
        return;
    }
    for (uint32_t q = 1; q <= 4; q++)
        deliver(d, raster, row + (q > 2 ? half : 0), column + (q % 2 ? 0 : half), half, key + q * step, step / 5);
}

static delivery random_delivery(uint32_t m) {
    size_t pixels = (size_t)1 << 2 * m;
    delivery d = { m, 1 + below(HLQ_MOST_SLOTS), 0, room_for(4 * (pixels + 2)), room_for(4 * (pixels + 2)) };
    uint8_t *raster = room_for(pixels);
    fill_raster(raster, m, d.s, below(5));
    parted = below(3) ? below(16) : 16 * below(2);
    deliver(&d, raster, 0, 0, 1u << m, 0, m ? ref_power(5, m - 1) : 0);
    free(raster);
    return d;
}

static delivery copy_delivery(delivery d) {
    delivery c = d;
    c.keys = room_for(4 * (d.count + 2)), c.features = room_for(4 * (d.count + 2));
    memcpy(c.keys, d.keys, 4 * d.count), memcpy(c.features, d.features, 4 * d.count);
    return c;
}

static void free_delivery(delivery d) { free(d.keys), free(d.features); }

/* Reads it with so many more or fewer places in each of its slices, into a list of these rooms. */
static void try_read(delivery d, size_t leaf_keys_len, size_t leaf_features_len, size_t keys_len, size_t bits_len) {
    lent leaf_keys = lend(leaf_keys_len, 4), leaf_features = lend(leaf_features_len, 4);
    memcpy(start(leaf_keys), d.keys, 4 * (leaf_keys_len < d.count ? leaf_keys_len : d.count));
    memcpy(start(leaf_features), d.features, 4 * (leaf_features_len < d.count ? leaf_features_len : d.count));
    lent ref_leaf_keys = copy_of(leaf_keys), ref_leaf_features = copy_of(leaf_features);
    lent keys = lend(keys_len, 4), bits = lend(bits_len, 4), ref_keys = copy_of(keys), ref_bits = copy_of(bits);
    hlq_counted x = hlq_read_leaves(d.m, d.s, start(leaf_keys), leaf_keys_len, start(leaf_features), leaf_features_len,
                                    d.count, start(keys), keys_len, start(bits), bits_len);
    hlq_counted y = ref_read_leaves(d.m, d.s, start(ref_leaf_keys), leaf_keys_len, start(ref_leaf_features),
                                    leaf_features_len, d.count, start(ref_keys), keys_len, start(ref_bits), bits_len);
    same_results(CALL_READ_LEAVES, y.refusal, &x, &y, sizeof x);
    same_buffers("keys after reading leaves", keys, ref_keys);
    same_buffers("bits after reading leaves", bits, ref_bits);
    same_buffers("leaf keys, only read", leaf_keys, ref_leaf_keys);
    same_buffers("leaf features, only read", leaf_features, ref_leaf_features);
    give_back(leaf_keys), give_back(leaf_features), give_back(ref_leaf_keys), give_back(ref_leaf_features);
    give_back(keys), give_back(bits), give_back(ref_keys), give_back(ref_bits);
}

static void read_as_it_is(delivery d) {
    size_t most = d.count + d.count / 3 + 1; /* so many leaves have no more records */
    try_read(d, d.count, d.count, most, most);
}

/* The number of records of its list. */
static size_t records_of(delivery d) {
    size_t most = HLQ_MOST_RECORDS(d.m);
    uint32_t *keys = room_for(4 * most), *bits = room_for(4 * most);
    hlq_counted made = ref_read_leaves(d.m, d.s, d.keys, d.count, d.features, d.count, d.count, keys, most, bits, most);
    must(made.refusal == 0, "a delivery is one");
    free(keys), free(bits);
    return made.count;
}

static void take_out(delivery *d, size_t i) {
    memmove(d->keys + i, d->keys + i + 1, 4 * (d->count - i - 1));
    memmove(d->features + i, d->features + i + 1, 4 * (d->count - i - 1));
    d->count--;
}

static void put_in(delivery *d, size_t i, uint32_t key) {
    memmove(d->keys + i + 1, d->keys + i, 4 * (d->count - i));
    memmove(d->features + i + 1, d->features + i, 4 * (d->count - i));
    d->keys[i] = key, d->features[i] = below(d->s);
    d->count++;
}

/* One of many ways to spoil a delivery; a few leave one. */
static void spoil(delivery *d) {
    size_t i = below((uint32_t)d->count), j = below((uint32_t)d->count);
    uint32_t t = d->keys[i], step = 1;
    switch (below(16)) {
    case 0: take_out(d, i); break;                      /* a gap */
    case 1: take_out(d, d->count - 1); break;           /* at the end */
    case 2: put_in(d, i, t); break;                     /* a leaf twice */
    case 3:                                             /* a leaf and its parent, or an ancestor of it */
        while (t / step % 5 == 0 && step < ref_power(5, d->m)) step *= 5;
        for (uint32_t up = 1 + below(2); up > 0; up--) t -= t % (step * 5), step *= 5;
        put_in(d, i, t);
        break;
    case 4:                                             /* a leaf and a quarter of it */
        while (t % (step * 5) == 0 && step < ref_power(5, d->m)) step *= 5;
        put_in(d, i + 1, step > 1 || t == 0 ? t + (1 + below(4)) * (step / 5) : t + 1);
        break;
    case 5: d->keys[i] = d->keys[j], d->keys[j] = t; break; /* another order */
    case 6: d->keys[i] ^= 1u << below(32); break;
    case 7: d->keys[i] = random_key(d->m); break;
    case 8: d->keys[i] = 0xFFFFFFFFu - below(3); break;
    case 9: d->features[i] = d->s; break;
    case 10: d->features[i] = d->s + below(300); break;
    case 11: d->features[i] = 0xFFFFFFFFu; break;
    case 12: d->count = 0; break;
    case 13: d->count = below((uint32_t)d->count); break;
    case 14: d->m = d->m < 7 && below(2) ? d->m + 1 : d->m / 2; break;
    default: d->s = 1 + below(HLQ_MOST_SLOTS);
    }
}

static void try_deliveries(uint32_t m, uint32_t spoilt) {
    delivery d = random_delivery(m);
    size_t n = records_of(d);
    read_as_it_is(d);
    try_read(d, d.count, d.count + 1 + below(3), n, n + below(3));
    try_read(d, d.count + 1 + below(3), d.count, n + below(3), n);
    try_read(d, d.count, d.count, n - 1, n), try_read(d, d.count, d.count, n, n - 1);
    try_read(d, d.count - 1, d.count, n, n), try_read(d, d.count, d.count - 1, n, n);
    for (uint32_t i = 0; i < spoilt; i++) {
        delivery bad = copy_delivery(d);
        spoil(&bad);
        if (below(4) == 0 && bad.count > 0) spoil(&bad);
        read_as_it_is(bad);
        try_read(bad, bad.count, bad.count, below(2), below(2));
        free_delivery(bad);
    }
    delivery bad = copy_delivery(d);
    bad.count = 0;
    try_read(bad, 0, 0, 0, 0);
    bad.s = below(2) ? 0 : HLQ_MOST_SLOTS + 1;
    try_read(bad, d.count, d.count, n, n);
    bad.s = d.s, bad.m = below(2) ? HLQ_DEEPEST_M + 1 : 0xFFFFFFFFu;
    try_read(bad, 0, 0, n, n);
    bad.count = d.count;
    try_read(bad, d.count, d.count, n, n);
    free_delivery(bad), free_delivery(d);
}

static void try_write(map a, size_t n, size_t leaf_keys_len, size_t leaf_features_len) {
    lent leaf_keys = lend(leaf_keys_len, 4), leaf_features = lend(leaf_features_len, 4);
    lent ref_leaf_keys = copy_of(leaf_keys), ref_leaf_features = copy_of(leaf_features);
    hlq_counted x = hlq_write_leaves(a.m, a.s, a.keys, a.n, a.bits, a.n, n, start(leaf_keys), leaf_keys_len,
                                     start(leaf_features), leaf_features_len);
    hlq_counted y = ref_write_leaves(a.m, a.s, a.keys, a.n, a.bits, a.n, n, start(ref_leaf_keys), leaf_keys_len,
                                     start(ref_leaf_features), leaf_features_len);
    same_results(CALL_WRITE_LEAVES, y.refusal, &x, &y, sizeof x);
    same_buffers("leaf keys after writing", leaf_keys, ref_leaf_keys);
    same_buffers("leaf features after writing", leaf_features, ref_leaf_features);
    give_back(leaf_keys), give_back(leaf_features), give_back(ref_leaf_keys), give_back(ref_leaf_features);
}

/* The leaves of a list, read again, are the list. */
static void try_round_trip(map a) {
    size_t leaves = a.n - a.n / 4;
    lent leaf_keys = lend(leaves, 4), leaf_features = lend(leaves, 4), keys = lend(a.n, 4), bits = lend(a.n, 4);
    hlq_counted w = hlq_write_leaves(a.m, a.s, a.keys, a.n, a.bits, a.n, a.n, start(leaf_keys), leaves,
                                     start(leaf_features), leaves);
    must(w.refusal == HLQ_ACCEPTED && w.count == leaves, "the leaves of a list");
    hlq_counted r = hlq_read_leaves(a.m, a.s, start(leaf_keys), leaves, start(leaf_features), leaves, leaves,
                                    start(keys), a.n, start(bits), a.n);
    must(r.refusal == HLQ_ACCEPTED && r.count == a.n, "its leaves are a delivery");
    must(memcmp(start(keys), a.keys, 4 * a.n) == 0 && memcmp(start(bits), a.bits, 4 * a.n) == 0, "the list is back");
    give_back(leaf_keys), give_back(leaf_features), give_back(keys), give_back(bits);
}

static void try_lists(uint32_t m) {
    map a = random_map(m);
    size_t leaves = a.n - a.n / 4;
    try_round_trip(a);
    try_write(a, a.n, leaves, leaves + below(3)), try_write(a, a.n, leaves + below(3), leaves);
    try_write(a, a.n, leaves - 1, leaves), try_write(a, a.n, leaves, below((uint32_t)leaves));
    try_write(a, a.n - 1, leaves, leaves), try_write(a, a.n + 1, leaves, leaves), try_write(a, a.n - 1, 0, 0);
    for (uint32_t i = 0; i < 6; i++) {
        map bad = { a.m, a.s, a.n, room_for(4 * HLQ_MOST_RECORDS(m)), room_for(4 * HLQ_MOST_RECORDS(m)) };
        memcpy(bad.keys, a.keys, 4 * a.n), memcpy(bad.bits, a.bits, 4 * a.n);
        damage(&bad);
        try_write(bad, bad.n, leaves, leaves);
        free_map(bad);
    }
    map bad = a;
    bad.s = HLQ_MOST_SLOTS + 1;
    try_write(bad, a.n, leaves, leaves), try_write(bad, a.n - 1, leaves, 0);
    bad.s = a.s, bad.m = HLQ_DEEPEST_M + 1;
    try_write(bad, a.n, leaves, leaves);
    free_map(a);
}

int main(void) {
    for (uint32_t m = 0; m <= HLQ_DEEPEST_M; m++)
        for (uint32_t i = 0; i < SOME(m <= 4 ? 300u : m <= 6 ? 40u : 2u); i++) {
            seed(3333 + 700 * m + i);
            try_deliveries(m, m <= 6 ? 24 : 3);
            try_lists(m);
        }
    expect_pairs(CALL_READ_LEAVES, 1u << 0 | 1u << 1 | 1u << 19 | 1u << 9);
    expect_pairs(CALL_WRITE_LEAVES, 1u << 0 | 1u << 1 | 1u << 4 | 1u << 12);
    return finish("leaves");
}
