/* Two lists combined against the reference, which combines their rasters pixel by pixel: maps of every kind against
 * each other and against themselves, tables wrong in length and in each entry, tight rooms, damaged lists, several
 * errors in one call. */
#include "support.h"

#include <stdlib.h>
#include <string.h>

/* What a call is asked beside its lists. */
typedef struct {
    uint32_t s3;
    uint8_t *table;
    size_t table_len;
} classes;

static lent lend_numbers(const uint32_t *numbers, size_t n) {
    lent b = lend(n + below(3), 4);
    memcpy(start(b), numbers, 4 * n);
    return b;
}

static uint64_t try_combine(map a, map b, classes c, size_t keys_len, size_t bits_len) {
    lent ka = lend_numbers(a.keys, a.n), ba = lend_numbers(a.bits, a.n), kb = lend_numbers(b.keys, b.n),
         bb = lend_numbers(b.bits, b.n), table = lend(c.table_len, 1);
    lent keys = lend(keys_len, 4), bits = lend(bits_len, 4);
    if (c.table_len) memcpy(start(table), c.table, c.table_len);
    lent ka2 = copy_of(ka), ba2 = copy_of(ba), kb2 = copy_of(kb), bb2 = copy_of(bb), table2 = copy_of(table),
         keys2 = copy_of(keys), bits2 = copy_of(bits);
    hlq_counted x = hlq_combine(a.m, a.s, start(ka), ka.len, start(ba), ba.len, a.n, b.m, b.s, start(kb), kb.len,
                                start(bb), bb.len, b.n, c.s3, start(table), table.len, start(keys), keys.len,
                                start(bits), bits.len);
    hlq_counted y = ref_combine(a.m, a.s, start(ka2), ka2.len, start(ba2), ba2.len, a.n, b.m, b.s, start(kb2), kb2.len,
                                start(bb2), bb2.len, b.n, c.s3, start(table2), table2.len, start(keys2), keys2.len,
                                start(bits2), bits2.len);
    same_results(CALL_COMBINE, y.refusal, &x, &y, sizeof x);
    same_buffers("keys of the combined list", keys, keys2);
    same_buffers("bits of the combined list", bits, bits2);
    same_buffers("keys of the first list, only read", ka, ka2);
    same_buffers("bits of the first list, only read", ba, ba2);
    same_buffers("keys of the second list, only read", kb, kb2);
    same_buffers("bits of the second list, only read", bb, bb2);
    same_buffers("the table, only read", table, table2);
    lent all[] = { ka, ba, kb, bb, table, keys, bits, ka2, ba2, kb2, bb2, table2, keys2, bits2 };
    for (size_t i = 0; i < sizeof all / sizeof *all; i++) give_back(all[i]);
    return y.refusal == HLQ_ACCEPTED ? y.count : 0;
}

/* A table for two maps: 0 any class for each pair, 1 one class for all, 2 the first side alone, 3 the second side
 * alone, 4 whether the two are equal. With one entry to spare. */
static classes any_table(map a, map b, uint32_t kind) {
    classes c = { 1 + below(HLQ_MOST_SLOTS), room_for((size_t)a.s * b.s + 1), (size_t)a.s * b.s };
    uint8_t one = (uint8_t)below(c.s3), of_first[HLQ_MOST_SLOTS], of_second[HLQ_MOST_SLOTS];
    for (uint32_t i = 0; i < HLQ_MOST_SLOTS; i++)
        of_first[i] = (uint8_t)below(c.s3), of_second[i] = (uint8_t)below(c.s3);
    for (uint32_t i = 0; i < a.s; i++)
        for (uint32_t j = 0; j < b.s; j++)
            c.table[i * b.s + j] = kind == 0   ? (uint8_t)below(c.s3)
                                   : kind == 1 ? one
                                   : kind == 2 ? of_first[i]
                                   : kind == 3 ? of_second[j]
                                   : i == j    ? 0
                                               : (uint8_t)(c.s3 - 1);
    c.table[c.table_len] = 0;
    return c;
}

static void wrong_tables(map a, map b, classes c, size_t room) {
    for (size_t i = 0; i < c.table_len; i++) {
        uint8_t kept = c.table[i];
        c.table[i] = (uint8_t)(below(2) ? c.s3 : c.s3 + below(256 - c.s3));
        try_combine(a, b, c, room, room);
        c.table[i] = kept;
    }
    classes d = c;
    d.table_len = c.table_len - 1, try_combine(a, b, d, room, room);
    d.table_len = c.table_len + 1, try_combine(a, b, d, room, room);
    d.table_len = 0, try_combine(a, b, d, 0, 0);
}

static map copy_map(map a) {
    map b = a;
    b.keys = room_for(4 * (a.n + 8)), b.bits = room_for(4 * (a.n + 8));
    memcpy(b.keys, a.keys, 4 * a.n), memcpy(b.bits, a.bits, 4 * a.n);
    return b;
}

/* Every two neighbours of the order at once, and each refusal alone. */
static void refusals(map a, map b, classes c, size_t room) {
    map p = a, q = b;
    classes d = c;
    p.s = below(2) ? 0 : HLQ_MOST_SLOTS + 1, try_combine(p, b, c, room, room);
    q.s = below(2) ? 0 : HLQ_MOST_SLOTS + 1, try_combine(a, q, c, room, room);
    d.s3 = below(2) ? 0 : HLQ_MOST_SLOTS + 1, try_combine(a, b, d, room, room);
    p = a, p.m = HLQ_DEEPEST_M + 1, try_combine(p, b, c, room, room);
    q = b, q.m = HLQ_DEEPEST_M + 1, try_combine(a, q, c, room, room);
    p.m = q.m = HLQ_DEEPEST_M + 1 + below(3), try_combine(p, q, c, room, room);
    p = a, q = b, q.m = a.m == HLQ_DEEPEST_M ? a.m - 1 : a.m + 1;
    try_combine(a, q, c, room, room);                 /* 24, and mostly 4 */
    try_combine(a, q, d, room, room);                 /* 1 and 24 */
    p.n = a.n - 1, try_combine(p, q, c, room, room);  /* 24 and 4 */
    try_combine(p, b, c, room, room);                 /* 4 of the first */
    d = c, d.table_len--, try_combine(p, b, d, 0, 0); /* 4 of the first, 25 and 9 */
    q = b, q.n = b.n - 1, try_combine(a, q, c, room, room);
    try_combine(a, q, d, 0, 0);                  /* 4 of the second, 25 and 9 */
    q = b, q.s = a.s, try_combine(a, q, c, room, room); /* the second list at the first one's s */
    try_combine(a, b, d, 0, 0);                  /* 25 and 9 */
    for (uint32_t i = 0; i < 3; i++) {
        map e = copy_map(a), f = copy_map(b);
        if (i != 1) damage(&e);
        if (i != 0) damage(&f);
        try_combine(e, f, c, room, room);
        free_map(e), free_map(f);
    }
}

/* The room: exactly enough, one too few in one slice or the other, none, and n1 + n2 - 1, which is always enough. */
static void rooms(map a, map b, classes c) {
    size_t n = try_combine(a, b, c, a.n + b.n - 1, a.n + b.n - 1);
    must(n > 0, "room for n1 + n2 - 1 records is enough");
    try_combine(a, b, c, n, n), try_combine(a, b, c, n - 1, n + 2);
    if (a.m > 6) return; /* the reference is slow there */
    try_combine(a, b, c, n + 3, n), try_combine(a, b, c, n, n + 3);
    try_combine(a, b, c, n + 2, n - 1), try_combine(a, b, c, 0, 0);
}

/* One list with itself, in one pair of buffers, through a diagonal table: it comes back. */
static void with_itself(map a) {
    uint8_t table[HLQ_MOST_SLOTS * HLQ_MOST_SLOTS];
    for (uint32_t i = 0; i < a.s * a.s; i++) table[i] = (uint8_t)(i / a.s == i % a.s ? i / a.s : below(a.s));
    uint32_t *keys = room_for(4 * a.n), *bits = room_for(4 * a.n);
    hlq_counted x = hlq_combine(a.m, a.s, a.keys, a.n, a.bits, a.n, a.n, a.m, a.s, a.keys, a.n, a.bits, a.n, a.n, a.s,
                                table, (size_t)a.s * a.s, keys, a.n, bits, a.n);
    must(x.refusal == HLQ_ACCEPTED && x.count == a.n, "a list with itself");
    must(memcmp(keys, a.keys, 4 * a.n) == 0 && memcmp(bits, a.bits, 4 * a.n) == 0, "a diagonal table gives it back");
    free(keys), free(bits);
}

static void maps(uint32_t m) {
    map a = random_map(m), b = random_map(m);
    for (uint32_t kind = m > 6 ? below(5) : 0; kind < 5; kind += m > 6 ? 5 : 1) {
        classes c = any_table(a, b, kind);
        rooms(a, b, c);
        free(c.table);
    }
    classes c = any_table(a, b, 0);
    if (m <= 3) wrong_tables(a, b, c, a.n + b.n);
    if (m <= 6) refusals(a, b, c, a.n + b.n);
    with_itself(a);
    free(c.table), free_map(a), free_map(b);
}

int main(void) {
    for (uint32_t m = 0; m <= HLQ_DEEPEST_M; m++)
        for (uint32_t i = 0; i < SOME(m <= 4 ? 100u : m <= 6 ? 16u : 2u); i++) seed(700 * m + i), maps(m);
    expect_pairs(CALL_COMBINE, 1u << 0 | 1u << 1 | 1u << 24 | 1u << 4 | 1u << 25 | 1u << 9);
    return finish("combine");
}
