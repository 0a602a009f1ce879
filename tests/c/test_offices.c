/* The table of two offices against the reference: rows added and removed at random by both offices, against two tables
 * that each have one office's calls alone; tables damaged in each way; full offices; findings of each office. */
#include "support.h"

#include <stdlib.h>
#include <string.h>

enum { PLACES = 512 };

typedef struct {
    uint32_t offices[PLACES], ids[PLACES], waived[PLACES];
    size_t rows, offices_len, ids_len, waived_len;
} table;

static table empty_table(void) {
    table t = { .rows = 0, .offices_len = PLACES, .ids_len = PLACES, .waived_len = PLACES };
    for (size_t i = 0; i < PLACES; i++) t.offices[i] = below(9), t.ids[i] = below(99), t.waived[i] = below(99);
    return t;
}

/* The library and the reference make the same of the same table, in every place. */
static hlq_counted change(int adding, uint32_t m, uint32_t office, table *t, uint32_t id, uint32_t key) {
    table r = *t;
    hlq_counted x = adding ? hlq_add_waiver(m, office, t->offices, t->offices_len, t->ids, t->ids_len, t->waived,
                                            t->waived_len, t->rows, id, key)
                           : hlq_remove_waiver(m, office, t->offices, t->offices_len, t->ids, t->ids_len, t->waived,
                                               t->waived_len, t->rows, id, key);
    hlq_counted y = adding ? ref_add_waiver(m, office, r.offices, r.offices_len, r.ids, r.ids_len, r.waived,
                                            r.waived_len, r.rows, id, key)
                           : ref_remove_waiver(m, office, r.offices, r.offices_len, r.ids, r.ids_len, r.waived,
                                               r.waived_len, r.rows, id, key);
    same_results(adding ? CALL_ADD_WAIVER : CALL_REMOVE_WAIVER, y.refusal, &x, &y, sizeof x);
    must(memcmp(t, &r, sizeof r) == 0, "the table afterwards");
    if (y.refusal == 0) t->rows = y.count;
    return y;
}

static size_t held(const table *t, uint32_t office) {
    size_t count = 0;
    for (size_t i = 0; i < t->rows; i++) count += t->offices[i] == office;
    return count;
}

/* The office's rows are those of the table that has its calls alone. */
static int same_share(const table *t, const table *alone, uint32_t office) {
    size_t at = 0;
    for (size_t i = 0; i < t->rows; i++)
        if (t->offices[i] == office) {
            if (at == alone->rows || t->ids[i] != alone->ids[at] || t->waived[i] != alone->waived[at]) return 0;
            at++;
        }
    return at == alone->rows;
}

static void findings_of(map a, const table *t, uint32_t office, const hlq_rule *rules, size_t count, hlq_found *found,
                        uint32_t *ids, uint32_t *keys) {
    hlq_found y;
    uint32_t other_ids[64], other_keys[64];
    memset(ids, 7, 4 * 64), memset(keys, 7, 4 * 64), memset(other_ids, 7, 4 * 64), memset(other_keys, 7, 4 * 64);
    *found = hlq_findings(a.m, a.s, a.keys, a.n, a.bits, a.n, a.n, office, rules, count, t->offices, t->offices_len,
                          t->ids, t->ids_len, t->waived, t->waived_len, t->rows, ids, 64, keys, 64);
    y = ref_findings(a.m, a.s, a.keys, a.n, a.bits, a.n, a.n, office, rules, count, t->offices, t->offices_len, t->ids,
                     t->ids_len, t->waived, t->waived_len, t->rows, other_ids, 64, other_keys, 64);
    same_results(CALL_FINDINGS, y.refusal, found, &y, sizeof y);
    must(memcmp(ids, other_ids, sizeof other_ids) == 0 && memcmp(keys, other_keys, sizeof other_keys) == 0,
         "what findings leave");
}

/* Calls of both offices in any order, refused ones included, against each office's calls alone. */
static void interleaved(uint32_t m, int calls, int mostly_add) {
    map a = random_map(m);
    table both = empty_table(), alone[2] = { empty_table(), empty_table() };
    hlq_rule rules[2] = { { 0, 0, 0, 1u << m, 1u << m, below(a.s) }, { 1, 0, 0, 1u << m, 1u << m, below(a.s) } };
    for (int i = 0; i < calls; i++) {
        uint32_t office = below(20) ? below(2) : below(4), id = below(m < 2 ? 200 : 2), key = random_key(m);
        int adding = below(10) < (uint32_t)mostly_add;
        if (below(8) == 0 && both.rows) { /* a row that is there, of this office or of the other */
            size_t j = below((uint32_t)both.rows);
            id = both.ids[j], key = both.waived[j];
        }
        if (below(30) == 0) key = ref_power(5, m) + below(3);
        hlq_counted x = change(adding, m, office, &both, id, key);
        if (office < 2) {
            hlq_counted y = change(adding, m, office, &alone[office], id, key);
            must(x.refusal == y.refusal, "the refusal of the office's calls alone");
            must(same_share(&both, &alone[office], office), "the rows of the office's calls alone");
        }
        if (below(10) == 0)
            for (uint32_t o = 0; o < 2; o++) {
                hlq_found f, g;
                uint32_t ids[64], keys[64], own_ids[64], own_keys[64];
                findings_of(a, &both, o, rules, 2, &f, ids, keys);
                findings_of(a, &alone[o], o, rules, 2, &g, own_ids, own_keys);
                must(memcmp(&f, &g, sizeof f) == 0 && memcmp(ids, own_ids, sizeof ids) == 0 &&
                         memcmp(keys, own_keys, sizeof keys) == 0,
                     "the findings of the office's calls alone");
            }
    }
    free_map(a);
}

/* One office full, then both; a row that is there comes before a full office. */
static void full(uint32_t m) {
    table t = empty_table();
    uint32_t first = below(2);
    for (uint32_t k = 0; k < 2; k++) {
        uint32_t office = k ? 1 - first : first;
        for (uint32_t i = 0; i < 256; i++)
            must(change(1, m, office, &t, i * 3, 0).refusal == 0, "a place for each row");
        must(change(1, m, office, &t, 9999, 0).count == 257, "the office is full");
        must(change(1, m, office, &t, 3, 0).refusal == 22, "a row that is there, in a full office");
        must(held(&t, office) == 256, "256 rows");
    }
    must(t.rows == PLACES, "both are full");
    for (uint32_t i = 0; i < 40; i++) change(0, m, below(2), &t, below(256) * 3, 0);
    for (uint32_t i = 0; i < 40; i++) change(1, m, below(2), &t, below(256) * 3, 0);
}

/* A table of some rows of both offices, then one thing about it is wrong, or several. */
static void damaged(uint32_t m) {
    table t = empty_table();
    map a = random_map(m);
    for (uint32_t i = 0; i < 12; i++) change(1, m, below(2), &t, below(5), random_key(m));
    for (int ways = 1 + (int)below(2); ways > 0; ways--) {
        size_t j = t.rows ? below((uint32_t)t.rows) : 0;
        switch (below(9)) {
        case 0: t.offices_len -= 1; break;
        case 1: t.ids_len -= 1 + below(511); break;
        case 2: t.waived_len = 0; break;
        case 3: t.rows = 513; break;
        case 4: t.offices[j] = 2 + below(9); break;
        case 5: t.offices[j] ^= 1; break;
        case 6: t.ids[j] = 1u << 31 | below(7); break;
        case 7: t.waived[j] = ref_power(5, m) + below(9); break;
        default: /* 257 rows of one office */
            t.rows = 257 + below(3);
            for (size_t i = 0; i < t.rows; i++) t.offices[i] = 1, t.ids[i] = (uint32_t)i, t.waived[i] = 0;
        }
    }
    hlq_rule rules[3] = { { 0, 0, 0, 1, 1, 0 },
                          { 1, 0, 0, 1u << m, 1u << m, 0 },
                          { 2, 0, 0, 1, 1, below(3) ? 0 : 99 } };
    hlq_found f;
    uint32_t ids[64], keys[64];
    for (uint32_t o = 0; o < 3; o++) findings_of(a, &t, o, rules, 1 + below(3), &f, ids, keys);
    for (int i = 0; i < 6; i++) {
        table u = t;
        change((int)below(2), below(9) ? m : 11, below(4), &u, below(5), below(6) ? random_key(m) : 0xFFFFFFFFu);
    }
    free_map(a);
}

int main(void) {
    for (uint32_t m = 0; m <= 5; m++)
        for (uint32_t i = 0; i < SOME(60u); i++) {
            seed(777 + 900 * m + i);
            interleaved(m, 60, 6);
            damaged(m);
            if (i % 10 == 0) interleaved(m, 900, 9), full(m);
        }
    expect_pairs(CALL_ADD_WAIVER, 1u << 0 | 1u << 21 | 1u << 1 | 1u << 14 | 1u << 8 | 1u << 22 | 1u << 12);
    expect_pairs(CALL_REMOVE_WAIVER, 1u << 0 | 1u << 21 | 1u << 1 | 1u << 14 | 1u << 8 | 1u << 22);
    expect_pairs(CALL_FINDINGS, 1u << 0 | 1u << 21 | 1u << 13 | 1u << 14 | 1u << 12);
    return finish("offices");
}
