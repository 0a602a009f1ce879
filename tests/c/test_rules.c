/* Findings against the reference: rules and waivers good and wrong in each way, waivers around, at and below findings,
 * nested, touching and one pixel short of covering, several errors in one call, tight rooms. */
#include "support.h"

#include <stdlib.h>
#include <string.h>

static hlq_found try_findings(map a, size_t n, const hlq_rule *rules, size_t rules_len, const uint32_t *ids,
                              size_t ids_len, const uint32_t *keys, size_t keys_len, size_t room_ids,
                              size_t room_keys) {
    lent found_ids = lend(room_ids, 4), found_keys = lend(room_keys, 4), ref_ids = copy_of(found_ids),
         ref_keys = copy_of(found_keys);
    /* the waivers are one office's rows, and some of the other's stand before or after them */
    uint32_t offices[512] = { 0 }, rule_ids[512] = { 0 }, waived[512] = { 0 }, office = below(2);
    size_t own = ids_len < keys_len ? ids_len : keys_len, rows = 0, others = below(3) ? below(6) : 0;
    for (uint32_t o = 0; o < 2; o++)
        for (size_t i = 0; i < (o == office ? own : others); i++, rows++) {
            if (rows >= 512) continue;
            offices[rows] = o;
            rule_ids[rows] = o == office ? ids[i] : (uint32_t)i;
            waived[rows] = o == office ? keys[i] : a.m <= 10 ? random_key(a.m) : 0;
        }
    hlq_found x = hlq_findings(a.m, a.s, a.keys, a.n, a.bits, a.n, n, office, rules, rules_len, offices, 512, rule_ids,
                               512, waived, 512, rows, start(found_ids), room_ids, start(found_keys), room_keys);
    hlq_found y = ref_findings(a.m, a.s, a.keys, a.n, a.bits, a.n, n, office, rules, rules_len, offices, 512, rule_ids,
                               512, waived, 512, rows, start(ref_ids), room_ids, start(ref_keys), room_keys);
    same_results(CALL_FINDINGS, y.refusal, &x, &y, sizeof x);
    same_buffers("ids of the findings", found_ids, ref_ids);
    same_buffers("keys of the findings", found_keys, ref_keys);
    give_back(found_ids), give_back(found_keys), give_back(ref_ids), give_back(ref_keys);
    return y;
}

enum { MOST_RULES = 9, MOST_OF_RULE = 80, MOST_WAIVERS = MOST_RULES * MOST_OF_RULE };

typedef struct {
    hlq_rule rules[MOST_RULES];
    size_t count;
    uint32_t ids[MOST_WAIVERS], keys[MOST_WAIVERS];
    size_t waivers;
} questions;

/* The waivers of one rule while they are gathered. */
typedef struct {
    uint32_t keys[MOST_OF_RULE];
    size_t count;
} waivers;

static void add(waivers *w, uint32_t key) {
    if (w->count < MOST_OF_RULE) w->keys[w->count++] = key;
}

/* 5 to the power of the block's height. */
static uint32_t step_of(uint32_t m, uint32_t key) {
    uint32_t row, column, side, step = 1;
    ref_block(m, key, &row, &column, &side);
    for (; side > 1; side /= 2) step *= 5;
    return step;
}

/* Blocks of mixed sizes that together are the block. */
static void cover(waivers *w, uint32_t key, uint32_t step) {
    if (step == 1 || below(3) != 0) add(w, key);
    else
        for (uint32_t d = 1; d <= 4; d++) cover(w, key + d * (step / 5), step / 5);
}

/* The same for the block without one part of it, down to a pixel or a little larger. */
static void nearly_cover(waivers *w, uint32_t key, uint32_t step, int to_a_pixel) {
    do {
        uint32_t left = 1 + below(4);
        if (step == 1) return;
        step /= 5;
        for (uint32_t d = 1; d <= 4; d++)
            if (d != left) cover(w, key + d * step, step);
        key += left * step;
    } while (to_a_pixel);
}

/* Waivers that have to do with a finding. */
static void waive(waivers *w, uint32_t m, uint32_t key) {
    uint32_t step = step_of(m, key), around = step, end = ref_power(5, m);
    switch (below(9)) {
    case 0: add(w, key); break;
    case 1: /* one around it */
        do around *= around < end ? 5 : 1;
        while (around < end && below(2));
        add(w, key / around * around);
        break;
    case 2: /* its quadrants, or what covers them */
        for (uint32_t d = 1; step > 1 && d <= 4; d++) cover(w, key + d * (step / 5), step / 5);
        break;
    case 3: nearly_cover(w, key, step, 1); break;
    case 4: nearly_cover(w, key, step, 0); break;
    case 5: /* nested */
        add(w, key);
        nearly_cover(w, key, step, 1);
        cover(w, key, step);
        break;
    case 6: /* touching: the block that follows, and the one before */
        if (ref_key_is_valid(m, key + step)) add(w, key + step);
        if (key >= step && ref_key_is_valid(m, key - step)) add(w, key - step);
        break;
    case 7: /* a pixel in it */
        while (step > 1) step /= 5, key += (1 + below(4)) * step;
        add(w, key);
        break;
    default: add(w, random_key(m));
    }
}

static int by_key(const void *a, const void *b) {
    uint32_t x = *(const uint32_t *)a, y = *(const uint32_t *)b;
    return (x > y) - (x < y);
}

/* The waivers of a rule, in order and each once, join the others. */
static void join(questions *q, waivers *w, uint32_t id) {
    qsort(w->keys, w->count, sizeof *w->keys, by_key);
    for (size_t i = 0; i < w->count; i++)
        if (i == 0 || w->keys[i - 1] < w->keys[i]) q->ids[q->waivers] = id, q->keys[q->waivers++] = w->keys[i];
}

static questions ask(map a) {
    questions q = { .count = below(MOST_RULES), .waivers = 0 };
    uint32_t edge = 1u << a.m, id = below(4);
    for (size_t i = 0; i < q.count; i++) {
        uint32_t height = 1 + below(edge), width = 1 + below(edge);
        q.rules[i] = (hlq_rule){ id, below(edge - height + 1), below(edge - width + 1), height, width, below(a.s) };
        if (i > 0 && below(3) == 0) { /* another rule over the same window */
            q.rules[i] = q.rules[i - 1];
            q.rules[i].id = id;
        }
        id = i + 2 == q.count && below(3) == 0 ? 0xFFFFFFFFu : id + 1 + below(5);
    }
    for (size_t i = 0; i < q.count; i++) {
        uint32_t *found = room_for(4 * (size_t)edge * edge), some = 1 + below(4);
        size_t count = ref_select(a.m, a.s, a.keys, a.n, a.bits, a.n, a.n, q.rules[i].row, q.rules[i].column,
                                  q.rules[i].height, q.rules[i].width, q.rules[i].feature, found, (size_t)edge * edge)
                           .count;
        waivers w = { .count = 0 };
        for (size_t j = 0; j < count; j++)
            if (below(some) == 0) waive(&w, a.m, found[j]);
        join(&q, &w, q.rules[i].id);
        free(found);
    }
    return q;
}

static void spoil(questions *q, map a) {
    size_t i = q->count ? below((uint32_t)q->count) : 0, j = q->waivers ? below((uint32_t)q->waivers) : 0;
    switch (below(9)) {
    case 0:
        if (q->count) q->rules[i].height = 0;
        break;
    case 1:
        if (q->count) q->rules[i].column = 0xFFFFFFFFu;
        break;
    case 2:
        if (q->count) q->rules[i].feature = a.s;
        break;
    case 3:
        if (q->count > 1) q->rules[i].id = q->rules[i ? i - 1 : 1].id;
        break;
    case 4:
        if (q->waivers) q->ids[j] += 1;
        break;
    case 5:
        if (q->waivers) q->keys[j] = ref_power(5, a.m);
        break;
    case 6:
        if (q->waivers > 1) q->keys[j] = q->keys[j ? j - 1 : 1], q->ids[j] = q->ids[j ? j - 1 : 1];
        break;
    case 7:
        if (q->waivers) q->ids[j] = 12345678;
        break;
    default:
        if (q->count) q->count--;
    }
}

static void round_of(uint32_t m) {
    map a = random_map(m);
    questions q = ask(a);
    size_t room = 4 * ((size_t)1 << 2 * m) + 8;
    for (int i = 0; i < 4; i++) {
        hlq_found all =
            try_findings(a, a.n, q.rules, q.count, q.ids, q.waivers, q.keys, q.waivers, room, room + below(3));
        if (all.refusal == 0) {
            try_findings(a, a.n, q.rules, q.count, q.ids, q.waivers, q.keys, q.waivers, all.live, all.live);
            if (all.live)
                try_findings(a, a.n, q.rules, q.count, q.ids, q.waivers, q.keys, q.waivers, all.live, all.live - 1);
        }
        try_findings(a, a.n, q.rules, q.count, q.ids, q.waivers, q.keys, q.waivers, below(6), below(6));
        try_findings(a, a.n, q.rules, q.count, q.ids, q.waivers, q.keys, below((uint32_t)q.waivers + 1), room, room);
        try_findings(a, a.n, q.rules, below((uint32_t)q.count + 1), q.ids, q.waivers, q.keys, q.waivers, room, room);
        try_findings(a, a.n - 1, q.rules, q.count, q.ids, q.waivers, q.keys, q.waivers, 0, 0);
        spoil(&q, a);
    }
    try_findings(a, a.n, q.rules, 0, q.ids, 0, q.keys, 0, 0, 0);
    a.s = 0;
    try_findings(a, a.n - 1, q.rules, q.count, q.ids, q.waivers, q.keys, q.waivers, 0, 0);
    free_map(a);
}

/* A map of one feature and a rule over all of it: the blocks of a level, nested ones beside them, hide the root; all
 * blocks that lack one pixel do not. */
static void levels(uint32_t m) {
    uint32_t zero = 0, one = 1, steps = ref_power(5, m), edge = 1u << m;
    map a = { m, 1, 1, &zero, &one };
    hlq_rule rule = { 9, 0, 0, edge, edge, 0 };
    size_t most = (size_t)2 << 2 * m;
    uint32_t *ids = room_for(4 * most), *keys = room_for(4 * most);
    for (size_t i = 0; i < most; i++) ids[i] = 9;
    for (uint32_t level = 0, step = steps; level <= m; level++, step /= 5) {
        size_t count = 0;
        for (uint32_t key = 0; key < steps; key++)
            if (ref_key_is_valid(m, key) && (step_of(m, key) == step || (step_of(m, key) < step && below(9) == 0)))
                keys[count++] = key;
        must(count > 256 || try_findings(a, 1, &rule, 1, ids, count, keys, count, 1, 1).hidden == 1,
             "all blocks of a level");
        count = 0;
        uint32_t missing = ref_pixel_key(m, below(edge), below(edge));
        for (uint32_t key = 0; key < steps; key++)
            if (ref_key_is_valid(m, key) && (missing < key || key + step_of(m, key) <= missing)) keys[count++] = key;
        must(count > 256 || try_findings(a, 1, &rule, 1, ids, count, keys, count, 1, 1).live == 1,
             "all blocks without one pixel");
    }
    free(ids), free(keys);
}

int main(void) {
    for (uint32_t m = 0; m <= 4; m++) {
        seed(99 + m);
        levels(m);
    }
    for (uint32_t m = 0; m <= 8; m++)
        for (uint32_t i = 0; i < SOME(m <= 4 ? 150u : m <= 6 ? 20u : 3u); i++) {
            seed(4321 + 800 * m + i);
            round_of(m);
        }
    expect_pairs(CALL_FINDINGS, 1u << 0 | 1u << 1 | 1u << 4 | 1u << 13 | 1u << 14 | 1u << 12);
    return finish("rules");
}
