#include "plain.h"

#include <stdlib.h>
#include <string.h>

static int one_bit(uint32_t b) { return b != 0 && (b & (b - 1)) == 0; }

/* The feature of a leaf's bits. */
static inline uint32_t slot_of(uint32_t b) { return (uint32_t)__builtin_ctz(b); }

/* The powers of five: five[h] keys lie in a block of height h. */
static const uint32_t five[] = { 1, 5, 25, 125, 625, 3125, 15625, 78125, 390625, 1953125, 9765625 };

/* ---- blocks */

hlq_keyed plain_key_at(uint32_t m, uint32_t row, uint32_t column, uint32_t level) {
    if (m > HLQ_DEEPEST_M) return (hlq_keyed){ HLQ_SETTINGS, 0 };
    if ((row | column) >> m) return (hlq_keyed){ HLQ_WINDOW, 0 };
    if (level > m) return (hlq_keyed){ HLQ_KEY, 0 };
    uint32_t key = 0;
    for (uint32_t i = m; i > m - level; i--) key = key * 5 + 1 + (row >> (i - 1) & 1) * 2 + (column >> (i - 1) & 1);
    return (hlq_keyed){ 0, key * five[m - level] };
}

/* One pass over the digits, from the right: zeros, and then none. */
hlq_block plain_block_of(uint32_t m, uint32_t key) {
    if (m > HLQ_DEEPEST_M) return (hlq_block){ HLQ_SETTINGS, 0, 0, 0, 0 };
    if (key >= five[m]) return (hlq_block){ HLQ_KEY, 0, 0, 0, 0 };
    uint32_t height = 0, row = 0, column = 0;
    for (; height < m && key % 5 == 0; height++) key /= 5;
    for (uint32_t shift = height; shift < m; shift++, key /= 5) {
        uint32_t digit = key % 5;
        if (digit == 0) return (hlq_block){ HLQ_KEY, 0, 0, 0, 0 };
        row |= (digit - 1) / 2 << shift, column |= (digit - 1) % 2 << shift;
    }
    return (hlq_block){ 0, row, column, 1u << height, m - height };
}

/* ---- build: what is below each block that is not uniform, written in one pass; a count comes first only where the
 * room may be too little */

typedef struct {
    size_t edge;
    uint32_t *keys, *bits;
} job;
typedef struct {
    uint32_t bits;
    size_t count;
} tally;

static inline tally count_quad(const job *j, const uint8_t *at) {
    uint32_t bits = 1u << at[0] | 1u << at[1] | 1u << at[j->edge] | 1u << at[j->edge + 1];
    return (tally){ bits, one_bit(bits) ? 1 : 5 };
}

static tally count_block(const job *j, const uint8_t *at, uint32_t side) {
    if (side == 1) return (tally){ 1u << *at, 1 };
    if (side == 2) return count_quad(j, at);
    uint32_t h = side / 2, bits = 0;
    size_t count = 1;
    for (size_t d = 0; d < 4; d++) {
        const uint8_t *corner = at + (d / 2 * j->edge + d % 2) * h;
        tally q = h == 2 ? count_quad(j, corner) : count_block(j, corner, h);
        bits |= q.bits, count += q.count;
    }
    return (tally){ bits, one_bit(bits) ? 1 : count };
}

/* A block of two by two pixels, without a call: most blocks are of this size. */
static inline tally write_quad(const job *j, const uint8_t *north, uint32_t key, size_t at) {
    const uint8_t *south = north + j->edge;
    uint32_t a = 1u << north[0], b = 1u << north[1], c = 1u << south[0], d = 1u << south[1], bits = a | b | c | d;
    if ((bits & (bits - 1)) == 0) return (tally) { bits, at + 1 };
    uint32_t *keys = j->keys + at, *slots = j->bits + at;
    keys[1] = key + 1, keys[2] = key + 2, keys[3] = key + 3, keys[4] = key + 4;
    slots[1] = a, slots[2] = b, slots[3] = c, slots[4] = d;
    return (tally) { bits, at + 5 };
}

/* Four blocks with their places, below a block at a place; nothing is below it where all are the same leaf. */
static inline tally write_four(const job *j, uint32_t key, uint32_t step, size_t at, const size_t *places,
                               const uint32_t *own, size_t end) {
    uint32_t bits = own[0] | own[1] | own[2] | own[3];
    if ((bits & (bits - 1)) == 0) return (tally) { bits, at + 1 };
    uint32_t *keys = j->keys, *slots = j->bits;
    keys[places[0]] = key + step, slots[places[0]] = own[0];
    keys[places[1]] = key + 2 * step, slots[places[1]] = own[1];
    keys[places[2]] = key + 3 * step, slots[places[2]] = own[2];
    keys[places[3]] = key + 4 * step, slots[places[3]] = own[3];
    return (tally) { bits, end };
}

static tally write_sixteen(const job *j, const uint8_t *north, uint32_t key, size_t at) {
    const uint8_t *south = north + 2 * j->edge;
    size_t places[4];
    uint32_t own[4];
    places[0] = at + 1;
    tally q = write_quad(j, north, key + 5, at + 1);
    own[0] = q.bits, places[1] = q.count;
    q = write_quad(j, north + 2, key + 10, q.count);
    own[1] = q.bits, places[2] = q.count;
    q = write_quad(j, south, key + 15, q.count);
    own[2] = q.bits, places[3] = q.count;
    q = write_quad(j, south + 2, key + 20, q.count);
    own[3] = q.bits;
    return write_four(j, key, 5, at, places, own, q.count);
}

static tally write_below(const job *j, const uint8_t *corner, uint32_t side, uint32_t key, uint32_t step, size_t at) {
    uint32_t h = side / 2, own[4];
    size_t places[4], next = at + 1;
    if (side == 1) return (tally) { 1u << *corner, next };
    if (side == 2) return write_quad(j, corner, key, at);
    if (side == 4) return write_sixteen(j, corner, key, at);
    for (uint32_t d = 0; d < 4; d++) {
        const uint8_t *c = corner + (d / 2 * j->edge + d % 2) * h;
        uint32_t child = key + (d + 1) * step;
        tally q = h == 4 ? write_sixteen(j, c, child, next) : write_below(j, c, h, child, step / 5, next);
        own[d] = q.bits, places[d] = next, next = q.count;
    }
    return write_four(j, key, step, at, places, own, next);
}

/* Whether all pixels are below s: eight at a time. A byte is s or more where it is 128 or more, or reaches 128 once
 * 128 - s is added to it. */
static int are_features(const uint8_t *raster, size_t pixels, uint32_t s) {
    const uint64_t ones = UINT64_MAX / 255, high = 128 * ones;
    uint64_t bad = 0, eight;
    size_t i = 0;
    for (; i + 8 <= pixels; i += 8) {
        memcpy(&eight, raster + i, 8);
        bad |= eight | ((eight & ~high) + (128 - s) * ones);
    }
    bad &= high;
    for (; i < pixels; i++) bad |= raster[i] >= s;
    return bad == 0;
}

size_t plain_build(uint32_t m, uint32_t s, const uint8_t *raster, uint32_t *keys, uint32_t *bits, size_t room) {
    size_t pixels = (size_t)1 << 2 * m;
    if (!are_features(raster, pixels, s)) return 0;
    job j = { (size_t)1 << m, keys, bits };
    if (room < (4 * pixels - 1) / 3 && count_block(&j, raster, 1u << m).count > room) return 0;
    tally t = write_below(&j, raster, 1u << m, 0, m ? five[m - 1] : 0, 0);
    keys[0] = 0, bits[0] = t.bits;
    return t.count;
}

/* ---- check: four pixels in a few joined tests. That each node has the slots of its four says of all leaves that they
 * have slots of the root, so s is compared there alone. */

/* The bitstring with s slots set: 1u << s would be too much at s = 32. */
static uint32_t all_slots(uint32_t s) { return 0xFFFFFFFFu >> (32 - s); }

/* The records after place `at` are the four pixels of the block there. */
static inline int are_pixels(const uint32_t *keys, const uint32_t *bits, size_t at, uint32_t key) {
    const uint32_t *k = keys + at;
    uint32_t a = bits[at + 1], b = bits[at + 2], c = bits[at + 3], d = bits[at + 4];
    if ((a | b | c | d) != bits[at]) return 0;
    if (k[1] != key + 1 || k[2] != key + 2 || k[3] != key + 3 || k[4] != key + 4) return 0;
    if (a == 0 || b == 0 || c == 0 || d == 0) return 0;
    return ((a & (a - 1)) | (b & (b - 1)) | (c & (c - 1)) | (d & (d - 1))) == 0;
}

/* The place after the records of the block at place `at`, which has four by four pixels and is no leaf; 0 where they
 * are wrong. */
static inline size_t check_sixteen(const uint32_t *keys, const uint32_t *bits, size_t n, size_t at, uint32_t key) {
    uint32_t together = 0;
    size_t next = at + 1;
    for (int d = 0; d < 4; d++) {
        key += 5;
        if (next >= n || keys[next] != key) return 0;
        uint32_t b = bits[next];
        together |= b;
        if ((b & (b - 1)) == 0) {
            if (b == 0) return 0;
            next++;
        } else {
            if (n - next <= 4 || !are_pixels(keys, bits, next, key)) return 0;
            next += 5;
        }
    }
    return together == bits[at] ? next : 0;
}

/* The same for larger blocks, whose quadrants have this step. */
static size_t check_large(const uint32_t *keys, const uint32_t *bits, size_t n, size_t at, uint32_t key,
                          uint32_t step) {
    uint32_t together = 0;
    size_t next = at + 1;
    for (int d = 0; d < 4; d++) {
        key += step;
        if (next >= n || keys[next] != key) return 0;
        uint32_t b = bits[next];
        together |= b;
        if ((b & (b - 1)) == 0) {
            if (b == 0) return 0;
            next++;
            continue;
        }
        next = step == 25 ? check_sixteen(keys, bits, n, next, key) : check_large(keys, bits, n, next, key, step / 5);
        if (next == 0) return 0;
    }
    return together == bits[at] ? next : 0;
}

static size_t check_node(const uint32_t *keys, const uint32_t *bits, size_t n, size_t at, uint32_t key,
                         uint32_t step) {
    if (step == 1) return n - at > 4 && are_pixels(keys, bits, at, key) ? at + 5 : 0;
    return step == 5 ? check_sixteen(keys, bits, n, at, key) : check_large(keys, bits, n, at, key, step);
}

int plain_is_list(uint32_t m, uint32_t s, const uint32_t *keys, const uint32_t *bits, size_t n) {
    if (n == 0 || keys[0] != 0 || bits[0] > all_slots(s)) return 0;
    if (one_bit(bits[0])) return n == 1;
    return m > 0 && check_node(keys, bits, n, 0, 0, five[m - 1]) == n;
}

/* ---- raster: each size that is frequent has a function, so that a leaf's lines are stores of a known length */

static inline void fill_square(uint8_t *at, size_t edge, size_t side, uint32_t leaf) {
    for (size_t r = 0; r < side; r++) memset(at + r * edge, (int)slot_of(leaf), side);
}

/* Sides from 16 on: in pieces of 16 bytes where a call would take longer. */
static inline void fill_large_square(uint8_t *at, size_t edge, size_t side, uint32_t leaf) {
    if (side > 64) fill_square(at, edge, side, leaf);
    else
        for (size_t r = 0; r < side; r++)
            for (size_t c = 0; c < side; c += 16) memset(at + r * edge + c, (int)slot_of(leaf), 16);
}

/* The quadrants of a block of two by two pixels, from place `next` on. */
static inline size_t fill_two(const uint32_t *bits, size_t next, uint8_t *at, size_t edge) {
    at[0] = (uint8_t)slot_of(bits[next]), at[1] = (uint8_t)slot_of(bits[next + 1]);
    at[edge] = (uint8_t)slot_of(bits[next + 2]), at[edge + 1] = (uint8_t)slot_of(bits[next + 3]);
    return next + 4;
}

/* The same for four by four, eight by eight, and more. */
static inline size_t fill_four(const uint32_t *bits, size_t next, uint8_t *at, size_t edge) {
    for (size_t d = 0; d < 4; d++) {
        uint8_t *corner = at + (d / 2 * edge + d % 2) * 2;
        uint32_t b = bits[next++];
        if ((b & (b - 1)) == 0) fill_square(corner, edge, 2, b);
        else next = fill_two(bits, next, corner, edge);
    }
    return next;
}

static size_t fill_eight(const uint32_t *bits, size_t next, uint8_t *at, size_t edge) {
    for (size_t d = 0; d < 4; d++) {
        uint8_t *corner = at + (d / 2 * edge + d % 2) * 4;
        uint32_t b = bits[next++];
        if ((b & (b - 1)) == 0) fill_square(corner, edge, 4, b);
        else next = fill_four(bits, next, corner, edge);
    }
    return next;
}

static size_t fill_large(const uint32_t *bits, size_t next, uint8_t *at, size_t edge, size_t half) {
    for (size_t d = 0; d < 4; d++) {
        uint8_t *corner = at + (d / 2 * edge + d % 2) * half;
        uint32_t b = bits[next++];
        if (half == 8) {
            if ((b & (b - 1)) == 0) fill_square(corner, edge, 8, b);
            else next = fill_eight(bits, next, corner, edge);
        } else if ((b & (b - 1)) == 0) fill_large_square(corner, edge, half, b);
        else next = fill_large(bits, next, corner, edge, half / 2);
    }
    return next;
}

void plain_raster(uint32_t m, const uint32_t *bits, uint8_t *raster) {
    size_t edge = (size_t)1 << m;
    if (one_bit(bits[0])) memset(raster, (int)slot_of(bits[0]), edge * edge);
    else if (m == 1) fill_two(bits, 1, raster, edge);
    else if (m == 2) fill_four(bits, 1, raster, edge);
    else if (m == 3) fill_eight(bits, 1, raster, edge);
    else fill_large(bits, 1, raster, edge, edge / 2);
}

/* ---- combine: two lists gone down together, four pixels without a call */

/* Two lists, their table, and where the result goes. */
typedef struct {
    const uint32_t *bits1, *bits2;
    const uint8_t *table;
    uint32_t s2, *keys, *bits; /* keys null: count alone */
} two_lists;

/* A combined block: its bits, the place after its records, and where it ends in both lists. */
typedef struct {
    uint32_t bits;
    size_t next, at1, at2;
} joint;

/* The block whose records begin at at1 and at2; where a list has a leaf around it, that leaf's bits, else 0. The
 * records below the block are written past place. */
static joint combine_block(const two_lists *j, uint32_t leaf1, size_t at1, uint32_t leaf2, size_t at2, uint32_t key,
                           uint32_t step, size_t place) {
    if (!leaf1) {
        leaf1 = j->bits1[at1++];
        if (!one_bit(leaf1)) leaf1 = 0;
    }
    if (!leaf2) {
        leaf2 = j->bits2[at2++];
        if (!one_bit(leaf2)) leaf2 = 0;
    }
    if (leaf1 && leaf2) {
        uint8_t class = j->table[slot_of(leaf1) * j->s2 + slot_of(leaf2)];
        return (joint){ 1u << class, place + 1, at1, at2 };
    }
    uint32_t lower = step / 5, union_of_four = 0, own[4];
    size_t places[4], next = place + 1;
    for (uint32_t d = 0; d < 4; d++) {
        places[d] = next;
        if (lower == 1) {
            uint32_t a = leaf1 ? leaf1 : j->bits1[at1++], b = leaf2 ? leaf2 : j->bits2[at2++];
            own[d] = 1u << j->table[slot_of(a) * j->s2 + slot_of(b)];
            next++;
        } else {
            joint q = combine_block(j, leaf1, at1, leaf2, at2, key + (d + 1) * lower, lower, next);
            own[d] = q.bits, next = q.next, at1 = q.at1, at2 = q.at2;
        }
        union_of_four |= own[d];
    }
    if (one_bit(union_of_four)) return (joint){ union_of_four, place + 1, at1, at2 };
    if (j->keys)
        for (uint32_t d = 0; d < 4; d++) j->keys[places[d]] = key + (d + 1) * lower, j->bits[places[d]] = own[d];
    return (joint){ union_of_four, next, at1, at2 };
}

size_t plain_combine(uint32_t m, const uint32_t *bits1, size_t n1, uint32_t s2, const uint32_t *bits2, size_t n2,
                     const uint8_t *table, uint32_t *keys, uint32_t *bits, size_t room) {
    two_lists count = { bits1, bits2, table, s2, NULL, NULL }, j = { bits1, bits2, table, s2, keys, bits };
    uint32_t step = five[m];
    if (n1 + n2 - 1 > room && combine_block(&count, 0, 0, 0, 0, 0, step, 0).next > room) return 0;
    joint root = combine_block(&j, 0, 0, 0, 0, 0, step, 0);
    keys[0] = 0, bits[0] = root.bits;
    return root.next;
}

/* ---- standing: the last place whose key is at or before */

size_t plain_place(const uint32_t *keys, size_t n, uint32_t key) {
    size_t low = 0, high = n;
    while (low < high) {
        size_t middle = low + (high - low) / 2;
        if (keys[middle] <= key)
            low = middle + 1;
        else
            high = middle;
    }
    return low - 1;
}

/* The number of keys of a block, and its height, from the right: zeros are few. */
static uint32_t height_of(uint32_t m, uint32_t key) {
    uint32_t height = 0;
    for (; height < m && key % 5 == 0; height++) key /= 5;
    return height;
}

static uint32_t step_of(uint32_t m, uint32_t key) { return five[height_of(m, key)]; }

hlq_stands plain_standing(uint32_t m, const uint32_t *keys, const uint32_t *bits, size_t n, uint32_t key) {
    size_t place = plain_place(keys, n, key);
    uint32_t found = keys[place];
    if (found != key) return (hlq_stands){ 0, HLQ_INSIDE, place, 0, found, m - height_of(m, found) };
    if (one_bit(bits[place])) return (hlq_stands){ 0, HLQ_LISTED, place, 1, 0, 0 };
    return (hlq_stands){ 0, HLQ_LISTED, place, plain_place(keys, n, key + step_of(m, key) - 1) + 1 - place, 0, 0 };
}

hlq_span plain_part(uint32_t m, const uint32_t *keys, const uint32_t *bits, size_t n, uint32_t key) {
    hlq_stands stands = plain_standing(m, keys, bits, n, key);
    return (hlq_span){ stands.place, stands.kind == HLQ_LISTED ? stands.records : 1 };
}

/* ---- windows: list and window gone down together. A leaf answers for all of the window that lies in it, a node whose
 * bits add nothing is passed over, and only else its four quadrants are asked, which stand after it in the list. */

typedef struct {
    uint32_t row, column, bottom, right; /* bottom and right are past the window */
} frame;
typedef struct {
    uint32_t key, row, column, side, step;
} spot;

static frame frame_of(uint32_t row, uint32_t column, uint32_t height, uint32_t width) {
    return (frame){ row, column, row + height, column + width };
}

static inline int inside(const frame *w, const spot *b) {
    return w->row <= b->row && b->row + b->side <= w->bottom && w->column <= b->column &&
           b->column + b->side <= w->right;
}

/* Which quadrants of a block that meets the window do so: bits 1 to 4. */
static inline uint32_t quadrants_met(const frame *w, const spot *b) {
    uint32_t row = b->row + b->side / 2, column = b->column + b->side / 2;
    uint32_t sides = (w->column < column ? 10u : 0) | (column < w->right ? 20u : 0); /* west, east */
    return sides & ((w->row < row ? 6u : 0) | (row < w->bottom ? 24u : 0));          /* north, south */
}

static inline spot quadrant(const spot *b, uint32_t digit) {
    uint32_t h = b->side / 2, step = b->step / 5;
    return (spot) { b->key + digit * step, b->row + (digit - 1) / 2 * h, b->column + (digit - 1) % 2 * h, h, step };
}

/* The place of a listed key at or after a place: steps that double, then halve. */
static size_t place_from(const uint32_t *keys, size_t n, size_t at, uint32_t key) {
    size_t step = 1, high;
    while (at + step < n && keys[at + step] <= key) at += step, step *= 2;
    for (high = at + step < n ? at + step : n; high - at > 1;) {
        size_t middle = at + (high - at) / 2;
        if (keys[middle] <= key)
            at = middle;
        else
            high = middle;
    }
    return at;
}

typedef struct {
    const uint32_t *keys, *bits;
    size_t n;
    frame w;
    uint32_t bit;
    uint32_t *answer;
    size_t room, count;
} question;

/* The block is listed at the place. */
static int exist_below(question *q, const spot *b, size_t at) {
    uint32_t found = q->bits[at];
    if (!(found & q->bit)) return 0;
    if (found == q->bit || inside(&q->w, b)) return 1;
    for (uint32_t met = quadrants_met(&q->w, b); met; met &= met - 1) {
        uint32_t digit = slot_of(met);
        spot c = quadrant(b, digit);
        at = place_from(q->keys, q->n, at, c.key);
        if (exist_below(q, &c, at)) return 1;
    }
    return 0;
}

static uint32_t report_below(question *q, const spot *b, size_t at, uint32_t seen) {
    uint32_t found = q->bits[at];
    if ((seen | found) == seen) return seen;
    if (one_bit(found) || inside(&q->w, b)) return seen | found;
    for (uint32_t met = quadrants_met(&q->w, b); met; met &= met - 1) {
        uint32_t digit = slot_of(met);
        spot c = quadrant(b, digit);
        at = place_from(q->keys, q->n, at, c.key);
        seen = report_below(q, &c, at, seen);
    }
    return seen;
}

static void give(question *q, uint32_t key) {
    if (q->count < q->room) q->answer[q->count] = key;
    q->count++;
}

/* The window's largest blocks in a leaf: the list has no more to say. */
static void select_in_leaf(question *q, const spot *b) {
    if (inside(&q->w, b)) {
        give(q, b->key);
        return;
    }
    for (uint32_t met = quadrants_met(&q->w, b); met; met &= met - 1) {
        spot c = quadrant(b, slot_of(met));
        select_in_leaf(q, &c);
    }
}

static void select_below(question *q, const spot *b, size_t at) {
    uint32_t found = q->bits[at];
    if (!(found & q->bit)) return;
    if (found == q->bit) {
        select_in_leaf(q, b);
        return;
    }
    if (inside(&q->w, b)) {
        size_t last = place_from(q->keys, q->n, at, b->key + b->step - 1);
        for (; at <= last; at++)
            if (q->bits[at] == q->bit) give(q, q->keys[at]);
        return;
    }
    for (uint32_t met = quadrants_met(&q->w, b); met; met &= met - 1) {
        uint32_t digit = slot_of(met);
        spot c = quadrant(b, digit);
        at = place_from(q->keys, q->n, at, c.key);
        select_below(q, &c, at);
    }
}

int plain_exist(uint32_t m, const uint32_t *keys, const uint32_t *bits, size_t n, uint32_t row, uint32_t column,
                uint32_t height, uint32_t width, uint32_t feature) {
    question q = { keys, bits, n, frame_of(row, column, height, width), 1u << feature, NULL, 0, 0 };
    spot root = { 0, 0, 0, 1u << m, five[m] };
    int yes = exist_below(&q, &root, 0);
    return yes;
}

uint32_t plain_report(uint32_t m, const uint32_t *keys, const uint32_t *bits, size_t n, uint32_t row, uint32_t column,
                      uint32_t height, uint32_t width) {
    question q = { keys, bits, n, frame_of(row, column, height, width), 0, NULL, 0, 0 };
    spot root = { 0, 0, 0, 1u << m, five[m] };
    uint32_t found = report_below(&q, &root, 0, 0);
    return found;
}

/* Nothing may be written where the answer does not fit: it is counted first unless the room holds every pixel of the
 * window. */
size_t plain_select(uint32_t m, const uint32_t *keys, const uint32_t *bits, size_t n, uint32_t row, uint32_t column,
                    uint32_t height, uint32_t width, uint32_t feature, uint32_t *answer, size_t room) {
    question q = { keys, bits, n, frame_of(row, column, height, width), 1u << feature, answer, 0, 0 };
    spot root = { 0, 0, 0, 1u << m, five[m] };
    if (room < (size_t)height * width) {
        select_below(&q, &root, 0);
        if (q.count > room) return q.count;
    }
    q.room = room, q.count = 0;
    select_below(&q, &root, 0);
    return q.count;
}

/* The lines of the raster among those dragged: how many, and through the pointer the first. */
static uint32_t overlap(int32_t start, uint32_t length, uint32_t side, uint32_t *first) {
    int64_t from = start < 0 ? 0 : start, end = (int64_t)start + length;
    if (end > side) end = side;
    *first = (uint32_t)from;
    return from < end ? (uint32_t)(end - from) : 0;
}

size_t plain_batch(uint32_t m, uint32_t s, const uint32_t *keys, const uint32_t *bits, size_t n,
                   const hlq_question *questions, size_t count, uint32_t *refusals, uint32_t *values) {
    if (!plain_is_list(m, s, keys, bits, n)) return 0;
    for (size_t i = 0; i < count; i++) {
        hlq_question q = questions[i];
        uint32_t row, column, height = overlap(q.row, q.height, 1u << m, &row);
        uint32_t width = overlap(q.column, q.width, 1u << m, &column);
        refusals[i] = height == 0 || width == 0 ? 6 : q.report == 0 && q.feature >= s ? 7 : 0;
        values[i] = 0;
        if (refusals[i]) continue;
        if (q.report) values[i] = plain_report(m, keys, bits, n, row, column, height, width);
        else values[i] = (uint32_t)plain_exist(m, keys, bits, n, row, column, height, width, q.feature);
    }
    return count;
}

/* ---- summary: where one goes with a list, the check of the list counts as it goes. Four tables of counters, one for
 * each quadrant of a node, so that no addition waits for the one before. */

typedef uint32_t counters[4][HLQ_MOST_SLOTS];

static uint32_t summary_level(uint32_t m) { return m < 2 ? m : 2; }

static inline void count_pixels(const uint32_t *bits, size_t first, counters counts) {
    uint32_t a = bits[first], b = bits[first + 1], c = bits[first + 2], d = bits[first + 3];
    counts[0][slot_of(a)]++, counts[1][slot_of(b)]++;
    counts[2][slot_of(c)]++, counts[3][slot_of(d)]++;
}

/* The quadrants, of so many pixels each, of a block whose own record is before place `next`. */
static size_t count_node(const uint32_t *bits, size_t next, uint32_t pixels, counters counts) {
    for (int d = 0; d < 4; d++) {
        uint32_t b = bits[next++];
        if ((b & (b - 1)) == 0) counts[d][slot_of(b)] += pixels;
        else if (pixels == 4) count_pixels(bits, next, counts), next += 4;
        else next = count_node(bits, next, pixels / 4, counts);
    }
    return next;
}

typedef struct {
    const uint32_t *keys, *bits;
    size_t n;
    uint32_t s, pixels, *summary;
} checking;

/* check_sixteen and check_large with counters. */
static inline size_t count_sixteen(const uint32_t *keys, const uint32_t *bits, size_t n, size_t at, uint32_t key,
                                   counters counts) {
    uint32_t together = 0;
    size_t next = at + 1;
    for (int d = 0; d < 4; d++) {
        key += 5;
        if (next >= n || keys[next] != key) return 0;
        uint32_t b = bits[next];
        together |= b;
        if ((b & (b - 1)) == 0) {
            if (b == 0) return 0;
            counts[d][slot_of(b)] += 4;
            next++;
        } else {
            if (n - next <= 4 || !are_pixels(keys, bits, next, key)) return 0;
            count_pixels(bits, next + 1, counts);
            next += 5;
        }
    }
    return together == bits[at] ? next : 0;
}

static size_t count_large(const checking *c, size_t at, uint32_t key, uint32_t step, uint32_t pixels, counters counts) {
    const uint32_t *keys = c->keys, *bits = c->bits;
    uint32_t together = 0;
    size_t next = at + 1, n = c->n;
#pragma GCC unroll 4
    for (int d = 0; d < 4; d++) {
        key += step;
        if (next >= n || keys[next] != key) return 0;
        uint32_t b = bits[next];
        together |= b;
        if ((b & (b - 1)) == 0) {
            if (b == 0) return 0;
            counts[d][slot_of(b)] += pixels;
            next++;
            continue;
        }
        next = step == 25 ? count_sixteen(keys, bits, n, next, key, counts)
                          : count_large(c, next, key, step / 5, pixels / 4, counts);
        if (next == 0) return 0;
    }
    return together == bits[at] ? next : 0;
}

static void add_up(counters counts, uint32_t s, uint32_t *row) {
    for (uint32_t f = 0; f < s; f++) row[f] = counts[0][f] + counts[1][f] + counts[2][f] + counts[3][f];
}

/* One row of the summary, of a block of so many pixels whose records begin at a place. */
static void count_row(const uint32_t *bits, size_t at, uint32_t pixels, uint32_t s, uint32_t *row) {
    if (one_bit(bits[at])) {
        memset(row, 0, 4 * s);
        row[slot_of(bits[at])] = pixels;
        return;
    }
    counters counts = { { 0 } };
    count_node(bits, at + 1, pixels / 4, counts);
    add_up(counts, s, row);
}

/* The key of a block of the summary by its number. */
static uint32_t summary_key(uint32_t m, uint32_t block) {
    uint32_t level = summary_level(m), key = 0;
    for (uint32_t d = 0; d < level; d++) key += ((block >> 2 * d & 3) + 1) * five[m - level + d];
    return key;
}

/* The rows of the blocks whose bits are set in a mask. */
static void count_rows(uint32_t m, uint32_t s, const uint32_t *keys, const uint32_t *bits, size_t n,
                       uint32_t *summary, uint32_t blocks) {
    uint32_t pixels = 1u << 2 * (m - summary_level(m));
    for (; blocks; blocks &= blocks - 1) {
        uint32_t block = slot_of(blocks);
        count_row(bits, plain_place(keys, n, summary_key(m, block)), pixels, s, summary + (size_t)block * s);
    }
}

static uint32_t all_blocks(uint32_t m) { return (1u << (1u << 2 * summary_level(m))) - 1; }

/* The blocks of the summary that the block of a key meets. */
static uint32_t blocks_met(uint32_t m, uint32_t key) {
    if (m < 2 || key == 0) return all_blocks(m);
    uint32_t quarter = five[m - 1], first = key / quarter - 1, second = key % quarter / five[m - 2];
    return second == 0 ? 15u << 4 * first : 1u << (4 * first + second - 1);
}

/* A block at or above the level of the summary, where so many blocks of it are, from number `first` on. */
static size_t check_top(const checking *c, size_t at, uint32_t key, uint32_t step, uint32_t first, uint32_t blocks) {
    uint32_t own = c->bits[at], together = 0;
    size_t next = at + 1;
    if ((own & (own - 1)) == 0) {
        if (own == 0 || own > all_slots(c->s)) return 0;
        for (uint32_t i = first; i < first + blocks; i++)
            c->summary[(size_t)i * c->s + slot_of(own)] = c->pixels;
        return next;
    }
    if (blocks == 1) {
        counters counts = { { 0 } };
        next = count_large(c, at, key, step / 5, c->pixels / 4, counts);
        add_up(counts, c->s, c->summary + (size_t)first * c->s);
        return next;
    }
    for (uint32_t d = 0; d < 4; d++) {
        uint32_t child = key + (d + 1) * (step / 5);
        if (next >= c->n || c->keys[next] != child) return 0;
        together |= c->bits[next];
        next = check_top(c, next, child, step / 5, first + d * (blocks / 4), blocks / 4);
        if (next == 0) return 0;
    }
    return together == own ? next : 0;
}

/* The list is checked, and its summary made, in one pass (m < 5: in two). */
static int list_and_summary(uint32_t m, uint32_t s, const uint32_t *keys, const uint32_t *bits, size_t n,
                            uint32_t *summary) {
    if (m < 5) {
        if (!plain_is_list(m, s, keys, bits, n)) return 0;
        count_rows(m, s, keys, bits, n, summary, all_blocks(m));
        return 1;
    }
    checking c = { keys, bits, n, s, 1u << 2 * (m - 2), summary };
    if (n == 0 || keys[0] != 0 || bits[0] > all_slots(s)) return 0;
    memset(summary, 0, 4 * HLQ_SUMMARY_PLACES(m, s));
    return check_top(&c, 0, 0, five[m], 0, 16) == n;
}

int plain_fill_summary(uint32_t m, uint32_t s, const uint32_t *keys, const uint32_t *bits, size_t n,
                       uint32_t *summary) {
    uint32_t made[HLQ_SUMMARY_PLACES(2, HLQ_MOST_SLOTS)];
    if (!list_and_summary(m, s, keys, bits, n, made)) return 0;
    memcpy(summary, made, 4 * HLQ_SUMMARY_PLACES(m, s));
    return 1;
}

size_t plain_survey(uint32_t m, uint32_t s, const uint8_t *raster, uint32_t *keys, uint32_t *bits, size_t room,
                    uint32_t *summary) {
    size_t n = plain_build(m, s, raster, keys, bits, room);
    if (n) count_rows(m, s, keys, bits, n, summary, all_blocks(m));
    return n;
}

int plain_is_surveyed(uint32_t m, uint32_t s, const uint32_t *keys, const uint32_t *bits, size_t n,
                      const uint32_t *summary) {
    uint32_t made[HLQ_SUMMARY_PLACES(2, HLQ_MOST_SLOTS)];
    return list_and_summary(m, s, keys, bits, n, made) && !memcmp(summary, made, 4 * HLQ_SUMMARY_PLACES(m, s));
}

/* ---- areas: a leaf counts the pixels that it shares with the window, a node inside takes its numbers from the summary
 */

typedef struct {
    const uint32_t *keys, *bits, *summary;
    size_t n;
    frame w;
    uint32_t bit, feature, s, side;
} measuring;

static uint32_t common(uint32_t a, uint32_t b, uint32_t c, uint32_t d) {
    uint32_t from = a > c ? a : c, until = b < d ? b : d;
    return until - from;
}

/* The quadrants, of so many pixels each, of a block whose own record is before place `next`. */
static size_t count_one(const uint32_t *bits, size_t next, uint32_t pixels, uint32_t bit, uint32_t *count) {
    for (int d = 0; d < 4; d++) {
        uint32_t b = bits[next++];
        if (b == bit) *count += pixels;
        else if ((b & (b - 1)) == 0) continue;
        else if (pixels > 4) next = count_one(bits, next, pixels / 4, bit, count);
        else {
            *count += (uint32_t)(bits[next] == bit) + (bits[next + 1] == bit) + (bits[next + 2] == bit) +
                      (bits[next + 3] == bit);
            next += 4;
        }
    }
    return next;
}

/* block: the number of the first block of the summary in this one. */
static uint32_t area_below(const measuring *q, const spot *b, size_t at, uint32_t block) {
    uint32_t found = q->bits[at], count = 0;
    if (!(found & q->bit)) return 0;
    if (found == q->bit)
        return common(b->row, b->row + b->side, q->w.row, q->w.bottom) *
               common(b->column, b->column + b->side, q->w.column, q->w.right);
    if (inside(&q->w, b)) {
        uint32_t blocks = b->side >= q->side ? (b->side / q->side) * (b->side / q->side) : 0;
        for (uint32_t i = 0; i < blocks; i++) count += q->summary[(size_t)(block + i) * q->s + q->feature];
        if (blocks == 0) count_one(q->bits, at + 1, b->side * b->side / 4, q->bit, &count);
        return count;
    }
    uint32_t half = b->side / 2, share = half >= q->side ? (half / q->side) * (half / q->side) : 0;
    for (uint32_t met = quadrants_met(&q->w, b); met; met &= met - 1) {
        uint32_t digit = slot_of(met);
        spot c = quadrant(b, digit);
        at = place_from(q->keys, q->n, at, c.key);
        count += area_below(q, &c, at, block + (digit - 1) * share);
    }
    return count;
}

uint32_t plain_area(uint32_t m, uint32_t s, const uint32_t *keys, const uint32_t *bits, size_t n,
                    const uint32_t *summary, uint32_t row, uint32_t column, uint32_t height, uint32_t width,
                    uint32_t feature) {
    if (!plain_is_surveyed(m, s, keys, bits, n, summary)) return 0;
    frame w = frame_of(row, column, height, width);
    measuring q = { keys, bits, summary, n, w, 1u << feature, feature, s, 1u << (m - summary_level(m)) };
    spot root = { 0, 0, 0, 1u << m, five[m] };
    return area_below(&q, &root, 0, 0);
}

/* ---- edits */

/* Whether the record before a place closes a group. */
static int closes_group(const uint32_t *log_keys, const uint32_t *log_values, size_t end) {
    return end >= 2 && log_keys[end - 1] == 0 && log_values[end - 1] == HLQ_GROUP_MARK;
}

static int plain_log_is_sound(uint32_t m, uint32_t s, const uint32_t *log_keys, const uint32_t *log_values,
                              size_t used, size_t in_force) {
    size_t left = 0, step_end = used;
    if (in_force > used) return 0;
    while (used > 0) {
        if (left == 0) step_end = used, left = 1;
        if (used == step_end && closes_group(log_keys, log_values, used)) {
            left = log_values[used - 2], used -= 2;
            if (log_keys[used] != 0 || left == 0) return 0;
        }
        if (used < 3) return 0;
        size_t count = log_values[used - 2], from = used - 2 - count;
        uint32_t key = log_keys[used - 1], step = step_of(m, key);
        if (count == 0 || count + 2 > used || log_keys[from] != key) return 0;
        if (log_keys[used - 2] != key || log_values[used - 1] >= s) return 0;
        if (log_values[from] > all_slots(s)) return 0;
        if (one_bit(log_values[from])) {
            if (count != 1) return 0;
        } else if (step == 1 ||
                   check_node(log_keys + from, log_values + from, count, 0, key, step / 5) != count)
            return 0;
        used = from, left--;
        if (used < in_force && in_force < step_end) return 0;
        if (used == in_force && left > 0) return 0;
    }
    return left == 0;
}

/* The records of a content planted in a leaf of another feature: four a level, down to the block. */
static size_t plant(uint32_t leaf, uint32_t step, uint32_t leaf_bits, uint32_t key, uint32_t content_bits,
                    uint32_t *keys, uint32_t *bits, size_t at, const uint32_t *content_keys,
                    const uint32_t *content_values, size_t count) {
    if (leaf == key) {
        memcpy(keys + at, content_keys, 4 * count), memcpy(bits + at, content_values, 4 * count);
        return at + count;
    }
    keys[at] = leaf, bits[at++] = leaf_bits | content_bits;
    step /= 5;
    for (uint32_t d = 1; d <= 4; d++) {
        uint32_t child = leaf + d * step;
        if (child <= key && key < child + step)
            at = plant(child, step, leaf_bits, key, content_bits, keys, bits, at, content_keys, content_values, count);
        else
            keys[at] = child, bits[at++] = leaf_bits;
    }
    return at;
}

static size_t put(uint32_t m, uint32_t *keys, uint32_t *bits, size_t n, uint32_t key, const uint32_t *content_keys,
                  const uint32_t *content_values, size_t count) {
    size_t at = plain_place(keys, n, key), old, new;
    uint32_t top = five[m], step = step_of(m, key), content = content_values[0], e = key;
    int planted = keys[at] != key, leaf = count == 1 && one_bit(content);
    if (planted) {
        if (leaf && bits[at] == content) return n;
        e = keys[at], old = 1, new = count;
        for (uint32_t t = step; t < step_of(m, e); t *= 5) new += 4;
        step = step_of(m, e);
    } else {
        new = count;
        while (leaf && step < top) {
            uint32_t parent = e - e % (step * 5);
            int alike = 1;
            for (uint32_t d = 1; d <= 4 && alike; d++) {
                uint32_t sibling = parent + d * step;
                alike = sibling == e || bits[plain_place(keys, n, sibling)] == content;
            }
            if (!alike) break;
            e = parent, step *= 5;
        }
        at = plain_place(keys, n, e);
        old = e + step >= top ? n - at : plain_place(keys, n, e + step - 1) + 1 - at;
    }
    uint32_t leaf_bits = bits[at];
    memmove(keys + at + new, keys + at + old, 4 * (n - at - old));
    memmove(bits + at + new, bits + at + old, 4 * (n - at - old));
    if (planted)
        plant(e, step, leaf_bits, key, content, keys, bits, at, content_keys, content_values, count);
    else if (e != key)
        keys[at] = e, bits[at] = content;
    else
        memcpy(keys + at, content_keys, 4 * count), memcpy(bits + at, content_values, 4 * count);
    size_t now = n - old + new;
    for (size_t i = now; i < n; i++) keys[i] = bits[i] = 0;
    for (; step < top; step *= 5) {
        uint32_t parent = e - e % (step * 5), together = 0;
        for (uint32_t d = 1; d <= 4; d++) together |= bits[plain_place(keys, now, parent + d * step)];
        bits[plain_place(keys, now, parent)] = together;
        e = parent;
    }
    return now;
}

/* ---- steps of several blocks */

/* A block, its new content, and the places of its old one in the list: none where it lies inside a leaf. */
typedef struct {
    uint32_t key, step;
    const uint32_t *keys, *bits;
    size_t n, from, old;
} part;

/* A list, the parts that are put into it, none in another and by key, and the new list; how far both have been read. */
typedef struct {
    const uint32_t *keys, *bits;
    size_t n, at;
    const part *parts;
    size_t count, next;
    uint32_t *out_keys, *out_bits;
} weaver;

/* The records of the block at the place reached, or those of a block inside a leaf with these bits. */
static tally copy_block(weaver *w, uint32_t leaf, uint32_t key, uint32_t step, size_t place) {
    if (leaf) {
        w->out_keys[place] = key, w->out_bits[place] = leaf;
        return (tally) { leaf, place + 1 };
    }
    size_t from = w->at, end = one_bit(w->bits[from]) ? from + 1 : place_from(w->keys, w->n, from, key + step - 1) + 1;
    memcpy(w->out_keys + place, w->keys + from, 4 * (end - from));
    memcpy(w->out_bits + place, w->bits + from, 4 * (end - from));
    w->at = end;
    return (tally) { w->bits[from], place + end - from };
}

static tally weave(weaver *w, uint32_t leaf, uint32_t key, uint32_t step, size_t place) {
    const part *p = w->parts + w->next;
    if (w->next == w->count || p->key - key >= step) return copy_block(w, leaf, key, step, place);
    if (p->key == key) {
        memcpy(w->out_keys + place, p->keys, 4 * p->n), memcpy(w->out_bits + place, p->bits, 4 * p->n);
        w->next++, w->at += p->old;
        return (tally) { p->bits[0], place + p->n };
    }
    if (!leaf) {
        leaf = w->bits[w->at++];
        if (!one_bit(leaf)) leaf = 0;
    }
    uint32_t lower = step / 5, together = 0;
    size_t next = place + 1;
    for (uint32_t d = 1; d <= 4; d++) {
        tally q = weave(w, leaf, key + d * lower, lower, next);
        together |= q.bits, next = q.count;
    }
    w->out_keys[place] = key, w->out_bits[place] = together;
    return (tally) { together, one_bit(together) ? place + 1 : next };
}

/* Where the blocks of the parts stand; gives whether none lies in another and they ascend. */
static int place_parts(const uint32_t *keys, size_t n, part *parts, size_t count) {
    size_t at = 0;
    int apart = 1;
    for (size_t i = 0; i < count; i++) {
        part *p = parts + i;
        if (i > 0 && p->key < parts[i - 1].key + parts[i - 1].step) apart = 0;
        at = apart ? place_from(keys, n, at, p->key) : 0;
        p->from = at;
        p->old = keys[at] == p->key ? place_from(keys, n, at, p->key + p->step - 1) + 1 - at : 0;
    }
    return apart;
}

/* The new list is made here, beside the old one, and copied over it where it fits. */
static uint32_t made_keys[HLQ_MOST_RECORDS(HLQ_DEEPEST_M)], made_bits[HLQ_MOST_RECORDS(HLQ_DEEPEST_M)];

/* The parts put into a list: in one pass where they are apart, else one after the other. */
static size_t make_list(uint32_t m, const uint32_t *keys, const uint32_t *bits, size_t n, const part *parts,
                        size_t count, int apart, int backwards) {
    weaver w = { keys, bits, n, 0, parts, count, 0, made_keys, made_bits };
    if (apart) return weave(&w, 0, 0, five[m], 0).count;
    memcpy(made_keys, keys, 4 * n), memcpy(made_bits, bits, 4 * n);
    for (size_t i = 0; i < count; i++) {
        const part *p = parts + (backwards ? count - 1 - i : i);
        n = put(m, made_keys, made_bits, n, p->key, p->keys, p->bits, p->n);
    }
    return n;
}

static void take_over(uint32_t *keys, uint32_t *bits, size_t n, size_t now) {
    memcpy(keys, made_keys, 4 * now), memcpy(bits, made_bits, 4 * now);
    for (size_t i = now; i < n; i++) keys[i] = bits[i] = 0;
}

/* The summary's blocks that the parts meet are counted anew. */
static void renew_parts(uint32_t m, uint32_t s, const uint32_t *keys, const uint32_t *bits, size_t n,
                        uint32_t *summary, const part *parts, size_t count) {
    uint32_t blocks = 0;
    for (size_t i = 0; i < count; i++) blocks |= blocks_met(m, parts[i].key);
    count_rows(m, s, keys, bits, n, summary, blocks);
}

/* The window's largest blocks in a block that meets it, by key; how many there are, where none are lent. */
static size_t cover(const frame *w, const spot *b, part *parts, size_t count) {
    if (inside(w, b)) {
        if (parts) parts[count].key = b->key, parts[count].step = b->step;
        return count + 1;
    }
    for (uint32_t met = quadrants_met(w, b); met; met &= met - 1) {
        spot c = quadrant(b, slot_of(met));
        count = cover(w, &c, parts, count);
    }
    return count;
}

/* The group of the parts, from place in_force on; keys and bits are those of the list before. */
static size_t log_parts(const uint32_t *keys, const uint32_t *bits, const part *parts, size_t count, uint32_t feature,
                        uint32_t *log_keys, uint32_t *log_values, size_t at) {
    for (size_t i = 0; i < count; i++) {
        const part *p = parts + i;
        size_t records = p->old ? p->old : 1;
        memcpy(log_keys + at, p->old ? keys + p->from : &p->key, 4 * records);
        memcpy(log_values + at, bits + p->from, 4 * records);
        at += records;
        log_keys[at] = log_keys[at + 1] = p->key;
        log_values[at] = (uint32_t)records, log_values[at + 1] = feature;
        at += 2;
    }
    log_keys[at] = log_keys[at + 1] = 0;
    log_values[at] = (uint32_t)count, log_values[at + 1] = HLQ_GROUP_MARK;
    return at + 2;
}

size_t plain_paint_window(uint32_t m, uint32_t s, uint32_t *keys, uint32_t *bits, size_t n, size_t room,
                          uint32_t *summary, uint32_t *log_keys, uint32_t *log_values, size_t log_room,
                          plain_counts *c, uint32_t row, uint32_t column, uint32_t height, uint32_t width,
                          uint32_t feature) {
    if (!plain_is_surveyed(m, s, keys, bits, n, summary)) return 0;
    if (!plain_log_is_sound(m, s, log_keys, log_values, c->used, c->in_force)) return 0;
    frame w = frame_of(row, column, height, width);
    spot root = { 0, 0, 0, 1u << m, five[m] };
    size_t count = cover(&w, &root, NULL, 0), end = c->in_force + 2;
    uint32_t leaf = 1u << feature;
    part *parts = malloc(count * sizeof *parts);
    if (!parts) return 0;
    cover(&w, &root, parts, 0);
    for (size_t i = 0; i < count; i++) parts[i].keys = &parts[i].key, parts[i].bits = &leaf, parts[i].n = 1;
    place_parts(keys, n, parts, count);
    for (size_t i = 0; i < count; i++) end += (parts[i].old ? parts[i].old : 1) + 2;
    size_t now = end > log_room ? 0 : make_list(m, keys, bits, n, parts, count, 1, 0);
    if (now > room) now = 0;
    if (now) {
        log_parts(keys, bits, parts, count, feature, log_keys, log_values, c->in_force);
        for (size_t i = end; i < c->used; i++) log_keys[i] = log_values[i] = 0;
        c->used = c->in_force = end;
        take_over(keys, bits, n, now);
        renew_parts(m, s, keys, bits, now, summary, parts, count);
    }
    free(parts);
    return now;
}

/* Where the step that ends at a place starts. */
static size_t step_start(const uint32_t *log_keys, const uint32_t *log_values, size_t end) {
    size_t number = 1;
    if (closes_group(log_keys, log_values, end)) number = log_values[end - 2], end -= 2;
    while (number-- > 0) end -= 2 + (size_t)log_values[end - 2];
    return end;
}

/* The group that ends at a place: the contents of its entries, or their features, go into their blocks. */
static size_t put_group(uint32_t m, uint32_t s, uint32_t *keys, uint32_t *bits, size_t n, size_t room,
                        uint32_t *summary, const uint32_t *log_keys, const uint32_t *log_values, size_t end,
                        int backwards) {
    size_t count = log_values[end - 2];
    uint32_t leaves[32];
    part *parts = malloc(count * sizeof *parts);
    if (!parts) return 0;
    for (uint32_t f = 0; f < s; f++) leaves[f] = 1u << f;
    end -= 2;
    for (size_t i = count; i > 0; i--) {
        size_t records = log_values[end - 2], from = end - 2 - records;
        uint32_t key = log_keys[end - 1];
        part p = { key, step_of(m, key), log_keys + from, log_values + from, records, 0, 0 };
        if (!backwards) p.keys = log_keys + end - 1, p.bits = leaves + log_values[end - 1], p.n = 1;
        parts[i - 1] = p, end = from;
    }
    size_t now = make_list(m, keys, bits, n, parts, count, place_parts(keys, n, parts, count), backwards);
    if (now > room) now = 0;
    if (now) {
        take_over(keys, bits, n, now);
        renew_parts(m, s, keys, bits, now, summary, parts, count);
    }
    free(parts);
    return now;
}

size_t plain_paint(uint32_t m, uint32_t s, uint32_t *keys, uint32_t *bits, size_t n, uint32_t *summary,
                   uint32_t *log_keys, uint32_t *log_values, plain_counts *c, uint32_t key, uint32_t feature) {
    if (!plain_is_surveyed(m, s, keys, bits, n, summary)) return 0;
    if (!plain_log_is_sound(m, s, log_keys, log_values, c->used, c->in_force)) return 0;
    size_t at = plain_place(keys, n, key), count = 1, from = c->in_force;
    uint32_t step = step_of(m, key), leaf = 1u << feature;
    if (keys[at] == key) {
        count = (key + step >= five[m] ? n : plain_place(keys, n, key + step - 1) + 1) - at;
        memcpy(log_keys + from, keys + at, 4 * count), memcpy(log_values + from, bits + at, 4 * count);
    } else
        log_keys[from] = key, log_values[from] = bits[at];
    log_keys[from + count] = log_keys[from + count + 1] = key;
    log_values[from + count] = (uint32_t)count, log_values[from + count + 1] = feature;
    for (size_t i = from + count + 2; i < c->used; i++) log_keys[i] = log_values[i] = 0;
    c->used = c->in_force = from + count + 2;
    n = put(m, keys, bits, n, key, &key, &leaf, 1);
    count_rows(m, s, keys, bits, n, summary, blocks_met(m, key));
    return n;
}

size_t plain_take_back(uint32_t m, uint32_t s, uint32_t *keys, uint32_t *bits, size_t n, size_t room,
                       uint32_t *summary, const uint32_t *log_keys, const uint32_t *log_values, plain_counts *c) {
    if (!plain_is_surveyed(m, s, keys, bits, n, summary)) return 0;
    if (!plain_log_is_sound(m, s, log_keys, log_values, c->used, c->in_force)) return 0;
    if (closes_group(log_keys, log_values, c->in_force)) {
        n = put_group(m, s, keys, bits, n, room, summary, log_keys, log_values, c->in_force, 1);
        c->in_force = n ? step_start(log_keys, log_values, c->in_force) : c->in_force;
        return n;
    }
    size_t count = log_values[c->in_force - 2], from = c->in_force - 2 - count;
    uint32_t key = log_keys[c->in_force - 1];
    n = put(m, keys, bits, n, key, log_keys + from, log_values + from, count);
    count_rows(m, s, keys, bits, n, summary, blocks_met(m, key));
    c->in_force = from;
    return n;
}

size_t plain_redo(uint32_t m, uint32_t s, uint32_t *keys, uint32_t *bits, size_t n, size_t room, uint32_t *summary,
                  const uint32_t *log_keys, const uint32_t *log_values, plain_counts *c) {
    if (!plain_is_surveyed(m, s, keys, bits, n, summary)) return 0;
    if (!plain_log_is_sound(m, s, log_keys, log_values, c->used, c->in_force)) return 0;
    size_t end = c->used, start;
    while ((start = step_start(log_keys, log_values, end)) > c->in_force) end = start;
    if (closes_group(log_keys, log_values, end)) {
        n = put_group(m, s, keys, bits, n, room, summary, log_keys, log_values, end, 0);
        c->in_force = n ? end : c->in_force;
        return n;
    }
    uint32_t key = log_keys[end - 1], leaf = 1u << log_values[end - 1];
    n = put(m, keys, bits, n, key, &key, &leaf, 1);
    count_rows(m, s, keys, bits, n, summary, blocks_met(m, key));
    c->in_force = end;
    return n;
}

/* ---- the table of two offices */

/* Rows ascend by office, then by id and key together. */
static int is_table(const uint32_t *offices, const uint32_t *ids, const uint32_t *waived, size_t rows) {
    size_t ones = 0;
    uint64_t last = 0;
    uint32_t last_office = 0;
    for (size_t i = 0; i < rows; i++) {
        uint64_t row = (uint64_t)ids[i] << 32 | waived[i];
        uint32_t office = offices[i];
        if (office == last_office ? i > 0 && row <= last : office != 1 || last_office == 1) return 0;
        ones += office, last_office = office, last = row;
    }
    return ones <= HLQ_OFFICE_ROWS && rows - ones <= HLQ_OFFICE_ROWS;
}

/* The place of the first row that is not before this one. */
static size_t row_place(const uint32_t *offices, const uint32_t *ids, const uint32_t *waived, size_t rows,
                        uint32_t office, uint32_t id, uint32_t key) {
    size_t low = 0, high = rows;
    uint64_t row = (uint64_t)id << 32 | key;
    while (low < high) {
        size_t middle = (low + high) / 2;
        uint64_t there = (uint64_t)ids[middle] << 32 | waived[middle];
        if (offices[middle] < office || (offices[middle] == office && there < row)) low = middle + 1;
        else high = middle;
    }
    return low;
}

static int is_row(const uint32_t *offices, const uint32_t *ids, const uint32_t *waived, size_t rows, size_t at,
                  uint32_t office, uint32_t id, uint32_t key) {
    return at < rows && offices[at] == office && ids[at] == id && waived[at] == key;
}

size_t plain_add_waiver(uint32_t m, uint32_t office, uint32_t *offices, uint32_t *ids, uint32_t *waived, size_t rows,
                        uint32_t id, uint32_t key) {
    if (!is_table(offices, ids, waived, rows) || plain_block_of(m, key).refusal) return 0;
    size_t at = row_place(offices, ids, waived, rows, office, id, key);
    if (is_row(offices, ids, waived, rows, at, office, id, key)) return 0;
    memmove(offices + at + 1, offices + at, 4 * (rows - at));
    memmove(ids + at + 1, ids + at, 4 * (rows - at));
    memmove(waived + at + 1, waived + at, 4 * (rows - at));
    offices[at] = office, ids[at] = id, waived[at] = key;
    return rows + 1;
}

size_t plain_remove_waiver(uint32_t m, uint32_t office, uint32_t *offices, uint32_t *ids, uint32_t *waived,
                           size_t rows, uint32_t id, uint32_t key) {
    if (!is_table(offices, ids, waived, rows) || plain_block_of(m, key).refusal) return 0;
    size_t at = row_place(offices, ids, waived, rows, office, id, key);
    if (!is_row(offices, ids, waived, rows, at, office, id, key)) return 0;
    memmove(offices + at, offices + at + 1, 4 * (rows - at - 1));
    memmove(ids + at, ids + at + 1, 4 * (rows - at - 1));
    memmove(waived + at, waived + at + 1, 4 * (rows - at - 1));
    offices[rows - 1] = ids[rows - 1] = waived[rows - 1] = 0;
    return rows - 1;
}

/* ---- findings, store, load */

/* The waivers of one rule, how far they are passed, and the furthest end of those. */
typedef struct {
    const uint32_t *keys;
    size_t count, at;
    uint32_t furthest;
} waiving;

static uint32_t pixels_in(uint32_t step) {
    uint32_t pixels = 1;
    for (; step > 1; step /= 5) pixels *= 4;
    return pixels;
}

/* One waiver has the block, or the areas of those in it, without the ones inside another, make up its own. */
static int is_covered(uint32_t m, waiving *w, uint32_t key) {
    uint32_t step = step_of(m, key), end = key + step, pixels = 0;
    for (; w->at < w->count && w->keys[w->at] < end; w->at++) {
        uint32_t waiver = w->keys[w->at];
        if (waiver < w->furthest) continue;
        uint32_t size = step_of(m, waiver);
        w->furthest = waiver + size;
        if (waiver > key) pixels += pixels_in(size);
        else if (w->furthest >= end) pixels = pixels_in(step);
    }
    return pixels == 0 ? w->furthest >= end : pixels == pixels_in(step);
}

/* A rule has a window of the map and a feature; ids ascend. */
static int are_rules(uint32_t m, uint32_t s, const hlq_rule *rules, size_t count) {
    uint32_t edge = 1u << m;
    for (size_t i = 0; i < count; i++) {
        const hlq_rule *r = rules + i;
        if (i > 0 && rules[i - 1].id >= r->id) return 0;
        if (r->height == 0 || r->width == 0 || r->row >= edge || r->column >= edge) return 0;
        if (r->height > edge - r->row || r->width > edge - r->column || r->feature >= s) return 0;
    }
    return 1;
}

/* A table; its keys are blocks, and the ids of the asking office are rules'. */
static int are_waivers(uint32_t m, uint32_t office, const hlq_rule *rules, size_t rules_len, const uint32_t *offices,
                       const uint32_t *ids, const uint32_t *waived, size_t rows) {
    size_t rule = 0;
    if (!is_table(offices, ids, waived, rows)) return 0;
    for (size_t i = 0; i < rows; i++) {
        if (plain_block_of(m, waived[i]).refusal) return 0;
        if (offices[i] != office) continue;
        while (rule < rules_len && rules[rule].id < ids[i]) rule++;
        if (rule == rules_len || rules[rule].id != ids[i]) return 0;
    }
    return 1;
}

/* The room is taken to be enough: the live findings are written in the one run that finds them. */
size_t plain_findings(uint32_t m, uint32_t s, const uint32_t *keys, const uint32_t *bits, size_t n, uint32_t office,
                      const hlq_rule *rules, size_t rules_len, const uint32_t *offices, const uint32_t *ids,
                      const uint32_t *waived, size_t rows, uint32_t *found_ids, uint32_t *found_keys,
                      size_t *hidden) {
    if (!plain_is_list(m, s, keys, bits, n) || !are_rules(m, s, rules, rules_len)) return 0;
    if (!are_waivers(m, office, rules, rules_len, offices, ids, waived, rows)) return 0;
    size_t live = 0, end = 0;
    spot root = { 0, 0, 0, 1u << m, five[m] };
    *hidden = 0;
    while (end < rows && offices[end] != office) end++;
    for (size_t i = 0; i < rules_len; i++) {
        const hlq_rule *r = rules + i;
        waiving own = { waived + end, 0, 0, 0 };
        for (; end < rows && offices[end] == office && ids[end] == r->id; end++) own.count++;
        frame w = frame_of(r->row, r->column, r->height, r->width);
        question q = { keys, bits, n, w, 1u << r->feature, found_keys + live, SIZE_MAX, 0 };
        select_below(&q, &root, 0);
        size_t kept = own.count == 0 ? q.count : 0;
        if (own.count > 0)
            for (size_t j = 0; j < q.count; j++)
                if (!is_covered(m, &own, q.answer[j])) q.answer[kept++] = q.answer[j];
        for (size_t j = 0; j < kept; j++) found_ids[live + j] = r->id;
        live += kept, *hidden += q.count - kept;
    }
    return live;
}

static void put_four(uint8_t *at, uint32_t x) {
    at[0] = (uint8_t)(x >> 24), at[1] = (uint8_t)(x >> 16), at[2] = (uint8_t)(x >> 8), at[3] = (uint8_t)x;
}

static uint32_t four_at(const uint8_t *at) {
    return (uint32_t)at[0] << 24 | (uint32_t)at[1] << 16 | (uint32_t)at[2] << 8 | at[3];
}

size_t plain_store(uint32_t m, uint32_t s, const uint32_t *keys, const uint32_t *bits, size_t n, uint8_t *file) {
    uint8_t version = s > 16 ? 2 : 1, head[11] = { 'H', 'L', 'Q', 0, version, (uint8_t)m, (uint8_t)s };
    put_four(head + 7, (uint32_t)n);
    memcpy(file, head, 11);
    if (version == 2)
        for (size_t i = 0; i < n; i++) put_four(file + 11 + 8 * i, keys[i]), put_four(file + 15 + 8 * i, bits[i]);
    else
        for (size_t i = 0; i < n; i++) {
            uint8_t *at = file + 11 + 6 * i;
            put_four(at, keys[i]);
            at[4] = (uint8_t)(bits[i] >> 8), at[5] = (uint8_t)bits[i];
        }
    return 11 + (s > 16 ? 8 : 6) * n;
}

size_t plain_load(const uint8_t *file, uint32_t *keys, uint32_t *bits) {
    size_t n = four_at(file + 7);
    if (file[4] == 2)
        for (size_t i = 0; i < n; i++) keys[i] = four_at(file + 11 + 8 * i), bits[i] = four_at(file + 15 + 8 * i);
    else
        for (size_t i = 0; i < n; i++) {
            const uint8_t *at = file + 11 + 6 * i;
            keys[i] = four_at(at), bits[i] = (uint32_t)at[4] << 8 | at[5];
        }
    return plain_is_list(file[5], file[6], keys, bits, n) ? n : 0;
}

/* Both check the log; loading does so in the slices, once all is read. */
size_t plain_store_log(uint32_t m, uint32_t s, const uint32_t *log_keys, const uint32_t *log_values, size_t used,
                       size_t in_force, uint8_t *file) {
    uint8_t head[23] = { 'H', 'L', 'G', 0, 1, (uint8_t)m, (uint8_t)s };
    if (!plain_log_is_sound(m, s, log_keys, log_values, used, in_force)) return 0;
    put_four(head + 7, (uint32_t)((uint64_t)used >> 32)), put_four(head + 11, (uint32_t)used);
    put_four(head + 15, (uint32_t)((uint64_t)in_force >> 32)), put_four(head + 19, (uint32_t)in_force);
    memcpy(file, head, 23);
    for (size_t i = 0; i < used; i++)
        put_four(file + 23 + 8 * i, log_keys[i]), put_four(file + 27 + 8 * i, log_values[i]);
    return 23 + 8 * used;
}

size_t plain_load_log(const uint8_t *file, uint32_t *log_keys, uint32_t *log_values) {
    size_t used = (size_t)four_at(file + 7) << 32 | four_at(file + 11);
    size_t in_force = (size_t)four_at(file + 15) << 32 | four_at(file + 19);
    for (size_t i = 0; i < used; i++)
        log_keys[i] = four_at(file + 23 + 8 * i), log_values[i] = four_at(file + 27 + 8 * i);
    return plain_log_is_sound(file[5], file[6], log_keys, log_values, used, in_force) ? used : 0;
}

/* ---- leaf lists: a pass that checks and counts, and one that writes, each by the blocks that the leaves must be; four
 * pixels without a call */

typedef struct {
    const uint32_t *keys, *features;
    size_t leaves, at;
    uint32_t *list_keys, *list_bits;
} reading;

/* The slots of the four leaves from the place reached on. */
static inline uint32_t next_four(const reading *r) {
    const uint32_t *f = r->features + r->at;
    return 1u << f[0] | 1u << f[1] | 1u << f[2] | 1u << f[3];
}

static tally pass_leaves(reading *r, uint32_t key, uint32_t step) {
    const uint32_t *k = r->keys + r->at;
    if (r->at >= r->leaves) return r->at = SIZE_MAX, (tally) { 0, 0 };
    if (*k == key) return (tally) { 1u << r->features[r->at++], 1 };
    tally whole = { 0, 1 };
    if (step > 1)
        for (uint32_t d = 1; d <= 4; d++) {
            tally part = pass_leaves(r, key + d * step, step / 5);
            whole.bits |= part.bits, whole.count += part.count;
        }
    else {
        if (step == 0 || r->leaves - r->at < 4) return r->at = SIZE_MAX, whole;
        if (k[0] != key + 1 || k[1] != key + 2 || k[2] != key + 3 || k[3] != key + 4) return r->at = SIZE_MAX, whole;
        whole = (tally) { next_four(r), 5 };
        r->at += 4;
    }
    if (one_bit(whole.bits)) whole.count = 1;
    return whole;
}

static tally lay_leaves(reading *r, uint32_t key, uint32_t step, size_t place) {
    if (r->keys[r->at] == key) return (tally) { 1u << r->features[r->at++], place + 1 };
    uint32_t own[4], together = 0;
    size_t places[4], next = place + 1;
    if (step == 1) {
        const uint32_t *f = r->features + r->at;
        together = next_four(r), r->at += 4;
        if (one_bit(together)) return (tally) { together, next };
        for (uint32_t d = 0; d < 4; d++) r->list_keys[next + d] = key + 1 + d, r->list_bits[next + d] = 1u << f[d];
        return (tally) { together, next + 4 };
    }
    for (uint32_t d = 0; d < 4; d++) {
        tally part = lay_leaves(r, key + (d + 1) * step, step / 5, next);
        own[d] = part.bits, places[d] = next, next = part.count;
        together |= part.bits;
    }
    if (one_bit(together)) return (tally) { together, place + 1 };
    for (uint32_t d = 0; d < 4; d++) r->list_keys[places[d]] = key + (d + 1) * step, r->list_bits[places[d]] = own[d];
    return (tally) { together, next };
}

size_t plain_read_leaves(uint32_t m, uint32_t s, const uint32_t *leaf_keys, const uint32_t *leaf_features,
                         size_t leaves, uint32_t *keys, uint32_t *bits, size_t room) {
    uint32_t step = m ? five[m - 1] : 0;
    int bad = 0;
    for (size_t i = 0; i < leaves; i++) bad |= leaf_features[i] >= s;
    reading r = { leaf_keys, leaf_features, leaves, 0, keys, bits };
    if (bad || pass_leaves(&r, 0, step).count > room || r.at != leaves) return 0;
    r.at = 0;
    tally root = lay_leaves(&r, 0, step, 0);
    keys[0] = 0, bits[0] = root.bits;
    return root.count;
}

size_t plain_write_leaves(const uint32_t *keys, const uint32_t *bits, size_t n, uint32_t *leaf_keys,
                          uint32_t *leaf_features) {
    size_t at = 0;
    for (size_t i = 0; i < n; i++)
        if (one_bit(bits[i])) leaf_keys[at] = keys[i], leaf_features[at++] = slot_of(bits[i]);
    return at;
}

/* ---- bit strings */

/* Both strings in one pass, each bit pushed into a byte that is stored when it is full. */
size_t plain_write_bits(const uint32_t *bits, size_t n, uint8_t *nodes, uint8_t *leaves) {
    uint32_t node = 0, leaf = 0;
    size_t count = 0;
    for (size_t i = 0; i < n; i++) {
        uint32_t is_leaf = bits[i] != 3;
        node = node << 1 | is_leaf;
        if (i % 8 == 7) nodes[i / 8] = (uint8_t)node;
        if (!is_leaf) continue;
        leaf = leaf << 1 | bits[i] >> 1;
        if (count % 8 == 7) leaves[count / 8] = (uint8_t)leaf;
        count++;
    }
    if (n % 8) nodes[n / 8] = (uint8_t)(node << (8 - n % 8));
    if (count % 8) leaves[count / 8] = (uint8_t)(leaf << (8 - count % 8));
    return count;
}

/* A pair that is read; how far. */
typedef struct {
    const uint8_t *nodes, *leaves;
    size_t nodes_len, leaves_len, i, j;
} strings;

static inline uint32_t bit_at(const uint8_t *bytes, size_t i) { return bytes[i / 8] >> (7 - i % 8) & 1; }

/* Passes over a block: 1 or 2 for a leaf of feature 0 or 1, 3 for a node, and 0 where it is wrong. */
static uint32_t pass_bits(strings *s, uint32_t step) {
    if (s->i / 8 >= s->nodes_len) return 0;
    if (bit_at(s->nodes, s->i++)) return s->j / 8 < s->leaves_len ? 1 + bit_at(s->leaves, s->j++) : 0;
    if (step == 1) return 0;
    uint32_t a = pass_bits(s, step / 5), b = a ? pass_bits(s, step / 5) : 0, c = b ? pass_bits(s, step / 5) : 0;
    uint32_t d = c ? pass_bits(s, step / 5) : 0;
    return d == 0 || (a != 3 && a == b && a == c && a == d) ? 0 : 3;
}

/* Writes a block that is right. */
static void lay_bits(strings *s, uint32_t key, uint32_t step, uint32_t *keys, uint32_t *bits) {
    size_t at = s->i++;
    keys[at] = key;
    if (bit_at(s->nodes, at)) {
        bits[at] = 1 + bit_at(s->leaves, s->j++);
        return;
    }
    bits[at] = 3;
    for (uint32_t d = 1; d <= 4; d++) lay_bits(s, key + d * (step / 5), step / 5, keys, bits);
}

static int is_spare(const uint8_t *bytes, size_t len, size_t at) {
    return len == (at + 7) / 8 && (at % 8 == 0 || (uint8_t)(bytes[at / 8] << at % 8) == 0);
}

/* A pass that checks, and one that writes: what is refused leaves nothing behind. */
size_t plain_read_bits(uint32_t m, const uint8_t *nodes, size_t nodes_len, const uint8_t *leaves, size_t leaves_len,
                       uint32_t *keys, uint32_t *bits, size_t room) {
    strings s = { nodes, leaves, nodes_len, leaves_len, 0, 0 };
    if (!pass_bits(&s, five[m]) || s.i > room) return 0;
    if (!is_spare(nodes, nodes_len, s.i) || !is_spare(leaves, leaves_len, s.j)) return 0;
    s.i = s.j = 0;
    lay_bits(&s, 0, five[m], keys, bits);
    return s.i;
}
