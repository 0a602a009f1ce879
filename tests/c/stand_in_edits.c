/* The edits of the stand-in: a list is read into a tree with pointers, steps put trees into that tree, and the list is
 * written again. Nothing here is the reference's, which paints rasters: so with the stand-in, too, the tests of edits
 * compare two implementations. */
#include "prowcurl.h"

#include <stdlib.h>
#include <string.h>

#define TAKE_SHEET \
    uint32_t m, uint32_t s, uint32_t *keys, size_t keys_len, uint32_t *bits, size_t bits_len, size_t n, \
        uint32_t *summary, size_t summary_len, uint32_t *log_keys, size_t log_keys_len, uint32_t *log_values, \
        size_t log_values_len, size_t used, size_t in_force
#define SHEET \
    (sheet) { m, s, keys, bits, n, shorter(keys_len, bits_len), summary, summary_len, log_keys, log_values, used, \
              in_force, shorter(log_keys_len, log_values_len), NULL, NULL, 0 }

/* A block: a leaf has one bit and no quadrants, any other four of them. */
typedef struct node {
    uint32_t bits;
    struct node *quadrant[4];
} node;

/* An entry of the log, with its content as a tree; step_end is where the step that it belongs to ends, and an entry
 * that opens a step is its first. */
typedef struct {
    uint32_t key, feature;
    size_t start, step_end;
    int opens;
    node *content;
} entry;

/* What an edit is lent, and what it reads from that: the tree of the list, and the log's entries from the last on. */
typedef struct {
    uint32_t m, s, *keys, *bits;
    size_t n, room;
    uint32_t *summary;
    size_t summary_len;
    uint32_t *log_keys, *log_values;
    size_t used, in_force, log_room;
    node *tree;
    entry *entries;
    size_t count;
} sheet;

static size_t shorter(size_t a, size_t b) { return a < b ? a : b; }

static void *memory(size_t bytes) {
    void *found = calloc(1, bytes ? bytes : 1);
    if (!found) abort();
    return found;
}

static uint32_t five_to(uint32_t m) { return m == 0 ? 1 : 5 * five_to(m - 1); }

static int one_slot(uint32_t bits) { return bits != 0 && (bits & (bits - 1)) == 0; }

static node *leaf(uint32_t bits) {
    node *t = memory(sizeof *t);
    t->bits = bits;
    return t;
}

static void free_tree(node *t) {
    if (!t) return;
    for (int q = 0; q < 4; q++) free_tree(t->quadrant[q]);
    free(t);
}

/* How many keys the block of a key takes up, itself and all below; 0 where it is no key. */
static uint32_t span_of(uint32_t m, uint32_t key) {
    uint32_t at = 0, span = five_to(m);
    while (at != key) {
        uint32_t lower = span / 5, digit = lower ? (key - at) / lower : 0;
        if (digit < 1 || digit > 4) return 0;
        at += digit * lower, span = lower;
    }
    return span;
}

typedef struct {
    const uint32_t *keys, *bits;
    size_t n, at;
    uint32_t s;
} reader;

/* The tree of a block whose records come next, or null where they are no block's. */
static node *read_tree(reader *r, uint32_t key, uint32_t span) {
    if (r->at >= r->n || r->keys[r->at] != key) return NULL;
    uint32_t bits = r->bits[r->at++], together = 0;
    if (bits == 0 || (r->s < 32 && bits >> r->s)) return NULL;
    node *t = leaf(bits);
    if (one_slot(bits)) return t;
    for (uint32_t q = 0, lower = span / 5; lower > 0 && q < 4; q++) {
        t->quadrant[q] = read_tree(r, key + (q + 1) * lower, lower);
        if (!t->quadrant[q]) break;
        together |= t->quadrant[q]->bits;
    }
    if (t->quadrant[3] && together == bits) return t;
    free_tree(t);
    return NULL;
}

static node *tree_of(uint32_t s, const uint32_t *keys, const uint32_t *bits, size_t n, uint32_t key, uint32_t span) {
    reader r = { keys, bits, n, 0, s };
    node *t = read_tree(&r, key, span);
    if (!t || r.at == n) return t;
    free_tree(t);
    return NULL;
}

/* The records of a block, from a place on; gives the place after them. Where keys is null they are counted. */
static size_t write_tree(const node *t, uint32_t key, uint32_t span, uint32_t *keys, uint32_t *bits, size_t at) {
    if (keys) keys[at] = key, bits[at] = t->bits;
    at++;
    for (uint32_t q = 0; t->quadrant[0] && q < 4; q++)
        at = write_tree(t->quadrant[q], key + (q + 1) * (span / 5), span / 5, keys, bits, at);
    return at;
}

/* The block of the key in the tree of a block around it, or the leaf that holds it. */
static const node *find(const node *t, uint32_t at, uint32_t span, uint32_t key) {
    if (at == key || !t->quadrant[0]) return t;
    uint32_t lower = span / 5, q = (key - at) / lower - 1;
    return find(t->quadrant[q], at + (q + 1) * lower, lower, key);
}

/* The block of the key gets the content. Leaves around it are split, and four equal ones merged. */
static node *put(node *t, uint32_t at, uint32_t span, uint32_t key, node *content) {
    if (at == key) {
        free_tree(t);
        return content;
    }
    uint32_t lower = span / 5, own = (key - at) / lower - 1;
    for (int q = 0; q < 4; q++)
        if (!t->quadrant[q]) t->quadrant[q] = leaf(t->bits);
    t->quadrant[own] = put(t->quadrant[own], at + (own + 1) * lower, lower, key, content);
    t->bits = 0;
    for (int q = 0; q < 4; q++) t->bits |= t->quadrant[q]->bits;
    for (int q = 0; one_slot(t->bits) && q < 4; q++) free_tree(t->quadrant[q]), t->quadrant[q] = NULL;
    return t;
}

static void add_pixels(const node *t, uint32_t pixels, uint32_t *counts) {
    for (int q = 0; t->quadrant[0] && q < 4; q++) add_pixels(t->quadrant[q], pixels / 4, counts);
    for (uint32_t f = 0; !t->quadrant[0] && f < 32; f++)
        if (t->bits >> f & 1) counts[f] += pixels;
}

/* The counts of the blocks so many levels down, from a place on; gives the place after them. */
static uint32_t *sum_up(const node *t, uint32_t levels, uint32_t pixels, uint32_t s, uint32_t *out) {
    for (int q = 0; levels > 0 && q < 4; q++)
        out = sum_up(t->quadrant[0] ? t->quadrant[q] : t, levels - 1, pixels / 4, s, out);
    if (levels > 0) return out;
    memset(out, 0, s * sizeof *out);
    add_pixels(t, pixels, out);
    return out + s;
}

static size_t summary_of(const sheet *a, uint32_t *out) {
    return (size_t)(sum_up(a->tree, a->m < 2 ? a->m : 2, 1u << 2 * a->m, a->s, out) - out);
}

static int summary_is_right(const sheet *a) {
    uint32_t counts[16 * 32];
    size_t places = summary_of(a, counts);
    return places == a->summary_len && memcmp(counts, a->summary, places * sizeof *counts) == 0;
}

/* The single entry that ends at a place; gives 0 where there is none. */
static int read_entry(const sheet *a, size_t end, entry *e) {
    if (end < 3) return 0;
    const uint32_t *keys = a->log_keys, *values = a->log_values;
    uint32_t key = keys[end - 1], span = span_of(a->m, key), n = values[end - 2];
    if (span == 0 || keys[end - 2] != key || values[end - 1] >= a->s || n > end - 2) return 0;
    e->key = key, e->feature = values[end - 1], e->start = end - 2 - n;
    e->content = tree_of(a->s, keys + e->start, values + e->start, n, key, span);
    return e->content != NULL;
}

/* All entries from the end on, with a count of those that the group at hand still wants. */
static int read_entries(sheet *a) {
    size_t at = a->used, wanted = 0, step_end = 0;
    if (a->used > a->log_room) return 0;
    a->entries = memory((a->used / 3 + 1) * sizeof *a->entries);
    while (at > 0) {
        if (at >= 2 && a->log_keys[at - 1] == 0 && a->log_values[at - 1] == HLQ_GROUP_MARK) {
            if (wanted > 0 || a->log_keys[at - 2] != 0 || a->log_values[at - 2] == 0) return 0;
            wanted = a->log_values[at - 2], step_end = at, at -= 2;
            continue;
        }
        if (wanted == 0) wanted = 1, step_end = at;
        entry *e = &a->entries[a->count];
        if (!read_entry(a, at, e)) return 0;
        wanted--, a->count++;
        e->step_end = step_end, e->opens = wanted == 0, at = e->start;
    }
    return wanted == 0;
}

static int log_is_right(sheet *a) {
    int met = a->in_force == 0;
    if (!read_entries(a)) return 0;
    for (size_t i = 0; i < a->count; i++) met |= a->entries[i].step_end == a->in_force;
    return met;
}

/* 1, 4, 18, 5, or 0. */
static uint64_t read_sheet(sheet *a) {
    if (a->m > HLQ_DEEPEST_M || a->s == 0 || a->s > HLQ_MOST_SLOTS) return HLQ_SETTINGS;
    if (a->n <= a->room) a->tree = tree_of(a->s, a->keys, a->bits, a->n, 0, five_to(a->m));
    if (!a->tree) return HLQ_LIST;
    if (!summary_is_right(a)) return HLQ_SUMMARY;
    return log_is_right(a) ? 0 : HLQ_LOG;
}

static void put_in(sheet *a, uint32_t key, node *content) { a->tree = put(a->tree, 0, five_to(a->m), key, content); }

static size_t records_of(const sheet *a) { return write_tree(a->tree, 0, 0, NULL, NULL, 0); }

/* The tree as it is now goes into list and summary. */
static void write_sheet(sheet *a) {
    size_t now = write_tree(a->tree, 0, five_to(a->m), a->keys, a->bits, 0);
    for (size_t i = now; i < a->n; i++) a->keys[i] = a->bits[i] = 0;
    a->n = now;
    summary_of(a, a->summary);
}

static hlq_edited answer(sheet *a, uint64_t refusal) {
    free_tree(a->tree);
    for (size_t i = 0; i < a->count; i++) free_tree(a->entries[i].content);
    free(a->entries);
    return refusal ? (hlq_edited){ refusal, 0, 0, 0 } : (hlq_edited){ 0, a->n, a->used, a->in_force };
}

/* The entries of the blocks, in their order, from place in_force on; where the log is null they are counted. */
static size_t write_entries(const sheet *a, const node *before, const uint32_t *blocks, size_t count, uint32_t feature,
                            uint32_t *log_keys, uint32_t *log_values) {
    size_t at = a->in_force;
    for (size_t i = 0; i < count; i++) {
        size_t from = at;
        at = write_tree(find(before, 0, five_to(a->m), blocks[i]), blocks[i], span_of(a->m, blocks[i]), log_keys,
                        log_values, at);
        if (log_keys) log_keys[at] = log_keys[at + 1] = blocks[i];
        if (log_keys) log_values[at] = (uint32_t)(at - from), log_values[at + 1] = feature;
        at += 2;
    }
    return at;
}

/* A paint of blocks, as a group or not, once everything but the room is known to be right. */
static uint64_t paint_blocks(sheet *a, const uint32_t *blocks, size_t count, int group, uint32_t feature) {
    size_t end = write_entries(a, a->tree, blocks, count, feature, NULL, NULL) + (group ? 2 : 0);
    if (end > a->log_room) return HLQ_LOG_ROOM;
    node *before = tree_of(a->s, a->keys, a->bits, a->n, 0, five_to(a->m));
    for (size_t i = 0; i < count; i++) put_in(a, blocks[i], leaf(1u << feature));
    uint64_t refusal = records_of(a) > a->room ? HLQ_LIST_ROOM : 0;
    if (!refusal) {
        write_sheet(a);
        write_entries(a, before, blocks, count, feature, a->log_keys, a->log_values);
        if (group) a->log_keys[end - 2] = a->log_keys[end - 1] = 0;
        if (group) a->log_values[end - 2] = (uint32_t)count, a->log_values[end - 1] = HLQ_GROUP_MARK;
        for (size_t i = end; i < a->used; i++) a->log_keys[i] = a->log_values[i] = 0;
        a->used = a->in_force = end;
    }
    free_tree(before);
    return refusal;
}

hlq_edited hlq_paint(TAKE_SHEET, uint32_t key, uint32_t feature) {
    sheet a = SHEET;
    uint64_t refusal = read_sheet(&a);
    if (!refusal && span_of(m, key) == 0) refusal = HLQ_KEY;
    if (!refusal && feature >= s) refusal = HLQ_FEATURE;
    if (!refusal) refusal = paint_blocks(&a, &key, 1, 0, feature);
    return answer(&a, refusal);
}

/* The largest blocks of rows top to bottom - 1 and columns left to right - 1 in a block, behind those found so far. */
typedef struct {
    uint64_t top, bottom, left, right;
    uint32_t *found;
    size_t count;
} cover;

static void cover_block(cover *c, uint32_t key, uint32_t span, uint64_t row, uint64_t column, uint64_t side) {
    if (row >= c->bottom || row + side <= c->top || column >= c->right || column + side <= c->left) return;
    if (c->top <= row && row + side <= c->bottom && c->left <= column && column + side <= c->right) {
        c->found[c->count++] = key;
        return;
    }
    for (uint32_t q = 0; q < 4; q++)
        cover_block(c, key + (q + 1) * (span / 5), span / 5, row + q / 2 * (side / 2), column + q % 2 * (side / 2),
                    side / 2);
}

hlq_edited hlq_paint_window(TAKE_SHEET, uint32_t row, uint32_t column, uint32_t height, uint32_t width,
                            uint32_t feature) {
    sheet a = SHEET;
    uint64_t refusal = read_sheet(&a), edge = refusal ? 0 : (uint64_t)1 << m;
    cover c = { row, (uint64_t)row + height, column, (uint64_t)column + width, NULL, 0 };
    if (!refusal && (height == 0 || width == 0 || c.bottom > edge || c.right > edge)) refusal = HLQ_WINDOW;
    if (!refusal && feature >= s) refusal = HLQ_FEATURE;
    if (!refusal) {
        c.found = memory((size_t)height * width * sizeof *c.found);
        cover_block(&c, 0, five_to(m), 0, 0, edge);
        refusal = paint_blocks(&a, c.found, c.count, 1, feature);
        free(c.found);
    }
    return answer(&a, refusal);
}

/* List and summary of the tree as it is now, and the new count in force; 9 where it does not fit. */
static hlq_edited stepped(sheet *a, size_t in_force) {
    if (records_of(a) > a->room) return answer(a, HLQ_LIST_ROOM);
    write_sheet(a);
    a->in_force = in_force;
    return answer(a, 0);
}

hlq_edited hlq_take_back(TAKE_SHEET) {
    sheet a = SHEET;
    uint64_t refusal = read_sheet(&a);
    if (!refusal && in_force == 0) refusal = HLQ_LOG_EMPTY;
    if (refusal) return answer(&a, refusal);
    size_t first = 0;
    for (size_t i = 0; i < a.count; i++) {
        entry *e = &a.entries[i];
        if (e->step_end != in_force) continue;
        put_in(&a, e->key, e->content);
        e->content = NULL, first = e->start;
    }
    return stepped(&a, first);
}

hlq_edited hlq_redo(TAKE_SHEET) {
    sheet a = SHEET;
    uint64_t refusal = read_sheet(&a);
    if (!refusal && in_force == used) refusal = HLQ_NO_REDO;
    if (refusal) return answer(&a, refusal);
    size_t end = 0;
    for (size_t i = 0; i < a.count; i++)
        if (a.entries[i].opens && a.entries[i].start == in_force) end = a.entries[i].step_end;
    for (size_t i = a.count; i > 0; i--)
        if (a.entries[i - 1].step_end == end) put_in(&a, a.entries[i - 1].key, leaf(1u << a.entries[i - 1].feature));
    return stepped(&a, end);
}
