/* Patches out of blocks. Two blocks of a group, which is a rule and a state, hang together where an edge of the one
 * lies on an edge of the other. Edges are sorted along their lines, so one walk over both kinds of edge finds every
 * such pair; a pair joins two sets, and what is joined in the end is a patch. */
#include "findings.h"

#include <stdlib.h>

/* A side of a block: it lies on a line and reaches from one place to another. */
typedef struct {
    uint32_t group, line, from, to;
    size_t block;
} edge;

static int by_number(uint64_t a, uint64_t b) { return a < b ? -1 : a > b; }

static int by_place(const void *a, const void *b) {
    const edge *x = a, *y = b;
    int order = by_number(x->group, y->group);
    if (!order) order = by_number(x->line, y->line);
    return order ? order : by_number(x->from, y->from);
}

/* The set of a block is named by one of its blocks. Paths are halved on the way, and of two names the smaller one
 * stays, which is the patch's first block in the order of the findings. */
static size_t name_of(size_t *sets, size_t block) {
    while (sets[block] != block) block = sets[block] = sets[sets[block]];
    return block;
}

static void join(size_t *sets, size_t a, size_t b) {
    a = name_of(sets, a), b = name_of(sets, b);
    if (a < b) sets[b] = a;
    else sets[a] = b;
}

/* Edges of one kind do not overlap on their line, since blocks do not: the one that ends first meets nothing more. */
static void join_along(size_t *sets, const edge *ends, const edge *begins, size_t count) {
    for (size_t i = 0, j = 0; i < count && j < count;) {
        const edge *x = &ends[i], *y = &begins[j];
        int order = by_number(x->group, y->group);
        if (!order) order = by_number(x->line, y->line);
        if (!order && x->from < y->to && y->from < x->to) join(sets, x->block, y->block);
        if (order < 0 || (!order && x->to <= y->to)) i++;
        else j++;
    }
}

/* Upright edges join blocks in a row, level ones blocks in a column. */
static void join_blocks(const findings *f, size_t *sets, int upright) {
    edge *ends = room_for(f->count, sizeof *ends), *begins = room_for(f->count, sizeof *begins);
    for (size_t i = 0; i < f->count; i++) {
        const finding *x = &f->at[i];
        uint32_t line = upright ? x->q.column : x->q.row, from = upright ? x->q.row : x->q.column;
        uint32_t group = 2 * x->rule + (uint32_t)x->live;
        begins[i] = (edge){ group, line, from, from + x->q.side, i };
        ends[i] = (edge){ group, line + x->q.side, from, from + x->q.side, i };
    }
    qsort(ends, f->count, sizeof *ends, by_place);
    qsort(begins, f->count, sizeof *begins, by_place);
    join_along(sets, ends, begins, f->count);
    free(ends);
    free(begins);
}

static void grow(patch *p, const finding *x) {
    uint32_t bottom = x->q.row + x->q.side, right = x->q.column + x->q.side;
    if (p->blocks == 0)
        *p = (patch){ .rule = x->rule, .live = x->live, .row = x->q.row, .column = x->q.column, .top = x->q.row,
                      .left = x->q.column, .bottom = bottom, .right = right };
    if (x->q.row < p->row || (x->q.row == p->row && x->q.column < p->column))
        p->row = x->q.row, p->column = x->q.column;
    if (x->q.row < p->top) p->top = x->q.row;
    if (x->q.column < p->left) p->left = x->q.column;
    if (bottom > p->bottom) p->bottom = bottom;
    if (right > p->right) p->right = right;
    p->pixels += (uint64_t)x->q.side * x->q.side;
    p->blocks++;
}

/* A patch while the patches are put into their order: where it was. */
typedef struct {
    patch p;
    size_t was;
} moved;

static int by_first_pixel(const void *a, const void *b) {
    const patch *x = &((const moved *)a)->p, *y = &((const moved *)b)->p;
    int order = by_number(x->rule, y->rule);
    if (!order) order = by_number(x->row, y->row);
    return order ? order : by_number(x->column, y->column);
}

static void sort_patches(findings *f) {
    moved *order = room_for(f->patch_count, sizeof *order);
    size_t *now = room_for(f->patch_count, sizeof *now);
    for (size_t i = 0; i < f->patch_count; i++) order[i] = (moved){ f->patches[i], i };
    qsort(order, f->patch_count, sizeof *order, by_first_pixel);
    for (size_t i = 0; i < f->patch_count; i++) f->patches[i] = order[i].p, now[order[i].was] = i;
    for (size_t i = 0; i < f->count; i++) f->at[i].patch = now[f->at[i].patch];
    free(order);
    free(now);
}

/* The block that names a set comes before the others, so its patch is there when they come. */
void find_patches(findings *f) {
    size_t *sets = room_for(f->count, sizeof *sets);
    for (size_t i = 0; i < f->count; i++) sets[i] = i;
    join_blocks(f, sets, 0);
    join_blocks(f, sets, 1);
    f->patches = room_for(f->count, sizeof *f->patches);
    for (size_t i = 0; i < f->count; i++) {
        size_t name = name_of(sets, i);
        f->at[i].patch = name == i ? f->patch_count++ : f->at[name].patch;
        grow(&f->patches[f->at[i].patch], &f->at[i]);
    }
    free(sets);
    sort_patches(f);
}
