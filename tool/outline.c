/* Outlines of patches from the corners of their blocks. A point where one block or three have a corner is a corner of
 * the patch. Where two that touch by their corners alone meet, the outline passes the point twice, and turns so that
 * the ground between them, not the patch, is cut there: the patch hangs together elsewhere, so each ring stays
 * simple. The corners on a row belong together by twos, those on a column too. */
#include "outline.h"

#include <stdlib.h>

enum { NORTH_WEST = 1, NORTH_EAST = 2, SOUTH_WEST = 4, SOUTH_EAST = 8 };

/* A corner of a block, then of a patch. `quarters` are the quarters around the point that blocks with a corner there
 * fill. Where a patch has two corners at a point, the orders say which comes first along the row and the column. */
typedef struct {
    size_t patch;
    uint32_t row, column;
    uint8_t quarters, order_in_row, order_in_column, taken;
    size_t across, along; /* its partners on the row and on the column */
} point;

static int by_number(uint64_t a, uint64_t b) { return a < b ? -1 : a > b; }

static int in_reading_order(const void *a, const void *b) {
    const point *x = a, *y = b;
    int order = by_number(x->patch, y->patch);
    if (!order) order = by_number(x->row, y->row);
    if (!order) order = by_number(x->column, y->column);
    return order ? order : by_number(x->order_in_row, y->order_in_row);
}

static point *corners_of_blocks(const findings *f, size_t *count) {
    point *p = room_for(4 * f->count, sizeof *p);
    for (size_t i = 0; i < f->count; i++) {
        square q = f->at[i].q;
        for (uint32_t k = 0; k < 4; k++) {
            uint32_t south = k >> 1, east = k & 1;
            /* the block lies on the other side of its corner */
            p[4 * i + k] = (point){ .patch = f->at[i].patch, .row = q.row + south * q.side,
                                    .column = q.column + east * q.side, .quarters = (uint8_t)(SOUTH_EAST >> k) };
        }
    }
    *count = 4 * f->count;
    qsort(p, *count, sizeof *p, in_reading_order);
    return p;
}

/* One point for those that blocks share, none where the outline goes straight on, two where it passes twice. */
static size_t keep_corners(point *p, size_t count) {
    size_t kept = 0;
    for (size_t i = 0, next; i < count; i = next) {
        point at = p[i];
        for (next = i + 1; next < count && p[next].patch == at.patch && p[next].row == at.row &&
                           p[next].column == at.column; next++)
            at.quarters |= p[next].quarters;
        int corners = (int)(next - i), crossed = at.quarters == (NORTH_WEST | SOUTH_EAST);
        if (corners == 1 || corners == 3) p[kept++] = at;
        if (corners != 2 || (!crossed && at.quarters != (NORTH_EAST | SOUTH_WEST))) continue;
        /* the western one turns south where the filled quarters are north-west and south-east, else north */
        at.order_in_column = (uint8_t)crossed;
        p[kept++] = at;
        at.order_in_row = 1, at.order_in_column = !crossed;
        p[kept++] = at;
    }
    return kept;
}

typedef struct {
    size_t patch, place;
    uint32_t row, column, order;
} upright;

static int in_columns(const void *a, const void *b) {
    const upright *x = a, *y = b;
    int order = by_number(x->patch, y->patch);
    if (!order) order = by_number(x->column, y->column);
    if (!order) order = by_number(x->row, y->row);
    return order ? order : by_number(x->order, y->order);
}

static void find_partners(point *p, size_t count) {
    upright *u = room_for(count, sizeof *u);
    for (size_t i = 0; i < count; i++) {
        p[i].across = i ^ 1; /* by twos: every row of a patch has an even number */
        u[i] = (upright){ p[i].patch, i, p[i].row, p[i].column, p[i].order_in_column };
    }
    qsort(u, count, sizeof *u, in_columns);
    for (size_t i = 0; i < count; i++) p[u[i].place].along = u[i ^ 1].place;
    free(u);
}

/* From its first corner in reading order: southwards around the patch, eastwards around a hole. */
static void trace(outlines *o, point *p, size_t at, int along, size_t *used) {
    o->begins[o->rings++] = *used;
    while (!p[at].taken) {
        p[at].taken = 1;
        o->corners[(*used)++] = (corner){ p[at].row, p[at].column };
        at = along ? p[at].along : p[at].across;
        along = !along;
    }
}

outlines find_outlines(const findings *f) {
    size_t count, used = 0, patch = 0;
    point *p = corners_of_blocks(f, &count);
    count = keep_corners(p, count);
    find_partners(p, count);
    outlines o = { room_for(count, sizeof *o.corners), room_for(count / 4 + 1, sizeof *o.begins),
                   room_for(f->patch_count + 1, sizeof *o.first_ring), 0 };
    for (size_t i = 0; i < count; i++) {
        int outer = patch == p[i].patch;
        if (p[i].taken) continue;
        if (outer) o.first_ring[patch++] = o.rings;
        trace(&o, p, i, outer, &used);
    }
    o.first_ring[f->patch_count] = o.rings;
    o.begins[o.rings] = used;
    free(p);
    return o;
}

void give_back_outlines(outlines *o) {
    free(o->corners);
    free(o->begins);
    free(o->first_ring);
}
