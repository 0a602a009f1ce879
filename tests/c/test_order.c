/* Two crews, one sheet: runs of paints of which every two blocks are apart, each in several random orders on copies of
 * one sheet. Every order that is accepted in full leaves the list and the summary of the first raster with all the
 * paints, and as long a log; another order is refused for want of room, and for nothing else, and where one was
 * accepted in full for want of the list's room alone. Tight rooms, and paints that are not apart. */
#include "support.h"

#include <stdio.h>
#include <stdlib.h>
#include <string.h>

enum { MOST_PAINTS = 24, ORDERS = 6 };

typedef struct {
    uint32_t key, feature, row, column, side;
} painting;

static unsigned long in_full, refused, only_some, unlike;

static laid new_sheet(uint32_t m, uint32_t s, const uint8_t *raster, size_t room, size_t log_room) {
    laid a = lay_sheet(m, s, log_room);
    a.sheet.list.room = room;
    must(hlq_sheet_build(&a.sheet, raster, (size_t)1 << 2 * m) == HLQ_ACCEPTED, "the sheet is built");
    return a;
}

static painting random_paint(uint32_t m, uint32_t s) {
    painting x = { random_key(m), below(s), 0, 0, 0 };
    ref_block(m, x.key, &x.row, &x.column, &x.side);
    return x;
}

/* Two blocks of a quadtree of which neither is the other or contains it have no pixel in common. */
static int apart(const painting *x, const painting *y) {
    return x->row + x->side <= y->row || y->row + y->side <= x->row || x->column + x->side <= y->column ||
           y->column + y->side <= x->column;
}

static void shuffle(painting *run, size_t count) {
    for (size_t i = count; i > 1; i--) {
        size_t j = below((uint32_t)i);
        painting x = run[i - 1];
        run[i - 1] = run[j], run[j] = x;
    }
}

/* The first refusal of a run, or 0; it goes on after a refusal, and every one is of room. */
static hlq_refusal first_refusal(hlq_sheet *a, const painting *run, size_t count) {
    hlq_refusal first = HLQ_ACCEPTED;
    for (size_t i = 0; i < count; i++) {
        hlq_refusal refusal = hlq_sheet_paint(a, run[i].key, run[i].feature);
        must(refusal == 0 || refusal == HLQ_LOG_ROOM || refusal == HLQ_LIST_ROOM, "a refusal that is not one of room");
        if (first == 0) first = refusal;
    }
    return first;
}

/* The list and the summary are those of the raster, record for record and count for count. */
static void shows(const laid *a, const uint8_t *raster) {
    laid b = copy_of_sheet(a);
    hlq_list *list = &b.sheet.list;
    hlq_counted c = ref_list(list->m, list->s, raster, (size_t)1 << 2 * list->m, list->keys, list->room, list->bits,
                             list->room);
    ref_summary(list->m, list->s, raster, b.sheet.summary);
    must(c.refusal == 0 && c.count == list->n, "as many records as the raster with all the paints has");
    same_buffers("list and summary of the raster with all the paints", a->memory, b.memory);
    give_back(b.memory);
}

static int same_sheet(const hlq_sheet *a, const hlq_sheet *b) {
    return a->list.n == b->list.n && memcmp(a->list.keys, b->list.keys, 4 * a->list.n) == 0 &&
           memcmp(a->list.bits, b->list.bits, 4 * a->list.n) == 0 &&
           memcmp(a->summary, b->summary, 4 * a->summary_room) == 0;
}

/* A random run of paints, every two apart. */
static size_t random_run(uint32_t m, uint32_t s, painting *run) {
    size_t count = 0;
    for (uint32_t tries = 0, wanted = 2 + below(MOST_PAINTS - 1); tries < 200 && count < wanted; tries++) {
        painting x = random_paint(m, s);
        size_t i = 0;
        while (i < count && apart(&x, &run[i])) i++;
        if (i == count) run[count++] = x;
    }
    return count;
}

static size_t records(uint32_t m, uint32_t s, const uint8_t *raster) {
    laid a = new_sheet(m, s, raster, HLQ_MOST_RECORDS(m), 1);
    give_back(a.memory);
    return a.sheet.list.n;
}

/* Tight: the list has little more room than it needs at first and at last, and the log sometimes too little. */
static void orders(uint32_t m, uint32_t kind, int tight) {
    size_t pixels = (size_t)1 << 2 * m, most = HLQ_MOST_RECORDS(m);
    uint32_t s = 1 + below(m <= 3 ? 4 : HLQ_MOST_SLOTS), seen = 0;
    uint8_t *raster = room_for(pixels), *all = room_for(pixels);
    fill_raster(raster, m, s, kind);
    memcpy(all, raster, pixels);
    painting run[MOST_PAINTS];
    size_t count = random_run(m, s, run);
    for (size_t i = 0; i < count; i++)
        for (uint32_t r = run[i].row; r < run[i].row + run[i].side; r++)
            memset(all + ((size_t)r << m) + run[i].column, (int)run[i].feature, run[i].side);
    size_t before = records(m, s, raster), after = records(m, s, all);
    size_t room = tight ? (before < after ? after : before) + below(m) : most;
    laid first = new_sheet(m, s, raster, room, tight && below(4) == 0 ? 3 + below(60) : 4 * most + 128);
    hlq_refusal refusals[ORDERS];
    laid one = first;
    for (uint32_t i = 0; i < ORDERS; i++) {
        laid a = copy_of_sheet(&first);
        refusals[i] = first_refusal(&a.sheet, run, count);
        if (refusals[i] == 0) {
            in_full++;
            shows(&a, all);
            if (seen++ == 0) one = copy_of_sheet(&a);
            must(same_sheet(&a.sheet, &one.sheet),
                 "every order that is accepted in full leaves the same list and summary");
            must(a.sheet.used == one.sheet.used && a.sheet.in_force == one.sheet.in_force, "and as long a log");
        } else {
            refused++;
        }
        give_back(a.memory);
        shuffle(run, count);
    }
    for (uint32_t i = 0; i < ORDERS && seen > 0; i++)
        must(refusals[i] == 0 || (refusals[i] == HLQ_LIST_ROOM && tight),
             "where one order is accepted in full, another is refused for the list's room alone");
    if (seen > 0) give_back(one.memory);
    if (seen > 0 && seen < ORDERS) only_some++;
    give_back(first.memory);
    free(raster), free(all);
}

/* Two paints of which one block is the other or contains it: the order may tell. */
static void not_apart(uint32_t m) {
    size_t pixels = (size_t)1 << 2 * m, most = HLQ_MOST_RECORDS(m);
    uint8_t *raster = room_for(pixels);
    fill_raster(raster, m, 3, below(5));
    laid a = new_sheet(m, 3, raster, most, 4 * most + 128), b = copy_of_sheet(&a);
    painting x = random_paint(m, 3), y = random_paint(m, 3);
    if (!apart(&x, &y)) {
        painting both[] = { x, y }, turned[] = { y, x };
        must(!first_refusal(&a.sheet, both, 2) && !first_refusal(&b.sheet, turned, 2), "there is room");
        unlike += !same_sheet(&a.sheet, &b.sheet);
    }
    give_back(a.memory), give_back(b.memory);
    free(raster);
}

int main(void) {
    for (uint32_t m = 1; m <= 7; m++)
        for (uint32_t i = 0; i < SOME(m <= 5 ? 160u : 40u); i++) {
            seed(9000 * m + i);
            orders(m, below(5), i % 2);
            not_apart(m);
        }
    printf("  %lu orders accepted in full, %lu refused for room, %lu runs with both; %lu pairs not apart that differ\n",
           in_full, refused, only_some, unlike);
    must(in_full > 0 && refused > 0 && only_some > 0 && unlike > 0, "something that did not occur");
    return finish("order");
}
