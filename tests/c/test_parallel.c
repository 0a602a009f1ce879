/* Calls in parallel: each thread edits a map of its own and asks one map that all share. What every thread gets is what
 * it gets when it runs alone. */
#include "support.h"

#include <pthread.h>
#include <stdio.h>
#include <stdlib.h>
#include <string.h>

enum { M = 6, S = 5, EDGE = 1 << M, PIXELS = EDGE * EDGE, ROOM = HLQ_MOST_RECORDS(M), LOG = 4 * ROOM, THREADS = 8 };
enum { STEPS = SOME(400) };

static hlq_sheet shared;

typedef struct {
    uint64_t state, sum;
    uint8_t raster[PIXELS], file[HLQ_FILE_BYTES(ROOM, S)];
    uint32_t memory[HLQ_SHEET_NUMBERS(M, S, LOG)], answer[PIXELS];
} worker;

/* Its own random numbers: those of support.h are one run for all. */
static uint32_t draw(worker *w, uint32_t limit) {
    w->state ^= w->state << 13, w->state ^= w->state >> 7, w->state ^= w->state << 17;
    return (uint32_t)((w->state >> 16) % limit);
}

static void add(worker *w, const void *data, size_t size) {
    for (size_t i = 0; i < size; i++) w->sum = w->sum * 1099511628211u + ((const uint8_t *)data)[i];
}

static uint32_t draw_key(worker *w) {
    uint32_t level = draw(w, M + 1), key = 0;
    for (uint32_t i = 0; i < M; i++) key = key * 5 + (i < level ? 1 + draw(w, 4) : 0);
    return key;
}

static hlq_refusal edit(worker *w, hlq_sheet *own) {
    if (draw(w, 4) == 0) {
        hlq_window strip = { draw(w, EDGE - 9), draw(w, EDGE - 9), 9, 3 };
        return hlq_sheet_paint_window(own, strip, draw(w, S));
    }
    if (draw(w, 3)) {
        uint32_t key = draw_key(w);
        return hlq_sheet_paint(own, key, draw(w, S));
    }
    return draw(w, 3) == 0 ? hlq_sheet_redo(own) : hlq_sheet_take_back(own);
}

static void ask(worker *w, const hlq_sheet *sheet, hlq_window window, uint32_t feature) {
    size_t count;
    hlq_refusal refusal = hlq_sheet_select(sheet, window, feature, w->answer, PIXELS, &count);
    add(w, &refusal, sizeof refusal);
    add(w, w->answer, count * sizeof *w->answer);
}

static void *work(void *of) {
    worker *w = of;
    hlq_sheet own;
    for (size_t i = 0; i < PIXELS; i++) w->raster[i] = (uint8_t)(draw(w, 9) ? 0 : draw(w, S));
    must(!hlq_sheet_in(w->memory, sizeof w->memory, M, S, LOG, &own), "a sheet of its own");
    must(!hlq_sheet_build(&own, w->raster, PIXELS), "and a map in it");
    for (int i = 0; i < STEPS; i++) {
        hlq_refusal refusal = edit(w, &own);
        uint32_t height = 1 + draw(w, EDGE), width = 1 + draw(w, EDGE), feature = draw(w, S);
        hlq_window window = { draw(w, EDGE - height + 1), draw(w, EDGE - width + 1), height, width };
        ask(w, &own, window, feature);
        ask(w, &shared, window, feature);
        uint64_t left[] = { refusal, own.list.n, own.used, own.in_force };
        add(w, left, sizeof left);
    }
    size_t bytes;
    must(!hlq_sheet_store(&own, w->file, sizeof w->file, &bytes), "its file");
    add(w, w->file, bytes);
    return NULL;
}

static worker *new_worker(uint64_t start) {
    worker *w = room_for(sizeof *w);
    memset(w, 0, sizeof *w);
    w->state = 88172645463325252u + start;
    return w;
}

int main(void) {
    static uint32_t memory[HLQ_SHEET_NUMBERS(M, S, 0)];
    static uint8_t raster[PIXELS];
    seed(12);
    fill_raster(raster, M, S, 1);
    must(!hlq_sheet_in(memory, sizeof memory, M, S, 0, &shared), "a sheet for all");
    must(!hlq_sheet_build(&shared, raster, PIXELS), "and a map in it");

    pthread_t threads[THREADS];
    worker *together[THREADS];
    for (uint64_t i = 0; i < THREADS; i++) {
        together[i] = new_worker(i);
        must(pthread_create(&threads[i], NULL, work, together[i]) == 0, "no thread");
    }
    for (int i = 0; i < THREADS; i++) must(pthread_join(threads[i], NULL) == 0, "a thread that does not end");
    for (uint64_t i = 0; i < THREADS; i++) {
        worker *alone = new_worker(i);
        work(alone);
        must(memcmp(alone, together[i], sizeof *alone) == 0, "a thread got something else than it gets alone");
        free(alone), free(together[i]);
    }
    printf("parallel: %d threads of %d steps got what each gets alone\n", THREADS, STEPS);
    return 0;
}
