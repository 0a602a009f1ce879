/* Three lookouts watch one map at once: each is a thread that asks about its own part of the same list, on a stack that
 * has no more than the system and a call of the library need. Then the night run asks a few windows in one batch. */
#define _XOPEN_SOURCE 700
#include "prowcurl_sheet.h"

#include <limits.h>
#include <pthread.h>
#include <stdio.h>

enum { M = 3, S = 2, EDGE = 1 << M, LOOKOUTS = 3 };

/* Written before the lookouts start, and only read while they watch. */
static uint32_t memory[HLQ_SHEET_NUMBERS(M, S, 0)];
static hlq_sheet sheet;

typedef struct {
    hlq_window window;
    hlq_refusal refusal;
    size_t count;
    uint32_t blocks[EDGE * EDGE];
} lookout;

static void *watch(void *given) {
    lookout *l = given;
    l->refusal = hlq_sheet_select(&sheet, l->window, 1, l->blocks, EDGE * EDGE, &l->count);
    return NULL;
}

/* The night run: one check of the list for all its windows, which may reach over the edge or miss the sheet. */
static int night_run(void) {
    static const hlq_question questions[] = {
        { 0, -1, -1, 3, 3, 1 }, /* does feature 1 occur at the north-west corner? */
        { 1, 3, 6, 2, 9, 0 },   /* which features occur in the east? */
        { 1, 9, 0, 2, 2, 0 },   /* this window misses the sheet: it is refused, and stops no other */
        { 0, 5, 4, 1, 4, 1 },
    };
    enum { QUESTIONS = sizeof questions / sizeof *questions };
    uint32_t refusals[QUESTIONS], values[QUESTIONS];
    hlq_refusal refusal = hlq_sheet_batch(&sheet, questions, QUESTIONS, refusals, values);
    if (refusal) return puts(hlq_refusal_text(refusal)), 1;
    for (size_t i = 0; i < QUESTIONS; i++)
        printf("%s at row %d, column %d: %s, %u\n", questions[i].report ? "report" : "exist", questions[i].row,
               questions[i].column, hlq_refusal_text(refusals[i]), values[i]);
    return 0;
}

int main(void) {
    static const uint8_t drawn[EDGE * EDGE + 1] = "00000000"
                                                  "01100000"
                                                  "01100000"
                                                  "00000011"
                                                  "00000011"
                                                  "00000000"
                                                  "11110000"
                                                  "11110000";
    static lookout lookouts[LOOKOUTS] = {
        { .window = { 0, 0, 3, EDGE } },
        { .window = { 3, 0, 2, EDGE } },
        { .window = { 5, 0, 3, EDGE } },
    };
    uint8_t raster[EDGE * EDGE];
    for (size_t i = 0; i < sizeof raster; i++) raster[i] = (uint8_t)(drawn[i] - '0');
    hlq_refusal refusal = hlq_sheet_in(memory, sizeof memory, M, S, 0, &sheet);
    if (!refusal) refusal = hlq_sheet_build(&sheet, raster, sizeof raster);
    if (refusal) return puts(hlq_refusal_text(refusal)), 1;

    pthread_attr_t small;
    pthread_t threads[LOOKOUTS];
    if (pthread_attr_init(&small) != 0) return 1;
    if (pthread_attr_setstacksize(&small, (size_t)PTHREAD_STACK_MIN + HLQ_STACK_BYTES) != 0) return 1;
    for (int i = 0; i < LOOKOUTS; i++) if (pthread_create(&threads[i], &small, watch, &lookouts[i]) != 0) return 1;
    for (int i = 0; i < LOOKOUTS; i++) {
        lookout *l = &lookouts[i];
        if (pthread_join(threads[i], NULL) != 0) return 1;
        printf("rows %u to %u: %s, blocks", l->window.row, l->window.row + l->window.height - 1,
               hlq_refusal_text(l->refusal));
        for (size_t j = 0; j < l->count; j++) {
            char text[HLQ_KEY_TEXT];
            if (hlq_key_text(M, l->blocks[j], text)) return 1;
            printf(" %s", text);
        }
        printf("\n");
    }
    pthread_attr_destroy(&small);
    return night_run();
}
