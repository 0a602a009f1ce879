/* A cleared strip: a crew clears scrub across the sheet, in a strip that is no block of the map. It is painted as one
 * step, which the log keeps as a group; one taking back puts the scrub back, and one redo clears the strip again. */
#include "prowcurl_sheet.h"

#include <stdio.h>

enum { M = 3, S = 3, EDGE = 1 << M, PIXELS = EDGE * EDGE, LOG = 64, BALLAST = 0, CLEARED = 1, SCRUB = 2 };

static uint32_t memory[HLQ_SHEET_NUMBERS(M, S, LOG)];
static hlq_sheet sheet;

/* What an edit has left, or why it was refused. */
static void tell(const char *what, hlq_refusal refusal) {
    hlq_window whole = { 0, 0, EDGE, EDGE };
    uint64_t scrub;
    printf("%s: ", what);
    if (!refusal) refusal = hlq_sheet_area(&sheet, whole, SCRUB, &scrub);
    if (refusal) printf("refused, %s\n", hlq_refusal_text(refusal));
    else
        printf("%zu records, %llu pixels of scrub; the log has %zu places in use, %zu in force\n", sheet.list.n,
               (unsigned long long)scrub, sheet.used, sheet.in_force);
}

static int show(void) {
    uint8_t raster[PIXELS];
    if (hlq_sheet_raster(&sheet, raster, PIXELS)) return 0;
    for (int r = 0; r < EDGE; r++) {
        printf("  ");
        for (int c = 0; c < EDGE; c++) putchar("-cs"[raster[r * EDGE + c]]);
        putchar('\n');
    }
    return 1;
}

int main(void) {
    static uint8_t survey[PIXELS];
    for (int i = 0; i < PIXELS; i++) survey[i] = i / EDGE >= 2 && i % EDGE >= 2 ? SCRUB : BALLAST;
    if (hlq_sheet_in(memory, sizeof memory, M, S, LOG, &sheet) || hlq_sheet_build(&sheet, survey, PIXELS)) return 1;
    printf("the survey: %zu records\n", sheet.list.n);
    if (!show()) return 1;
    hlq_window strip = { 4, 0, 2, EDGE };
    tell("rows 4 and 5 cleared", hlq_sheet_paint_window(&sheet, strip, CLEARED));
    if (!show()) return 1;
    size_t last = sheet.used - 1;
    if (sheet.log_keys[last] == 0 && sheet.log_values[last] == HLQ_GROUP_MARK)
        printf("  in the log: a group of %u blocks, each with its former content\n", sheet.log_values[last - 1]);
    tell("taken back", hlq_sheet_take_back(&sheet));
    tell("redone", hlq_sheet_redo(&sheet));
    tell("redone once more", hlq_sheet_redo(&sheet));
    return 0;
}
