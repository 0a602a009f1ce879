/* Last year against this year, for planners: two surveys of one sheet are combined through a table of change classes,
 * such as scrub on what was drain, and the area of each change class is asked. */
#include "prowcurl_sheet.h"

#include <stdio.h>
#include <string.h>

enum { M = 3, EDGE = 1 << M, PIXELS = EDGE * EDGE, METRES = 4 }; /* a pixel: 2 m by 2 m */

/* The classes of the ground: last year's survey did not yet tell signals, this year's does. */
enum { BALLAST, DRAIN, SCRUB, LAST_YEAR, SIGNAL = LAST_YEAR, THIS_YEAR };
static const char letters[] = "-ds!";

/* The classes of change. */
enum { SAME, SCRUB_ON_DRAIN, OTHER_SCRUB, CLEARED, OTHER, CHANGES };
static const char *const changes[] = { "as it was", "scrub on what was drain", "other new scrub", "scrub cleared",
                                       "another change" };

static const char *const last_year[EDGE] = { "----ss--", "----ss--", "dddddddd", "dddddddd",
                                             "--------", "--------", "ss------", "ss------" };
static const char *const this_year[EDGE] = { "--------", "----ss--", "ddddssdd", "ddddssdd",
                                             "----ss--", "----!---", "ss------", "ss------" };

static uint32_t memory[3][HLQ_SHEET_NUMBERS(M, CHANGES, 0)]; /* each holds a sheet of up to so many classes */

static hlq_refusal survey(uint32_t s, const char *const *rows, void *room, hlq_sheet *sheet) {
    uint8_t raster[PIXELS];
    for (size_t i = 0; i < PIXELS; i++) raster[i] = (uint8_t)(strchr(letters, rows[i / EDGE][i % EDGE]) - letters);
    hlq_refusal refusal = hlq_sheet_in(room, sizeof *memory, M, s, 0, sheet);
    return refusal ? refusal : hlq_sheet_build(sheet, raster, PIXELS);
}

static uint8_t change(uint32_t before, uint32_t after) {
    if (before == after) return SAME;
    if (after == SCRUB) return before == DRAIN ? SCRUB_ON_DRAIN : OTHER_SCRUB;
    return before == SCRUB ? CLEARED : OTHER;
}

int main(void) {
    hlq_sheet before, after, changed;
    uint8_t table[LAST_YEAR * THIS_YEAR], map[PIXELS];
    for (uint32_t i = 0; i < sizeof table; i++) table[i] = change(i / THIS_YEAR, i % THIS_YEAR);
    hlq_refusal refusal = survey(LAST_YEAR, last_year, memory[0], &before);
    if (!refusal) refusal = survey(THIS_YEAR, this_year, memory[1], &after);
    if (!refusal) refusal = hlq_sheet_in(memory[2], sizeof *memory, M, CHANGES, 0, &changed);
    if (!refusal) refusal = hlq_sheet_combine(&before, &after, table, sizeof table, &changed);
    if (!refusal) refusal = hlq_sheet_raster(&changed, map, PIXELS);
    if (refusal) return puts(hlq_refusal_text(refusal)), 1;

    printf("last year %zu records, this year %zu, their changes %zu\n", before.list.n, after.list.n, changed.list.n);
    for (int r = 0; r < EDGE; r++) {
        printf("  %s   %s   ", last_year[r], this_year[r]);
        for (int column = 0; column < EDGE; column++) putchar('0' + map[r * EDGE + column]);
        putchar('\n');
    }
    for (uint32_t f = 0; f < CHANGES; f++) {
        hlq_window whole = { 0, 0, EDGE, EDGE };
        uint64_t pixels;
        refusal = hlq_sheet_area(&changed, whole, f, &pixels);
        if (refusal) return puts(hlq_refusal_text(refusal)), 1;
        printf("%u %-24s %4llu square metres\n", f, changes[f], (unsigned long long)pixels * METRES);
    }
    return 0;
}
