/* A day with a survey, as a crew's program would live it: read the sheet, build the list, ask it, run rules with
 * waivers, paint what was cleared, take a mistake back, redo a step too many, and keep the list in a file. Reads the
 * sheet from standard input: 16 lines of 16 characters. */
#include "prowcurl_sheet.h"

#include <stdio.h>
#include <stdlib.h>
#include <string.h>

enum { M = 4, EDGE = 1 << M, PIXELS = EDGE * EDGE, LOG = 256, CLASSES = 4, FINDINGS = 64, METRES = 4 };
enum { BALLAST, DRAIN, SCRUB, PATH }; /* a pixel is 2 by 2 metres */

/* A header of another interface, or a sheet too large for it, stops the compiler and not the crew. */
_Static_assert(HLQ_INTERFACE == 14, "written for interface 14 of the library");
_Static_assert(M <= HLQ_DEEPEST_M && CLASSES <= HLQ_MOST_SLOTS, "the sheet is within the library's limits");

static const char signs[CLASSES + 1] = ".~#=";
static const char *const words[CLASSES] = { "ballast", "drain", "scrub", "path" };

static uint32_t memory[HLQ_SHEET_NUMBERS(M, CLASSES, LOG)], again_memory[HLQ_SHEET_NUMBERS(M, CLASSES, 0)];
static uint32_t rows[HLQ_TABLE_NUMBERS];
static hlq_sheet sheet;
static hlq_table waivers;

static const hlq_window whole = { 0, 0, EDGE, EDGE }, northern = { 0, 0, 8, 16 }, southern = { 8, 0, 8, 16 },
                        crews = { 0, 4, 8, 8 };

/* Goes on where a call was accepted. */
static void must(const char *what, hlq_refusal refusal) {
    if (refusal == HLQ_ACCEPTED) return;
    printf("%s: refused, %s\n", what, hlq_refusal_text(refusal));
    exit(1);
}

static const char *name_of(uint32_t key) {
    static char text[HLQ_KEY_TEXT];
    must("name", hlq_key_text(M, key, text));
    return text;
}

static int read_sheet(uint8_t *raster) {
    char line[128];
    for (int row = 0; row < EDGE; row++) {
        if (!fgets(line, sizeof line, stdin)) return 0;
        for (int column = 0; column < EDGE; column++) {
            const char *sign = line[column] ? strchr(signs, line[column]) : NULL;
            if (!sign) return 0;
            raster[row * EDGE + column] = (uint8_t)(sign - signs);
        }
    }
    return 1;
}

static void print_sheet(void) {
    uint8_t raster[PIXELS];
    must("raster", hlq_sheet_raster(&sheet, raster, PIXELS));
    for (int row = 0; row < EDGE; row++) {
        for (int column = 0; column < EDGE; column++) putchar(signs[raster[row * EDGE + column]]);
        putchar('\n');
    }
}

/* The square metres of each class in a window. */
static void print_areas(const char *where, hlq_window window) {
    printf("%s:", where);
    for (uint32_t class = 0; class < CLASSES; class++) {
        uint64_t pixels;
        must("area", hlq_sheet_area(&sheet, window, class, &pixels));
        printf(" %s %llu", words[class], (unsigned long long)pixels * METRES);
    }
    printf("\n");
}

/* Two sighting windows in which there must be no scrub. */
static const hlq_rule rules[] = {
    { 10, 0, 4, 8, 8, SCRUB },
    { 20, 8, 0, 8, 16, SCRUB },
};

static void print_findings(void) {
    uint32_t ids[FINDINGS], blocks[FINDINGS];
    size_t live, hidden;
    must("findings", hlq_sheet_findings(&sheet, 0, rules, sizeof rules / sizeof *rules, &waivers, ids, blocks, FINDINGS,
                                        &live, &hidden));
    printf("%zu live, %zu hidden\n", live, hidden);
    for (size_t i = 0; i < live; i++) printf("  rule %u: scrub in block %s\n", ids[i], name_of(blocks[i]));
}

static void keep_in_a_file(void) {
    uint8_t file[HLQ_FILE_BYTES(HLQ_MOST_RECORDS(M), CLASSES)];
    size_t bytes, n = sheet.list.n;
    hlq_sheet again;
    must("store", hlq_sheet_store(&sheet, file, sizeof file, &bytes));
    must("a second sheet", hlq_sheet_in(again_memory, sizeof again_memory, M, CLASSES, 0, &again));
    must("load", hlq_sheet_load(&again, file, bytes));
    int same = again.list.n == n && memcmp(sheet.list.keys, again.list.keys, 4 * n) == 0 &&
               memcmp(sheet.list.bits, again.list.bits, 4 * n) == 0;
    printf("\n%zu bytes stored, %zu records loaded, %s\n", bytes, again.list.n,
           same ? "the same list" : "ANOTHER LIST");
}

int main(void) {
    uint8_t raster[PIXELS];
    uint32_t seen, blocks[FINDINGS];
    size_t found;
    hlq_stands at;
    if (!read_sheet(raster)) { printf("no sheet of %d by %d known signs\n", EDGE, EDGE); return 1; }
    must("a sheet", hlq_sheet_in(memory, sizeof memory, M, CLASSES, LOG, &sheet));
    must("a table", hlq_table_in(rows, sizeof rows, &waivers));
    must("build", hlq_sheet_build(&sheet, raster, PIXELS));
    printf("the sheet has %zu records\n", sheet.list.n);
    must("standing", hlq_sheet_standing(&sheet, 0, &at));
    printf("the whole sheet is %s at place %llu\n", at.kind == HLQ_LISTED ? "listed" : "inside a leaf",
           (unsigned long long)at.place);
    must("report", hlq_sheet_report(&sheet, southern, &seen));
    printf("the southern half has:");
    for (int class = 0; class < CLASSES; class++) if (seen >> class & 1) printf(" %s", words[class]);
    printf("\nsquare metres\n");
    print_areas("  of the sheet", whole);
    print_areas("  of the crew's window", crews);
    printf("\nfindings, nothing waived: ");
    print_findings();

    /* one accepted patch: the waiver names the rule and the block */
    must("select", hlq_sheet_select(&sheet, southern, SCRUB, blocks, FINDINGS, &found));
    if (found == 0) return 1;
    must("waive", hlq_sheet_add_waiver(&sheet, 0, &waivers, 20, blocks[0]));
    printf("\nfindings, block %s of rule 20 waived: ", name_of(blocks[0]));
    print_findings();

    /* the crew clears the northern scrub: records go, and the waiver stays on its block */
    printf("\n");
    must("select", hlq_sheet_select(&sheet, northern, SCRUB, blocks, FINDINGS, &found));
    for (size_t i = 0; i < found; i++) {
        must("paint", hlq_sheet_paint(&sheet, blocks[i], BALLAST));
        printf("painted block %s with %s: %zu records\n", name_of(blocks[i]), words[BALLAST], sheet.list.n);
    }
    printf("square metres after it\n");
    print_areas("  of the sheet", whole);
    print_areas("  of the crew's window", crews);
    printf("\nfindings after the clearing: ");
    print_findings();

    /* one block too many: taken back; and then a step too many, which is put back */
    printf("\n");
    for (int i = 0; i < 2; i++) {
        must("take back", hlq_sheet_take_back(&sheet));
        printf("the last paint taken back: %zu records\n", sheet.list.n);
    }
    must("redo", hlq_sheet_redo(&sheet));
    printf("that was a step too many, put back: %zu records\n", sheet.list.n);
    print_sheet();

    keep_in_a_file();
    hlq_sheet_empty(&sheet);
    printf("the log is emptied; taking back now gives: %s\n", hlq_refusal_text(hlq_sheet_take_back(&sheet)));
    return 0;
}
