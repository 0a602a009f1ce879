/* The example of the README: a sheet is built, a block is looked up in it, a window is asked, a rule is run with a
 * waiver, and a paint is taken back and redone. */
#include "prowcurl_sheet.h"

#include <stdio.h>
#include <stdlib.h>

/* Goes on where a call was accepted; else says why it was not, and ends. */
static void must(hlq_refusal refusal) {
    if (refusal == HLQ_ACCEPTED) return;
    puts(hlq_refusal_text(refusal));
    exit(1);
}

int main(void) {
    enum { M = 2, S = 3, LOG = 8, SOME = 16 }; /* 4 by 4 pixels, features 0 to 2; room for steps and for answers */
    static const uint8_t raster[] = { 0, 0, 1, 1,
                                      0, 0, 1, 2,
                                      2, 2, 0, 0,
                                      2, 2, 0, 0 };
    static uint32_t memory[HLQ_SHEET_NUMBERS(M, S, LOG)], rows[HLQ_TABLE_NUMBERS], ids[SOME], keys[SOME];
    if (hlq_interface() != HLQ_INTERFACE) return puts("this is the library of another header"), 1;

    hlq_sheet sheet;
    must(hlq_sheet_in(memory, sizeof memory, M, S, LOG, &sheet));
    must(hlq_sheet_build(&sheet, raster, sizeof raster));

    uint32_t key;
    hlq_stands at;
    must(hlq_key_read(M, "11", &key));
    must(hlq_sheet_standing(&sheet, key, &at));
    const char *how = at.kind == HLQ_LISTED ? "listed at" : "inside the leaf at";
    printf("%zu records; block 11 is %s place %llu\n", sheet.list.n, how, (unsigned long long)at.place);

    hlq_window window = { 0, 1, 2, 3 }; /* from row 0, column 1: 2 rows high and 3 columns wide */
    int yes;
    uint64_t pixels;
    must(hlq_sheet_exist(&sheet, window, 2, &yes));
    must(hlq_sheet_area(&sheet, window, 1, &pixels));
    printf("feature 2 there: %s\n", yes ? "yes" : "no");
    printf("pixels of feature 1 there: %llu\n", (unsigned long long)pixels);

    size_t count;
    uint32_t slots;
    char text[HLQ_KEY_TEXT];
    must(hlq_sheet_select(&sheet, window, 1, keys, SOME, &count));
    printf("feature 1 there:");
    for (size_t i = 0; i < count; i++) {
        must(hlq_key_text(M, keys[i], text));
        printf(" %s", text);
    }
    must(hlq_sheet_report(&sheet, window, &slots));
    printf("\nslots there: %u\n", slots);

    hlq_table waivers;
    hlq_rule rule = { 7, 0, 0, 4, 4, 2 }; /* rule 7: no feature 2 in the whole map; in block 24 office 0 accepts it */
    size_t live, hidden;
    must(hlq_table_in(rows, sizeof rows, &waivers));
    must(hlq_key_read(M, "24", &key));
    must(hlq_sheet_add_waiver(&sheet, 0, &waivers, 7, key));
    must(hlq_sheet_findings(&sheet, 0, &rule, 1, &waivers, ids, keys, SOME, &live, &hidden));
    must(hlq_key_text(M, keys[0], text));
    printf("%zu live, of rule %u in block %s; %zu hidden\n", live, ids[0], text, hidden);

    must(hlq_sheet_paint(&sheet, key, 1));
    printf("block 24 painted with feature 1: %zu records\n", sheet.list.n);
    must(hlq_sheet_take_back(&sheet));
    printf("taken back: %zu records\n", sheet.list.n);
    must(hlq_sheet_redo(&sheet));
    printf("and redone: %zu records\n", sheet.list.n);
    return 0;
}
