/* Two faults, and why they cannot come back. Waivers were once kept by place in the list: a resurvey merged five
 * records into one, the waivers slid onto neighbours, and live scrub was hidden. Here a waiver is a rule and a block,
 * and stays on its patch. Then a waiver hid only the finding with its own block: four siblings were accepted, scrub
 * made one block of them, and a finding came up. Here a finding is hidden when every pixel of it was accepted. */
#include "prowcurl_sheet.h"

#include <stdio.h>
#include <stdlib.h>

enum { M = 2, S = 3, LOG = 16, SOME = 16 };

static uint32_t memory[HLQ_SHEET_NUMBERS(M, S, LOG)], rows[HLQ_TABLE_NUMBERS];
static hlq_sheet sheet;

static const hlq_rule rules[] = { { 7, 0, 0, 4, 4, 2 } }; /* no scrub (2) anywhere */
static const uint32_t waived_block[] = { 3 * 5 },
                      waived_siblings[] = { 2 * 5 + 1, 2 * 5 + 2, 2 * 5 + 3, 2 * 5 + 4 };

static uint64_t place_of_old; /* where the old program would have kept the waiver */

static void must(hlq_refusal refusal) {
    if (refusal == HLQ_ACCEPTED) return;
    printf("refused: %s\n", hlq_refusal_text(refusal));
    exit(1);
}

static void print_block(uint32_t key) {
    char text[HLQ_KEY_TEXT];
    must(hlq_key_text(M, key, text));
    printf(" %s", text);
}

/* The live findings; gives the number of the hidden ones. */
static size_t print_live(const uint32_t *waived, size_t waivers) {
    uint32_t ids[SOME], blocks[SOME];
    size_t live, hidden;
    hlq_table table;
    must(hlq_table_in(rows, sizeof rows, &table));
    for (size_t i = 0; i < waivers; i++) must(hlq_sheet_add_waiver(&sheet, 0, &table, 7, waived[i]));
    must(hlq_sheet_findings(&sheet, 0, rules, 1, &table, ids, blocks, SOME, &live, &hidden));
    for (size_t i = 0; i < live; i++) print_block(blocks[i]);
    return hidden;
}

static void tell(const char *when) {
    printf("%s: %zu records\n  live:", when, sheet.list.n);
    printf("; hidden: %zu\n", print_live(waived_block, 1));
    printf("  a waiver kept as place %llu would be on block", (unsigned long long)place_of_old);
    print_block(sheet.list.keys[place_of_old]);
    printf("\n");
}

static void tell_of_siblings(const char *when) {
    printf("%s: %zu records\n  scrub:", when, sheet.list.n);
    print_live(waived_siblings, 0);
    printf("\n  live:");
    printf("; hidden: %zu\n", print_live(waived_siblings, 4));
}

int main(void) {
    static const uint8_t survey[] = { 0, 0, 1, 1,
                                      0, 0, 1, 2,
                                      2, 2, 0, 0,
                                      2, 2, 2, 0 };
    hlq_stands stands;
    must(hlq_sheet_in(memory, sizeof memory, M, S, LOG, &sheet));
    must(hlq_sheet_build(&sheet, survey, sizeof survey));
    must(hlq_sheet_standing(&sheet, waived_block[0], &stands));
    place_of_old = stands.place;
    tell("the survey, block 30 waived");
    must(hlq_sheet_paint(&sheet, 2 * 5 + 4, 1));
    tell("block 24 cleared, and five records become one");
    must(hlq_sheet_take_back(&sheet));
    tell("that was a mistake, and is taken back");
    tell_of_siblings("the blocks 21, 22, 23 and 24 accepted, while only 24 is scrub");
    for (uint32_t quadrant = 1; quadrant <= 3; quadrant++) must(hlq_sheet_paint(&sheet, 2 * 5 + quadrant, 2));
    tell_of_siblings("scrub fills the gap, and the four are one block");
    return 0;
}
