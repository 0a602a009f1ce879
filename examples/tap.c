/* A walker taps the sheet and asks which patch he stands on: the key of the pixel, where it stands in the list, and
 * from that the patch's key, level and class. A listed pixel is a patch of its own; any other lies inside one leaf. */
#include "prowcurl_sheet.h"

#include <stdio.h>

enum { M = 3, S = 3, EDGE = 1 << M };

static uint32_t memory[HLQ_SHEET_NUMBERS(M, S, 0)];
static hlq_sheet sheet;

static hlq_refusal tap(uint32_t row, uint32_t column) {
    static const char *const classes[S] = { "ballast", "drain", "scrub" };
    char text[HLQ_KEY_TEXT];
    hlq_stands at;
    hlq_keyed pixel = hlq_key_at(M, row, column, M);
    if (pixel.refusal) return (hlq_refusal)pixel.refusal;
    hlq_refusal refusal = hlq_sheet_standing(&sheet, (uint32_t)pixel.key, &at);
    if (refusal) return refusal;
    uint32_t patch = (uint32_t)(at.kind == HLQ_LISTED ? pixel.key : at.leaf);
    unsigned level = (unsigned)(at.kind == HLQ_LISTED ? M : at.level), class = 0;
    while (sheet.list.bits[at.place] >> class != 1) class++; /* a leaf has one slot */
    refusal = hlq_key_text(M, patch, text);
    if (!refusal) printf("patch %s, level %u, %s\n", text, level, classes[class]);
    return refusal;
}

int main(void) {
    static const uint8_t drawn[EDGE * EDGE + 1] = "00000011"
                                                  "00000011"
                                                  "00000022"
                                                  "00000002"
                                                  "00001111"
                                                  "00001111"
                                                  "22221111"
                                                  "22221111";
    /* a pixel with a record of its own, one in a leaf that is a quarter of the sheet, a third, and one beside it */
    static const uint32_t taps[][2] = { { 3, 6 }, { 5, 6 }, { 6, 1 }, { 8, 0 } };
    uint8_t raster[EDGE * EDGE];
    for (size_t i = 0; i < sizeof raster; i++) raster[i] = (uint8_t)(drawn[i] - '0');
    hlq_refusal refusal = hlq_sheet_in(memory, sizeof memory, M, S, 0, &sheet);
    if (!refusal) refusal = hlq_sheet_build(&sheet, raster, sizeof raster);
    if (refusal) return puts(hlq_refusal_text(refusal)), 1;
    for (size_t i = 0; i < sizeof taps / sizeof *taps; i++) {
        printf("row %u, column %u: ", taps[i][0], taps[i][1]);
        refusal = tap(taps[i][0], taps[i][1]);
        if (refusal) puts(hlq_refusal_text(refusal));
    }
    return 0;
}
