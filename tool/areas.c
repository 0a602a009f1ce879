/* areas: pixels, square metres and money by class, over a window or the whole survey. */
#include "answer.h"
#include "classes.h"
#include "commands.h"
#include "window.h"

#include <stdlib.h>

/* Only the classes that occur on a sheet's part of the window are measured there. */
void measure_areas(line *l, window w, uint64_t pixels[HLQ_MOST_SLOTS]) {
    for (walk r = sheets_of(l, w); next_sheet(&r);) {
        hlq_dragged part = on_sheet(&r.sheet, w);
        uint32_t bits;
        accept_or_end(hlq_sheet_report_clipped(&r.sheet.map, part, &bits), NULL);
        for (uint32_t f = 0; f < l->slots; f++) {
            uint64_t more;
            if (!(bits >> f & 1)) continue;
            accept_or_end(hlq_sheet_area_clipped(&r.sheet.map, part, f, &more), NULL);
            pixels[f] += more;
        }
    }
}

static void write_row(const class_names *c, uint32_t class, uint64_t pixels, double metres) {
    cell_number(class);
    cell_words(c->names[class]);
    cell_number(pixels);
    cell_decimal((double)pixels * metres);
    if (c->priced[class]) {
        cell_decimal(c->prices[class]);
        cell_decimal((double)pixels * metres * c->prices[class]);
    } else if (c->any_price) {
        cell_nothing();
        cell_nothing();
    }
}

/* People and spreadsheets have the total as the last row, JSON has it beside the rows. */
static void write_total(uint64_t pixels, double metres, double money, int priced) {
    if (answer_is_json()) {
        table_end();
        fact_number("total_pixels", pixels);
        fact_decimal("total_square_metres", (double)pixels * metres);
        if (priced) fact_decimal("total_price", money);
        return;
    }
    cell_words("total");
    cell_nothing();
    cell_number(pixels);
    cell_decimal((double)pixels * metres);
    if (priced) {
        cell_nothing();
        cell_decimal(money);
    }
    table_end();
}

/* A class that nobody named and that does not occur is left out. */
void run_areas(const arguments *a) {
    static const column columns[] = { { "class", 5 },          { "name", -16 },  { "pixels", 12 },
                                      { "square_metres", 14 }, { "price", 10 }, { "total", 14 } };
    line l = open_line(a, TO_READ);
    class_names classes = read_classes(&l);
    need_survey(&l);
    if (a->given[OPTION_BOX] && a->count > 1)
        fail(STATUS_USAGE, "--box and ROW COLUMN HEIGHT WIDTH exclude each other");
    window w = a->count > 1 || a->given[OPTION_BOX] ? window_of(&l, a, 1) : whole_survey(&l);
    uint64_t pixels[HLQ_MOST_SLOTS] = { 0 }, total = 0;
    double metres = l.cell * l.cell, money = 0;
    measure_areas(&l, w, pixels);
    answer_begin(a);
    table_begin("areas", columns, classes.any_price ? 6 : 4);
    for (uint32_t f = 0; f < l.slots; f++) {
        if (classes.named[f] || pixels[f]) write_row(&classes, f, pixels[f], metres);
        total += pixels[f];
        if (classes.priced[f]) money += (double)pixels[f] * metres * classes.prices[f];
    }
    write_total(total, metres, money, classes.any_price);
    answer_end();
    give_back_classes(&classes);
    close_line(&l);
}
