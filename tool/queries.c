/* at, report, exist, select: what is at a pixel and in a window, over all sheets that it meets. */
#include "answer.h"
#include "classes.h"
#include "commands.h"
#include "findings.h"
#include "window.h"

#include <stdlib.h>

/* Of an office, the rules that find something at a pixel of this class. */
static rule_list rules_at(line *l, int office, uint32_t row, uint32_t column, uint32_t class) {
    rule_list all = read_rules(l, office), here = { room_for(all.count, sizeof *here.at), 0 };
    for (size_t k = 0; k < all.count; k++) {
        const rule *r = &all.at[k];
        if (r->class == class && !wrong_with_rule(l, r) && row >= r->row && row < r->row + r->height &&
            column >= r->column && column < r->column + r->width)
            here.at[here.count++] = *r;
        else free(r->name);
    }
    free(all.at);
    return here;
}

/* The patches that have the pixel. */
static void write_patches_at(line *l, uint32_t row, uint32_t across, uint32_t class) {
    static const column columns[] = { { "office", 6 }, { "rule", 6 },   { "state", -6 },         { "row", 7 },
                                      { "column", 7 }, { "pixels", 8 }, { "square_metres", 13 } };
    table_begin("patches", columns, 7);
    for (int office = 0; office < 2; office++) {
        findings f = find_with(l, office, rules_at(l, office, row, across, class));
        for (uint32_t k = 0; k < f.rules.count; k++) {
            const finding *x = finding_at(&f, k, row, across);
            if (!x) continue;
            const patch *p = &f.patches[x->patch];
            cell_number((uint64_t)office);
            cell_number(f.rules.at[k].id);
            cell_words(state_of(p->live));
            cell_number(p->row);
            cell_number(p->column);
            cell_number(p->pixels);
            cell_decimal((double)p->pixels * l->cell * l->cell);
        }
        give_back_findings(&f);
    }
    table_end();
}

void run_at(const arguments *a) {
    line l = open_line(a, TO_READ);
    class_names classes = read_classes(&l);
    uint32_t row, column, class = 0, inside = side_of(&l) - 1;
    char sheet_name[BLOCK_TEXT], key[KEY_TEXT], name[BLOCK_TEXT];
    pixel_of(&l, a, 1, &row, &column);
    sheet s = read_sheet(&l, row >> l.m, column >> l.m);
    hlq_keyed pixel = hlq_key_at(l.m, row & inside, column & inside, l.m);
    accept_or_end(pixel.refusal, NULL);
    hlq_stands at;
    accept_or_end(hlq_sheet_standing(&s.map, (uint32_t)pixel.key, &at), NULL);
    block b = { s.i, s.j, (uint32_t)(at.kind == HLQ_LISTED ? pixel.key : at.leaf) };
    while (s.map.list.bits[at.place] >> class != 1) class++; /* a leaf has one slot */
    square q = square_of(&l, b);
    key_text(l.m, b.key, key);
    sheet_text(b.i, b.j, sheet_name);
    block_text(&l, b, name);
    answer_begin(a);
    fact_words("sheet", sheet_name);
    fact_words("key", key);
    fact_words("block", name);
    fact_number("level", q.level);
    fact_number("class", class);
    fact_words("name", classes.names[class]);
    fact_number("row", q.row);
    fact_number("column", q.column);
    fact_number("side", q.side);
    fact_exact("x", x_of(&l, column + 0.5));
    fact_exact("y", y_of(&l, row + 0.5));
    if (!a->given[OPTION_CSV]) write_patches_at(&l, row, column, class);
    answer_end();
    give_back_sheet(&s);
    give_back_classes(&classes);
    close_line(&l);
}

void run_report(const arguments *a) {
    static const column columns[] = { { "class", 5 }, { "name", -8 } };
    line l = open_line(a, TO_READ);
    class_names classes = read_classes(&l);
    window w = window_of(&l, a, 1);
    uint32_t seen = 0, bits;
    for (walk r = sheets_of(&l, w); next_sheet(&r); seen |= bits)
        accept_or_end(hlq_sheet_report_clipped(&r.sheet.map, on_sheet(&r.sheet, w), &bits), NULL);
    answer_begin(a);
    table_begin("classes", columns, 2);
    for (uint32_t f = 0; f < l.slots; f++) {
        if (!(seen >> f & 1)) continue;
        cell_number(f);
        cell_words(classes.names[f]);
    }
    table_end();
    answer_end();
    give_back_classes(&classes);
    close_line(&l);
}

/* The word after the window. */
static uint32_t class_after_window(const class_names *classes, const arguments *a) {
    int at = 1 + window_words(a);
    if (a->count != at + 1) fail(STATUS_USAGE, "'prowcurl %s' wants a window and a class", a->command);
    return class_of(classes, a->words[at], "CLASS");
}

void run_exist(const arguments *a) {
    line l = open_line(a, TO_READ);
    class_names classes = read_classes(&l);
    window w = window_of(&l, a, 1);
    uint32_t class = class_after_window(&classes, a);
    int seen = 0, yes;
    for (walk r = sheets_of(&l, w); next_sheet(&r); seen |= yes)
        accept_or_end(hlq_sheet_exist_clipped(&r.sheet.map, on_sheet(&r.sheet, w), class, &yes), NULL);
    answer_begin(a);
    fact_truth("exists", seen);
    answer_end();
    give_back_classes(&classes);
    close_line(&l);
}

/* The blocks of one sheet, after those that are there. The first call asks how much room the answer needs. */
static void select_on(block_list *found, const sheet *s, window w, uint32_t class) {
    uint32_t none;
    size_t count;
    hlq_refusal needed = hlq_sheet_select_clipped(&s->map, on_sheet(s, w), class, &none, 0, &count);
    if (needed != HLQ_ANSWER_ROOM) accept_or_end(needed, NULL);
    uint32_t *keys = room_for(count, sizeof *keys);
    accept_or_end(hlq_sheet_select_clipped(&s->map, on_sheet(s, w), class, keys, count, &count), NULL);
    for (size_t i = 0; i < count; i++) add_block(found, (block){ s->i, s->j, keys[i] });
    free(keys);
}

block_list select_blocks(line *l, window w, uint32_t class) {
    block_list found = { 0 };
    for (walk r = sheets_of(l, w); next_sheet(&r);) select_on(&found, &r.sheet, w, class);
    return found;
}

void run_select(const arguments *a) {
    static const column columns[] = { { "sheet", -7 }, { "key", -10 }, { "level", 5 }, { "row", 7 }, { "column", 7 },
                                      { "side", 5 } };
    line l = open_line(a, TO_READ);
    class_names classes = read_classes(&l);
    window w = window_of(&l, a, 1);
    block_list found = select_blocks(&l, w, class_after_window(&classes, a));
    answer_begin(a);
    fact_number("blocks", found.count);
    table_begin("found", columns, 6);
    for (size_t i = 0; i < found.count; i++) {
        char name[BLOCK_TEXT], key[KEY_TEXT];
        square q = square_of(&l, found.at[i]);
        sheet_text(found.at[i].i, found.at[i].j, name);
        key_text(l.m, found.at[i].key, key);
        cell_words(name);
        cell_words(key);
        cell_number(q.level);
        cell_number(q.row);
        cell_number(q.column);
        cell_number(q.side);
    }
    table_end();
    answer_end();
    free(found.at);
    give_back_classes(&classes);
    close_line(&l);
}
