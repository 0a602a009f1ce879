/* findings: the rules of an office run over a line, sheet by sheet, with the waivers of that office. */
#include "findings.h"

#include "answer.h"
#include "classes.h"
#include "commands.h"
#include "layers.h"
#include "picture.h"
#include "waivers.h"

#include <stdlib.h>
#include <string.h>

enum { STATUS_LIVE = 32 };

/* The rules that meet a sheet, clipped to it, in their order; `places` has each one's place in the list. */
typedef struct {
    hlq_rule *rules;
    uint32_t *places;
    size_t count;
} rules_here;

static window window_of_rule(const rule *r) {
    return (window){ (uint32_t)r->row, (uint32_t)r->column, (uint32_t)r->height, (uint32_t)r->width };
}

static void rules_on(const line *l, const rule_list *all, uint32_t i, uint32_t j, rules_here *here) {
    sheet place = { .i = i, .j = j, .map.list.m = l->m };
    int64_t top = (int64_t)i << l->m, left = (int64_t)j << l->m, side = side_of(l);
    here->count = 0;
    for (size_t k = 0; k < all->count; k++) {
        const rule *r = &all->at[k];
        if (r->row >= top + side || r->row + r->height <= top || r->column >= left + side ||
            r->column + r->width <= left)
            continue;
        hlq_window part = part_on(&place, window_of_rule(r));
        here->places[here->count] = (uint32_t)k;
        here->rules[here->count++] = (hlq_rule){ r->id, part.row, part.column, part.height, part.width, r->class };
    }
}

/* The waivers of the office whose rule is among these. Others stay in the table: a window may have been moved. */
static waiver_table *waivers_on(line *l, uint32_t office, const rules_here *here, const sheet *s) {
    waiver_table *all = read_waivers(l, s->i, s->j), *mine = room_for(1, sizeof *mine);
    accept_or_end(hlq_table_in(mine->memory, sizeof mine->memory, &mine->table), NULL);
    for (size_t row = 0, k = 0; row < all->table.rows; row++) {
        uint32_t id = all->table.ids[row];
        if (all->table.offices[row] != office) continue;
        while (k < here->count && here->rules[k].id < id) k++; /* both ascend */
        if (k < here->count && here->rules[k].id == id)
            accept_or_end(hlq_sheet_add_waiver(&s->map, office, &mine->table, id, all->table.waived[row]), NULL);
    }
    free(all);
    return mine;
}

typedef struct {
    uint32_t *ids, *keys;
    size_t count;
} keyed;

static keyed ask_rules(const sheet *s, uint32_t office, const rules_here *here, const hlq_table *table) {
    uint32_t none = 0;
    keyed k = { 0 };
    hlq_refusal refusal = hlq_sheet_findings(&s->map, office, here->rules, here->count, table, &none, &none, 0,
                                             &k.count, NULL);
    if (refusal != HLQ_ANSWER_ROOM) accept_or_end(refusal, NULL);
    k.ids = room_for(k.count, sizeof *k.ids);
    k.keys = room_for(k.count, sizeof *k.keys);
    accept_or_end(hlq_sheet_findings(&s->map, office, here->rules, here->count, table, k.ids, k.keys, k.count,
                                     &k.count, NULL), NULL);
    return k;
}

static void give_back_keyed(keyed *k) {
    free(k->ids);
    free(k->keys);
}

static void add_finding(findings *f, finding x) {
    if (f->count == f->room) f->at = more_room_for(f->at, f->room = f->room * 2 + 256, sizeof *f->at);
    f->at[f->count++] = x;
}

/* Asked with the waivers the library gives the live ones, asked without any it gives all, in the same order. */
static void find_on(findings *f, line *l, const sheet *s, const rules_here *here) {
    waiver_table *mine = waivers_on(l, f->office, here, s);
    keyed live = ask_rules(s, f->office, here, &mine->table);
    mine->table.rows = 0;
    keyed all = ask_rules(s, f->office, here, &mine->table);
    for (size_t i = 0, next = 0, k = 0; i < all.count; i++) {
        while (here->rules[k].id != all.ids[i]) k++;
        int is_live = next < live.count && live.ids[next] == all.ids[i] && live.keys[next] == all.keys[i];
        block b = { s->i, s->j, all.keys[i] };
        add_finding(f, (finding){ here->places[k], is_live, b, square_of(l, b), 0 });
        next += (size_t)is_live;
    }
    give_back_keyed(&live);
    give_back_keyed(&all);
    free(mine);
}

static int by_rule_and_block(const void *a, const void *b) {
    const finding *x = a, *y = b;
    if (x->rule != y->rule) return x->rule < y->rule ? -1 : 1;
    if (x->b.i != y->b.i) return x->b.i < y->b.i ? -1 : 1;
    if (x->b.j != y->b.j) return x->b.j < y->b.j ? -1 : 1;
    return x->b.key < y->b.key ? -1 : x->b.key > y->b.key;
}

findings find_all(line *l, int office) {
    need_survey(l);
    rule_list rules = read_rules(l, office);
    char *where = text_of("%s, table rules, office %d", l->path, office);
    for (size_t k = 0; k < rules.count; k++) accept_rule(l, &rules.at[k], where);
    free(where);
    return find_with(l, office, rules);
}

findings find_with(line *l, int office, rule_list rules) {
    findings f = { .office = (uint32_t)office, .rules = rules };
    rules_here here = { room_for(f.rules.count, sizeof *here.rules), room_for(f.rules.count, sizeof *here.places), 0 };
    for (uint32_t i = 0; f.rules.count && i < sheet_rows(l); i++) {
        for (uint32_t j = 0; j < sheet_columns(l); j++) {
            rules_on(l, &f.rules, i, j, &here);
            if (here.count == 0) continue;
            sheet s = read_sheet(l, i, j);
            find_on(&f, l, &s, &here);
            give_back_sheet(&s);
        }
    }
    free(here.rules);
    free(here.places);
    if (f.count) qsort(f.at, f.count, sizeof *f.at, by_rule_and_block);
    find_patches(&f);
    return f;
}

void give_back_findings(findings *f) {
    give_back_rules(&f->rules);
    free(f->at);
    free(f->patches);
}

const finding *finding_at(const findings *f, uint32_t rule, uint32_t row, uint32_t column) {
    for (size_t i = 0; i < f->count; i++) {
        const finding *x = &f->at[i];
        if (x->rule == rule && row >= x->q.row && row - x->q.row < x->q.side && column >= x->q.column &&
            column - x->q.column < x->q.side)
            return x;
    }
    return NULL;
}

/* What is counted of a rule, and of the line. */
typedef struct {
    uint64_t live_patches, live_blocks, live_pixels, hidden_patches, hidden_blocks, hidden_pixels;
} total;

static void count_patch(total *t, const patch *p) {
    if (p->live) t->live_patches++, t->live_blocks += p->blocks, t->live_pixels += p->pixels;
    else t->hidden_patches++, t->hidden_blocks += p->blocks, t->hidden_pixels += p->pixels;
}

static const char *class_name(const findings *f, const class_names *c, uint32_t rule) {
    return c->names[f->rules.at[rule].class];
}

static void write_rules(const line *l, const findings *f, const class_names *c, const total *totals) {
    static const column columns[] = { { "rule", 6 },         { "name", -30 },        { "class", -10 },
                                      { "live_patches", 12 }, { "live_blocks", 11 },  { "live_pixels", 11 },
                                      { "live_square_metres", 18 }, { "hidden_blocks", 13 }, { "hidden_pixels", 13 },
                                      { "price", 10 },       { "total", 12 } };
    table_begin("rules", columns, c->any_price ? 11 : 9);
    for (size_t k = 0; k < f->rules.count; k++) {
        const rule *r = &f->rules.at[k];
        const total *t = &totals[k];
        double metres = (double)t->live_pixels * l->cell * l->cell;
        cell_number(r->id);
        cell_words(r->name);
        cell_words(c->names[r->class]);
        cell_number(t->live_patches);
        cell_number(t->live_blocks);
        cell_number(t->live_pixels);
        cell_decimal(metres);
        cell_number(t->hidden_blocks);
        cell_number(t->hidden_pixels);
        if (c->priced[r->class]) {
            cell_decimal(c->prices[r->class]);
            cell_decimal(metres * c->prices[r->class]);
        } else if (c->any_price) {
            cell_nothing();
            cell_nothing();
        }
    }
    table_end();
}

static void write_box(const line *l, const patch *p) {
    cell_number(p->top);
    cell_number(p->left);
    cell_number(p->bottom);
    cell_number(p->right);
    cell_decimal(x_of(l, p->left));
    cell_decimal(y_of(l, p->bottom));
    cell_decimal(x_of(l, p->right));
    cell_decimal(y_of(l, p->top));
}

/* For people, whose lines are short, a patch has the coordinates of its middle in place of its box. */
static void write_patches(const line *l, const findings *f, const class_names *c, int hidden_too, int for_people) {
    static const column columns[] = { { "rule", 6 },   { "class", -10 },         { "state", -6 },  { "row", 6 },
                                      { "column", 6 }, { "pixels", 8 },          { "square_metres", 13 },
                                      { "blocks", 6 }, { "top", 6 },             { "left", 6 },    { "bottom", 6 },
                                      { "right", 6 },  { "west", 12 },           { "south", 12 },  { "east", 12 },
                                      { "north", 12 } };
    static const column short_ones[] = { { "rule", 6 },   { "class", -10 },           { "state", -6 },  { "row", 6 },
                                         { "column", 6 }, { "pixels", 8 },            { "square_metres", 13 },
                                         { "blocks", 6 }, { "middle_x", 12 },         { "middle_y", 12 } };
    table_begin("patches", for_people ? short_ones : columns, for_people ? 10 : 16);
    for (size_t i = 0; i < f->patch_count; i++) {
        const patch *p = &f->patches[i];
        if (!p->live && !hidden_too) continue;
        cell_number(f->rules.at[p->rule].id);
        cell_words(class_name(f, c, p->rule));
        cell_words(state_of(p->live));
        cell_number(p->row);
        cell_number(p->column);
        cell_number(p->pixels);
        cell_decimal((double)p->pixels * l->cell * l->cell);
        cell_number(p->blocks);
        if (for_people) {
            cell_decimal(x_of(l, (p->left + p->right) / 2.0));
            cell_decimal(y_of(l, (p->top + p->bottom) / 2.0));
        } else {
            write_box(l, p);
        }
    }
    table_end();
}

static void write_blocks(const line *l, const findings *f, const class_names *c, int hidden_too) {
    static const column columns[] = { { "rule", 6 },   { "sheet", -7 }, { "key", -10 },   { "row", 7 },
                                      { "column", 7 }, { "side", 5 },   { "class", -10 }, { "state", -6 } };
    table_begin("findings", columns, 8);
    for (size_t i = 0; i < f->count; i++) {
        const finding *x = &f->at[i];
        char name[BLOCK_TEXT], key[KEY_TEXT];
        if (!x->live && !hidden_too) continue;
        sheet_text(x->b.i, x->b.j, name);
        key_text(l->m, x->b.key, key);
        cell_number(f->rules.at[x->rule].id);
        cell_words(name);
        cell_words(key);
        cell_number(x->q.row);
        cell_number(x->q.column);
        cell_number(x->q.side);
        cell_words(class_name(f, c, x->rule));
        cell_words(state_of(x->live));
    }
    table_end();
}

static void write_totals(const line *l, const findings *f, const class_names *c, const total *totals) {
    double metres = l->cell * l->cell, money = 0;
    total all = { 0 };
    for (size_t i = 0; i < f->patch_count; i++) count_patch(&all, &f->patches[i]);
    for (size_t k = 0; k < f->rules.count; k++) {
        uint32_t class = f->rules.at[k].class;
        if (c->priced[class]) money += (double)totals[k].live_pixels * metres * c->prices[class];
    }
    fact_number("office", f->office);
    fact_number("live", all.live_blocks);
    fact_number("hidden", all.hidden_blocks);
    fact_number("live_patches", all.live_patches);
    fact_number("hidden_patches", all.hidden_patches);
    fact_number("live_pixels", all.live_pixels);
    fact_number("hidden_pixels", all.hidden_pixels);
    fact_decimal("live_square_metres", (double)all.live_pixels * metres);
    fact_decimal("hidden_square_metres", (double)all.hidden_pixels * metres);
    if (c->any_price) fact_decimal("total_price", money);
}

/* A spreadsheet wants one table: the blocks where they are asked for, else the patches. */
static void write_answer(const arguments *a, const line *l, const findings *f, const class_names *c) {
    int all = a->given[OPTION_ALL] != NULL, blocks = a->given[OPTION_BLOCKS] != NULL;
    total *totals = room_for(f->rules.count, sizeof *totals);
    for (size_t i = 0; i < f->patch_count; i++) count_patch(&totals[f->patches[i].rule], &f->patches[i]);
    answer_begin(a);
    write_totals(l, f, c, totals);
    if (!a->given[OPTION_CSV]) write_rules(l, f, c, totals);
    if (!a->given[OPTION_CSV] || !blocks) write_patches(l, f, c, all, !a->given[OPTION_CSV] && !a->given[OPTION_JSON]);
    if (blocks) write_blocks(l, f, c, all);
    answer_end();
    free(totals);
}

void run_findings(const arguments *a) {
    const char *geojson = value_of(a, OPTION_GEOJSON), *picture = value_of(a, OPTION_PICTURE);
    if (geojson) may_replace(a, geojson, KIND_JSON);
    if (picture) may_replace(a, picture, KIND_PNG);
    line l = open_line(a, a->given[OPTION_SAVE] ? TO_WRITE : TO_READ);
    class_names classes = read_classes(&l);
    findings f = find_all(&l, office_of(a, 0));
    int live = 0;
    for (size_t i = 0; i < f.patch_count; i++) live |= f.patches[i].live;
    if (a->given[OPTION_SAVE]) {
        save_findings(&l, &f, &classes);
        commit_line(&l);
        begin_again(&l, TO_READ);
    }
    if (geojson) write_geojson(a, &l, &f, &classes, geojson);
    if (picture) draw_findings(a, &l, &f, &classes, picture);
    write_answer(a, &l, &f, &classes);
    give_back_findings(&f);
    give_back_classes(&classes);
    close_line(&l);
    if (live && a->given[OPTION_EXIT_LIVE]) exit(STATUS_LIVE);
}
