/* Waivers of a sheet, through the library's table. */
#include "waivers.h"

#include <stdlib.h>

waiver_table *read_waivers(line *l, uint32_t i, uint32_t j) {
    waiver_table *w = room_for(1, sizeof *w);
    hlq_sheet of_line = { .list.m = l->m }; /* the calls ask a sheet for its m alone */
    accept_or_end(hlq_table_in(w->memory, sizeof w->memory, &w->table), NULL);
    sqlite3_stmt *row = ask_sql(l, "SELECT office, rule, key FROM waivers WHERE sheet_row = ? AND sheet_column = ?"
                                   " ORDER BY office, rule, key", "ii", (int64_t)i, (int64_t)j);
    while (next_row(l, row)) {
        uint32_t office = u32_at(row, 0), rule = u32_at(row, 1), key = u32_at(row, 2);
        hlq_refusal refusal = hlq_sheet_add_waiver(&of_line, office, &w->table, rule, key);
        if (refusal)
            fail((int)refusal, "%s, table waivers, office %u, rule %u, sheet %u.%u, key @%u: refused, %d: %s", l->path,
                 office, rule, i, j, key, (int)refusal, refusal_words(refusal));
    }
    return w;
}

hlq_refusal add_waiver(line *l, uint32_t office, uint32_t rule, block b, const char *note, const char *by,
                       const char *at) {
    waiver_table *w = read_waivers(l, b.i, b.j);
    hlq_sheet of_line = { .list.m = l->m };
    hlq_refusal refusal = hlq_sheet_add_waiver(&of_line, office, &w->table, rule, b.key);
    free(w);
    if (refusal) return refusal;
    if (!number_from_sql(l, 0, "SELECT count(*) FROM rules WHERE office = ? AND id = ?", "ii", (int64_t)office,
                         (int64_t)rule))
        return HLQ_WAIVERS;
    run_sql(l, "INSERT INTO waivers (office, rule, sheet_row, sheet_column, key, note, \"by\", at)"
               " VALUES (?, ?, ?, ?, ?, ?, ?, ?)", "iiiiittt", (int64_t)office, (int64_t)rule, (int64_t)b.i,
            (int64_t)b.j, (int64_t)b.key, note, by, at);
    return HLQ_ACCEPTED;
}

hlq_refusal remove_waiver(line *l, uint32_t office, uint32_t rule, block b) {
    waiver_table *w = read_waivers(l, b.i, b.j);
    hlq_sheet of_line = { .list.m = l->m };
    hlq_refusal refusal = hlq_sheet_remove_waiver(&of_line, office, &w->table, rule, b.key);
    free(w);
    if (!refusal)
        run_sql(l, "DELETE FROM waivers WHERE office = ? AND rule = ? AND sheet_row = ? AND sheet_column = ?"
                   " AND key = ?", "iiiii", (int64_t)office, (int64_t)rule, (int64_t)b.i, (int64_t)b.j, (int64_t)b.key);
    return refusal;
}

static int is_there(line *l, const waiver *w) {
    return number_from_sql(l, 0, "SELECT count(*) FROM waivers WHERE office = ? AND rule = ? AND sheet_row = ? AND"
                                 " sheet_column = ? AND key = ?", "iiiii", (int64_t)w->office, (int64_t)w->rule,
                           (int64_t)w->b.i, (int64_t)w->b.j, (int64_t)w->b.key) != 0;
}

static int by_sheet(const void *a, const void *b) {
    const waiver *x = a, *y = b;
    uint32_t left[] = { x->office, x->b.i, x->b.j, x->rule, x->b.key }, right[] = { y->office, y->b.i, y->b.j, y->rule,
                                                                                    y->b.key };
    for (int i = 0; i < 5; i++) if (left[i] != right[i]) return left[i] < right[i] ? -1 : 1;
    return 0;
}

/* Rows that are there already or stand twice need no place. */
static size_t new_ones(line *l, waiver *rows, size_t count) {
    size_t kept = 0;
    for (size_t i = 0; i < count; i++)
        if ((kept == 0 || by_sheet(&rows[kept - 1], &rows[i]) != 0) && !is_there(l, &rows[i])) rows[kept++] = rows[i];
    return kept;
}

static void must_fit(line *l, const waiver *rows, size_t count) {
    for (size_t i = 0, next; i < count; i = next) {
        waiver w = rows[i];
        for (next = i; next < count && rows[next].office == w.office && rows[next].b.i == w.b.i &&
                       rows[next].b.j == w.b.j; next++)
            continue;
        int64_t there = number_from_sql(l, 0, "SELECT count(*) FROM waivers WHERE office = ? AND sheet_row = ? AND"
                                              " sheet_column = ?", "iii", (int64_t)w.office, (int64_t)w.b.i,
                                        (int64_t)w.b.j);
        if ((uint64_t)there + (next - i) > HLQ_OFFICE_ROWS)
            fail(HLQ_ANSWER_ROOM, "sheet %u.%u needs %llu rows of office %u, which has %lld there and may have %d;"
                                  " nothing was added: refused, %d: %s", w.b.i, w.b.j,
                 (unsigned long long)there + (next - i), w.office, (long long)there, HLQ_OFFICE_ROWS, HLQ_ANSWER_ROOM,
                 refusal_words(HLQ_ANSWER_ROOM));
    }
}

uint64_t add_waivers(line *l, const waiver *rows, size_t count) {
    waiver *sorted = room_for(count, sizeof *sorted);
    for (size_t i = 0; i < count; i++) sorted[i] = rows[i];
    qsort(sorted, count, sizeof *sorted, by_sheet);
    count = new_ones(l, sorted, count);
    must_fit(l, sorted, count);
    for (size_t i = 0; i < count; i++) {
        const waiver *w = &sorted[i];
        hlq_refusal refusal = add_waiver(l, w->office, w->rule, w->b, w->note, w->by, w->at);
        if (refusal == HLQ_WAIVERS)
            fail(HLQ_WAIVERS, "%s%soffice %u has no rule %u: refused, %d: %s", w->where ? w->where : "",
                 w->where ? ": " : "", w->office, w->rule, HLQ_WAIVERS, refusal_words(HLQ_WAIVERS));
        accept_or_end(refusal, w->where);
    }
    free(sorted);
    return count;
}
