/* The steps of a survey, in the tables steps and step_sheets. */
#include "steps.h"

#include "commands.h"

#include <stdlib.h>

uint64_t steps_left(line *l, int done) {
    return (uint64_t)number_from_sql(l, 0, "SELECT count(*) FROM steps WHERE survey = ? AND done = ?", "ii", l->survey,
                                     (int64_t)done);
}

int64_t next_undo(line *l) {
    return number_from_sql(l, 0, "SELECT max(id) FROM steps WHERE survey = ? AND done = 1", "i", l->survey);
}

int64_t next_redo(line *l) {
    return number_from_sql(l, 0, "SELECT min(id) FROM steps WHERE survey = ? AND done = 0", "i", l->survey);
}

void drop_redo(line *l, window w) {
    block_list touched = { 0 };
    sqlite3_stmt *row = ask_sql(l, "SELECT DISTINCT sheet_row, sheet_column FROM step_sheets JOIN steps ON id = step"
                                   " WHERE steps.survey = ? AND done = 0", "i", l->survey);
    while (next_row(l, row)) add_block(&touched, (block){ u32_at(row, 0), u32_at(row, 1), 0 });
    for (size_t k = 0; k < touched.count; k++) {
        uint32_t i = touched.at[k].i, j = touched.at[k].j;
        int painted = i >= w.row >> l->m && i <= (w.row + w.height - 1) >> l->m && j >= w.column >> l->m &&
                      j <= (w.column + w.width - 1) >> l->m;
        if (painted) continue;
        sheet s = read_sheet(l, i, j);
        s.map.used = s.map.in_force;
        write_sheet(l, &s);
        give_back_sheet(&s);
    }
    free(touched.at);
    run_sql(l, "DELETE FROM steps WHERE survey = ? AND done = 0", "i", l->survey);
}

int64_t begin_step(line *l, const arguments *a, const char *words) {
    char *who = editor_of(a), *when = now_text();
    run_sql(l, "INSERT INTO steps (survey, words, \"by\", at, done) VALUES (?, ?, ?, ?, 1)", "ittt", l->survey, words,
            who, when);
    free(who);
    free(when);
    return sqlite3_last_insert_rowid(l->db);
}

void note_sheet(line *l, int64_t step, const sheet *s) {
    run_sql(l, "INSERT INTO step_sheets VALUES (?, ?, ?, ?)", "iiii", step, l->survey, (int64_t)s->i, (int64_t)s->j);
}
