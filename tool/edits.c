/* paint, undo, redo, forget, steps: edits of a survey. One transaction is one step, however many sheets it touches. */
#include "answer.h"
#include "classes.h"
#include "commands.h"
#include "steps.h"
#include "window.h"

#include <stdlib.h>

/* The answer of an edit, after it counts. */
static void answer_step(const arguments *a, line *l, int64_t step, uint64_t sheets, uint64_t undo, uint64_t redo) {
    commit_line(l);
    answer_begin(a);
    fact_number("step", (uint64_t)step);
    fact_number("sheets", sheets);
    fact_number("undo", undo);
    fact_number("redo", redo);
    answer_end();
    close_line(l);
}

static void finish_step(const arguments *a, line *l, int64_t step) {
    uint64_t sheets = (uint64_t)number_from_sql(l, 0, "SELECT count(*) FROM step_sheets WHERE step = ?", "i", step);
    uint64_t undo = steps_left(l, 1), redo = steps_left(l, 0);
    answer_step(a, l, step, sheets, undo, redo);
}

/* What is painted: a window, or a block that lies in the survey. */
typedef struct {
    int is_block;
    block b;
    window w;
    uint32_t class;
    char *words;
} painting;

/* A block that reaches over the survey's edge is painted as the window that lies in it. */
static painting painting_of(line *l, const arguments *a, const class_names *classes) {
    painting p = { 0 };
    need_survey(l);
    p.is_block = !a->given[OPTION_BOX] && a->count == 3;
    if (!p.is_block && a->count != 2 + window_words(a))
        fail(STATUS_USAGE, "'prowcurl paint' wants a window and a class, or a block and a class");
    p.class = class_of(classes, a->words[a->count - 1], "CLASS");
    if (p.is_block) {
        p.b = block_of(l, a->words[1], "BLOCK", STATUS_USAGE);
        square q = square_of(l, p.b);
        if (!clip_window(l, q.row, q.column, q.side, q.side, &p.w)) accept_or_end(HLQ_WINDOW, a->words[1]);
        p.words = text_of("paint %s %s", a->words[1], classes->names[p.class]);
        if (p.w.height != q.side || p.w.width != q.side) p.is_block = 0;
    } else {
        p.w = window_of(l, a, 1);
        p.words = text_of("paint %u %u %u %u %s", p.w.row, p.w.column, p.w.height, p.w.width,
                          classes->names[p.class]);
    }
    return p;
}

void run_paint(const arguments *a) {
    line l = open_line(a, TO_WRITE);
    class_names classes = read_classes(&l);
    painting p = painting_of(&l, a, &classes);
    drop_redo(&l, p.w);
    int64_t step = begin_step(&l, a, p.words);
    for (walk r = sheets_to_paint(&l, p.w); next_sheet(&r);) {
        sheet *s = &r.sheet;
        accept_or_end(p.is_block ? hlq_sheet_paint(&s->map, p.b.key, p.class)
                                 : hlq_sheet_paint_window(&s->map, part_on(s, p.w), p.class), NULL);
        write_sheet(&l, s);
        note_sheet(&l, step, s);
    }
    free(p.words);
    give_back_classes(&classes);
    finish_step(a, &l, step);
}

/* Both ways: on each sheet of the step the library takes its last step back, or puts the next one forth. */
static void move_step(const arguments *a, int forth) {
    line l = open_line(a, TO_WRITE);
    need_survey(&l);
    int64_t step = forth ? next_redo(&l) : next_undo(&l);
    if (step == 0) accept_or_end(forth ? HLQ_NO_REDO : HLQ_LOG_EMPTY, NULL);
    sqlite3_stmt *row = ask_sql(&l, "SELECT sheet_row, sheet_column FROM step_sheets WHERE step = ?"
                                    " ORDER BY sheet_row, sheet_column", "i", step);
    while (next_row(&l, row)) {
        sheet s = read_sheet(&l, u32_at(row, 0), u32_at(row, 1));
        char *what = text_of("%s, sheet %u.%u", l.path, s.i, s.j);
        accept_or_end(forth ? hlq_sheet_redo(&s.map) : hlq_sheet_take_back(&s.map), what);
        write_sheet(&l, &s);
        give_back_sheet(&s);
        free(what);
    }
    run_sql(&l, "UPDATE steps SET done = ? WHERE id = ?", "ii", (int64_t)forth, step);
    finish_step(a, &l, step);
}

void run_undo(const arguments *a) { move_step(a, 0); }
void run_redo(const arguments *a) { move_step(a, 1); }

/* The survey stays as it is; its steps and its logs go. */
void run_forget(const arguments *a) {
    line l = open_line(a, TO_WRITE);
    need_survey(&l);
    uint64_t forgotten = steps_left(&l, 0) + steps_left(&l, 1);
    sqlite3_stmt *row = ask_sql(&l, "SELECT sheet_row, sheet_column FROM sheets WHERE survey = ? AND used > 0", "i",
                                l.survey);
    block_list logged = { 0 };
    while (next_row(&l, row)) add_block(&logged, (block){ u32_at(row, 0), u32_at(row, 1), 0 });
    for (size_t i = 0; i < logged.count; i++) {
        sheet s = read_sheet(&l, logged.at[i].i, logged.at[i].j);
        hlq_sheet_empty(&s.map);
        write_sheet(&l, &s);
        give_back_sheet(&s);
    }
    free(logged.at);
    run_sql(&l, "DELETE FROM steps WHERE survey = ?", "i", l.survey);
    commit_line(&l);
    answer_begin(a);
    fact_number("forgotten", forgotten);
    fact_number("undo", 0);
    fact_number("redo", 0);
    answer_end();
    close_line(&l);
}

void run_steps(const arguments *a) {
    static const column columns[] = { { "step", 5 }, { "words", -36 }, { "by", -12 }, { "at", -20 }, { "done", -4 } };
    line l = open_line(a, TO_READ);
    need_survey(&l);
    answer_begin(a);
    fact_number("undo", steps_left(&l, 1));
    fact_number("redo", steps_left(&l, 0));
    table_begin("steps", columns, 5);
    sqlite3_stmt *row = ask_sql(&l, "SELECT id, words, \"by\", at, done FROM steps WHERE survey = ? ORDER BY id", "i",
                                l.survey);
    while (next_row(&l, row)) {
        cell_signed(sqlite3_column_int64(row, 0));
        for (int i = 1; i < 4; i++) cell_words(text_at(row, i));
        cell_truth(sqlite3_column_int(row, 4));
    }
    table_end();
    answer_end();
    close_line(&l);
}
