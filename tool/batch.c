/* batch: many windows of one survey. Each sheet is read once and asked all questions that meet it in one call. */
#define _DEFAULT_SOURCE
#include "answer.h"
#include "classes.h"
#include "commands.h"
#include "window.h"

#include <stdlib.h>
#include <string.h>
#include <time.h>
#include <unistd.h>

/* A question with its window clipped to the survey, and its answer so far. */
typedef struct {
    window w;
    uint32_t report, class, refusal, value;
} question;

static void read_question(question *q, const line *l, const class_names *classes, const csv *file, size_t row,
                          const size_t columns[6]) {
    const char *word = field_at(file, row, columns[0]);
    if (strcmp(word, "exist") != 0 && strcmp(word, "report") != 0)
        fail(STATUS_DATA, "%s, line %zu, column ask: '%s' is neither exist nor report", file->path, file->lines[row],
             word);
    q->report = strcmp(word, "report") == 0;
    long long top = number_at(file, row, columns[1], INT32_MIN, INT32_MAX);
    long long left = number_at(file, row, columns[2], INT32_MIN, INT32_MAX);
    uint64_t height = (uint64_t)number_at(file, row, columns[3], 0, UINT32_MAX);
    uint64_t width = (uint64_t)number_at(file, row, columns[4], 0, UINT32_MAX);
    if (!q->report) q->class = class_at(classes, file, row, columns[5]);
    if (!clip_window(l, top, left, height, width, &q->w)) q->refusal = HLQ_WINDOW;
    else if (!q->report && q->class >= l->slots) q->refusal = HLQ_FEATURE;
}

static question *read_questions(const line *l, const class_names *classes, const csv *file) {
    static const char *const names[] = { "ask", "row", "column", "height", "width", "class" };
    size_t columns[6];
    for (int i = 0; i < 6; i++) columns[i] = column_of(file, names[i]);
    question *questions = room_for(file->rows, sizeof *questions);
    for (size_t row = 0; row < file->rows; row++) read_question(&questions[row], l, classes, file, row, columns);
    return questions;
}

static int meets(const line *l, const question *q, uint32_t i, uint32_t j) {
    if (q->refusal) return 0;
    return i >= q->w.row >> l->m && i <= (q->w.row + q->w.height - 1) >> l->m && j >= q->w.column >> l->m &&
           j <= (q->w.column + q->w.width - 1) >> l->m;
}

/* What the questions that meet one sheet get from it. */
static void ask_sheet(line *l, uint32_t i, uint32_t j, question *questions, size_t count, hlq_question *asked,
                      uint32_t *refusals, uint32_t *values) {
    size_t used = 0, at = 0;
    for (size_t q = 0; q < count; q++) used += (size_t)meets(l, &questions[q], i, j);
    if (used == 0) return;
    sheet s = read_sheet(l, i, j);
    for (size_t q = 0; q < count; q++) {
        if (!meets(l, &questions[q], i, j)) continue;
        hlq_dragged w = on_sheet(&s, questions[q].w);
        asked[at++] = (hlq_question){ questions[q].report, w.row, w.column, w.height, w.width, questions[q].class };
    }
    accept_or_end(hlq_sheet_batch(&s.map, asked, used, refusals, values), NULL);
    at = 0;
    for (size_t q = 0; q < count; q++) {
        if (!meets(l, &questions[q], i, j)) continue;
        accept_or_end(refusals[at], "a question that was clipped to the survey");
        questions[q].value |= values[at++];
    }
    give_back_sheet(&s);
}

static double now(void) {
    struct timespec t;
    clock_gettime(CLOCK_MONOTONIC, &t);
    return (double)t.tv_sec + (double)t.tv_nsec * 1e-9;
}

/* On a terminal a line tells how far it is; it comes after a second. */
static void ask_all(line *l, question *questions, size_t count) {
    hlq_question *asked = room_for(count, sizeof *asked);
    uint32_t *refusals = room_for(count, sizeof *refusals), *values = room_for(count, sizeof *values);
    uint32_t done = 0, all = sheet_rows(l) * sheet_columns(l);
    int told = 0;
    double begun = now();
    for (uint32_t i = 0; i < sheet_rows(l); i++) {
        for (uint32_t j = 0; j < sheet_columns(l); j++) {
            ask_sheet(l, i, j, questions, count, asked, refusals, values);
            done++;
            if (!isatty(STDERR_FILENO) || now() - begun < 1) continue;
            fprintf(stderr, "\r%u of %u sheets, %u %%", done, all, (uint32_t)((uint64_t)done * 100 / all));
            told = 1;
        }
    }
    if (told) fputs("\r\033[K", stderr);
    free(asked);
    free(refusals);
    free(values);
}

static void write_answers(const arguments *a, const csv *file, const question *questions) {
    static const column columns[] = { { "line", 6 }, { "ask", -6 }, { "refusal", 7 }, { "exists", -6 },
                                      { "classes", -12 }, { "words", -10 } };
    answer_begin(a);
    fact_number("questions", file->rows);
    table_begin("answers", columns, 6);
    for (size_t i = 0; i < file->rows; i++) {
        const question *q = &questions[i];
        cell_number(file->lines[i]);
        cell_words(q->report ? "report" : "exist");
        cell_number(q->refusal);
        if (q->refusal || q->report) cell_nothing();
        else cell_truth(q->value != 0);
        if (q->refusal || !q->report) cell_nothing();
        else cell_classes(q->value);
        cell_words(q->refusal ? refusal_words(q->refusal) : "");
    }
    table_end();
    answer_end();
}

void run_batch(const arguments *a) {
    line l = open_line(a, TO_READ);
    need_survey(&l);
    class_names classes = read_classes(&l);
    csv file = read_csv(a->words[1]);
    question *questions = read_questions(&l, &classes, &file);
    ask_all(&l, questions, file.rows);
    write_answers(a, &file, questions);
    free(questions);
    give_back_csv(&file);
    give_back_classes(&classes);
    close_line(&l);
}
