/* change: two surveys of a line combined, pixel by pixel, into a third. */
#include "answer.h"
#include "classes.h"
#include "commands.h"
#include "window.h"

#include <stdlib.h>
#include <string.h>

static int64_t survey_named(line *l, const char *name) {
    int64_t id = number_from_sql(l, 0, "SELECT id FROM surveys WHERE name = ?", "t", name);
    if (id == 0) fail(STATUS_USAGE, "%s has no survey '%s'; 'prowcurl info' lists them", l->path, name);
    return id;
}

/* The class of each pair, from the table's rows and --else. */
static uint8_t *read_pairs(const arguments *a, const line *l, const class_names *classes) {
    csv file = read_csv(a->words[3]);
    size_t old = column_of(&file, "old"), new = column_of(&file, "new"), class = column_of(&file, "class");
    size_t s = l->slots, pairs = s * s;
    uint8_t *table = room_for(pairs, 1), *given = room_for(pairs, 1);
    const char *others = value_of(a, OPTION_ELSE);
    memset(table, others ? (int)class_of(classes, others, "--else") : 0, pairs);
    for (size_t row = 0; row < file.rows; row++) {
        uint32_t before = class_at(classes, &file, row, old), after = class_at(classes, &file, row, new);
        uint32_t to = class_at(classes, &file, row, class);
        if (before >= s || after >= s || to >= s)
            fail(STATUS_DATA, "%s, line %zu: %u is no class of this line", file.path, file.lines[row],
                 before >= s ? before : after >= s ? after : to);
        if (given[before * s + after]++)
            fail(STATUS_DATA, "%s, line %zu: the pair %u, %u stands twice", file.path, file.lines[row], before, after);
        table[before * s + after] = (uint8_t)to;
    }
    for (size_t i = 0; i < pairs; i++)
        if (!given[i] && !others)
            fail(STATUS_DATA, "%s: the pair %zu, %zu is missing; --else CLASS gives it a class", file.path, i / s,
                 i % s);
    free(given);
    give_back_csv(&file);
    return table;
}

static void combine(line *l, const char *name, int64_t survey, int64_t old, int64_t new, const uint8_t *table) {
    for (uint32_t i = 0; i < sheet_rows(l); i++) {
        for (uint32_t j = 0; j < sheet_columns(l); j++) {
            sheet one = read_sheet_of(l, old, i, j), two = read_sheet_of(l, new, i, j);
            sheet made = new_sheet(l->m, l->slots, i, j, 0);
            accept_or_end(hlq_sheet_combine(&one.map, &two.map, table, (size_t)l->slots * l->slots, &made.map), NULL);
            insert_sheet(l, "sheets", survey, name, &made);
            give_back_sheet(&one);
            give_back_sheet(&two);
            give_back_sheet(&made);
        }
    }
}

void run_change(const arguments *a) {
    const char *taken = day_given(a);
    line l = open_line(a, TO_WRITE);
    class_names classes = read_classes(&l);
    need_survey(&l);
    int64_t old = survey_named(&l, a->words[1]), new = survey_named(&l, a->words[2]);
    char *name = a->given[OPTION_AS] ? text_of("%s", value_of(a, OPTION_AS))
                                     : text_of("%s to %s", a->words[1], a->words[2]);
    need_free_name(&l, name);
    uint8_t *table = read_pairs(a, &l, &classes);
    run_sql(&l, "INSERT INTO surveys (name, taken) VALUES (?, ?)", "tt", name, taken);
    int64_t survey = sqlite3_last_insert_rowid(l.db);
    combine(&l, name, survey, old, new, table);
    uint64_t bytes = (uint64_t)number_from_sql(&l, 0, "SELECT sum(length(list)) FROM sheets WHERE survey = ?", "i",
                                               survey);
    commit_line(&l);
    answer_survey(a, &l, name, bytes);
    free(table);
    free(name);
    give_back_classes(&classes);
    close_line(&l);
}
