/* info, check: what is in a line, and whether all of it is sound. */
#include "answer.h"
#include "classes.h"
#include "commands.h"
#include "sheet.h"
#include "steps.h"

#include <stdlib.h>
#include <string.h>

static void write_surveys(line *l) {
    static const column columns[] = { { "name", -16 }, { "taken", -10 } };
    table_begin("surveys", columns, 2);
    sqlite3_stmt *row = ask_sql(l, "SELECT name, taken FROM surveys ORDER BY id", "");
    while (next_row(l, row)) {
        cell_words(text_at(row, 0));
        if (*text_at(row, 1)) cell_words(text_at(row, 1));
        else cell_nothing();
    }
    table_end();
}

static void write_system(line *l) {
    sqlite3_stmt *row = ask_sql(l, "SELECT srs_name, organization, organization_coordsys_id FROM gpkg_spatial_ref_sys"
                                   " WHERE srs_id = ?", "i", l->srs);
    if (!next_row(l, row)) fail(STATUS_DATA, "%s: its coordinate system is missing", l->path);
    char *words = l->srs < 0 ? text_of("none")
                             : text_of("%s (%s:%s)", text_at(row, 0), text_at(row, 1), text_at(row, 2));
    leave(row);
    fact_words("system", words);
    free(words);
}

void run_info(const arguments *a) {
    line l = open_line(a, TO_READ);
    answer_begin(a);
    fact_words("line", l.path);
    fact_number("rows", l.rows);
    fact_number("columns", l.columns);
    fact_number("side", side_of(&l));
    fact_number("sheets", (uint64_t)sheet_rows(&l) * sheet_columns(&l));
    fact_number("slots", l.slots);
    fact_number("filler", l.filler);
    fact_exact("cell", l.cell);
    fact_exact("west", l.west);
    fact_exact("north", l.north);
    write_system(&l);
    if (l.survey) fact_words("survey", l.survey_name);
    else fact_nothing("survey");
    fact_number("undo", steps_left(&l, 1));
    fact_number("redo", steps_left(&l, 0));
    fact_number("classes", (uint64_t)number_from_sql(&l, 0, "SELECT count(*) FROM classes", ""));
    fact_number("rules", (uint64_t)number_from_sql(&l, 0, "SELECT count(*) FROM rules", ""));
    fact_number("waivers", (uint64_t)number_from_sql(&l, 0, "SELECT count(*) FROM waivers", ""));
    write_surveys(&l);
    answer_end();
    close_line(&l);
}

/* The list of a raster is one list alone, so what the sheet's raster gives when it is built must be what is there. */
static void check_list(const sheet *a, const char *what) {
    const hlq_list *list = &a->map.list;
    sheet again = new_sheet(list->m, list->s, a->i, a->j, 0);
    uint8_t *raster = raster_of(a);
    accept_or_end(hlq_sheet_build(&again.map, raster, (size_t)1 << 2 * list->m), what);
    if (again.map.list.n != list->n || memcmp(again.map.list.keys, list->keys, list->n * sizeof *list->keys) != 0 ||
        memcmp(again.map.list.bits, list->bits, list->n * sizeof *list->bits) != 0)
        fail(STATUS_DATA, "%s: its raster gives another list", what);
    free(raster);
    give_back_sheet(&again);
}

/* The library checks a log at every edit: all steps are taken back, in memory alone, and counted against the table. */
static void check_log(line *l, int64_t survey, sheet *a, const char *what) {
    int64_t steps = number_from_sql(l, 0, "SELECT count(*) FROM step_sheets JOIN steps ON id = step WHERE done AND"
                                          " step_sheets.survey = ? AND sheet_row = ? AND sheet_column = ?", "iii",
                                    survey, (int64_t)a->i, (int64_t)a->j), taken = 0;
    hlq_refusal refusal;
    while ((refusal = hlq_sheet_take_back(&a->map)) == HLQ_ACCEPTED) taken++;
    if (refusal != HLQ_LOG_EMPTY) accept_or_end(refusal, what);
    if (taken != steps)
        fail(STATUS_DATA, "%s: its log has %lld steps, but the table steps has %lld for it", what, (long long)taken,
             (long long)steps);
}

/* The database's own check: its pages, its indexes, its foreign keys. */
static void check_database(line *l) {
    sqlite3_stmt *row = ask_sql(l, "PRAGMA integrity_check(1)", "");
    while (next_row(l, row))
        if (strcmp(text_at(row, 0), "ok") != 0)
            fail(STATUS_DATA, "%s: the database is damaged: %s", l->path, text_at(row, 0));
    row = ask_sql(l, "PRAGMA foreign_key_check", "");
    while (next_row(l, row))
        fail(STATUS_DATA, "%s, table %s, row %s: names a row of table %s that is not there", l->path, text_at(row, 0),
             text_at(row, 1), text_at(row, 2));
}

static uint64_t check_sheets(line *l, int64_t survey, const char *name, uint64_t *records) {
    uint64_t sheets = 0;
    for (uint32_t i = 0; i < sheet_rows(l); i++) {
        for (uint32_t j = 0; j < sheet_columns(l); j++, sheets++) {
            char *what = text_of("%s, survey '%s', sheet %u.%u", l->path, name, i, j);
            sheet a = read_sheet_of(l, survey, i, j);
            check_list(&a, what);
            *records += a.map.used;
            check_log(l, survey, &a, what);
            give_back_sheet(&a);
            free(what);
        }
    }
    int64_t there = number_from_sql(l, 0, "SELECT count(*) FROM sheets WHERE survey = ?", "i", survey);
    if ((uint64_t)there != sheets)
        fail(STATUS_DATA, "%s, survey '%s': %lld sheets, but the line has %llu", l->path, name, (long long)there,
             (unsigned long long)sheets);
    return sheets;
}

void run_check(const arguments *a) {
    line l = open_line(a, TO_READ);
    uint64_t sheets = 0, records = 0;
    check_database(&l);
    class_names classes = read_classes(&l); /* says what is wrong with them */
    sqlite3_stmt *row = ask_sql(&l, "SELECT id, name FROM surveys ORDER BY id", "");
    while (next_row(&l, row)) sheets += check_sheets(&l, sqlite3_column_int64(row, 0), text_at(row, 1), &records);
    answer_begin(a);
    fact_words("line", "sound");
    fact_number("surveys", (uint64_t)number_from_sql(&l, 0, "SELECT count(*) FROM surveys", ""));
    fact_number("sheets", sheets);
    fact_number("log_records", records);
    answer_end();
    give_back_classes(&classes);
    close_line(&l);
}
