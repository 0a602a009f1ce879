/* set, get: classes, rules, prices and waivers from a CSV and into one. All rows of a file count, or none. */
#define _DEFAULT_SOURCE
#include "answer.h"
#include "classes.h"
#include "commands.h"
#include "files.h"
#include "rules.h"
#include "waivers.h"

#include <stdlib.h>
#include <string.h>
#include <time.h>

typedef enum { TABLE_CLASSES, TABLE_RULES, TABLE_PRICES, TABLE_WAIVERS } table;

static table table_named(const char *word) {
    static const char *const names[] = { "classes", "rules", "prices", "waivers" };
    for (int i = 0; i < 4; i++) if (strcmp(names[i], word) == 0) return (table)i;
    fail(STATUS_USAGE, "'%s' is none of classes, rules, prices and waivers", word);
}

char *now_text(void) {
    char text[32];
    time_t now = time(NULL);
    struct tm day;
    gmtime_r(&now, &day);
    strftime(text, sizeof text, "%Y-%m-%dT%H:%M:%SZ", &day);
    return text_of("%s", text);
}

/* The office of a row: its own column, or --office, which must agree. Somebody must say it. */
static uint32_t office_at(const arguments *a, const csv *file, size_t row) {
    size_t column = column_if_any(file, "office");
    if (column == file->columns) return (uint32_t)office_of(a, 1);
    long long office = number_at(file, row, column, 0, UINT32_MAX);
    if (office > 1) accept_or_end(HLQ_OFFICE, where_in(file, row));
    if (a->given[OPTION_OFFICE] && office != office_of(a, 1))
        fail(STATUS_DATA, "%s, line %zu: office %lld, but --office says %d", file->path, file->lines[row], office,
             office_of(a, 1));
    return (uint32_t)office;
}

/* Rows of one office are replaced where it is named, else those of both. */
static void empty_table(line *l, const arguments *a, const csv *file, const char *sql) {
    int whole = column_if_any(file, "office") < file->columns && !a->given[OPTION_OFFICE];
    run_sql(l, sql, "i", (int64_t)(whole ? -1 : office_of(a, 1)));
}

static void set_rule(line *l, const arguments *a, const csv *file, size_t row, const class_names *classes) {
    char *where = where_in(file, row);
    rule r = { .office = office_at(a, file, row),
               .id = (uint32_t)number_at(file, row, column_of(file, "id"), 0, UINT32_MAX),
               .class = class_at(classes, file, row, column_of(file, "class")),
               .row = number_at(file, row, column_of(file, "row"), 0, UINT32_MAX),
               .column = number_at(file, row, column_of(file, "column"), 0, UINT32_MAX),
               .height = number_at(file, row, column_of(file, "height"), 0, UINT32_MAX),
               .width = number_at(file, row, column_of(file, "width"), 0, UINT32_MAX) };
    accept_rule(l, &r, where);
    if (number_from_sql(l, 0, "SELECT count(*) FROM rules WHERE office = ? AND id = ?", "ii", (int64_t)r.office,
                        (int64_t)r.id))
        fail(HLQ_RULES, "%s: rule %u of office %u stands twice: refused, %d: %s", where, r.id, r.office, HLQ_RULES,
             refusal_words(HLQ_RULES));
    run_sql(l, "INSERT INTO rules (office, id, name, class, \"row\", \"column\", height, width)"
               " VALUES (?, ?, ?, ?, ?, ?, ?, ?)", "iitiiiii", (int64_t)r.office, (int64_t)r.id,
            field_at(file, row, column_if_any(file, "name")), (int64_t)r.class, r.row, r.column, r.height, r.width);
    free(where);
}

/* A rule that has waivers cannot go: the foreign key would be broken, and is told here in words. */
static void need_rules_of_waivers(line *l, const csv *file) {
    sqlite3_stmt *row = ask_sql(l, "SELECT office, rule, count(*) FROM waivers WHERE NOT EXISTS (SELECT 1 FROM rules"
                                   " WHERE rules.office = waivers.office AND id = rule) GROUP BY office, rule", "");
    if (!next_row(l, row)) return;
    fail(STATUS_DATA, "%s has no rule %s, for which office %s has %s waivers; take these out first ('get' and 'set' "
                      "waivers, or unwaive)", file->path, text_at(row, 1), text_at(row, 0), text_at(row, 2));
}

static void set_rules(line *l, const arguments *a, const csv *file) {
    static const char *const wanted[] = { "id", "class", "row", "column", "height", "width" };
    class_names classes = read_classes(l);
    for (int i = 0; i < 6; i++) column_of(file, wanted[i]);
    empty_table(l, a, file, "DELETE FROM rules WHERE ? IN (-1, office)");
    for (size_t row = 0; row < file->rows; row++) set_rule(l, a, file, row, &classes);
    need_rules_of_waivers(l, file);
    give_back_classes(&classes);
}

/* A class that has no row gets one with its number for a name. */
static void set_prices(line *l, const csv *file) {
    class_names classes = read_classes(l);
    size_t class = column_of(file, "class"), price = column_of(file, "price");
    uint8_t seen[HLQ_MOST_SLOTS] = { 0 };
    run_sql(l, "UPDATE classes SET price = NULL", "");
    for (size_t row = 0; row < file->rows; row++) {
        uint32_t f = class_at(&classes, file, row, class);
        if (f >= l->slots || seen[f]++)
            fail(STATUS_DATA, "%s, line %zu: class %u %s", file->path, file->lines[row], f,
                 f >= l->slots ? "is none of this line" : "stands twice");
        run_sql(l, "INSERT INTO classes (class, name) VALUES (?, ?) ON CONFLICT (class) DO NOTHING", "it", (int64_t)f,
                classes.names[f]);
        run_sql(l, "UPDATE classes SET price = ? WHERE class = ?", "di", decimal_at(file, row, price), (int64_t)f);
    }
    give_back_classes(&classes);
}

/* The block of a row: columns sheet and key, or key alone as a block is written. */
static block block_at(const line *l, const csv *file, size_t row, const char *where) {
    const char *key = field_at(file, row, column_of(file, "key"));
    size_t sheet = column_if_any(file, "sheet");
    if (sheet == file->columns || !*field_at(file, row, sheet)) return block_of(l, key, where, STATUS_DATA);
    block b = { .key = key_of(l->m, key, where, STATUS_DATA) };
    sheet_of(l, field_at(file, row, sheet), where, STATUS_DATA, &b.i, &b.j);
    return b;
}

static void set_waivers(line *l, const arguments *a, const csv *file) {
    size_t rule = column_of(file, "rule"), note = column_if_any(file, "note");
    size_t by = column_if_any(file, "by"), at = column_if_any(file, "at");
    char *who = editor_of(a), *when = now_text();
    need_survey(l);
    column_of(file, "key");
    empty_table(l, a, file, "DELETE FROM waivers WHERE ? IN (-1, office)");
    for (size_t row = 0; row < file->rows; row++) {
        char *where = where_in(file, row);
        uint32_t office = office_at(a, file, row), id = (uint32_t)number_at(file, row, rule, 0, UINT32_MAX);
        hlq_refusal refusal =
            add_waiver(l, office, id, block_at(l, file, row, where), field_at(file, row, note),
                       by < file->columns ? field_at(file, row, by) : who,
                       at < file->columns ? field_at(file, row, at) : when);
        if (refusal == HLQ_WAIVERS)
            fail(HLQ_WAIVERS, "%s: office %u has no rule %u: refused, %d: %s", where, office, id, HLQ_WAIVERS,
                 refusal_words(HLQ_WAIVERS));
        accept_or_end(refusal, where);
        free(where);
    }
    free(who);
    free(when);
}

/* The classes of a line without a survey say how many slots it has. */
static void set_classes(line *l, const csv *file) {
    take_classes(l, file);
    if (l->rows || slots_of_file(file) <= l->filler) return;
    l->slots = slots_of_file(file);
    run_sql(l, "UPDATE prowcurl SET slots = ?", "i", (int64_t)l->slots);
}

void run_set(const arguments *a) {
    table what = table_named(a->words[1]);
    csv file = read_csv(a->words[2]);
    line l = open_line(a, TO_WRITE);
    if (what == TABLE_CLASSES) set_classes(&l, &file);
    else if (what == TABLE_RULES) set_rules(&l, a, &file);
    else if (what == TABLE_PRICES) set_prices(&l, &file);
    else set_waivers(&l, a, &file);
    commit_line(&l);
    answer_begin(a);
    fact_words("line", l.path);
    fact_words("table", a->words[1]);
    fact_number("rows", file.rows);
    answer_end();
    close_line(&l);
    give_back_csv(&file);
}

/* What get writes: its question, and of its columns which are numbers (n), text (t) and keys (k). */
static const struct {
    const char *sql, *kinds;
    column columns[10];
} written[] = {
    { "SELECT class, name, colour, grey, price FROM classes WHERE ?1 IS NOT NULL ORDER BY class", "nttdt",
      { { "class", 5 }, { "name", -16 }, { "colour", -8 }, { "grey", -8 }, { "price", 10 } } },
    { "SELECT office, id, \"row\", \"column\", height, width, class, name FROM rules WHERE ?1 IN (-1, office)"
      " ORDER BY office, id", "nnnnnnnt",
      { { "office", 6 }, { "id", 6 }, { "row", 7 }, { "column", 7 }, { "height", 7 }, { "width", 7 }, { "class", 5 },
        { "name", -20 } } },
    { "SELECT class, price FROM classes WHERE price IS NOT NULL AND ?1 IS NOT NULL ORDER BY class", "nd",
      { { "class", 5 }, { "price", 10 } } },
    { "SELECT office, rule, sheet_row || '.' || sheet_column, key, note, \"by\", at FROM waivers"
      " WHERE ?1 IN (-1, office) ORDER BY office, rule, sheet_row, sheet_column, key", "nntkttt",
      { { "office", 6 }, { "rule", 6 }, { "sheet", -7 }, { "key", -10 }, { "note", -24 }, { "by", -10 },
        { "at", -20 } } },
};

static void write_cell(const line *l, sqlite3_stmt *row, int column, char kind) {
    char key[KEY_TEXT];
    if (sqlite3_column_type(row, column) == SQLITE_NULL) {
        cell_nothing();
    } else if (kind == 'n') {
        cell_signed(sqlite3_column_int64(row, column));
    } else if (kind == 'd') {
        cell_decimal(sqlite3_column_double(row, column));
    } else if (kind == 'k') {
        key_text(l->m, u32_at(row, column), key);
        cell_words(key);
    } else {
        cell_words(text_at(row, column));
    }
}

void run_get(const arguments *a) {
    table what = table_named(a->words[1]);
    const char *path = a->count == 3 ? a->words[2] : "-";
    line l = open_line(a, TO_READ);
    may_replace(a, path, KIND_CSV);
    int office = a->given[OPTION_OFFICE] ? office_of(a, 1) : -1, count = (int)strlen(written[what].kinds);
    output to = open_output(path);
    answer_to(to.file, a->given[OPTION_JSON] ? ANSWER_JSON : ANSWER_CSV);
    table_begin(a->words[1], written[what].columns, count);
    sqlite3_stmt *row = ask_sql(&l, written[what].sql, "i", (int64_t)office);
    while (next_row(&l, row))
        for (int i = 0; i < count; i++) write_cell(&l, row, i, written[what].kinds[i]);
    table_end();
    answer_end();
    end_output(&to);
    close_line(&l);
}
