/* A line opened, asked and written through SQLite. line_tables.c has its tables. */
#define _DEFAULT_SOURCE
#include "line.h"

#include "files.h"
#include "line_tables.h"

#include <errno.h>
#include <math.h>
#include <stdarg.h>
#include <stdlib.h>
#include <string.h>
#include <unistd.h>

/* The connections that are open, so that whatever ends the tool rolls back and leaves no journal behind. */
static sqlite3 *open_connections[2];

static void close_connections(void) {
    for (int i = 0; i < 2; i++) {
        sqlite3 *db = open_connections[i];
        if (!db) continue;
        for (sqlite3_stmt *s; (s = sqlite3_next_stmt(db, NULL));) sqlite3_finalize(s);
        sqlite3_close(db);
        open_connections[i] = NULL;
    }
}

static void note_connection(sqlite3 *db) {
    static int registered;
    if (!registered) registered = atexit(close_connections) == 0;
    int i = 0;
    while (i < 1 && open_connections[i]) i++;
    open_connections[i] = db;
}

static void forget_connection(sqlite3 *db) {
    for (int i = 0; i < 2; i++) if (open_connections[i] == db) open_connections[i] = NULL;
}

static int status_of(int code) {
    switch (code & 255) {
    case SQLITE_BUSY:
    case SQLITE_LOCKED: return STATUS_BUSY;
    case SQLITE_NOTADB:
    case SQLITE_CORRUPT:
    case SQLITE_SCHEMA:
    case SQLITE_CONSTRAINT:
    case SQLITE_MISMATCH:
    case SQLITE_TOOBIG:
    case SQLITE_ERROR: return STATUS_DATA; /* a table or a column that is not there */
    case SQLITE_READONLY:
    case SQLITE_PERM: return STATUS_CANNOT_CREATE;
    case SQLITE_CANTOPEN: return STATUS_NO_INPUT;
    case SQLITE_NOMEM: return STATUS_MEMORY;
    default: return STATUS_IO;
    }
}

static const char *cure_for(int code) {
    switch (code & 255) {
    case SQLITE_BUSY:
    case SQLITE_LOCKED: return "another program is writing it; try again, or wait longer with --wait SECONDS";
    case SQLITE_NOTADB: return "not a line: it is no database";
    case SQLITE_READONLY: return "cannot be written: the file or its folder is read-only";
    case SQLITE_FULL: return "the disk is full; nothing was changed";
    case SQLITE_CANTOPEN: return "cannot be opened, or a file beside it cannot be made";
    case SQLITE_CORRUPT: return "the database is damaged; 'prowcurl check' tells where";
    default: return NULL;
    }
}

_Noreturn void fail_as_sqlite(const line *l, int code) {
    const char *cure = cure_for(code), *words = l->db ? sqlite3_errmsg(l->db) : sqlite3_errstr(code);
    if (cure) fail(status_of(code), "%s: %s", l->path, cure);
    fail(status_of(code), "%s: %s", l->path, words);
}

static void bind_values(line *l, sqlite3_stmt *s, const char *kinds, va_list values) {
    for (int i = 1; kinds[i - 1]; i++) {
        int code = SQLITE_OK;
        switch (kinds[i - 1]) {
        case 'i': code = sqlite3_bind_int64(s, i, va_arg(values, int64_t)); break;
        case 'd': code = sqlite3_bind_double(s, i, va_arg(values, double)); break;
        case 't': code = sqlite3_bind_text(s, i, va_arg(values, const char *), -1, SQLITE_TRANSIENT); break;
        case 'b': {
            const void *bytes = va_arg(values, const void *);
            code = sqlite3_bind_blob64(s, i, bytes, va_arg(values, size_t), SQLITE_TRANSIENT);
            break;
        }
        default: code = sqlite3_bind_null(s, i);
        }
        if (code != SQLITE_OK) fail_as_sqlite(l, code);
    }
}

static sqlite3_stmt *prepared(line *l, const char *sql) {
    sqlite3_stmt *s = NULL;
    int code = sqlite3_prepare_v2(l->db, sql, -1, &s, NULL);
    if (code != SQLITE_OK) fail_as_sqlite(l, code);
    return s;
}

sqlite3_stmt *ask_sql(line *l, const char *sql, const char *kinds, ...) {
    va_list values;
    va_start(values, kinds);
    sqlite3_stmt *s = prepared(l, sql);
    bind_values(l, s, kinds, values);
    va_end(values);
    return s;
}

int next_row(line *l, sqlite3_stmt *asked) {
    int code = sqlite3_step(asked);
    if (code == SQLITE_ROW) return 1;
    if (code != SQLITE_DONE) fail_as_sqlite(l, code);
    sqlite3_finalize(asked);
    return 0;
}

void leave(sqlite3_stmt *asked) { sqlite3_finalize(asked); }

void run_sql(line *l, const char *sql, const char *kinds, ...) {
    va_list values;
    va_start(values, kinds);
    sqlite3_stmt *s = prepared(l, sql);
    bind_values(l, s, kinds, values);
    va_end(values);
    while (next_row(l, s)) continue;
}

int64_t number_from_sql(line *l, int64_t otherwise, const char *sql, const char *kinds, ...) {
    va_list values;
    va_start(values, kinds);
    sqlite3_stmt *s = prepared(l, sql);
    bind_values(l, s, kinds, values);
    va_end(values);
    int64_t number = otherwise;
    if (!next_row(l, s)) return otherwise;
    if (sqlite3_column_type(s, 0) != SQLITE_NULL) number = sqlite3_column_int64(s, 0);
    leave(s);
    return number;
}

uint32_t u32_at(sqlite3_stmt *row, int column) {
    int64_t number = sqlite3_column_int64(row, column);
    return number < 0 || number > UINT32_MAX ? UINT32_MAX : (uint32_t)number;
}

const char *text_at(sqlite3_stmt *row, int column) {
    const char *text = (const char *)sqlite3_column_text(row, column);
    return text ? text : "";
}

int place_is_sound(double west, double north, double cell) {
    return fabs(west) <= 1e15 && fabs(north) <= 1e15 && cell >= 1e-12 && cell <= 1e12;
}

void accept_place(const char *path, double west, double north, double cell) {
    if (!place_is_sound(west, north, cell))
        fail(STATUS_DATA, "%s: cells of %.15g with the north-west corner %.15g, %.15g: a side goes from 1e-12 to 1e12,"
                          " and a corner to 1e15", path, cell, west, north);
}

double seconds_to_wait(const arguments *a) {
    double seconds = a->given[OPTION_WAIT] ? decimal_of(value_of(a, OPTION_WAIT), "--wait") : 10;
    if (seconds < 0 || seconds > 1e6)
        fail(STATUS_USAGE, "--wait: '%s' is not a number of seconds", value_of(a, OPTION_WAIT));
    return seconds;
}

char *editor_of(const arguments *a) {
    if (a->given[OPTION_BY]) return text_of("%s", value_of(a, OPTION_BY));
    for (const char *const *name = (const char *const[]){ "LOGNAME", "USER", NULL }; *name; name++)
        if (getenv(*name) && *getenv(*name)) return text_of("%s", getenv(*name));
    return text_of("user %ld", (long)getuid());
}

/* The settings of a connection. Nothing in the file is trusted to run: no views, triggers or functions of a schema that
 * somebody else wrote, and no writing of the schema's own table. */
static void set_up(line *l, const arguments *a) {
    sqlite3_extended_result_codes(l->db, 1);
    sqlite3_busy_timeout(l->db, (int)(seconds_to_wait(a) * 1000));
    sqlite3_db_config(l->db, SQLITE_DBCONFIG_DEFENSIVE, 1, NULL);
    sqlite3_db_config(l->db, SQLITE_DBCONFIG_TRUSTED_SCHEMA, 0, NULL);
    sqlite3_db_config(l->db, SQLITE_DBCONFIG_ENABLE_TRIGGER, 0, NULL);
    sqlite3_db_config(l->db, SQLITE_DBCONFIG_ENABLE_VIEW, 0, NULL);
    sqlite3_db_config(l->db, SQLITE_DBCONFIG_ENABLE_FKEY, 1, NULL);
}

/* A new database has the rollback journal, and keeps it: on a network's share nothing else works. EXTRA writes the
 * folder through to the disk too once the journal is gone: else a crash after the answer could bring the journal back,
 * and it would take the edit back. Where a folder cannot be written through, FULL must do. */
static void set_durable(line *l, int to_write) {
    run_sql(l, to_write && can_sync_folder(l->path) ? "PRAGMA synchronous = EXTRA" : "PRAGMA synchronous = FULL", "");
    run_sql(l, "PRAGMA temp_store = FILE", "");
}

static void connect(line *l, const arguments *a, int flags) {
    int code = sqlite3_open_v2(l->path, &l->db, flags, NULL);
    if (l->db) note_connection(l->db);
    if (code != SQLITE_OK) fail_as_sqlite(l, code);
    set_up(l, a);
}

/* The format row is read first: a file that is none of ours, or of a newer format, is left alone. */
static void read_format(line *l) {
    if (number_from_sql(l, 0, "PRAGMA application_id", "") != GEOPACKAGE_ID ||
        !number_from_sql(l, 0, "SELECT count(*) FROM sqlite_schema WHERE type = 'table' AND name = 'prowcurl'", ""))
        fail(STATUS_DATA, "%s: a database, but not a line that 'prowcurl init' made", l->path);
    int64_t format = number_from_sql(l, 0, "SELECT format FROM prowcurl", "");
    if (format > LINE_FORMAT)
        fail(STATUS_DATA, "%s: a line of format %lld; this prowcurl knows formats up to %d, a newer one reads it",
             l->path, (long long)format, LINE_FORMAT);
    if (format != LINE_FORMAT) fail(STATUS_DATA, "%s: table prowcurl: no row, or no format", l->path);
}

static void read_settings(line *l) {
    sqlite3_stmt *s = ask_sql(l, "SELECT m, slots, filler, rows, columns, west, north, cell, srs_id FROM prowcurl", "");
    if (!next_row(l, s)) fail(STATUS_DATA, "%s: table prowcurl has no row", l->path);
    int64_t m = sqlite3_column_int64(s, 0), slots = sqlite3_column_int64(s, 1), filler = sqlite3_column_int64(s, 2);
    int64_t rows = sqlite3_column_int64(s, 3), columns = sqlite3_column_int64(s, 4);
    l->west = sqlite3_column_double(s, 5), l->north = sqlite3_column_double(s, 6);
    l->cell = sqlite3_column_double(s, 7), l->srs = sqlite3_column_int64(s, 8);
    leave(s);
    int sound = m >= 0 && m <= HLQ_DEEPEST_M && slots >= 1 && slots <= HLQ_MOST_SLOTS && filler >= 0 &&
                filler < slots && rows >= 0 && rows <= MOST_SIDE_OF_SURVEY && columns >= 0 &&
                columns <= MOST_SIDE_OF_SURVEY && (rows == 0) == (columns == 0) &&
                place_is_sound(l->west, l->north, l->cell);
    if (!sound) fail(STATUS_DATA, "%s: table prowcurl: its row holds numbers that no line has", l->path);
    l->m = (uint32_t)m, l->slots = (uint32_t)slots, l->filler = (uint32_t)filler;
    l->rows = (uint32_t)rows, l->columns = (uint32_t)columns;
}

/* The survey that the command speaks of. */
static void find_survey(line *l, const char *name) {
    sqlite3_stmt *s = name ? ask_sql(l, "SELECT id, name FROM surveys WHERE name = ?", "t", name)
                           : ask_sql(l, "SELECT id, name FROM surveys ORDER BY id DESC LIMIT 1", "");
    free(l->survey_name);
    l->survey = 0, l->survey_name = NULL;
    if (next_row(l, s)) {
        l->survey = sqlite3_column_int64(s, 0);
        l->survey_name = text_of("%s", text_at(s, 1));
        leave(s);
    } else if (name) {
        fail(STATUS_USAGE, "%s has no survey '%s'; 'prowcurl info' lists them", l->path, name);
    }
    if (l->survey && !l->rows)
        fail(STATUS_DATA, "%s: table prowcurl: a survey is there, but no rows; take the line from a copy", l->path);
}

void begin_again(line *l, purpose why) {
    run_sql(l, why == TO_WRITE ? "BEGIN IMMEDIATE" : "BEGIN", "");
    read_format(l);
    read_settings(l);
}

line open_line(const arguments *a, purpose why) {
    line l = { .path = a->words[0] };
    if (access(l.path, F_OK) != 0)
        fail(STATUS_NO_INPUT, "%s: %s%s", l.path, strerror(errno),
             errno == ENOENT ? "; 'prowcurl init' makes a line" : "");
    if (why != TO_READ && access(l.path, W_OK) != 0)
        fail(STATUS_CANNOT_CREATE, "%s: %s", l.path, strerror(errno));
    /* for reading too: who opens a line after a crash rolls back what was not committed */
    connect(&l, a, SQLITE_OPEN_READWRITE);
    read_format(&l);
    set_durable(&l, why != TO_READ);
    if (why == TO_READ) run_sql(&l, "PRAGMA query_only = ON", "");
    begin_again(&l, why);
    find_survey(&l, value_of(a, OPTION_SURVEY));
    return l;
}

void need_survey(const line *l) {
    if (l->survey == 0) fail(STATUS_USAGE, "%s has no survey yet; 'prowcurl add %s SURVEY' adds one", l->path, l->path);
}

void commit_line(line *l) { run_sql(l, "COMMIT", ""); }

void close_line(line *l) {
    forget_connection(l->db);
    if (!sqlite3_get_autocommit(l->db)) sqlite3_exec(l->db, "ROLLBACK", NULL, NULL, NULL);
    sqlite3_close(l->db);
    free(l->survey_name);
}

void make_line(const arguments *a, const char *path, uint32_t m, uint32_t slots, uint32_t filler,
               void (*fill)(line *l, const void *with), const void *with) {
    output file = open_output(path); /* says so where there is no such folder; the database is made in it */
    char *journal = text_of("%s-journal", file.name);
    line l = { .path = file.name, .m = m, .slots = slots, .filler = filler };
    note_litter(journal);
    free(journal);
    connect(&l, a, SQLITE_OPEN_READWRITE | SQLITE_OPEN_CREATE);
    l.path = path; /* for messages */
    set_durable(&l, 1);
    make_tables(&l);
    if (fill) fill(&l, with);
    commit_line(&l);
    close_line(&l);
    end_output_if_free(&file);
}

uint32_t side_of(const line *l) { return (uint32_t)1 << l->m; }
uint32_t sheet_rows(const line *l) { return (l->rows + side_of(l) - 1) >> l->m; }
uint32_t sheet_columns(const line *l) { return (l->columns + side_of(l) - 1) >> l->m; }
