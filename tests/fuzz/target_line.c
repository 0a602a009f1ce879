/* LINE.gpkg: random bytes are no database, so the input is a list of changes to a sound one (numbers, texts and blobs
 * in its tables, rows that go and come, tables that go), and then commands that run on it. A sheet's digest may be
 * made right again, so that its list and its log are looked at behind it. */
#define _DEFAULT_SOURCE
#include "in_process.h"

#include <sqlite3.h>
#include <stdio.h>
#include <stdlib.h>
#include <string.h>
#include <xxhash.h>

enum { CHANGES = 12 };

int LLVMFuzzerInitialize(int *count, char ***words) {
    (void)count, (void)words;
    begin_in_folder();
    make_day();
    return 0;
}

static const char *const tables[][12] = {
    { "prowcurl", "m", "slots", "rows", "columns", "west", "north", "cell", "filler", "srs_id", "format" },
    { "sheets", "list", "log_keys", "log_values", "used", "in_force", "digest", "survey", "sheet_row",
      "sheet_column" },
    { "rules", "office", "id", "class", "row", "column", "height", "width", "name" },
    { "waivers", "office", "rule", "sheet_row", "sheet_column", "key", "note", "by", "at" },
    { "classes", "class", "name", "colour", "grey", "price" },
    { "surveys", "id", "name", "taken" },
    { "steps", "id", "survey", "words", "by", "at", "done" },
    { "step_sheets", "step", "survey", "sheet_row", "sheet_column" },
    { "gpkg_spatial_ref_sys", "srs_id", "srs_name", "organization", "organization_coordsys_id", "definition" },
    { "gpkg_contents", "table_name", "srs_id", "data_type" },
    { "ground", "tile_row", "tile_column", "tile_data" },
};
enum { TABLES = sizeof tables / sizeof *tables };

static int columns_of(int table) {
    int count = 0;
    while (tables[table][count + 1]) count++;
    return count;
}

/* A value, of any of the database's kinds. */
static void bind_value(sqlite3_stmt *s, int at, input *in) {
    size_t length;
    char *text;
    switch (take_byte(in) % 8) {
    case 0: sqlite3_bind_null(s, at); break;
    case 1: sqlite3_bind_double(s, at, take_decimal(in)); break;
    case 2:
        text = take_text(in, &length);
        sqlite3_bind_blob(s, at, text, (int)length, SQLITE_TRANSIENT);
        free(text);
        break;
    case 3:
        text = take_text(in, &length);
        sqlite3_bind_text(s, at, text, (int)length, SQLITE_TRANSIENT);
        free(text);
        break;
    default: sqlite3_bind_int64(s, at, take_number(in));
    }
}

static void run(sqlite3 *db, const char *sql, input *in, int values) {
    sqlite3_stmt *s = NULL;
    if (sqlite3_prepare_v2(db, sql, -1, &s, NULL) == SQLITE_OK)
        for (int i = 1; i <= values; i++) bind_value(s, i, in);
    sqlite3_step(s);
    sqlite3_finalize(s);
}

/* One byte of a blob of a sheet, or its end. */
static void change_blob(sqlite3 *db, input *in) {
    static const char *const blobs[] = { "list", "log_keys", "log_values", "digest" };
    const char *column = blobs[take_byte(in) & 3];
    unsigned row = take_byte(in), how = take_byte(in), at = take_byte(in) | take_byte(in) << 8, value = take_byte(in);
    char sql[400];
    if (how & 1) /* cut, or longer */
        snprintf(sql, sizeof sql, "UPDATE sheets SET %s = substr(%s || zeroblob(%u), 1, %u) WHERE rowid = 1 +"
                                  " %u %% (SELECT count(*) FROM sheets)", column, column, how & 2 ? value : 0, at, row);
    else
        snprintf(sql, sizeof sql, "UPDATE sheets SET %s = CAST(substr(%s, 1, %u %% max(1, length(%s))) || x'%02x' ||"
                                  " substr(%s, 2 + %u %% max(1, length(%s))) AS BLOB) WHERE rowid = 1 + %u %%"
                                  " (SELECT count(*) FROM sheets)", column, column, at, column, value, column, at,
                 column, row);
    run(db, sql, in, 0);
}

/* As tool/sheet.c makes it; docs/FILE-FORMATS.md has it in words. */
static void right_digest(sqlite3_context *to, int count, sqlite3_value **v) {
    XXH3_state_t *state = XXH3_createState();
    XXH128_canonical_t digest;
    uint64_t head[8];
    uint8_t bytes[64];
    (void)count;
    head[0] = (uint64_t)sqlite3_value_bytes(v[0]);
    for (int i = 1; i < 5; i++) head[i] = (uint64_t)sqlite3_value_int64(v[i]);
    head[1] = (uint32_t)head[1], head[2] = (uint32_t)head[2];
    for (int i = 5; i < 8; i++) head[i] = (uint64_t)sqlite3_value_bytes(v[i]);
    for (size_t i = 0; i < 64; i++) bytes[i] = (uint8_t)(head[i / 8] >> 8 * (i % 8));
    XXH3_128bits_reset(state);
    XXH3_128bits_update(state, bytes, sizeof bytes);
    XXH3_128bits_update(state, sqlite3_value_text(v[0]), head[0]);
    for (int i = 5; i < 8; i++)
        if (head[i]) XXH3_128bits_update(state, sqlite3_value_blob(v[i]), head[i]);
    XXH128_canonicalFromHash(&digest, XXH3_128bits_digest(state));
    XXH3_freeState(state);
    sqlite3_result_blob(to, digest.digest, 16, SQLITE_TRANSIENT);
}

static void change(sqlite3 *db, input *in) {
    char sql[400];
    uint8_t what = take_byte(in) & 7, table = take_byte(in) % TABLES, row = take_byte(in);
    const char *name = tables[table][0], *column = tables[table][1 + take_byte(in) % columns_of(table)];
    switch (what) {
    case 0:
    case 1:
    case 2:
        snprintf(sql, sizeof sql, "UPDATE OR IGNORE %s SET \"%s\" = ? WHERE rowid = (SELECT rowid FROM %s LIMIT 1"
                                  " OFFSET %u %% max(1, (SELECT count(*) FROM %s)))", name, column, name, row, name);
        run(db, sql, in, 1);
        break;
    case 3: change_blob(db, in); break;
    case 4:
        snprintf(sql, sizeof sql, "DELETE FROM %s WHERE rowid = (SELECT rowid FROM %s LIMIT 1 OFFSET %u %% max(1,"
                                  " (SELECT count(*) FROM %s)))", name, name, row, name);
        run(db, sql, in, 0);
        break;
    case 5:
        if (table == 2)
            run(db, "INSERT OR IGNORE INTO rules (office, id, class, \"row\", \"column\", height, width, name)"
                    " VALUES (?, ?, ?, ?, ?, ?, ?, ?)", in, 8);
        else if (table == 3)
            run(db, "INSERT OR IGNORE INTO waivers (office, rule, sheet_row, sheet_column, key, note) VALUES"
                    " (?, ?, ?, ?, ?, ?)", in, 6);
        else if (table == 4)
            run(db, "INSERT OR IGNORE INTO classes VALUES (?, ?, ?, ?, ?)", in, 5);
        else if (table == 7)
            run(db, "INSERT OR IGNORE INTO step_sheets VALUES (?, ?, ?, ?)", in, 4);
        else if (row & 1)
            snprintf(sql, sizeof sql, "DROP TABLE %s", name), run(db, sql, in, 0);
        else
            snprintf(sql, sizeof sql, "ALTER TABLE %s DROP COLUMN \"%s\"", name, column), run(db, sql, in, 0);
        break;
    case 6:
        run(db, row & 1 ? "PRAGMA application_id = 1" : "PRAGMA user_version = 7", in, 0);
        break;
    default:
        run(db, "UPDATE sheets SET digest = right_digest((SELECT name FROM surveys WHERE id = survey), sheet_row,"
                " sheet_column, used, in_force, list, log_keys, log_values)", in, 0);
    }
}

/* Bytes of the database's own pages. */
static void change_pages(const char *line, input *in) {
    size_t length;
    uint8_t *bytes = read_bytes(line, &length);
    for (unsigned i = take_byte(in) & 7; i > 0; i--) {
        size_t at = take_byte(in), page = take_byte(in);
        bytes[((page & 63) * 4096 + (page & 64 ? 4095 - at : at)) % length] = take_byte(in);
    }
    write_bytes(line, bytes, take_byte(in) == 77 ? length / 2 : length);
    free(bytes);
}

static void change_line(const char *line, input *in) {
    sqlite3 *db;
    must(sqlite3_open(line, &db) == SQLITE_OK, "the line does not open");
    sqlite3_exec(db, "PRAGMA ignore_check_constraints = ON; PRAGMA synchronous = OFF; BEGIN", NULL, NULL, NULL);
    sqlite3_create_function(db, "right_digest", 8, SQLITE_UTF8, NULL, right_digest, NULL, NULL);
    for (unsigned i = take_byte(in) % CHANGES; i > 0; i--) change(db, in);
    sqlite3_exec(db, "COMMIT", NULL, NULL, NULL);
    sqlite3_close(db);
}

/* # is a number of the input, @ a block, ~ a decimal. */
static const char *const commands[][16] = {
    { "info", "L", "--json" },
    { "check", "L" },
    { "areas", "L", "--json" },
    { "areas", "L", "#", "#", "#", "#", "--csv" },
    { "at", "L", "#", "#", "--json" },
    { "at", "L", "--xy", "~", "~" },
    { "report", "L", "#", "#", "#", "#", "--json" },
    { "exist", "L", "--box", "~", "~", "~", "~", "#" },
    { "exist", "L", "#", "#", "#", "#", "wood", "--strict" },
    { "select", "L", "#", "#", "#", "#", "#", "--json" },
    { "batch", "L", "questions.csv", "--json" },
    { "findings", "L", "--json", "--all", "--blocks" },
    { "findings", "L", "--office", "1", "--save", "--exit-live" },
    { "findings", "L", "--picture", "x.png", "--scale", "2" },
    { "findings", "L", "--all", "--geojson", "x.json", "--csv" },
    { "page", "L", "x.html", "--office", "1" },
    { "page", "L", "-" },
    { "publish", "L", "--json" },
    { "waive", "L", "3", "--patch", "#", "#", "--office", "0", "--json" },
    { "waive", "L", "3", "@", "--office", "1" },
    { "waive", "L", "3", "#", "#", "#", "#", "--office", "0" },
    { "unwaive", "L", "3", "--patch", "#", "#", "--office", "0" },
    { "unwaive", "L", "3", "#", "#", "#", "#", "--office", "0", "--json" },
    { "unwaive", "L", "3", "@", "--office", "1" },
    { "paint", "L", "#", "#", "#", "#", "#", "--json" },
    { "paint", "L", "@", "wood" },
    { "undo", "L", "--json" },
    { "redo", "L" },
    { "undo", "L", "--survey", "s" },
    { "steps", "L", "--json" },
    { "forget", "L" },
    { "adopt", "L", "old.hlq", "places.csv", "--json" },
    { "adopt", "L", "old.hlq", "places.csv", "--sheet", "1.1" },
    { "change", "L", "s", "after", "pairs.csv", "--else", "0", "--json" },
    { "export", "L", "pgm", "x.pgm" },
    { "export", "L", "grid", "-" },
    { "export", "L", "tif", "x.tif" },
    { "export", "L", "leaves", "x.csv", "--sheet", "0.0" },
    { "export", "L", "bits", "x", "--sheet", "0.1", "--class", "1" },
    { "export", "L", "hlq", "x.hlq" },
    { "add", "L", "t.pgm", "--as", "third" },
    { "add", "L", "g.asc", "--nodata", "0" },
    { "add", "L", "old.hlq" },
    { "set", "L", "classes", "classes.csv" },
    { "set", "L", "rules", "rules.csv" },
    { "set", "L", "waivers", "waivers.csv" },
    { "get", "L", "classes" },
    { "get", "L", "rules", "--json" },
    { "get", "L", "waivers", "x.csv" },
    { "get", "L", "prices", "-", "--json" },
    { "findings", "L", "--picture", "x.png" },
    { "change", "L", "s", "s", "pairs.csv", "--else", "1", "--as", "" },
};
enum { KNOWN = sizeof commands / sizeof *commands };

/* A command with the input's numbers in it. */
static void run_command(const char *line, input *in) {
    const char *const *form = commands[take_byte(in) % KNOWN];
    const char *words[16];
    char texts[16][40];
    int count = 0, json = 0;
    for (; form[count]; count++) {
        words[count] = texts[count];
        if (strcmp(form[count], "L") == 0) words[count] = line;
        else if (strcmp(form[count], "#") == 0) snprintf(texts[count], 40, "%lld", (long long)take_number(in));
        else if (strcmp(form[count], "~") == 0) snprintf(texts[count], 40, "%.15g", take_decimal(in));
        else if (strcmp(form[count], "@") == 0)
            snprintf(texts[count], 40, "%u.%u:@%lld", take_byte(in) & 3, take_byte(in) & 1, (long long)take_number(in));
        else words[count] = form[count];
        json |= strcmp(form[count], "--json") == 0;
    }
    told t = run_on_line(line, count, words);
    if (t.status == 0 && json) must_be_json(&t);
    if (t.status == 0) file_must_be_json("x.json");
}

static char *grid_of(const char *line) { return strdup(MUST_RUN("export", line, "grid", "-").answer); }

/* Where check finds the line sound, what asks the ground alone is answered, and a paint can be taken back and redone:
 * the ground is then what it was before, and what it was after. */
static void ask_sound(const char *line, input *in) {
    char words[5][24];
    told t = RUN("check", line);
    if (t.status) return;
    t = RUN("info", line, "--json");
    if (t.status || strstr(t.answer, "\"surveys\": []")) return;
    t = MUST_RUN("areas", line, "--json");
    must_be_json(&t);
    char *before = grid_of(line);
    for (int i = 0; i < 5; i++) snprintf(words[i], sizeof words[i], "%lld", (long long)take_number(in));
    t = RUN("paint", line, words[0], words[1], words[2], words[3], words[4]);
    if (t.status == 0) {
        char *after = grid_of(line);
        MUST_RUN("check", line);
        MUST_RUN("undo", line);
        char *undone = grid_of(line);
        MUST_RUN("redo", line);
        char *redone = grid_of(line);
        must(strcmp(before, undone) == 0 && strcmp(after, redone) == 0, "a paint is not taken back or not redone");
        free(after);
        free(undone);
        free(redone);
    }
    free(before);
}

int LLVMFuzzerTestOneInput(const uint8_t *bytes, size_t size) {
    input in = { bytes, size };
    uint8_t how = take_byte(&in);
    const char *line = how & 1 ? "one.gpkg" : "day.gpkg";
    change_line(line, &in);
    if (how & 64) change_pages(line, &in);
    if (how & 2) ask_sound(line, &in);
    memory_ends_at = how & 4 ? 1 + take_byte(&in) : 0;
    on_terminal = how & 8;
    for (unsigned i = 1 + (how >> 4 & 3); i > 0; i--) run_command(line, &in);
    memory_ends_at = on_terminal = 0;
    restore_folder();
    return 0;
}
