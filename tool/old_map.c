/* Maps of the tool's first version. Their log began with a mark and the digest (FNV-1a) and length of the map's file;
 * then used, in_force, the records and a digest of all that. It is read as that version read it. */
#include "old_map.h"

#include "answer.h"
#include "commands.h"
#include "files.h"
#include "line_tables.h"
#include "sheet.h"

#include <stdlib.h>
#include <string.h>

enum { HEAD = 40, TAIL = 8, RECORD = 8, MOST_LOG_BYTES = 1 << 30 };

static uint64_t fnv_of(const uint8_t *bytes, size_t length) {
    uint64_t digest = 14695981039346656037u;
    for (size_t i = 0; i < length; i++) digest = (digest ^ bytes[i]) * 1099511628211u;
    return digest;
}

static uint64_t number_from(const uint8_t *at, int bytes) {
    uint64_t number = 0;
    for (int i = 0; i < bytes; i++) number |= (uint64_t)at[i] << 8 * i;
    return number;
}

static int is_whole(const uint8_t *bytes, size_t length) {
    if (length < HEAD + TAIL || length > MOST_LOG_BYTES || memcmp(bytes, "HLQLOG1\n", 8) != 0) return 0;
    if (number_from(bytes + 24, 8) != (length - HEAD - TAIL) / RECORD || (length - HEAD - TAIL) % RECORD) return 0;
    return number_from(bytes + length - TAIL, 8) == fnv_of(bytes, length - TAIL);
}

/* The log's bytes where the file fits the map; NULL where there is none, or it is another one's. */
static uint8_t *fitting_log(const char *path, const uint8_t *map, size_t map_length) {
    size_t length;
    if (!file_exists(path)) return NULL;
    uint8_t *bytes = read_file(path, MOST_LOG_BYTES, &length);
    if (is_whole(bytes, length) && number_from(bytes + 8, 8) == fnv_of(map, map_length) &&
        number_from(bytes + 16, 8) == map_length)
        return bytes;
    free(bytes);
    return NULL;
}

/* A writer that was stopped may have left the log that fits under its other name. */
static uint8_t *log_of(const char *path, const uint8_t *map, size_t length) {
    char *name = text_of("%s.log", path), *other = text_of("%s.log.new", path);
    uint8_t *log = fitting_log(name, map, length);
    if (!log) log = fitting_log(other, map, length);
    if (!log && file_exists(name))
        fail(STATUS_DATA, "%s does not fit %s, or is damaged; without it the map comes in alone", name, path);
    free(name);
    free(other);
    return log;
}

static sheet read_old_map(const char *path, size_t *steps) {
    size_t length;
    uint8_t *map = read_file(path, HLQ_FILE_BYTES(HLQ_MOST_RECORDS(HLQ_DEEPEST_M), HLQ_MOST_SLOTS), &length);
    uint8_t *log = log_of(path, map, length);
    uint32_t m, s;
    accept_or_end(hlq_file_settings(map, length, &m, &s), path);
    size_t used = log ? (size_t)number_from(log + 24, 8) : 0;
    sheet a = new_sheet(m, s, 0, 0, used);
    accept_or_end(hlq_sheet_load(&a.map, map, length), path);
    a.map.used = used, a.map.in_force = log ? (size_t)number_from(log + 32, 8) : 0;
    for (size_t i = 0; i < used; i++) {
        a.map.log_keys[i] = (uint32_t)number_from(log + HEAD + RECORD * i, 4);
        a.map.log_values[i] = (uint32_t)number_from(log + HEAD + RECORD * i + 4, 4);
    }
    *steps = used;
    free(map);
    free(log);
    return a;
}

/* Counts the steps by taking all back and putting all forth again, on the sheet itself; the library checks the log. */
static void count_steps(sheet *a, const char *path, size_t *done, size_t *undone) {
    hlq_refusal refusal;
    size_t in_force = a->map.in_force;
    for (*done = 0; (refusal = hlq_sheet_take_back(&a->map)) == HLQ_ACCEPTED; ++*done) continue;
    if (refusal != HLQ_LOG_EMPTY) accept_or_end(refusal, path);
    for (size_t i = 0; i < *done; i++) accept_or_end(hlq_sheet_redo(&a->map), path);
    if (a->map.in_force != in_force) fail(STATUS_DATA, "%s: its log is not that of the map", path);
    for (*undone = 0; (refusal = hlq_sheet_redo(&a->map)) == HLQ_ACCEPTED; ++*undone) continue;
    if (refusal != HLQ_NO_REDO) accept_or_end(refusal, path);
    for (size_t i = 0; i < *undone; i++) accept_or_end(hlq_sheet_take_back(&a->map), path);
}

static void write_steps(line *l, int64_t survey, size_t done, size_t undone) {
    for (size_t i = 0; i < done + undone; i++) {
        run_sql(l, "INSERT INTO steps (survey, words, \"by\", at, done) VALUES (?, 'an edit of the first version',"
                   " '', '', ?)", "ii", survey, (int64_t)(i < done));
        run_sql(l, "INSERT INTO step_sheets VALUES (last_insert_rowid(), ?, 0, 0)", "i", survey);
    }
}

/* The line takes the map's side where it has no survey yet. */
static void fit(line *l, const sheet *a, const char *path) {
    uint32_t side = (uint32_t)1 << a->map.list.m;
    if (a->map.list.s > l->slots)
        fail(STATUS_DATA, "%s has %u classes, but the line has %u", path, a->map.list.s, l->slots);
    if (l->rows && (l->rows != side || l->columns != side || l->m != a->map.list.m))
        fail(STATUS_DATA, "%s: a map of %u by %u pixels on one sheet, but the line has %u rows and %u columns on "
                          "sheets of %u", path, side, side, l->rows, l->columns, side_of(l));
    if (l->rows) return;
    l->m = a->map.list.m, l->rows = l->columns = side, l->west = 0, l->north = side * l->cell;
    accept_place(path, l->west, l->north, l->cell);
    run_sql(l, "UPDATE prowcurl SET m = ?, rows = ?, columns = ?, west = 0, north = ?", "iiid", (int64_t)l->m,
            (int64_t)side, (int64_t)side, l->north);
    place_layers(l);
}

void add_old_map(const arguments *a, line *l, const char *name, const char *taken) {
    size_t used, done, undone, length;
    sheet old = read_old_map(a->words[1], &used);
    count_steps(&old, a->words[1], &done, &undone);
    commit_line(l);
    begin_again(l, TO_WRITE);
    need_free_name(l, name);
    if (a->given[OPTION_CELL] && !l->rows) {
        l->cell = decimal_of(value_of(a, OPTION_CELL), "--cell");
        if (!(l->cell > 0)) fail(STATUS_USAGE, "--cell: a pixel has a side above 0");
        run_sql(l, "UPDATE prowcurl SET cell = ?", "d", l->cell);
    }
    fit(l, &old, a->words[1]);
    run_sql(l, "INSERT INTO surveys (name, taken) VALUES (?, ?)", "tt", name, taken);
    int64_t survey = sqlite3_last_insert_rowid(l->db);
    old.map.list.s = l->slots; /* the same records stand for the same raster under more slots */
    insert_sheet(l, "sheets", survey, name, &old);
    write_steps(l, survey, done, undone);
    commit_line(l);
    free(bytes_of_list(&old, &length));
    answer_survey(a, l, name, length);
    give_back_sheet(&old);
}
