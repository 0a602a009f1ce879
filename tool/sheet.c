/* Sheets read and written: the bytes of hlq_store, the log's slices as bytes, low byte first, and a digest. */
#include "sheet.h"

#include <stdlib.h>
#include <string.h>
#include <xxhash.h>

enum { DIGEST = 16 };

static void take_numbers(uint32_t *numbers, const uint8_t *bytes, size_t count) {
    for (size_t i = 0; i < count; i++, bytes += 4)
        numbers[i] = bytes[0] | (uint32_t)bytes[1] << 8 | (uint32_t)bytes[2] << 16 | (uint32_t)bytes[3] << 24;
}

static uint8_t *bytes_of_numbers(const uint32_t *numbers, size_t count) {
    uint8_t *bytes = room_for(count, 4), *at = bytes;
    for (size_t i = 0; i < count; i++)
        for (int shift = 0; shift < 32; shift += 8) *at++ = (uint8_t)(numbers[i] >> shift);
    return bytes;
}

/* What a row of sheets holds, beside its digest. */
typedef struct {
    const char *survey; /* its name */
    uint32_t i, j;
    const uint8_t *list, *log_keys, *log_values;
    size_t list_length, keys_length, values_length;
    uint64_t used, in_force;
} stored;

/* Survey and place are part of it, so that a sheet that was exchanged with another is noticed; the lengths too. */
static void digest_of(const stored *r, uint8_t digest[DIGEST]) {
    const uint64_t head[] = { strlen(r->survey), r->i, r->j, r->used, r->in_force, r->list_length, r->keys_length,
                              r->values_length };
    uint8_t bytes[sizeof head];
    for (size_t i = 0; i < sizeof head; i++) bytes[i] = (uint8_t)(head[i / 8] >> 8 * (i % 8));
    XXH3_state_t *state = XXH3_createState();
    if (!state) fail(STATUS_MEMORY, "no memory for a digest");
    XXH3_128bits_reset(state);
    XXH3_128bits_update(state, bytes, sizeof bytes);
    XXH3_128bits_update(state, r->survey, strlen(r->survey));
    if (r->list_length) XXH3_128bits_update(state, r->list, r->list_length);
    if (r->keys_length) XXH3_128bits_update(state, r->log_keys, r->keys_length);
    if (r->values_length) XXH3_128bits_update(state, r->log_values, r->values_length);
    XXH128_canonical_t canonical;
    XXH128_canonicalFromHash(&canonical, XXH3_128bits_digest(state));
    XXH3_freeState(state);
    memcpy(digest, canonical.digest, DIGEST);
}

sheet new_sheet(uint32_t m, uint32_t slots, uint32_t i, uint32_t j, size_t log_room) {
    sheet a = { .i = i, .j = j };
    size_t bytes = hlq_sheet_bytes(m, slots, log_room);
    a.memory = malloc(bytes ? bytes : 1); /* not cleared: a sheet of 1024 takes 11 MB, of which few are used */
    if (!a.memory) fail(STATUS_MEMORY, "no memory for a sheet of %zu bytes", bytes);
    accept_or_end(hlq_sheet_in(a.memory, bytes, m, slots, log_room, &a.map), NULL);
    return a;
}

void give_back_sheet(sheet *a) {
    free(a->memory);
    *a = (sheet){ 0 };
}

static stored stored_row(sqlite3_stmt *row, uint32_t i, uint32_t j) {
    stored r = { .survey = text_at(row, 6), .i = i, .j = j };
    r.list = sqlite3_column_blob(row, 0), r.list_length = (size_t)sqlite3_column_bytes(row, 0);
    r.log_keys = sqlite3_column_blob(row, 1), r.keys_length = (size_t)sqlite3_column_bytes(row, 1);
    r.log_values = sqlite3_column_blob(row, 2), r.values_length = (size_t)sqlite3_column_bytes(row, 2);
    r.used = (uint64_t)sqlite3_column_int64(row, 3), r.in_force = (uint64_t)sqlite3_column_int64(row, 4);
    return r;
}

/* A changed byte can be a sound list of another raster: so the digest is compared before anything is believed. */
static void compare_digest(const stored *r, sqlite3_stmt *row, const char *what) {
    uint8_t digest[DIGEST];
    digest_of(r, digest);
    if (sqlite3_column_bytes(row, 5) != DIGEST || memcmp(sqlite3_column_blob(row, 5), digest, DIGEST) != 0)
        fail(STATUS_DATA, "%s: these are not the bytes that were written (the digest differs); take the line from a "
                          "copy", what);
    if (r->keys_length % 4 || r->keys_length / 4 != r->used || r->values_length != r->keys_length)
        fail(STATUS_DATA, "%s: the log has another length than it says", what);
}

/* For a window: every record of the map, and for each block, of which there are no more than pixels, one record of its
 * own where it lies in a leaf and two closing ones; then the two that close the group. A block needs less. */
static size_t room_to_paint(const line *l) { return HLQ_MOST_RECORDS(l->m) + 3 * ((size_t)1 << 2 * l->m) + 2; }

static sheet read_with_room(line *l, int64_t survey, uint32_t i, uint32_t j, size_t more) {
    char *what = text_of("%s, table sheets, survey %lld, sheet %u.%u", l->path, (long long)survey, i, j);
    sqlite3_stmt *row = ask_sql(l, "SELECT list, log_keys, log_values, used, in_force, digest, name"
                                   " FROM sheets JOIN surveys ON id = survey"
                                   " WHERE survey = ? AND sheet_row = ? AND sheet_column = ?",
                                "iii", survey, (int64_t)i, (int64_t)j);
    if (!next_row(l, row)) fail(STATUS_DATA, "%s: is missing", what);
    stored r = stored_row(row, i, j);
    compare_digest(&r, row, what);
    sheet a = new_sheet(l->m, l->slots, i, j, (size_t)r.used + more);
    accept_or_end(hlq_sheet_load(&a.map, r.list, r.list_length), what);
    if (a.map.list.m != l->m || a.map.list.s != l->slots)
        fail(STATUS_DATA, "%s: is of another side or number of classes than the line", what);
    a.map.used = (size_t)r.used, a.map.in_force = (size_t)r.in_force; /* the library judges them at the first edit */
    take_numbers(a.map.log_keys, r.log_keys, a.map.used);
    take_numbers(a.map.log_values, r.log_values, a.map.used);
    leave(row);
    free(what);
    return a;
}

sheet read_sheet_of(line *l, int64_t survey, uint32_t i, uint32_t j) { return read_with_room(l, survey, i, j, 0); }
sheet read_sheet(line *l, uint32_t i, uint32_t j) { return read_with_room(l, l->survey, i, j, 0); }
sheet read_sheet_to_paint(line *l, uint32_t i, uint32_t j) {
    return read_with_room(l, l->survey, i, j, room_to_paint(l));
}

uint8_t *bytes_of_list(const sheet *a, size_t *length) {
    size_t room = HLQ_FILE_BYTES(a->map.list.n, a->map.list.s);
    uint8_t *bytes = room_for(room, 1);
    accept_or_end(hlq_sheet_store(&a->map, bytes, room, length), NULL);
    return bytes;
}

/* Runs a statement whose values are list, log_keys, log_values, used, in_force, digest, survey, row, column. */
static void store_sheet(line *l, const char *sql, int64_t survey, const char *name, const sheet *a) {
    const hlq_sheet *map = &a->map;
    stored r = { .survey = name, .i = a->i, .j = a->j, .used = map->used, .in_force = map->in_force };
    uint8_t *list = bytes_of_list(a, &r.list_length), digest[DIGEST];
    uint8_t *log_keys = bytes_of_numbers(map->log_keys, map->used);
    uint8_t *log_values = bytes_of_numbers(map->log_values, map->used);
    r.list = list, r.log_keys = log_keys, r.log_values = log_values;
    r.keys_length = r.values_length = 4 * map->used;
    digest_of(&r, digest);
    run_sql(l, sql, "bbbiibiii", list, r.list_length, log_keys, r.keys_length, log_values, r.values_length,
            (int64_t)r.used, (int64_t)r.in_force, digest, (size_t)DIGEST, survey, (int64_t)a->i, (int64_t)a->j);
    free(list);
    free(log_keys);
    free(log_values);
}

void write_sheet(line *l, const sheet *a) {
    store_sheet(l, "UPDATE sheets SET list = ?, log_keys = ?, log_values = ?, used = ?, in_force = ?, digest = ?"
                   " WHERE survey = ? AND sheet_row = ? AND sheet_column = ?", l->survey, l->survey_name, a);
}

void insert_sheet(line *l, const char *table, int64_t survey, const char *name, const sheet *a) {
    char *sql = text_of("INSERT INTO %s (list, log_keys, log_values, used, in_force, digest, survey, sheet_row,"
                        " sheet_column) VALUES (?, ?, ?, ?, ?, ?, ?, ?, ?)", table);
    store_sheet(l, sql, survey, name, a);
    free(sql);
}

uint8_t *raster_of(const sheet *a) {
    size_t pixels = (size_t)1 << 2 * a->map.list.m;
    uint8_t *raster = room_for(pixels, 1);
    accept_or_end(hlq_sheet_raster(&a->map, raster, pixels), NULL);
    return raster;
}
