/* What a run takes: memory, counted by the sanitizer's hooks, and SQLite's statements. */
#include "pieces.h"

#include "in_process.h"

#include <sanitizer/allocator_interface.h>
#include <sqlite3.h>
#include <stdlib.h>
#include <string.h>

const char *__asan_default_options(void) {
    return "detect_leaks=0:malloc_context_size=6:quarantine_size_mb=8:allocator_may_return_null=1";
}

int settled;
long memory_ends_at;
static long requests; /* for memory, in this run */

enum { STATEMENTS = 64 };
static sqlite3_stmt *statements[STATEMENTS];
static int statement_count;

/* Memory of a run: every piece that is not given back when it ends is given back then. The libraries' pieces are among
 * them; what these keep for good they get before the first run that counts. `places` finds a piece in `pieces`. */
enum { PIECES = 1 << 15, PLACES = 1 << 16 };
static const volatile void *pieces[PIECES];
static uint32_t piece_count, places[PLACES]; /* one more than where it stands; 0 is free */
static __thread int counts;

static uint32_t place_of(const volatile void *piece) {
    return (uint32_t)((uintptr_t)piece >> 4) * 0x9e3779b1u >> 16;
}

static void note_piece(const volatile void *piece, size_t size) {
    (void)size;
    if (!counts || !piece) return;
    uint32_t i = place_of(piece);
    while (places[i]) i = (i + 1) % PLACES;
    if (piece_count == PIECES) abort();
    pieces[piece_count++] = piece;
    places[i] = piece_count;
}

static uint32_t find_piece(const volatile void *piece) {
    uint32_t i = place_of(piece);
    while (places[i] && pieces[places[i] - 1] != piece) i = (i + 1) % PLACES;
    return i;
}

/* The last piece takes the place of the one that goes. */
static void forget_piece(const volatile void *piece) {
    if (!counts || !piece || piece_count == 0) return;
    uint32_t i = find_piece(piece), last = find_piece(pieces[piece_count - 1]);
    if (!places[i]) return;
    places[last] = places[i];
    pieces[places[i] - 1] = pieces[--piece_count];
    places[i] = 0;
    for (uint32_t next = (i + 1) % PLACES; places[next]; next = (next + 1) % PLACES) {
        uint32_t wants = place_of(pieces[places[next] - 1]);
        if ((next - wants) % PLACES < (next - i) % PLACES) continue; /* it would stand before its place */
        places[i] = places[next];
        places[next] = 0;
        i = next;
    }
}

/* By a pointer, since a compiler believes that free itself changes none of our numbers. */
static void (*volatile give_back)(void *piece) = free;

void begin_pieces(void) {
    counts = settled;
    requests = 0;
}

void keep_piece(const void *piece) { forget_piece(piece); }

void give_back_pieces(void) {
    must(statement_count == 0, "a statement is left");
    while (piece_count > 0) give_back((void *)pieces[piece_count - 1]);
    counts = 0;
}

int memory_is_there(void) { return memory_ends_at == 0 || ++requests < memory_ends_at; }

void *seam_malloc(size_t size) { return memory_is_there() ? malloc(size) : NULL; }
void *seam_calloc(size_t count, size_t size) { return memory_is_there() ? calloc(count, size) : NULL; }
void *seam_realloc(void *old, size_t size) { return memory_is_there() ? realloc(old, size) : NULL; }

/* SQLite's own memory is the C library's, past the sanitizer, which would make every run five times as long. What it
 * gives the tool is copied into a piece of its own, so that a byte read past its end is seen. */
void *__libc_malloc(size_t size);
void *__libc_realloc(void *old, size_t size);
void __libc_free(void *old);
enum { BEFORE = 16 }; /* bytes before a piece, where its size stands */

static void *sqlite_piece(uint8_t *whole, int size) {
    if (!whole) return NULL;
    memcpy(whole, &size, sizeof size);
    return whole + BEFORE;
}

static void *sqlite_malloc(int size) { return sqlite_piece(__libc_malloc((size_t)size + BEFORE), size); }
static void sqlite_free(void *old) { if (old) __libc_free((uint8_t *)old - BEFORE); }
static int sqlite_round(int size) { return (size + 7) & ~7; }

static void *sqlite_realloc(void *old, int size) {
    return sqlite_piece(__libc_realloc(old ? (uint8_t *)old - BEFORE : NULL, (size_t)size + BEFORE), size);
}

static int sqlite_size(void *piece) {
    int size = 0;
    if (piece) memcpy(&size, (uint8_t *)piece - BEFORE, sizeof size);
    return size;
}

static int sqlite_begin(void *with) { return (void)with, SQLITE_OK; }
static void sqlite_end(void *with) { (void)with; }

void watch_pieces(void) {
    static const sqlite3_mem_methods methods = { sqlite_malloc, sqlite_free,  sqlite_realloc, sqlite_size,
                                                 sqlite_round,  sqlite_begin, sqlite_end,     NULL };
    must(sqlite3_config(SQLITE_CONFIG_MALLOC, &methods) == SQLITE_OK &&
         sqlite3_config(SQLITE_CONFIG_MEMSTATUS, 0) == SQLITE_OK &&
         sqlite3_config(SQLITE_CONFIG_SINGLETHREAD) == SQLITE_OK && sqlite3_initialize() == SQLITE_OK, "no SQLite");
    __sanitizer_install_malloc_and_free_hooks(note_piece, forget_piece);
}

/* Statements that are there: one that was given back is not stepped and not given back again, and none is left. */
static int place_of_statement(const sqlite3_stmt *asked) {
    int i = 0;
    while (i < statement_count && statements[i] != asked) i++;
    must(i < statement_count, "a statement that was given back is used");
    return i;
}

int seam_prepare(sqlite3 *db, const char *sql, int length, sqlite3_stmt **made, const char **rest) {
    int code = sqlite3_prepare_v2(db, sql, length, made, rest);
    must(statement_count < STATEMENTS, "too many statements");
    if (*made) statements[statement_count++] = *made;
    return code;
}

int seam_step(sqlite3_stmt *asked) { return place_of_statement(asked), sqlite3_step(asked); }

int seam_finalize(sqlite3_stmt *asked) {
    int place = asked ? place_of_statement(asked) : -1;
    if (asked) statements[place] = statements[--statement_count];
    return sqlite3_finalize(asked);
}

/* In memory that is given back at the end of the run, as the row's own is later. */
static void *copied(const void *bytes, size_t length, size_t room) {
    char *copy = bytes ? malloc(room) : NULL;
    if (!copy) return NULL;
    memcpy(copy, bytes, length);
    if (room > length) copy[length] = 0;
    return copy;
}

const void *seam_column_blob(sqlite3_stmt *row, int column) {
    const void *bytes = sqlite3_column_blob(row, column);
    size_t length = (size_t)sqlite3_column_bytes(row, column);
    return copied(bytes, length, length ? length : 1);
}

const unsigned char *seam_column_text(sqlite3_stmt *row, int column) {
    const unsigned char *text = sqlite3_column_text(row, column);
    return text ? copied(text, strlen((const char *)text), strlen((const char *)text) + 1) : NULL;
}
