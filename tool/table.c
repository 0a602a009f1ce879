/* Comma separated values, read by libcsv. It tells fields and rows; on which line a row stands is counted here, so the
 * text goes to it line by line. */
#include "table.h"

#include "files.h"
#include "tool.h"

#include <csv.h>
#include <ctype.h>
#include <stdlib.h>
#include <string.h>

enum { MOST_BYTES = 1 << 28 };

/* The table that is being put together, and the row that is. */
typedef struct {
    csv *table;
    char **fields; /* of the row */
    size_t count, room, rows_room;
    size_t line, begun; /* where the reader stands, and where the row began */
    int between; /* no row has begun */
} reader;

static void take_field(void *text, size_t length, void *with) {
    reader *r = with;
    if (r->count == r->room) r->fields = more_room_for(r->fields, r->room = r->room * 2 + 8, sizeof *r->fields);
    char *field = room_for(length + 1, 1);
    if (length) memcpy(field, text, length);
    r->fields[r->count++] = field;
}

/* The first row that is not empty names the columns. */
static void take_names(reader *r) {
    r->table->names = r->fields, r->table->columns = r->count;
    r->fields = NULL, r->count = r->room = 0;
    if (r->table->columns == 1 && strchr(r->table->names[0], ';'))
        fail(STATUS_DATA, "%s, line %zu: the columns are separated by semicolons; commas are wanted", r->table->path,
             r->begun);
}

static void take_row(int ended, void *with) {
    reader *r = with;
    csv *c = r->table;
    (void)ended;
    r->between = 1;
    if (r->count == 0) return;
    if (r->count == 1 && *r->fields[0] == 0) {
        free(r->fields[0]);
        r->count = 0;
        return;
    }
    if (!c->names) {
        take_names(r);
        return;
    }
    if (r->count != c->columns)
        fail(STATUS_DATA, "%s, line %zu: %zu fields, but the first line names %zu columns", c->path, r->begun, r->count,
             c->columns);
    if (c->rows == r->rows_room) {
        r->rows_room = r->rows_room * 2 + 16;
        c->fields = more_room_for(c->fields, r->rows_room * c->columns, sizeof *c->fields);
        c->lines = more_room_for(c->lines, r->rows_room, sizeof *c->lines);
    }
    memcpy(c->fields + c->rows * c->columns, r->fields, r->count * sizeof *r->fields);
    c->lines[c->rows++] = r->begun;
    r->count = 0;
}

/* The bytes up to the end of a line, which LF, CR LF and CR are. */
static size_t line_length(const char *text, const char *end) {
    const char *at = text;
    while (at < end && *at != '\n' && *at != '\r') at++;
    if (at < end && *at == '\r' && at + 1 < end && at[1] == '\n') at++;
    return (size_t)(at - text) + (at < end);
}

static void read_rows(csv *c, const char *text, const char *end) {
    struct csv_parser parser;
    reader r = { .table = c, .line = 1, .between = 1 };
    if (csv_init(&parser, CSV_STRICT | CSV_STRICT_FINI) != 0) fail(STATUS_MEMORY, "no memory for %s", c->path);
    for (; text < end; r.line++) {
        size_t length = line_length(text, end);
        if (r.between) r.begun = r.line, r.between = 0;
        if (csv_parse(&parser, text, length, take_field, take_row, &r) != length)
            fail(STATUS_DATA, "%s, line %zu: %s", c->path, r.line,
                 csv_error(&parser) == CSV_EPARSE ? "text stands after a closing quote, or a quote inside a field"
                                                  : csv_strerror(csv_error(&parser)));
        if (r.count == 0) r.between = 1; /* an empty line ends nothing */
        text += length;
    }
    if (csv_fini(&parser, take_field, take_row, &r) != 0)
        fail(STATUS_DATA, "%s, line %zu: a quote is not closed", c->path, r.begun);
    csv_free(&parser);
    free(r.fields);
}

csv read_csv(const char *path) {
    size_t length;
    csv c = { .path = text_of("%s", path) };
    char *text = (char *)read_file(path, MOST_BYTES, &length);
    if (length > MOST_BYTES) fail(STATUS_DATA, "%s is longer than %d bytes", path, MOST_BYTES);
    if (memchr(text, 0, length)) fail(STATUS_DATA, "%s holds a zero byte: it is no text", path);
    int marked = length >= 3 && memcmp(text, "\xef\xbb\xbf", 3) == 0; /* the mark that some spreadsheets write */
    read_rows(&c, text + 3 * marked, text + length);
    if (c.columns == 0) fail(STATUS_DATA, "%s is empty: its first line should name the columns", path);
    free(text);
    return c;
}

void give_back_csv(csv *c) {
    for (size_t i = 0; i < c->columns; i++) free(c->names[i]);
    for (size_t i = 0; i < c->rows * c->columns; i++) free(c->fields[i]);
    free(c->path);
    free(c->names);
    free(c->fields);
    free(c->lines);
}

static int same_name(const char *a, const char *b) {
    while (*a && tolower((unsigned char)*a) == tolower((unsigned char)*b)) a++, b++;
    return *a == 0 && *b == 0;
}

size_t column_if_any(const csv *c, const char *name) {
    size_t column = 0;
    while (column < c->columns && !same_name(c->names[column], name)) column++;
    return column;
}

size_t column_of(const csv *c, const char *name) {
    size_t column = column_if_any(c, name);
    if (column == c->columns) fail(STATUS_DATA, "%s has no column '%s'", c->path, name);
    return column;
}

const char *field_at(const csv *c, size_t row, size_t column) {
    return column < c->columns ? c->fields[row * c->columns + column] : "";
}

long long number_at(const csv *c, size_t row, size_t column, long long least, long long most) {
    long long number;
    if (!is_number(field_at(c, row, column), least, most, &number))
        fail(STATUS_DATA, "%s, line %zu, column %s: '%s' is not a whole number from %lld to %lld", c->path,
             c->lines[row], c->names[column], field_at(c, row, column), least, most);
    return number;
}

double decimal_at(const csv *c, size_t row, size_t column) {
    double number;
    if (!is_decimal(field_at(c, row, column), &number))
        fail(STATUS_DATA, "%s, line %zu, column %s: '%s' is not a number", c->path, c->lines[row], c->names[column],
             field_at(c, row, column));
    return number;
}

char *where_in(const csv *c, size_t row) { return text_of("%s, line %zu", c->path, c->lines[row]); }

/* What libcsv takes away around a field that is not quoted. */
static int is_blank(char letter) { return letter == ' ' || letter == '\t'; }

void write_csv_field(FILE *file, const char *field) {
    if (strpbrk(field, ",\"\r\n;") || is_blank(*field) || (*field && is_blank(field[strlen(field) - 1])))
        csv_fwrite(file, field, strlen(field));
    else fputs(field, file);
}
