/* Surveys read row by row: PGM by netpbm's library, ESRI ASCII grids by hand, since they are words and numbers. */
#define _DEFAULT_SOURCE
#include "survey.h"

#include "files.h"
#include "line.h"
#include "tool.h"

#include <ctype.h>
#include <errno.h>
#include <netpbm/pgm.h>
#include <stdarg.h>
#include <stdlib.h>
#include <string.h>
#include <sys/stat.h>

_Noreturn void fail_in_survey(const survey *s, uint32_t row, uint32_t column, const char *format, ...) {
    char words[400];
    va_list rest;
    va_start(rest, format);
    vsnprintf(words, sizeof words, format, rest);
    va_end(rest);
    fail(STATUS_DATA, "%s, row %u, column %u: %s", s->path, row, column, words);
}

static void check_size(const survey *s, unsigned long long columns, unsigned long long rows) {
    if (columns == 0 || rows == 0) fail(STATUS_DATA, "%s has no pixel", s->path);
    if (columns > MOST_SIDE_OF_SURVEY || rows > MOST_SIDE_OF_SURVEY)
        fail(STATUS_DATA, "%s: %llu columns and %llu rows: a survey has up to %d of each", s->path, columns, rows,
             MOST_SIDE_OF_SURVEY);
}

enum { WORD = 64 };

/* The next word, or "" at the end of the file; one that is too long is cut, and is no number. */
static void next_word(survey *s, char word[WORD]) {
    int c, length = 0;
    while ((c = getc(s->file)) != EOF && isspace(c)) continue;
    for (; c != EOF && !isspace(c); c = getc(s->file)) {
        if (c == 0) fail(STATUS_DATA, "%s: neither a PGM nor an ESRI ASCII grid, and holds a zero byte", s->path);
        if (length < WORD - 1) word[length++] = (char)c;
    }
    word[length] = 0;
    if (ferror(s->file)) fail(STATUS_IO, "%s: %s", s->path, strerror(errno));
}

/* PGM. netpbm's library tells its errors to a function of ours, which does not come back; `at` is where it reads. */
static struct {
    const survey *s;
    long long row, column;
} at;

static void end_of_netpbm(const char *words) {
    if (at.row < 0) fail(STATUS_DATA, "%s: %s", at.s->path, words);
    if (at.column < 0) fail(STATUS_DATA, "%s, row %lld: %s", at.s->path, at.row, words);
    fail(STATUS_DATA, "%s, row %lld, column %lld: %s", at.s->path, at.row, at.column, words);
}

static void hear_nothing(const char *words) { (void)words; }

/* netpbm's library does not say at which pixel a file ends, so the bytes that a P5 still has are counted first. */
static void look_for_the_end(const survey *s) {
    struct stat file;
    off_t begun = ftello(s->file);
    if (begun < 0 || fstat(fileno(s->file), &file) != 0 || !S_ISREG(file.st_mode)) return;
    uint64_t left = (uint64_t)(file.st_size - begun), wanted = (uint64_t)s->rows * s->columns;
    if (left < wanted)
        fail_in_survey(s, (uint32_t)(left / s->columns), (uint32_t)(left % s->columns), "the file ends here");
    if (left > wanted) fail(STATUS_DATA, "%s: more follows the last pixel", s->path);
}

/* A P5 by the library. It is told 255 for the maxval, and the file's own is compared here, where the pixel is known. */
static void read_raw_row(survey *s, int *values) {
    gray *greys = (gray *)values; /* of the same size, and 255 at most */
    at.s = s, at.row = s->row, at.column = -1;
    pgm_readpgmrow(s->file, greys, (int)s->columns, 255, RPGM_FORMAT);
    for (uint32_t i = 0; i < s->columns; i++)
        if (greys[i] > s->maxval)
            fail_in_survey(s, s->row, i, "grey %u is above the file's maxval %u", greys[i], s->maxval);
    s->row++;
}

/* A P2 by hand: the library wants something after the last number, where people often have nothing. */
static void read_plain_row(survey *s, int *values) {
    char word[WORD];
    for (uint32_t i = 0; i < s->columns; i++) {
        long long grey;
        next_word(s, word);
        if (*word == 0) fail_in_survey(s, s->row, i, "the file ends here");
        if (!is_number(word, 0, UINT32_MAX, &grey)) fail_in_survey(s, s->row, i, "'%s' is not a grey", word);
        if (grey > s->maxval)
            fail_in_survey(s, s->row, i, "grey %lld is above the file's maxval %u", grey, s->maxval);
        values[i] = (int)grey;
    }
    s->row++;
}

static void open_pgm(survey *s) {
    int columns, rows, format;
    gray maxval;
    at.s = s, at.row = at.column = -1;
    pm_init("prowcurl", 0);
    pm_setusererrormsgfn(end_of_netpbm);
    pm_setusermessagefn(hear_nothing);
    pgm_readpgminit(s->file, &columns, &rows, &maxval, &format);
    if (format != PGM_FORMAT && format != RPGM_FORMAT)
        fail(STATUS_DATA, "%s: not a grey PGM: it should begin with P5 or P2", s->path);
    if (maxval > 255) fail(STATUS_DATA, "%s: greys up to %u: not an 8-bit PGM", s->path, maxval);
    check_size(s, columns < 0 ? 0 : (unsigned)columns, rows < 0 ? 0 : (unsigned)rows);
    s->columns = (uint32_t)columns, s->rows = (uint32_t)rows;
    s->format = (unsigned)format, s->maxval = maxval;
    s->read_row = format == RPGM_FORMAT ? read_raw_row : read_plain_row;
    if (format == RPGM_FORMAT) look_for_the_end(s);
}

/* ESRI ASCII grids: words with a number each, then the cells row by row from the north. */
static int value_of_cell(survey *s, const char *word, uint32_t column) {
    double value;
    if (*word == 0) fail_in_survey(s, s->row, column, "the file ends here");
    if (!is_decimal(word, &value)) fail_in_survey(s, s->row, column, "'%s' is not a number", word);
    if (s->has_nodata && value == s->nodata) return NO_DATA;
    if (value < 0 || value > 255 || value != (double)(unsigned)value)
        fail_in_survey(s, s->row, column, "%s is no class: they go from 0 to %d", word, HLQ_MOST_SLOTS - 1);
    return (int)value;
}

static void read_grid_row(survey *s, int *values) {
    char word[WORD];
    for (uint32_t i = 0; i < s->columns; i++) {
        if (s->row == 0 && i == 0 && s->bits) { /* the first cell was read with the head */
            s->bits = 0;
            values[0] = (int)s->format;
            continue;
        }
        next_word(s, word);
        values[i] = value_of_cell(s, word, i);
    }
    s->row++;
}

static int is_word(const char *word, const char *wanted) {
    while (*word && tolower((unsigned char)*word) == *wanted) word++, wanted++;
    return *word == 0 && *wanted == 0;
}

typedef struct {
    double columns, rows, west, south, cell, dx, dy, nodata;
    int corner_x, corner_y; /* 1 where west is an edge, 2 where it is a centre */
} grid_head;

/* One word of the head with its number; 0 where it is none of a grid's. */
static int take_head(grid_head *h, const char *word, double number) {
    if (is_word(word, "ncols")) h->columns = number;
    else if (is_word(word, "nrows")) h->rows = number;
    else if (is_word(word, "xllcorner")) h->west = number, h->corner_x = 1;
    else if (is_word(word, "xllcenter")) h->west = number, h->corner_x = 2;
    else if (is_word(word, "yllcorner")) h->south = number, h->corner_y = 1;
    else if (is_word(word, "yllcenter")) h->south = number, h->corner_y = 2;
    else if (is_word(word, "cellsize")) h->cell = number;
    else if (is_word(word, "dx")) h->dx = number;
    else if (is_word(word, "dy")) h->dy = number;
    else if (is_word(word, "nodata_value")) h->nodata = number;
    else return 0;
    return 1;
}

/* The words before the first number. Gives the first cell. */
static void read_grid_head(survey *s, grid_head *h, char word[WORD]) {
    for (next_word(s, word); isalpha((unsigned char)*word); next_word(s, word)) {
        char value[WORD];
        double number;
        next_word(s, value);
        if (!is_decimal(value, &number)) fail(STATUS_DATA, "%s: '%s' has no number after it", s->path, word);
        if (!take_head(h, word, number)) fail(STATUS_DATA, "%s: '%s' is no word of an ESRI ASCII grid", s->path, word);
        int counts = is_word(word, "ncols") || is_word(word, "nrows");
        if (counts && (number < 0 || number > 1e15 || number != (double)(long long)number))
            fail(STATUS_DATA, "%s: %s is %s", s->path, word, value);
    }
}

static void place_grid(survey *s, const grid_head *h) {
    if (h->dx != h->dy) fail(STATUS_DATA, "%s: the cells are not square: %.15g by %.15g", s->path, h->dx, h->dy);
    s->cell = h->cell != 0 ? h->cell : h->dx;
    s->has_cell = h->cell != 0 || h->dx != 0;
    if (s->has_cell && !(s->cell > 0)) fail(STATUS_DATA, "%s: cellsize is %.15g", s->path, s->cell);
    if (!s->has_cell) s->cell = 1;
    s->has_place = h->corner_x && h->corner_y;
    if (!s->has_place) return;
    s->west = h->west - (h->corner_x == 2 ? s->cell / 2 : 0);
    s->north = h->south - (h->corner_y == 2 ? s->cell / 2 : 0) + s->rows * s->cell;
}

/* GRID.prj, beside GRID.asc, is where its coordinate system stands. */
static void look_for_prj(survey *s) {
    const char *dot = strrchr(s->path, '.'), *slash = strrchr(s->path, '/');
    if (!dot || (slash && dot < slash)) return;
    char *beside = text_of("%.*s.prj", (int)(dot - s->path), s->path);
    if (file_exists(beside)) take_prj(s, beside);
    free(beside);
}

static void open_grid(survey *s) {
    grid_head h = { .columns = -1, .rows = -1, .nodata = -9999 };
    char word[WORD];
    read_grid_head(s, &h, word);
    if (h.columns < 0 || h.rows < 0) fail(STATUS_DATA, "%s: a grid begins with ncols and nrows", s->path);
    check_size(s, (unsigned long long)h.columns, (unsigned long long)h.rows);
    s->columns = (uint32_t)h.columns, s->rows = (uint32_t)h.rows;
    s->nodata = h.nodata, s->has_nodata = 1;
    place_grid(s, &h);
    look_for_prj(s);
    s->format = (unsigned)value_of_cell(s, word, 0), s->bits = 1;
    s->read_row = read_grid_row;
}

int is_old_map(const char *path) {
    char mark[3] = "";
    FILE *file = strcmp(path, "-") == 0 ? NULL : fopen(path, "rb");
    size_t length = file ? fread(mark, 1, 3, file) : 0;
    if (file) fclose(file);
    return length == 3 && memcmp(mark, "HLQ", 3) == 0;
}

survey open_survey(const char *path) {
    survey s = { .path = path, .cell = 1 };
    int from_input = strcmp(path, "-") == 0;
    struct stat there;
    s.file = from_input ? stdin : fopen(path, "rb");
    if (!s.file) fail(STATUS_NO_INPUT, "%s: %s", path, strerror(errno));
    if (fstat(fileno(s.file), &there) == 0 && S_ISDIR(there.st_mode))
        fail(STATUS_NO_INPUT, "%s: %s", path, strerror(EISDIR));
    int first = getc(s.file);
    if (first == EOF) fail(STATUS_DATA, "%s is empty", path);
    ungetc(first, s.file);
    if (first == 'P') {
        open_pgm(&s);
    } else if (first == 'n' || first == 'N') {
        open_grid(&s);
    } else {
        if (from_input) fail(STATUS_DATA, "%s: neither a PGM nor an ESRI ASCII grid", path);
        fclose(s.file);
        return open_gdal_survey(path);
    }
    return s;
}

void end_survey(survey *s) {
    for (int next; (next = getc(s->file)) != EOF;)
        if (s->format == RPGM_FORMAT || !isspace(next))
            fail(STATUS_DATA, "%s: more follows the last %s", s->path, s->read_row == read_grid_row ? "cell" : "pixel");
    if (s->file != stdin) fclose(s->file);
}

void give_back_survey(survey *s) {
    free(s->srs_name);
    free(s->definition);
}
