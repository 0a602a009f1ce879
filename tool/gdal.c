/* What GDAL's programs do: they tell what a raster is, and translate it. Each runs as a program of its own, with
 * arguments and no shell; what it prints goes to files in a folder of its own. */
#define _DEFAULT_SOURCE
#include "survey.h"

#include "files.h"
#include "line.h"
#include "tool.h"

#include <errno.h>
#include <fcntl.h>
#include <jansson.h>
#include <math.h>
#include <signal.h>
#include <spawn.h>
#include <stdlib.h>
#include <string.h>
#include <sys/wait.h>

extern char **environ;

/* A name that begins with a dash would be an option. */
static char *plain_name(const char *path) { return text_of("%s%s", *path == '-' ? "./" : "", path); }

/* The first line that the program said, for a message. */
static void first_words(char words[300]) {
    char *name = text_of("%s/err", temporary_folder());
    FILE *file = fopen(name, "r");
    words[0] = 0;
    if (file && !fgets(words, 300, file)) words[0] = 0;
    if (file) fclose(file);
    words[strcspn(words, "\r\n")] = 0;
    free(name);
}

/* Runs it; what it prints is then in the files out and err of the folder. The emulator does not tell that a program is
 * missing, but lets it end with 127. Gives its status. */
static int run_program(const char *const *words) {
    posix_spawn_file_actions_t files;
    posix_spawnattr_t attributes;
    sigset_t all, old;
    char *out = text_of("%s/out", temporary_folder()), *err = text_of("%s/err", temporary_folder());
    pid_t child;
    int status = 0;
    posix_spawn_file_actions_init(&files);
    posix_spawn_file_actions_addopen(&files, 0, "/dev/null", O_RDONLY, 0);
    posix_spawn_file_actions_addopen(&files, 1, out, O_WRONLY | O_CREAT | O_TRUNC, 0600);
    posix_spawn_file_actions_addopen(&files, 2, err, O_WRONLY | O_CREAT | O_TRUNC, 0600);
    /* no signal ends the tool before the program is noted; the program itself takes them */
    sigfillset(&all);
    sigprocmask(SIG_BLOCK, &all, &old);
    posix_spawnattr_init(&attributes);
    posix_spawnattr_setsigmask(&attributes, &old);
    posix_spawnattr_setflags(&attributes, POSIX_SPAWN_SETSIGMASK);
    int error = posix_spawnp(&child, words[0], &files, &attributes, (char *const *)words, environ);
    if (error == 0) note_child(child);
    sigprocmask(SIG_SETMASK, &old, NULL);
    posix_spawn_file_actions_destroy(&files);
    posix_spawnattr_destroy(&attributes);
    if (error == 0) while (waitpid(child, &status, 0) < 0 && errno == EINTR) continue;
    note_child(0);
    if (error == ENOENT || (error == 0 && WIFEXITED(status) && WEXITSTATUS(status) == 127))
        fail(STATUS_MISSING, "%s is missing: it comes with Debian's package gdal-bin", words[0]);
    if (error) fail(STATUS_MISSING, "%s cannot be started: %s", words[0], strerror(error));
    free(out);
    free(err);
    return WIFEXITED(status) ? WEXITSTATUS(status) : 128;
}

static void run_or_end(const char *const *words, const char *path) {
    char said[300];
    if (run_program(words) == 0) return;
    first_words(said);
    fail(STATUS_DATA, "%s: %s fails: %s", path, words[0], *said ? said : "it says nothing");
}

void translate(const char *from, const char *to, const char *driver, const char *srs) {
    char *in = plain_name(from), *out = plain_name(to);
    const char *words[16] = { "gdal_translate", "-q", "-of", driver };
    int count = 4;
    if (srs) words[count++] = "-a_srs", words[count++] = srs;
    if (strcmp(driver, "GTiff") == 0) words[count++] = "-co", words[count++] = "COMPRESS=DEFLATE";
    words[count++] = in, words[count++] = out;
    run_or_end(words, to);
    free(in);
    free(out);
}

/* The size and the place, from what gdalinfo tells. */
static void place(survey *s, json_t *told) {
    json_t *size = json_object_get(told, "size"), *t = json_object_get(told, "geoTransform");
    double columns = json_number_value(json_array_get(size, 0)), rows = json_number_value(json_array_get(size, 1));
    if (!(columns >= 1 && rows >= 1)) fail(STATUS_DATA, "%s has no pixel", s->path);
    if (columns > MOST_SIDE_OF_SURVEY || rows > MOST_SIDE_OF_SURVEY)
        fail(STATUS_DATA, "%s: %.0f columns and %.0f rows: a survey has up to %d of each", s->path, columns, rows,
             MOST_SIDE_OF_SURVEY);
    s->columns = (uint32_t)columns, s->rows = (uint32_t)rows;
    if (!t) return;
    double g[6];
    for (size_t i = 0; i < 6; i++) g[i] = json_number_value(json_array_get(t, i));
    if (g[2] != 0 || g[4] != 0) fail(STATUS_DATA, "%s: the raster is turned; gdalwarp makes it straight", s->path);
    if (!(g[1] > 0) || !(g[5] < 0)) fail(STATUS_DATA, "%s: the raster is not north up; gdalwarp makes it so", s->path);
    if (fabs(g[1] + g[5]) > 1e-9 * g[1])
        fail(STATUS_DATA, "%s: the cells are not square: %.15g by %.15g; gdalwarp -tr makes them so", s->path, g[1],
             -g[5]);
    s->has_cell = s->has_place = 1;
    s->cell = g[1], s->west = g[0], s->north = g[3];
}

/* The last ID of the WKT is the number of the whole system; without one the system is kept by its definition alone. */
static long epsg_of(const char *wkt) {
    const char *last = NULL;
    for (const char *found = wkt; (found = strstr(found, "ID[\"EPSG\",")); found += 10) last = found;
    if (!last) return 0;
    char *end;
    long number = strtol(last + 10, &end, 10);
    return strcmp(end, "]]") == 0 && number > 0 ? number : 0; /* it closes the system, not a part of it */
}

/* The name is the first text in quotes. */
static char *name_of(const char *wkt) {
    const char *begin = strchr(wkt, '"'), *end = begin ? strchr(begin + 1, '"') : NULL;
    return end ? text_of("%.*s", (int)(end - begin - 1), begin + 1) : text_of("unnamed");
}

/* The definition, as a GeoPackage wants it. */
static void take_definition(survey *s, const char *in) {
    const char *words[] = { "gdalsrsinfo", "--single-line", "-o", "wkt1", in, NULL };
    run_or_end(words, s->path);
    char *name = text_of("%s/out", temporary_folder());
    size_t length;
    s->definition = (char *)read_file(name, 1 << 20, &length);
    char *begin = s->definition + strspn(s->definition, " \r\n"), *end = begin + strlen(begin);
    while (end > begin && strchr(" \r\n", end[-1])) *--end = 0;
    memmove(s->definition, begin, strlen(begin) + 1);
    free(name);
}

static void take_system(survey *s, json_t *told, const char *in) {
    const char *wkt = json_string_value(json_object_get(json_object_get(told, "coordinateSystem"), "wkt"));
    if (!wkt || !*wkt) return;
    s->epsg = epsg_of(wkt);
    s->srs_name = name_of(wkt);
    take_definition(s, in);
}

/* Such a file has seldom a number, so GDAL looks for the system that it tells; one that it does not know is kept by its
 * definition alone. */
void take_prj(survey *s, const char *path) {
    char *in = plain_name(path), *name = text_of("%s/out", temporary_folder());
    const char *words[] = { "gdalsrsinfo", "-o", "epsg", in, NULL };
    size_t length;
    run_or_end(words, path);
    char *told = (char *)read_file(name, 1 << 20, &length), *mark = strstr(told, "EPSG:");
    long number = mark ? strtol(mark + 5, NULL, 10) : 0;
    s->epsg = number > 0 ? number : 0;
    char *known = text_of("EPSG:%ld", s->epsg);
    take_definition(s, s->epsg ? known : in);
    s->srs_name = name_of(s->definition);
    free(known);
    free(told);
    free(name);
    free(in);
}

/* One band of numbers. Bytes stay bytes; wider numbers become floating ones, which hold every class and what stands for
 * no data, since a byte would silently hold something else. */
static void take_band(survey *s, json_t *told) {
    json_t *bands = json_object_get(told, "bands"), *band = json_array_get(bands, 0);
    json_t *nodata = json_object_get(band, "noDataValue");
    const char *type = json_string_value(json_object_get(band, "type"));
    if (json_array_size(bands) != 1)
        fail(STATUS_DATA, "%s has %zu bands; a survey has one, the classes (gdal_translate -b 1 takes the first)",
             s->path, json_array_size(bands));
    if (type && type[0] == 'C') fail(STATUS_DATA, "%s holds complex numbers, and no classes", s->path);
    s->bits = type && strcmp(type, "Byte") == 0 ? 8 : 32;
    s->has_nodata = json_is_number(nodata) || json_is_string(nodata);
    s->nodata = json_is_number(nodata) ? json_number_value(nodata) : NAN;
}

static void read_gdal_row(survey *s, int *values) {
    size_t size = s->bits / 8;
    /* read to the end of the row's room, and used from the front */
    uint8_t *bytes = (uint8_t *)values + (sizeof *values - size) * s->columns;
    if (fread(bytes, size, s->columns, s->file) != s->columns)
        fail_in_survey(s, s->row, 0, "what gdal_translate wrote ends here");
    for (uint32_t i = 0; i < s->columns; i++) {
        float wide = 0;
        if (size == 4) memcpy(&wide, bytes + 4 * (size_t)i, 4);
        double value = size == 4 ? (double)wide : (double)bytes[i];
        int none = s->has_nodata && (value == s->nodata || (float)value == (float)s->nodata);
        if (none || isnan(value)) values[i] = NO_DATA;
        else if (value < 0 || value > 255 || value != floor(value))
            fail_in_survey(s, s->row, i, "%.9g is no class: they go from 0 to %d", value, HLQ_MOST_SLOTS - 1);
        else values[i] = (int)value;
    }
    s->row++;
}

/* The head that gdal_translate wrote: the bits a cell and the order of their bytes must be those that are read here. */
static void look_at_head(const survey *s, const char *name) {
    char word[64], value[64];
    FILE *file = fopen(name, "r");
    if (!file) fail(STATUS_IO, "%s: gdal_translate wrote no head", s->path);
    while (fscanf(file, "%63s %63s", word, value) == 2) {
        int wrong = (strcmp(word, "NBITS") == 0 && strtoul(value, NULL, 10) != s->bits) ||
                    (strcmp(word, "BYTEORDER") == 0 && strcmp(value, "I") != 0 && s->bits == 32);
        if (wrong) fail(STATUS_DATA, "%s: gdal_translate wrote %s %s, which is not read here", s->path, word, value);
    }
    fclose(file);
}

survey open_gdal_survey(const char *path) {
    survey s = { .path = path, .cell = 1 };
    char *in = plain_name(path), *out = text_of("%s/out", temporary_folder());
    char *raw = text_of("%s/raw.bil", temporary_folder());
    const char *ask[] = { "gdalinfo", "-json", in, NULL };
    run_or_end(ask, path);
    json_error_t error;
    json_t *told = json_load_file(out, 0, &error);
    if (!told) fail(STATUS_DATA, "%s: what gdalinfo tells is no JSON: %s", path, error.text);
    place(&s, told);
    take_band(&s, told);
    take_system(&s, told, in);
    const char *bring[] = { "gdal_translate", "-q", "-of", "EHdr", "-ot", s.bits == 8 ? "Byte" : "Float32",
                            "-co", "NBITS=8", in, raw, NULL };
    if (s.bits != 8) bring[6] = in, bring[7] = raw, bring[8] = NULL;
    run_or_end(bring, path);
    char *head = text_of("%s/raw.hdr", temporary_folder());
    look_at_head(&s, head);
    s.file = fopen(raw, "rb");
    if (!s.file) fail(STATUS_IO, "%s: gdal_translate wrote nothing", path);
    s.read_row = read_gdal_row;
    json_decref(told);
    free(in);
    free(out);
    free(raw);
    free(head);
    return s;
}
