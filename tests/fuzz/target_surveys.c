/* Surveys: the input is how `add` is called and what it reads, a PGM, an ESRI grid, a map of the first version with its
 * log, or what GDAL's programs tell. What is refused leaves the line as it was; what comes in is sound, and goes out
 * and in again as the same pixels. */
#include "in_process.h"

#include <errno.h>
#include <stdio.h>
#include <stdlib.h>
#include <string.h>

int LLVMFuzzerInitialize(int *count, char ***words) {
    (void)count, (void)words;
    begin_in_folder();
    make_day();
    MUST_RUN("init", "again.gpkg", "--side", "2");
    keep_file("again.gpkg");
    return 0;
}

/* In parts, each of which ends with a line of two dashes. */
static const uint8_t *next_part(input *in, size_t *length) {
    const uint8_t *begun = in->at;
    for (; in->left; in->at++, in->left--) {
        if (in->left < 3 || memcmp(in->at, "--\n", 3) != 0) continue;
        *length = (size_t)(in->at - begun);
        in->at += 3, in->left -= 3;
        return begun;
    }
    *length = (size_t)(in->at - begun);
    return begun;
}

static void give_gdal(input *in, uint8_t how) {
    gdal = (gdal_stub){ 0 };
    gdal.info = next_part(in, &gdal.info_length);
    gdal.srs = next_part(in, &gdal.srs_length);
    gdal.head = next_part(in, &gdal.head_length);
    gdal.raw = next_part(in, &gdal.raw_length);
    if (how & 1) gdal.ends = how >> 1 & 3;
    if ((how & 15) == 9) gdal.missing = how & 16 ? ENOENT : EACCES;
    if ((how & 15) == 11) gdal.ends = 127;
    if ((how & 15) == 13) gdal.raw = NULL;
    if ((how & 15) == 15) gdal.head = NULL;
}

static uint64_t fnv_of(const uint8_t *bytes, size_t length) {
    uint64_t digest = 14695981039346656037u;
    for (size_t i = 0; i < length; i++) digest = (digest ^ bytes[i]) * 1099511628211u;
    return digest;
}

static uint8_t *put_u64(uint8_t *to, uint64_t number) {
    for (int i = 0; i < 8; i++) *to++ = (uint8_t)(number >> 8 * i);
    return to;
}

/* A log of the first version around the records that the input has, with digests that are right: no input would ever
 * hit them. */
static void write_log(const char *name, const uint8_t *map, size_t map_length, input *in) {
    uint64_t in_force = take_byte(in);
    size_t used = in->left / 8;
    uint8_t *bytes = malloc(48 + 8 * used), *to = bytes + 8;
    memcpy(bytes, "HLQLOG1\n", 8);
    to = put_u64(put_u64(put_u64(put_u64(to, fnv_of(map, map_length)), map_length), used), in_force);
    memcpy(to, in->at, 8 * used);
    put_u64(to + 8 * used, fnv_of(bytes, 40 + 8 * used));
    write_bytes(name, bytes, 48 + 8 * used);
    free(bytes);
}

/* The file under a name of its kind, and beside it what belongs to it. */
static const char *give_survey(input *in, uint8_t kind, uint8_t how) {
    size_t length;
    if (kind == 1) { /* a grid with its coordinate system beside it */
        give_gdal(in, how & 16 ? how : 0);
        write_bytes("x.asc", in->at, in->left);
        write_bytes("x.prj", "", 0);
        return "x.asc";
    }
    if (kind == 2) {
        give_gdal(in, how);
        write_bytes("-x.tif", "II*", 4);
        return how & 128 ? "./-x.tif" : "-x.tif";
    }
    if (kind == 3) { /* a map of the first version and its log */
        const uint8_t *map = next_part(in, &length);
        const char *log = how & 1 ? "x.hlq.log.new" : "x.hlq.log";
        write_bytes("x.hlq", map, length);
        if (how & 2) write_log(log, map, length, in);
        else if (in->left) write_bytes(log, in->at, in->left);
        return "x.hlq";
    }
    if (how & 1) {
        give_input(in->at, in->left);
        return "-";
    }
    write_bytes("x", in->at, in->left);
    return "x";
}

/* Out as a grid, which tells all that a line knows of its place, and into a new line, whose grid must be the same. */
static void out_and_in(const char *line) {
    size_t length, again_length;
    MUST_RUN("export", line, "grid", "out.asc");
    told t = RUN("add", "again.gpkg", "out.asc");
    if (t.status) fprintf(stderr, "%s", t.message);
    must(t.status == 0, "a grid that went out does not come in");
    MUST_RUN("export", "again.gpkg", "grid", "again.asc");
    char *out = read_bytes("out.asc", &length), *again = read_bytes("again.asc", &again_length);
    char *pixels = strstr(out, "cellsize"), *pixels_again = strstr(again, "cellsize");
    must(pixels && pixels_again && strcmp(pixels, pixels_again) == 0, "a grid comes back as another");
    free(out);
    free(again);
}

int LLVMFuzzerTestOneInput(const uint8_t *bytes, size_t size) {
    input in = { bytes, size };
    uint8_t kind = take_byte(&in) & 3, how = take_byte(&in), options = take_byte(&in);
    const char *line = options & 1 ? "day.gpkg" : options & 2 ? "one.gpkg" : "new.gpkg", *words[16];
    int count = 0;
    words[count++] = "add";
    words[count++] = line;
    words[count++] = give_survey(&in, kind, how);
    if (options & 4) words[count++] = "--nodata", words[count++] = "1";
    if (options & 8) words[count++] = "--cell", words[count++] = "0.25";
    if (options & 16) words[count++] = "--west", words[count++] = "-7.5";
    if (options & 32) words[count++] = "--north", words[count++] = "1e6";
    if (options & 64) words[count++] = "--filler", words[count++] = "1";
    if (options & 128) words[count++] = "--json";
    on_terminal = how >> 5 == 7;
    told t = run_words(count, words);
    on_terminal = 0;
    if (t.status) must(is_as_kept(line), "a refused survey changes the line");
    else {
        if (options & 128) must_be_json(&t);
        MUST_RUN("check", line);
        if (how & 64) out_and_in(line);
    }
    restore_folder();
    return 0;
}
