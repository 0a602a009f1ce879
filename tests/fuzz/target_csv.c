/* CSV of each kind: the input says which command takes it, with which options, and is the file. What is refused leaves
 * the line as it was. What `set` took `get` writes so that `set` takes it back, and `get` then writes the same. */
#include "in_process.h"

#include <stdio.h>
#include <stdlib.h>
#include <string.h>

int LLVMFuzzerInitialize(int *count, char ***words) {
    (void)count, (void)words;
    begin_in_folder();
    make_day();
    return 0;
}

static const char *const tables[] = { "classes", "rules", "prices", "waivers" };

static void out_and_in(const char *line, const char *table) {
    size_t length, again_length;
    MUST_RUN("get", line, table, "out.csv");
    told t = RUN("set", line, table, "out.csv");
    if (t.status) fprintf(stderr, "%s", t.message);
    /* no row is no office's, so the office is to be said; a table of classes without one is refused */
    char *out = read_bytes("out.csv", &length);
    int has_rows = strchr(out, '\n') && strchr(out, '\n')[1];
    must(t.status == 0 || !has_rows, "what get wrote is not what set takes");
    MUST_RUN("get", line, table, "again.csv");
    char *again = read_bytes("again.csv", &again_length);
    must(length == again_length && memcmp(out, again, length) == 0, "set takes it as something else");
    free(out);
    free(again);
}

int LLVMFuzzerTestOneInput(const uint8_t *bytes, size_t size) {
    input in = { bytes, size };
    uint8_t kind = take_byte(&in) & 7, options = take_byte(&in);
    const char *line = options & 1 ? "one.gpkg" : options & 2 ? "new.gpkg" : "day.gpkg", *file = "x.csv", *words[16];
    int count = 0;
    if (options & 4) file = "-", give_input(in.at, in.left);
    else write_bytes(file, in.at, in.left);
    if (kind < 4) {
        words[count++] = "set", words[count++] = line, words[count++] = tables[kind], words[count++] = file;
        if (options & 8) words[count++] = "--office", words[count++] = options & 16 ? "0" : "1";
    } else if (kind == 4) {
        words[count++] = "batch", words[count++] = line, words[count++] = file;
    } else if (kind == 5) {
        words[count++] = "change", words[count++] = line, words[count++] = "s", words[count++] = "after";
        words[count++] = file;
        if (options & 8) words[count++] = "--else", words[count++] = options & 16 ? "wood" : "0";
    } else if (kind == 6) {
        words[count++] = "adopt", words[count++] = line, words[count++] = "old.hlq", words[count++] = file;
        if (options & 8) words[count++] = "--sheet", words[count++] = options & 16 ? "1.1" : "2.0";
    } else {
        line = "init.gpkg";
        words[count++] = "init", words[count++] = line, words[count++] = "--classes", words[count++] = file;
        if (options & 8) words[count++] = "--slots", words[count++] = options & 16 ? "5" : "32";
        if (options & 16) words[count++] = "--filler", words[count++] = "wood";
        kind = 0;
    }
    if (options & 32) words[count++] = options & 64 ? "--csv" : "--json";
    on_terminal = options >> 5 == 7;
    told t = run_words(count, words);
    on_terminal = 0;
    if (t.status == 0 && (options & 96) == 32) must_be_json(&t);
    if (strcmp(line, "init.gpkg") != 0 && (t.status || kind == 4))
        must(is_as_kept(line), "what is refused changes the line");
    if (t.status == 0 && kind != 4) MUST_RUN("check", line);
    if (t.status == 0 && kind < 4 && options & 128) out_and_in(line, tables[kind]);
    restore_folder();
    return 0;
}
