/* The command line: each line of the input is a word, and a line that is empty ends one command and begins the next.
 * Words name the files that the folder has; none leads out of it, since it has no slash. */
#include "in_process.h"

#include <stdlib.h>
#include <string.h>

enum { COMMANDS = 6, WORDS = 24 };

int LLVMFuzzerInitialize(int *count, char ***words) {
    (void)count, (void)words;
    begin_in_folder();
    make_day();
    return 0;
}

/* The words up to an empty line; gives what follows. */
static char *take_words(char *at, const char *words[WORDS], int *count) {
    for (*count = 0; at && *at;) {
        char *end = strchr(at, '\n');
        if (end) *end++ = 0;
        if (*at == 0) return end;
        if (strcmp(at, "''") == 0) *at = 0; /* the empty word */
        if (*count < WORDS) words[(*count)++] = at;
        at = end;
    }
    return NULL;
}

/* Where JSON is asked for, and the word is an option and no value. */
static int wants_json(const char *const *words, int count) {
    int json = 0;
    for (int i = 0; i < count; i++) {
        if (strcmp(words[i], "--") == 0 || strcmp(words[i], "--help") == 0 || strcmp(words[i], "-") == 0) return 0;
        json |= strcmp(words[i], "--json") == 0;
    }
    return json;
}

int LLVMFuzzerTestOneInput(const uint8_t *bytes, size_t size) {
    static const char pixels[77];
    char *text = malloc(size + 1);
    const char *words[WORDS];
    int count, rounds = 0;
    for (size_t i = 0; i < size; i++) text[i] = bytes[i] == '/' ? '_' : bytes[i] == 0 ? ' ' : (char)bytes[i];
    text[size] = 0;
    char *at = text;
    gdal = (gdal_stub){ .info = "{\"size\":[7,11],\"bands\":[{\"type\":\"Byte\"}]}", .info_length = 41,
                        .srs = "EPSG:25832\n", .srs_length = 11, .head = "NBITS 8\n", .head_length = 8,
                        .raw = pixels, .raw_length = sizeof pixels };
    give_input("P2 2 2 1 0 1 1 0", 16);
    do {
        at = take_words(at, words, &count);
        told t = count > 1 ? run_on_line(words[1], count, words) : run_words(count, words);
        if (t.status == 0 && wants_json(words, count) && t.answer_length && *t.answer == '{') must_be_json(&t);
    } while (at && ++rounds < COMMANDS);
    restore_folder();
    free(text);
    return 0;
}
