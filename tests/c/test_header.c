/* What prowcurl.h says beside its declarations: numbers, macros and words, each against a number of
 * docs/SPECIFICATION.md or against what the calls do. It is C and C++ alike, and the tests compile it as both. */
#include "prowcurl.h"

#include <assert.h>
#include <stdio.h>
#include <stdlib.h>
#include <string.h>

static_assert(HLQ_INTERFACE == 14, "the interface's number");
static_assert(HLQ_DEEPEST_M == 10 && HLQ_MOST_SLOTS == 32, "the limits of specification S2");
static_assert(HLQ_LISTED == 1 && HLQ_INSIDE == 2, "the kinds");
static_assert(HLQ_TABLE_PLACES == 512 && HLQ_OFFICE_ROWS == 256, "the table of two offices");
static_assert(HLQ_GROUP_MARK == 255 && HLQ_GROUP_MARK >= HLQ_MOST_SLOTS, "the mark, which is no feature");
static_assert(HLQ_ACCEPTED == 0 && HLQ_SETTINGS == 1 && HLQ_RASTER_LENGTH == 2 && HLQ_PIXEL == 3 && HLQ_LIST == 4 &&
                  HLQ_LOG == 5 && HLQ_WINDOW == 6 && HLQ_FEATURE == 7 && HLQ_KEY == 8 && HLQ_LIST_ROOM == 9 &&
                  HLQ_LOG_ROOM == 10 && HLQ_LOG_EMPTY == 11 && HLQ_ANSWER_ROOM == 12 && HLQ_RULES == 13 &&
                  HLQ_WAIVERS == 14 && HLQ_FILE_LENGTH == 15 && HLQ_FILE_MARK == 16 && HLQ_FILE_VERSION == 17,
              "the refusals of specification S24, to 17");
static_assert(HLQ_SUMMARY == 18 && HLQ_LEAVES == 19 && HLQ_NO_REDO == 20 && HLQ_OFFICE == 21 && HLQ_ROW == 22 &&
                  HLQ_BIT_STRINGS == 23 && HLQ_RESOLUTION == 24 && HLQ_CLASS_TABLE == 25,
              "the refusals of specification S24, from 18");
static_assert(HLQ_MOST_RECORDS(0) == 1 && HLQ_MOST_RECORDS(1) == 5 && HLQ_MOST_RECORDS(5) == 1365 &&
                  HLQ_MOST_RECORDS(HLQ_DEEPEST_M) == 1398101,
              "the most records");
static_assert(HLQ_MOST_RECORDS(1 + 1) == 21 && 2 * HLQ_MOST_RECORDS(2) == 42,
              "an argument or a neighbour may be a sum");
static_assert(HLQ_FILE_BYTES(0, 1) == 11 && HLQ_FILE_BYTES(9, 16) == 65 && HLQ_FILE_BYTES(9, 17) == 83 &&
                  HLQ_FILE_BYTES(1 + 1, 16 + 1) == 27 && 2 * HLQ_FILE_BYTES(0, 32) == 22,
              "the bytes of a file");
static_assert(HLQ_FILE_BYTES(0xFFFFFFFFu, 16) == 25769803781u && HLQ_FILE_BYTES(0xFFFFFFFFu, 32) == 34359738371u,
              "no wrapping at 32 bits");
static_assert(HLQ_LOG_FILE_BYTES(0) == 23 && HLQ_LOG_FILE_BYTES(3) == 47 && HLQ_LOG_FILE_BYTES(1 + 1) == 39 &&
                  2 * HLQ_LOG_FILE_BYTES(0) == 46 && HLQ_LOG_FILE_BYTES(0xFFFFFFFFu) == 34359738383u,
              "the bytes of a log's file");
static_assert(sizeof(hlq_done) == 8 && sizeof(hlq_counted) == 16 && sizeof(hlq_keyed) == 16 &&
                  sizeof(hlq_block) == 40 && sizeof(hlq_measured) == 16 && sizeof(hlq_stands) == 48 &&
                  sizeof(hlq_span) == 16 && sizeof(hlq_exists) == 16 && sizeof(hlq_reported) == 16 &&
                  sizeof(hlq_edited) == 32 && sizeof(hlq_emptied) == 16 && sizeof(hlq_found) == 24 &&
                  sizeof(hlq_loaded) == 32 && sizeof(hlq_loaded_log) == 40 && sizeof(hlq_strings) == 24 &&
                  sizeof(hlq_rule) == 24 && sizeof(hlq_question) == 24,
              "the structs have no gaps");

enum { MOST = HLQ_MOST_RECORDS(HLQ_DEEPEST_M) };

static uint8_t raster[1 << 2 * HLQ_DEEPEST_M], file[HLQ_FILE_BYTES(MOST, HLQ_MOST_SLOTS)];
static uint32_t keys[MOST], bits[MOST], summary[HLQ_SUMMARY_PLACES(HLQ_DEEPEST_M, HLQ_MOST_SLOTS)];

static void must(int ok, const char *what) {
    if (!ok) {
        printf("FAILED: %s\n", what);
        exit(1);
    }
}

/* A raster in which no two neighbours are equal has the most records, and the file of its list the most bytes. */
static void macros_meet_calls(uint32_t m) {
    size_t pixels = (size_t)1 << 2 * m;
    for (size_t i = 0; i < pixels; i++) raster[i] = (uint8_t)((i ^ i >> m) & 1);
    size_t most = HLQ_MOST_RECORDS(m);
    size_t places = HLQ_SUMMARY_PLACES(m, 2);
    hlq_counted built = hlq_build(m, 2, raster, pixels, keys, most - 1, bits, most, summary, places);
    must(built.refusal == HLQ_LIST_ROOM, "a place too few");
    built = hlq_build(m, 2, raster, pixels, keys, most, bits, most, summary, places + 1);
    must(built.refusal == HLQ_SUMMARY, "a summary's length is exact");
    built = hlq_build(m, 2, raster, pixels, keys, most, bits, most, summary, places);
    must(built.refusal == HLQ_ACCEPTED && built.count == most, "HLQ_MOST_RECORDS holds the largest list");
    for (uint32_t s = 2; s <= HLQ_MOST_SLOTS; s += 15) { /* 2, 17, 32 */
        size_t bytes = HLQ_FILE_BYTES(most, s);
        hlq_counted stored = hlq_store(m, s, keys, most, bits, most, most, file, bytes - 1);
        must(stored.refusal == HLQ_ANSWER_ROOM && stored.count == bytes, "a byte too few");
        stored = hlq_store(m, s, keys, most, bits, most, most, file, bytes);
        must(stored.refusal == HLQ_ACCEPTED && stored.count == bytes, "HLQ_FILE_BYTES holds the file");
    }
    size_t nodes = HLQ_NODE_STRING_BYTES(most), leaves = HLQ_LEAF_STRING_BYTES(most);
    hlq_strings strings = hlq_write_bit_strings(m, 2, keys, most, bits, most, most, file, nodes, file + nodes, leaves);
    must(strings.refusal == HLQ_ACCEPTED && strings.node_bytes == nodes && strings.leaf_bytes == leaves,
         "HLQ_NODE_STRING_BYTES and HLQ_LEAF_STRING_BYTES hold the bit strings");
    must(hlq_standing(m, 2, keys, most, bits, most, most, 0).kind == HLQ_LISTED, "the root is listed");
    must(hlq_standing(m, 2, keys, most, bits, most, most, 0).records == most, "every record is the root's or below it");
    must(hlq_fill_summary(m, 2, keys, most, bits, most, most, summary, places).refusal == HLQ_ACCEPTED,
         "HLQ_SUMMARY_PLACES is the summary's length");
}

static void limits(void) {
    enum { M = HLQ_DEEPEST_M, S = HLQ_MOST_SLOTS, PLACES = HLQ_SUMMARY_PLACES(M, S) };
    memset(raster, 0, sizeof raster);
    hlq_counted deepest = hlq_build(M, S, raster, sizeof raster, keys, MOST, bits, MOST, summary, PLACES);
    must(deepest.refusal == HLQ_ACCEPTED && deepest.count == 1, "both limits are accepted");
    must(hlq_standing(M, S, keys, MOST, bits, MOST, 1, 1).refusal == HLQ_KEY, "no key");
    hlq_stands quarter = hlq_standing(1, 1, keys, MOST, bits, MOST, 1, 1);
    must(quarter.kind == HLQ_INSIDE && quarter.leaf == 0 && quarter.level == 0, "a quarter of a leaf is inside it");
    hlq_counted bad = hlq_build(M + 1, 1, raster, sizeof raster, keys, MOST, bits, MOST, summary, 16);
    must(bad.refusal == HLQ_SETTINGS, "m");
    bad = hlq_build(0, S + 1, raster, 1, keys, MOST, bits, MOST, summary, S + 1);
    must(bad.refusal == HLQ_SETTINGS, "s");
}

/* What closes a group in a log is the number of its entries and the mark. */
static void group(void) {
    uint32_t log_keys[8], log_values[8];
    must(hlq_fill_summary(1, 1, keys, 1, bits, 1, 1, summary, 4).refusal == HLQ_ACCEPTED, "a map of one leaf");
    hlq_edited painted = hlq_paint_window(1, 1, keys, 1, bits, 1, 1, summary, 4, log_keys, 8, log_values, 8, 0, 0, 0, 0,
                                          1, 2, 0);
    must(painted.refusal == HLQ_ACCEPTED && painted.n == 1 && painted.used == 8, "a strip of two pixels is painted");
    must(log_keys[6] == 0 && log_values[6] == 2 && log_keys[7] == 0 && log_values[7] == HLQ_GROUP_MARK,
         "its two entries are a group");
    size_t bytes = HLQ_LOG_FILE_BYTES(8);
    hlq_counted stored = hlq_store_log(1, 1, log_keys, 8, log_values, 8, 8, 8, file, bytes - 1);
    must(stored.refusal == HLQ_ANSWER_ROOM && stored.count == bytes, "a byte too few for the log");
    stored = hlq_store_log(1, 1, log_keys, 8, log_values, 8, 8, 8, file, bytes);
    must(stored.refusal == HLQ_ACCEPTED && stored.count == bytes, "HLQ_LOG_FILE_BYTES holds the log's file");
    hlq_loaded_log loaded = hlq_load_log(file, bytes, log_keys, 8, log_values, 8);
    must(loaded.refusal == HLQ_ACCEPTED && loaded.used == 8 && loaded.in_force == 8, "and gives it back");
}

static void words(void) {
    const char *unknown = hlq_refusal_text(HLQ_CLASS_TABLE + 1);
    must(strcmp(unknown, hlq_refusal_text(UINT64_MAX)) == 0, "one text for every unknown number");
    for (uint64_t a = 0; a <= HLQ_CLASS_TABLE; a++) {
        must(strlen(hlq_refusal_text(a)) > 0 && strcmp(hlq_refusal_text(a), unknown) != 0, "a text for each refusal");
        for (uint64_t b = 0; b < a; b++)
            must(strcmp(hlq_refusal_text(a), hlq_refusal_text(b)) != 0, "a text of its own");
    }
}

int main(void) {
    must(hlq_interface() == HLQ_INTERFACE, "header and library have one interface");
    for (uint32_t m = 0; m <= HLQ_DEEPEST_M; m++) macros_meet_calls(m);
    limits();
    group();
    words();
    printf("header: numbers, macros and words are as the specification and the calls have them\n");
    return 0;
}
