/* Every refusal once, each by a call on Map A that asks for something it cannot have. The call says so itself, by the
 * number that the header names, and neither the sheet nor a lent buffer is changed. */
#include "prowcurl_sheet.h"

#include <stdio.h>
#include <string.h>

enum { M = 2, S = 3, LOG = 8, SOME = 16, BYTES = HLQ_FILE_BYTES(HLQ_MOST_RECORDS(M), S) };

static const uint8_t raster[16] = { 0, 0, 1, 1, 0, 0, 1, 2, 2, 2, 0, 0, 2, 2, 0, 0 };
static uint32_t memory[HLQ_SHEET_NUMBERS(M, S, LOG)], other_memory[HLQ_SHEET_NUMBERS(M, S, LOG)];
static uint32_t rows[HLQ_TABLE_NUMBERS], found_ids[SOME], answer[SOME];
static uint8_t file[BYTES], bytes[BYTES];
static size_t file_bytes;
static hlq_sheet sheet; /* Map A */
static hlq_table table;

/* What a call answered, in words; and whether it is what this line is about. */
static int told(hlq_refusal refusal, hlq_refusal expected) {
    printf("%2u %s\n", (unsigned)refusal, hlq_refusal_text(refusal));
    return refusal == expected;
}

/* A second sheet without a map. */
static hlq_sheet other(void) {
    hlq_sheet second = { 0 };
    if (hlq_sheet_in(other_memory, sizeof other_memory, M, S, LOG, &second)) puts("no second sheet");
    return second;
}

static hlq_refusal build(uint32_t m, uint32_t s, size_t pixels, size_t room) {
    hlq_sheet second = other();
    second.list.m = m, second.list.s = s, second.list.room = room;
    return hlq_sheet_build(&second, raster, pixels);
}

static hlq_refusal exist(size_t records, uint32_t height, uint32_t feature) {
    hlq_window window = { 0, 0, height, 4 };
    hlq_sheet cut = sheet;
    cut.list.n = records;
    return hlq_sheet_exist(&cut, window, feature, NULL);
}

static hlq_refusal findings(uint32_t id, uint32_t feature, size_t number_of_rows) {
    hlq_rule rule = { id, 0, 0, 4, 4, feature };
    hlq_table waivers = table;
    waivers.rows = number_of_rows;
    return hlq_sheet_findings(&sheet, 0, &rule, 1, &waivers, found_ids, answer, SOME, NULL, NULL);
}

static hlq_refusal load(size_t length, size_t place, uint8_t byte) {
    hlq_sheet second = other();
    memcpy(bytes, file, BYTES);
    bytes[place] = byte;
    return hlq_sheet_load(&second, bytes, length);
}

static hlq_refusal combine(uint32_t m2, size_t entries) {
    static const uint8_t classes[S * S];
    hlq_sheet second = sheet, third = other();
    second.list.m = m2;
    return hlq_sheet_combine(&sheet, &second, classes, entries, &third);
}

static hlq_refusal take_back(size_t used) {
    hlq_sheet second = sheet;
    second.used = used;
    return hlq_sheet_take_back(&second);
}

static hlq_refusal paint(size_t log_room) {
    hlq_sheet second = sheet;
    second.log_room = log_room;
    return hlq_sheet_paint(&second, 0, 1);
}

static int of_lists(void) {
    const hlq_window whole = { 0, 0, 4, 4 };
    size_t n = sheet.list.n, room = sheet.list.room;
    int right = told(build(HLQ_DEEPEST_M + 1, S, 16, room), HLQ_SETTINGS);
    right &= told(build(M, S, 15, room), HLQ_RASTER_LENGTH);
    right &= told(build(M, S - 1, 16, room), HLQ_PIXEL);
    right &= told(exist(n - 1, 4, 0), HLQ_LIST);
    right &= told(take_back(LOG + 1), HLQ_LOG);
    right &= told(exist(n, 5, 0), HLQ_WINDOW);
    right &= told(exist(n, 4, S), HLQ_FEATURE);
    right &= told(hlq_sheet_standing(&sheet, 1, NULL), HLQ_KEY); /* 01: a zero stands before a digit */
    right &= told(build(M, S, 16, n - 1), HLQ_LIST_ROOM);
    right &= told(paint(2), HLQ_LOG_ROOM);
    right &= told(take_back(0), HLQ_LOG_EMPTY);
    return right & told(hlq_sheet_select(&sheet, whole, 1, answer, 2, NULL), HLQ_ANSWER_ROOM);
}

static int of_rules_and_files(void) {
    int right = told(findings(7, S, 0), HLQ_RULES);
    right &= told(findings(7, 2, HLQ_OFFICE_ROWS + 1), HLQ_WAIVERS); /* more rows than an office may hold */
    right &= told(load(10, 0, 'H'), HLQ_FILE_LENGTH);
    right &= told(load(file_bytes, 0, 'h'), HLQ_FILE_MARK);
    right &= told(load(file_bytes, 4, 9), HLQ_FILE_VERSION);
    return right;
}

static int of_requests(void) {
    static const uint32_t leaf_keys[1] = { 5 }, leaf_features[1] = { 0 };
    static uint32_t false_counts[HLQ_SUMMARY_PLACES(M, S)];
    const hlq_window whole = { 0, 0, 4, 4 };
    hlq_sheet second = other(), miscounted = sheet;
    miscounted.summary = false_counts;
    int right = told(hlq_sheet_area(&miscounted, whole, 0, NULL), HLQ_SUMMARY);
    right &= told(hlq_sheet_read_leaves(&second, leaf_keys, leaf_features, 1),
                  HLQ_LEAVES); /* block 10 alone does not cover the map */
    right &= told(hlq_sheet_redo(&sheet), HLQ_NO_REDO);
    right &= told(hlq_sheet_add_waiver(&sheet, 2, &table, 7, 0), HLQ_OFFICE);
    right &= told(hlq_sheet_remove_waiver(&sheet, 0, &table, 7, 0), HLQ_ROW);
    right &= told(hlq_sheet_write_bit_strings(&sheet, bytes, BYTES, file, BYTES, NULL, NULL),
                  HLQ_BIT_STRINGS); /* there are three features */
    right &= told(combine(M + 1, S * S), HLQ_RESOLUTION);
    return right & told(combine(M, S * S - 1), HLQ_CLASS_TABLE);
}

int main(void) {
    hlq_stands at;
    if (hlq_sheet_in(memory, sizeof memory, M, S, LOG, &sheet) || hlq_table_in(rows, sizeof rows, &table)) return 1;
    if (!told(hlq_sheet_build(&sheet, raster, sizeof raster), HLQ_ACCEPTED)) return 1;
    if (hlq_sheet_standing(&sheet, 6, &at) || at.kind != HLQ_INSIDE) return 1; /* block 11 lies inside the leaf 10 */
    if (hlq_sheet_store(&sheet, file, BYTES, &file_bytes)) return 1;
    int right = of_lists();
    right &= of_rules_and_files();
    right &= of_requests();
    puts(right ? "each as the header says" : "not as the header says");
    return !right;
}
