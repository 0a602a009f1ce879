/* prowcurl.h: a raster of ground classes as a sorted list of quadtree nodes (the hybrid linear
 * quadtree of Nardelli and Proietti), which answers window queries, takes edits that can be taken
 * back and redone, runs rules with waivers, and is stored in a file. These are the proved calls;
 * prowcurl_sheet.h is a layer over them for programs that people write.
 *
 * CONVENTIONS
 *
 * Every call ends, reads and writes only inside the buffers that you lend it, allocates nothing,
 * and keeps nothing between calls. A buffer that a call writes overlaps no other of its buffers;
 * those that it only reads (const) may overlap. A buffer of no elements may have any pointer that
 * is not null.
 *
 * m is the resolution, 0 to HLQ_DEEPEST_M: the raster has 2^m rows of 2^m bytes, row after row, row
 * 0 at the top, column 0 at the left. s is the number of slots, 1 to HLQ_MOST_SLOTS: each byte of
 * the raster is a feature from 0 to s - 1.
 *
 * A key has m digits in base 5. The root is 0; a child at level d adds digit * 5^(m-d), with digit
 * 1 NW, 2 NE, 3 SW, 4 SE.
 *
 * A list is two slices, keys and bits, of which the first n places are in use: record i is block
 * keys[i], whose features are the bits set in bits[i] (slot f is worth 2^f). Its room is the
 * shorter of the two slices. A list stands in ascending key order. HLQ_MOST_RECORDS(m) places hold
 * any list.
 *
 * A summary is a slice of HLQ_SUMMARY_PLACES(m, s) numbers beside a list: for each block of level 2
 * (level m if m is smaller), in key order, how many of its pixels have feature 0, feature 1, up to
 * feature s - 1. Place b * s + f counts feature f in block b. hlq_build makes it,
 * hlq_fill_summary does so for a list that was loaded, read or combined, and edits keep it right.
 *
 * A delivery is leaves alone, in two slices leaf_keys and leaf_features: blocks in ascending key
 * order that cover the raster once, and the feature of each. They may be in parts: four equal
 * quarters for a block, down to single pixels.
 *
 * A log is two slices, log_keys and log_values, of which the first `used` places are in use; of
 * these the first `in_force` are the steps that can be taken back, and the others those that were
 * taken back and can be redone. Start with used = 0 and in_force = 0. A step is a single entry, for
 * the paint of a block, or a group, for the paint of a window. An entry is the former content of a
 * painted block, n records, and then two records with the block's key: one with n, and one with the
 * feature. A group is entries, one or more, then a record with key 0 and their number, and then one
 * with key 0 and HLQ_GROUP_MARK, which is no feature. A log is read from its end, where a record
 * with key 0 and that mark closes a group, and any other a single entry; it is not sound with a
 * group whose number is 0 or exceeds the single entries straight before it.
 *
 * REFUSALS
 *
 * The field `refusal` is HLQ_ACCEPTED, or the first reason that applies, in the order that stands
 * at the call. A refused call changes no lent buffer, and every other field of its result is 0,
 * save with HLQ_ANSWER_ROOM, where the field named at the result holds the number of places needed.
 *
 * WHAT A CALL NEEDS BESIDE ITS BUFFERS
 *
 * Stack: at most HLQ_STACK_BYTES, its arguments included. (Measured by tests/c/test_stack.c with
 * every call at m = HLQ_DEEPEST_M, and rounded up.)
 * Threads: calls may run in parallel, and in a signal handler that comes upon another call, as long
 * as none writes a buffer that another one uses. The archive has no data of its own.
 * Symbols: the archive wants memcpy and memset, and nothing else.
 */
#ifndef PROWCURL_H
#define PROWCURL_H

#include <stddef.h>
#include <stdint.h>

#ifdef __cplusplus
extern "C" {
#endif

/* Grows by one whenever a call or a result changes its shape. */
#define HLQ_INTERFACE 14

#define HLQ_DEEPEST_M 10  /* the largest m */
#define HLQ_MOST_SLOTS 32 /* the largest s */

/* The most records that a list has at m: (4^(m+1) - 1) / 3. */
#define HLQ_MOST_RECORDS(m) ((((size_t)4 << 2 * (m)) - 1) / 3)

/* The places of each slice of a table of waivers, and the rows that an office may hold in it. */
#define HLQ_TABLE_PLACES 512
#define HLQ_OFFICE_ROWS 256

/* The value of the record that closes a group in a log. */
#define HLQ_GROUP_MARK 255

/* The places of the summary of a map: 4^2 or 4^m blocks of s numbers. */
#define HLQ_SUMMARY_PLACES(m, s) (((size_t)1 << 2 * ((m) < 2 ? (m) : 2)) * (s))

/* The bytes of the file of a list of n records: a record takes 6, and above 16 slots 8. */
#define HLQ_FILE_BYTES(n, s) (11 + ((s) > 16 ? 8 : 6) * (size_t)(n))

/* The bytes of the file of a log with so many used records. */
#define HLQ_LOG_FILE_BYTES(used) (23 + 8 * (size_t)(used))

/* The bytes of the two bit strings of a list of n records: one bit a node, one bit a leaf. */
#define HLQ_NODE_STRING_BYTES(n) (((size_t)(n) + 7) / 8)
#define HLQ_LEAF_STRING_BYTES(n) (((size_t)(n) - (size_t)(n) / 4 + 7) / 8)

/* The stack that a call needs at most, in bytes. */
#define HLQ_STACK_BYTES 10240

/* Where a block stands: the `kind` of hlq_stands. */
enum {
    HLQ_LISTED = 1, /* it has a record of its own, at `place`, the first of so many `records` */
    HLQ_INSIDE = 2  /* it lies inside the leaf at `place`, with the key `leaf` and that `level` */
};

typedef enum {
    HLQ_ACCEPTED = 0,
    HLQ_SETTINGS = 1,      /* m above HLQ_DEEPEST_M, or s 0 or above HLQ_MOST_SLOTS (above 16 in a
                              file of version 1) */
    HLQ_RASTER_LENGTH = 2, /* the raster's length is not 2^m * 2^m */
    HLQ_PIXEL = 3,         /* a pixel is s or more */
    HLQ_LIST = 4,          /* n exceeds the list's room, or the first n records are no raster's list
                              at m and s */
    HLQ_LOG = 5,           /* used exceeds the log's room, the log is not sound, or in_force is
                              neither 0 nor the end of a step within used */
    HLQ_WINDOW = 6,        /* not a window of this raster */
    HLQ_FEATURE = 7,       /* the feature is s or more */
    HLQ_KEY = 8,           /* the key is not valid at m */
    HLQ_LIST_ROOM = 9,     /* the list afterwards would exceed its room */
    HLQ_LOG_ROOM = 10,     /* the log afterwards would exceed its room */
    HLQ_LOG_EMPTY = 11,    /* in_force is 0: there is no step to take back */
    HLQ_ANSWER_ROOM = 12,  /* the answer exceeds its room; the places needed are returned */
    HLQ_RULES = 13,        /* rule ids not strictly ascending, or a bad window or feature */
    HLQ_WAIVERS = 14,      /* not a table of waivers, a bad key, or an id of no rule */
    HLQ_FILE_LENGTH = 15,  /* the file has under 11 bytes (a log's under 23), or a wrong length */
    HLQ_FILE_MARK = 16,    /* the file does not begin with HLQ (a log's with HLG) */
    HLQ_FILE_VERSION = 17, /* the file's version is neither 1 nor 2, or is 2 with s up to 16 (a
                              log's is not 1) */
    HLQ_SUMMARY = 18,      /* the summary has a wrong length, or does not hold this map's counts */
    HLQ_LEAVES = 19,       /* the count exceeds the leaves' slices, or the leaves are not ascending
                              valid keys that cover the raster once, with features below s */
    HLQ_NO_REDO = 20,      /* in_force is used: there is no step to redo */
    HLQ_OFFICE = 21,       /* the office is neither 0 nor 1 */
    HLQ_ROW = 22,          /* the row to add is there, or the row to remove is not */
    HLQ_BIT_STRINGS = 23,  /* s is not 2, or what is to be read is no pair of bit strings */
    HLQ_RESOLUTION = 24,   /* the two lists to combine have different m */
    HLQ_CLASS_TABLE = 25   /* the table's length is not s1 * s2, or an entry is s3 or more */
} hlq_refusal;

/* The words for a refusal, for a message to people. */
static inline const char *hlq_refusal_text(uint64_t refusal) {
    switch (refusal) {
    case HLQ_ACCEPTED: return "accepted";
    case HLQ_SETTINGS: return "resolution or number of slots out of range";
    case HLQ_RASTER_LENGTH: return "the raster has a wrong length";
    case HLQ_PIXEL: return "a pixel of the raster is no feature";
    case HLQ_LIST: return "not the list of a raster";
    case HLQ_LOG: return "the log is not sound";
    case HLQ_WINDOW: return "not a window of the raster";
    case HLQ_FEATURE: return "not a feature";
    case HLQ_KEY: return "not the key of a block";
    case HLQ_LIST_ROOM: return "no room for the list";
    case HLQ_LOG_ROOM: return "no room in the log";
    case HLQ_LOG_EMPTY: return "no paint to take back";
    case HLQ_ANSWER_ROOM: return "no room for the answer";
    case HLQ_RULES: return "a bad rule, or rules not ascending";
    case HLQ_WAIVERS: return "a bad waiver, or not a table of waivers";
    case HLQ_FILE_LENGTH: return "the file has a wrong length";
    case HLQ_FILE_MARK: return "another kind of file";
    case HLQ_FILE_VERSION: return "a file of another version";
    case HLQ_SUMMARY: return "not the summary of the list";
    case HLQ_LEAVES: return "not the leaves of a raster";
    case HLQ_NO_REDO: return "nothing to redo";
    case HLQ_OFFICE: return "not an office";
    case HLQ_ROW: return "the row to add is there, or the row to remove is not";
    case HLQ_BIT_STRINGS: return "not two features, or not a pair of bit strings";
    case HLQ_RESOLUTION: return "two lists of different resolution";
    case HLQ_CLASS_TABLE: return "a table of a wrong length, or with an entry that is no class";
    default: return "no known refusal";
    }
}

typedef struct { uint64_t refusal; } hlq_done;
typedef struct { uint64_t refusal, count; } hlq_counted;      /* with HLQ_ANSWER_ROOM: count */
typedef struct { uint64_t refusal, key; } hlq_keyed;
typedef struct { uint64_t refusal, kind, place, records, leaf, level; } hlq_stands;
typedef struct { uint64_t refusal, row, column, side, level; } hlq_block;
typedef struct { uint64_t start, length; } hlq_span;          /* both 0 for an empty part */
typedef struct { uint64_t refusal, yes; } hlq_exists;
typedef struct { uint64_t refusal, bits; } hlq_reported;
typedef struct { uint64_t refusal, pixels; } hlq_measured;
typedef struct { uint64_t refusal, n, used, in_force; } hlq_edited;
typedef struct { uint64_t used, in_force; } hlq_emptied;
typedef struct { uint64_t refusal, live, hidden; } hlq_found; /* with HLQ_ANSWER_ROOM: live */
typedef struct { uint64_t refusal, m, s, n; } hlq_loaded;
typedef struct { uint64_t refusal, m, s, used, in_force; } hlq_loaded_log;
typedef struct { uint64_t refusal, node_bytes, leaf_bytes; } hlq_strings; /* as hlq_counted */
typedef struct { uint32_t id, row, column, height, width, feature; } hlq_rule;
typedef struct {
    uint32_t report; /* 0 asks exist, any other number report */
    int32_t row, column;
    uint32_t height, width, feature;
} hlq_question;

/* INTERFACE. The HLQ_INTERFACE of the library that the program runs with. Where the header's own is
 * another number, the program was compiled for another library.
 * Refusals: none. */
uint32_t hlq_interface(void);

/* KEY AT. The key of the block of this level around a pixel: level m is the pixel itself, level 0
 * the whole map.
 * Refusals: HLQ_SETTINGS (m alone), HLQ_WINDOW (no pixel of the raster), HLQ_KEY (the level is
 * above m), in this order. */
hlq_keyed hlq_key_at(uint32_t m, uint32_t row, uint32_t column, uint32_t level);

/* BLOCK OF. The first row and column of the block with this key, its side in pixels, and its level.
 * Refusals: HLQ_SETTINGS (m alone), HLQ_KEY, in this order. */
hlq_block hlq_block_of(uint32_t m, uint32_t key);

/* BUILD. The list of a raster is written to places 0 to count - 1 of keys and bits; all other
 * places stay. Its summary is written to every place of summary. count is the number of records, at
 * most HLQ_MOST_RECORDS(m).
 * Refusals: HLQ_SETTINGS, HLQ_RASTER_LENGTH, HLQ_PIXEL, HLQ_SUMMARY (the length alone),
 * HLQ_LIST_ROOM, in this order. */
hlq_counted hlq_build(uint32_t m, uint32_t s,
                      const uint8_t *raster, size_t raster_len,
                      uint32_t *keys, size_t keys_len, uint32_t *bits, size_t bits_len,
                      uint32_t *summary, size_t summary_len);

/* RASTER FROM LIST. Every byte of raster is written.
 * Refusals: HLQ_SETTINGS, HLQ_LIST, HLQ_RASTER_LENGTH, in this order. */
hlq_done hlq_raster(uint32_t m, uint32_t s,
                    const uint32_t *keys, size_t keys_len, const uint32_t *bits, size_t bits_len,
                    size_t n, uint8_t *raster, size_t raster_len);

/* STANDING. Where the block with this key stands. HLQ_LISTED: at a place, and records counts its
 * record and those of everything below it; leaf and level are 0. HLQ_INSIDE: inside the one leaf
 * that holds it, with the leaf's place, key and level; records is 0.
 * Refusals: HLQ_SETTINGS, HLQ_LIST, HLQ_KEY, in this order. */
hlq_stands hlq_standing(uint32_t m, uint32_t s,
                        const uint32_t *keys, size_t keys_len,
                        const uint32_t *bits, size_t bits_len, size_t n, uint32_t key);

/* PART. The places of the key slice that hold the block and everything below it, or the one record
 * of the leaf around it.
 * Empty exactly when HLQ_SETTINGS, HLQ_LIST or HLQ_KEY holds; hlq_standing says which. */
hlq_span hlq_part(uint32_t m, uint32_t s,
                  const uint32_t *keys, size_t keys_len, const uint32_t *bits, size_t bits_len,
                  size_t n, uint32_t key);

/* EXIST. yes is 1 when some pixel of the window has the feature, else 0.
 * Refusals: HLQ_SETTINGS, HLQ_LIST, HLQ_WINDOW, HLQ_FEATURE, in this order. */
hlq_exists hlq_exist(uint32_t m, uint32_t s,
                     const uint32_t *keys, size_t keys_len, const uint32_t *bits, size_t bits_len,
                     size_t n, uint32_t row, uint32_t column, uint32_t height, uint32_t width,
                     uint32_t feature);

/* REPORT. bits has the slots of all features in the window.
 * Refusals: HLQ_SETTINGS, HLQ_LIST, HLQ_WINDOW, in this order. */
hlq_reported hlq_report(uint32_t m, uint32_t s,
                        const uint32_t *keys, size_t keys_len,
                        const uint32_t *bits, size_t bits_len, size_t n,
                        uint32_t row, uint32_t column, uint32_t height, uint32_t width);

/* SELECT. The keys of the largest blocks that lie in the window and have the feature, ascending, in
 * places 0 to count - 1 of answer; all other places stay.
 * Refusals: HLQ_SETTINGS, HLQ_LIST, HLQ_WINDOW, HLQ_FEATURE, HLQ_ANSWER_ROOM, in this order. */
hlq_counted hlq_select(uint32_t m, uint32_t s,
                       const uint32_t *keys, size_t keys_len, const uint32_t *bits, size_t bits_len,
                       size_t n, uint32_t row, uint32_t column, uint32_t height, uint32_t width,
                       uint32_t feature, uint32_t *answer, size_t answer_len);

/* COMBINE. Two lists of one m, pixel by pixel: table[a * s2 + b] names the class of a pixel with
 * feature a in the first list and feature b in the second. The list of these classes, 0 to s3 - 1,
 * is written to places 0 to count - 1 of keys3 and bits3; all other places stay. Room for
 * n1 + n2 - 1 records is always enough. The two lists may be the same buffers.
 * Refusals: HLQ_SETTINGS (of the first list, of the second, or s3), HLQ_RESOLUTION, HLQ_LIST (the
 * first), HLQ_LIST (the second), HLQ_CLASS_TABLE (not exactly s1 * s2 entries, or one that is not
 * below s3), HLQ_LIST_ROOM, in this order. */
hlq_counted hlq_combine(uint32_t m1, uint32_t s1, const uint32_t *keys1, size_t keys1_len,
                        const uint32_t *bits1, size_t bits1_len, size_t n1,
                        uint32_t m2, uint32_t s2, const uint32_t *keys2, size_t keys2_len,
                        const uint32_t *bits2, size_t bits2_len, size_t n2,
                        uint32_t s3, const uint8_t *table, size_t table_len,
                        uint32_t *keys3, size_t keys3_len, uint32_t *bits3, size_t bits3_len);

/* FILL SUMMARY. The summary of the list is written to every place of summary.
 * Refusals: HLQ_SETTINGS, HLQ_LIST, HLQ_SUMMARY (the length alone), in this order. */
hlq_done hlq_fill_summary(uint32_t m, uint32_t s,
                          const uint32_t *keys, size_t keys_len,
                          const uint32_t *bits, size_t bits_len, size_t n,
                          uint32_t *summary, size_t summary_len);

/* AREA. pixels is the number of pixels of the window that have the feature. The summary must be
 * that of the list: each of its numbers is checked.
 * Refusals: HLQ_SETTINGS, HLQ_LIST, HLQ_SUMMARY, HLQ_WINDOW, HLQ_FEATURE, in this order. */
hlq_measured hlq_area(uint32_t m, uint32_t s,
                      const uint32_t *keys, size_t keys_len, const uint32_t *bits, size_t bits_len,
                      size_t n, const uint32_t *summary, size_t summary_len,
                      uint32_t row, uint32_t column, uint32_t height, uint32_t width,
                      uint32_t feature);

/* EXIST, REPORT, SELECT CLIPPED. As the calls above, for a window that may reach over the edge: row
 * and column may be negative, and what lies outside the raster is left out. HLQ_WINDOW is given for
 * a height or width of 0, and where no pixel of the window lies in the raster.
 * Refusals: HLQ_SETTINGS, HLQ_LIST, HLQ_WINDOW, HLQ_FEATURE, in this order. */
hlq_exists hlq_exist_clipped(uint32_t m, uint32_t s,
                             const uint32_t *keys, size_t keys_len,
                             const uint32_t *bits, size_t bits_len, size_t n,
                             int32_t row, int32_t column, uint32_t height, uint32_t width,
                             uint32_t feature);

/* Refusals: HLQ_SETTINGS, HLQ_LIST, HLQ_WINDOW, in this order. */
hlq_reported hlq_report_clipped(uint32_t m, uint32_t s,
                                const uint32_t *keys, size_t keys_len,
                                const uint32_t *bits, size_t bits_len, size_t n,
                                int32_t row, int32_t column, uint32_t height, uint32_t width);

/* Refusals: HLQ_SETTINGS, HLQ_LIST, HLQ_WINDOW, HLQ_FEATURE, HLQ_ANSWER_ROOM, in this order. */
hlq_counted hlq_select_clipped(uint32_t m, uint32_t s,
                               const uint32_t *keys, size_t keys_len,
                               const uint32_t *bits, size_t bits_len, size_t n,
                               int32_t row, int32_t column, uint32_t height, uint32_t width,
                               uint32_t feature, uint32_t *answer, size_t answer_len);

/* AREA CLIPPED. As hlq_area, for such a window.
 * Refusals: HLQ_SETTINGS, HLQ_LIST, HLQ_SUMMARY, HLQ_WINDOW, HLQ_FEATURE, in this order. */
hlq_measured hlq_area_clipped(uint32_t m, uint32_t s,
                              const uint32_t *keys, size_t keys_len,
                              const uint32_t *bits, size_t bits_len, size_t n,
                              const uint32_t *summary, size_t summary_len,
                              int32_t row, int32_t column, uint32_t height, uint32_t width,
                              uint32_t feature);

/* BATCH. Many questions of one list, which is checked once. A question whose field report is 0 asks
 * as hlq_exist_clipped does. With any other number there it asks as hlq_report_clipped does, and
 * its feature is not looked at. At each question's place refusals has the number that the single
 * call gives (HLQ_ACCEPTED, HLQ_WINDOW or HLQ_FEATURE), and values its yes or its bits, or 0 where
 * it is refused. A bad question stops no other. Places past the questions stay. count is the number
 * of questions; with HLQ_ANSWER_ROOM, where either slice is shorter than the questions, it is the
 * number of places needed.
 * Refusals: HLQ_SETTINGS, HLQ_LIST, HLQ_ANSWER_ROOM, in this order. */
hlq_counted hlq_batch(uint32_t m, uint32_t s,
                      const uint32_t *keys, size_t keys_len, const uint32_t *bits, size_t bits_len,
                      size_t n, const hlq_question *questions, size_t questions_len,
                      uint32_t *refusals, size_t refusals_len, uint32_t *values, size_t values_len);

/* PAINT. Every pixel of the block gets the feature. The list becomes the list of the new raster, in
 * its places 0 to n - 1 (n of the result); places that it gives up become zero, others stay. The
 * log's entry for it, with which hlq_take_back undoes the paint, stands from place in_force on;
 * steps that could be redone are dropped, and what was used past the new entry becomes zero; all
 * other log places stay. A refused paint drops nothing. A paint that changes no pixel is logged
 * too. The summary must be the list's, and becomes that of the new raster.
 * Refusals: HLQ_SETTINGS, HLQ_LIST, HLQ_SUMMARY, HLQ_LOG, HLQ_KEY, HLQ_FEATURE, HLQ_LOG_ROOM,
 * HLQ_LIST_ROOM, in this order, all on the end result, before the first write. */
hlq_edited hlq_paint(uint32_t m, uint32_t s,
                     uint32_t *keys, size_t keys_len, uint32_t *bits, size_t bits_len, size_t n,
                     uint32_t *summary, size_t summary_len,
                     uint32_t *log_keys, size_t log_keys_len,
                     uint32_t *log_values, size_t log_values_len, size_t used, size_t in_force,
                     uint32_t key, uint32_t feature);

/* PAINT WINDOW. Every pixel of the window gets the feature, as one step, which hlq_take_back and
 * hlq_redo take whole. List, summary and log change as in hlq_paint, save that what stands from
 * place in_force on is a group: an entry for each of the window's largest blocks, in ascending key
 * order. A largest block lies in the window, and its parent does not; or it is the whole map. A
 * window that is one block gives a group of one. HLQ_LOG_ROOM counts the whole group, and
 * HLQ_LIST_ROOM is about the list in the end: no stage on the way needs more room.
 * Refusals: HLQ_SETTINGS, HLQ_LIST, HLQ_SUMMARY, HLQ_LOG, HLQ_WINDOW, HLQ_FEATURE, HLQ_LOG_ROOM,
 * HLQ_LIST_ROOM, in this order, all on the end result, before the first write. */
hlq_edited hlq_paint_window(uint32_t m, uint32_t s,
                            uint32_t *keys, size_t keys_len, uint32_t *bits, size_t bits_len,
                            size_t n, uint32_t *summary, size_t summary_len,
                            uint32_t *log_keys, size_t log_keys_len,
                            uint32_t *log_values, size_t log_values_len,
                            size_t used, size_t in_force,
                            uint32_t row, uint32_t column, uint32_t height, uint32_t width,
                            uint32_t feature);

/* TAKE BACK. The latest step in force is undone: its block gets its former content, and in a group
 * every block does, from the last entry to the first. The log stays, and in_force is lowered over
 * the step, so that hlq_redo can put it back. The summary must be the list's, and becomes that of
 * the new raster.
 * Refusals: HLQ_SETTINGS, HLQ_LIST, HLQ_SUMMARY, HLQ_LOG, HLQ_LOG_EMPTY, HLQ_LIST_ROOM, in this
 * order.
 * HLQ_LIST_ROOM is about the end result alone. With the map's own log it comes only where the list
 * lies in less room than it once had, as it may after hlq_load.
 * The time is linear in list and log. A group whose blocks do not ascend, which no call writes, is
 * asked entry by entry, here and in hlq_redo: some 190 instructions for each two of its entries.
 * One of 3,040 entries takes 1.7 billion, a quarter of a second, and 14 million in key order. */
hlq_edited hlq_take_back(uint32_t m, uint32_t s,
                         uint32_t *keys, size_t keys_len, uint32_t *bits, size_t bits_len, size_t n,
                         uint32_t *summary, size_t summary_len,
                         uint32_t *log_keys, size_t log_keys_len,
                         uint32_t *log_values, size_t log_values_len, size_t used,
                         size_t in_force);

/* REDO. The step that was taken back last is put back: its block gets its feature again, and in a
 * group every block does, from the first entry to the last. The log stays, and in_force is raised
 * over the step. The summary must be the list's, and becomes that of the new raster.
 * Refusals: HLQ_SETTINGS, HLQ_LIST, HLQ_SUMMARY, HLQ_LOG, HLQ_NO_REDO, HLQ_LIST_ROOM, in this
 * order.
 * HLQ_LIST_ROOM as in hlq_take_back. */
hlq_edited hlq_redo(uint32_t m, uint32_t s,
                    uint32_t *keys, size_t keys_len, uint32_t *bits, size_t bits_len, size_t n,
                    uint32_t *summary, size_t summary_len,
                    uint32_t *log_keys, size_t log_keys_len,
                    uint32_t *log_values, size_t log_values_len, size_t used, size_t in_force);

/* EMPTY. The new counts of an emptied log, both 0. Earlier steps can then no longer be taken back
 * or redone.
 * Refusals: none. */
hlq_emptied hlq_empty(void);

/* A TABLE OF WAIVERS has HLQ_TABLE_PLACES places in each of its slices offices, ids and waived, and
 * `rows` rows in the first of them: an office, 0 or 1, has waived the findings of a rule (id) in a
 * block (key). Rows ascend strictly by office, id and key; an office has at most HLQ_OFFICE_ROWS.
 * An empty table has 0 rows, whatever its places hold.
 *
 * ADD WAIVER. The row is put at its place and the later ones move on; places past them stay. count
 * is the number of rows afterwards; with HLQ_ANSWER_ROOM, when the office has HLQ_OFFICE_ROWS rows,
 * it is one more than that. The keys of other rows are not looked at.
 * Refusals: HLQ_OFFICE, HLQ_SETTINGS (m alone), HLQ_WAIVERS, HLQ_KEY, HLQ_ROW, HLQ_ANSWER_ROOM, in
 * this order. */
hlq_counted hlq_add_waiver(uint32_t m, uint32_t office, uint32_t *offices, size_t offices_len,
                           uint32_t *ids, size_t ids_len, uint32_t *waived, size_t waived_len,
                           size_t rows, uint32_t id, uint32_t key);

/* REMOVE WAIVER. The row is taken out, the later ones move back, and the place given up becomes
 * zero in all three slices. count is the number of rows afterwards.
 * Refusals: HLQ_OFFICE, HLQ_SETTINGS (m alone), HLQ_WAIVERS, HLQ_KEY, HLQ_ROW, in this order. */
hlq_counted hlq_remove_waiver(uint32_t m, uint32_t office, uint32_t *offices, size_t offices_len,
                              uint32_t *ids, size_t ids_len, uint32_t *waived, size_t waived_len,
                              size_t rows, uint32_t id, uint32_t key);

/* FINDINGS. The findings of a rule are the blocks that hlq_select gives for its window and feature.
 * A finding is hidden exactly when every pixel of its block lies in the block of a waiver that the
 * asking office has for its rule: one larger, the same block, or several smaller ones. The live
 * findings stand in found_ids and found_keys, by id and then key, in places 0 to live - 1; all
 * other places stay. HLQ_WAIVERS: not a table of waivers, a bad key in any row, or a row of the
 * asking office with an id that no rule has.
 * Refusals: HLQ_OFFICE, HLQ_SETTINGS, HLQ_LIST, HLQ_RULES, HLQ_WAIVERS, HLQ_ANSWER_ROOM, in this
 * order. */
hlq_found hlq_findings(uint32_t m, uint32_t s,
                       const uint32_t *keys, size_t keys_len, const uint32_t *bits, size_t bits_len,
                       size_t n, uint32_t office, const hlq_rule *rules, size_t rules_len,
                       const uint32_t *offices, size_t offices_len,
                       const uint32_t *ids, size_t ids_len,
                       const uint32_t *waived, size_t waived_len, size_t rows,
                       uint32_t *found_ids, size_t found_ids_len,
                       uint32_t *found_keys, size_t found_keys_len);

/* STORE. The file of the list in bytes 0 to count - 1; all other bytes stay. It has
 * HLQ_FILE_BYTES(n, s) bytes. Up to 16 slots its version is 1 and bitstrings have 2 bytes; above
 * that it is 2 and they have 4.
 * Refusals: HLQ_SETTINGS, HLQ_LIST, HLQ_ANSWER_ROOM, in this order. */
hlq_counted hlq_store(uint32_t m, uint32_t s,
                      const uint32_t *keys, size_t keys_len, const uint32_t *bits, size_t bits_len,
                      size_t n, uint8_t *file, size_t file_len);

/* LOAD. The list of a file in places 0 to n - 1 of keys and bits; all other places stay. Files of
 * both versions are read. hlq_fill_summary then fills its summary. Whoever goes on with its log
 * lends as much room as the list had before, or HLQ_MOST_RECORDS(m) places: in less, hlq_take_back
 * and hlq_redo are refused with HLQ_LIST_ROOM where the list that they lead to does not fit.
 * Refusals: HLQ_FILE_LENGTH (under 11 bytes), HLQ_FILE_MARK, HLQ_FILE_VERSION, HLQ_SETTINGS,
 * HLQ_FILE_LENGTH (for the number of records that it names), HLQ_LIST (the file's own records),
 * HLQ_LIST_ROOM, in this order. */
hlq_loaded hlq_load(const uint8_t *file, size_t file_len,
                    uint32_t *keys, size_t keys_len, uint32_t *bits, size_t bits_len);

/* STORE LOG. The file of the log in bytes 0 to count - 1; all other bytes stay. It has the used
 * records and both counts, with m and s, and a mark that no list's file has:
 * HLQ_LOG_FILE_BYTES(used) bytes. (With HLQ_ANSWER_ROOM a number that 64 bits do not hold is told
 * as UINT64_MAX; no memory has so many bytes.)
 * Refusals: HLQ_SETTINGS, HLQ_LOG, HLQ_ANSWER_ROOM, in this order. */
hlq_counted hlq_store_log(uint32_t m, uint32_t s,
                          const uint32_t *log_keys, size_t log_keys_len,
                          const uint32_t *log_values, size_t log_values_len,
                          size_t used, size_t in_force, uint8_t *file, size_t file_len);

/* LOAD LOG. The log of a file in places 0 to used - 1 of log_keys and log_values; all other places
 * stay. It is a log at the m and s that are given back. Whether it is your list's log, the call
 * cannot know.
 * Refusals: HLQ_FILE_LENGTH (under 23 bytes), HLQ_FILE_MARK, HLQ_FILE_VERSION, HLQ_SETTINGS,
 * HLQ_FILE_LENGTH (for the number of records that it names), HLQ_LOG (the file's own records and
 * counts, at its own m and s), HLQ_LOG_ROOM, in this order. */
hlq_loaded_log hlq_load_log(const uint8_t *file, size_t file_len,
                            uint32_t *log_keys, size_t log_keys_len,
                            uint32_t *log_values, size_t log_values_len);

/* READ LEAVES. The first `leaves` places of leaf_keys and leaf_features are a delivery. The list of
 * the raster that it describes is written to places 0 to count - 1 of keys and bits; all other
 * places stay. What was delivered in parts is merged. count is the number of records.
 * Refusals: HLQ_SETTINGS, HLQ_LEAVES, HLQ_LIST_ROOM, in this order. */
hlq_counted hlq_read_leaves(uint32_t m, uint32_t s,
                            const uint32_t *leaf_keys, size_t leaf_keys_len,
                            const uint32_t *leaf_features, size_t leaf_features_len, size_t leaves,
                            uint32_t *keys, size_t keys_len, uint32_t *bits, size_t bits_len);

/* WRITE LEAVES. The leaves of the list, a key and a feature each, in places 0 to count - 1 of
 * leaf_keys and leaf_features; all other places stay. Their room is the shorter of the two slices.
 * A list of n records has n - n / 4 leaves.
 * Refusals: HLQ_SETTINGS, HLQ_LIST, HLQ_ANSWER_ROOM, in this order. */
hlq_counted hlq_write_leaves(uint32_t m, uint32_t s,
                             const uint32_t *keys, size_t keys_len,
                             const uint32_t *bits, size_t bits_len, size_t n,
                             uint32_t *leaf_keys, size_t leaf_keys_len,
                             uint32_t *leaf_features, size_t leaf_features_len);

/* WRITE BIT STRINGS. A list of two features as a pair of bit strings. In key order node_bits has
 * one bit a node, 0 for an inner node and 1 for a leaf, those at level m too, and leaf_bits has one
 * bit a leaf, its feature. Both are packed from the high bit of byte 0 on, and the spare bits of
 * the last byte are zero. They stand in bytes 0 to node_bytes - 1 and 0 to leaf_bytes - 1, which
 * are HLQ_NODE_STRING_BYTES(n) and HLQ_LEAF_STRING_BYTES(n); all other bytes stay. With
 * HLQ_ANSWER_ROOM both fields hold the bytes needed.
 * Refusals: HLQ_SETTINGS, HLQ_BIT_STRINGS (s is not 2), HLQ_LIST, HLQ_ANSWER_ROOM, in this
 * order. */
hlq_strings hlq_write_bit_strings(uint32_t m, uint32_t s,
                                  const uint32_t *keys, size_t keys_len,
                                  const uint32_t *bits, size_t bits_len, size_t n,
                                  uint8_t *node_bits, size_t node_bits_len,
                                  uint8_t *leaf_bits, size_t leaf_bits_len);

/* READ BIT STRINGS. The list of a pair of bit strings in places 0 to count - 1 of keys and bits;
 * all other places stay. The two slices have exactly the bytes of the strings. The pair is refused
 * when the bits end early, run on, go deeper than m, have a spare bit set, or show four leaves of
 * one feature under one node.
 * Refusals: HLQ_SETTINGS, HLQ_BIT_STRINGS, HLQ_LIST_ROOM, in this order. */
hlq_counted hlq_read_bit_strings(uint32_t m, uint32_t s,
                                 const uint8_t *node_bits, size_t node_bits_len,
                                 const uint8_t *leaf_bits, size_t leaf_bits_len,
                                 uint32_t *keys, size_t keys_len, uint32_t *bits, size_t bits_len);

#ifdef __cplusplus
}
#endif

#endif
