/* Edits with a log that the input brings: a raster of the input is built, its log is the input's records (or what
 * paints left, changed), then paints, undo and redo run on the library and on the reference side by side. Rooms are
 * tight or ample. */
#include "compare.h"

enum { MOST_LOG = 200, STEPS = 12 };

/* What an edit is lent, twice. */
typedef struct {
    uint32_t m, s;
    pair keys, bits, summary, log_keys, log_values;
    size_t n, used, in_force;
} sheet;

#define OURS(a) \
    a->m, a->s, a->keys.ours, a->keys.len, a->bits.ours, a->bits.len, a->n, a->summary.ours, a->summary.len, \
        a->log_keys.ours, a->log_keys.len, a->log_values.ours, a->log_values.len, a->used, a->in_force
#define THEIRS(a) \
    a->m, a->s, a->keys.theirs, a->keys.len, a->bits.theirs, a->bits.len, a->n, a->summary.theirs, a->summary.len, \
        a->log_keys.theirs, a->log_keys.len, a->log_values.theirs, a->log_values.len, a->used, a->in_force

static void same_sheet(const sheet *a) {
    must(memcmp(a->keys.ours, a->keys.theirs, 4 * a->keys.len) == 0, "an edit writes other keys");
    must(memcmp(a->bits.ours, a->bits.theirs, 4 * a->bits.len) == 0, "an edit writes other bits");
    must(memcmp(a->summary.ours, a->summary.theirs, 4 * a->summary.len) == 0, "an edit writes another summary");
    must(memcmp(a->log_keys.ours, a->log_keys.theirs, 4 * a->log_keys.len) == 0, "an edit writes other log keys");
    must(memcmp(a->log_values.ours, a->log_values.theirs, 4 * a->log_values.len) == 0,
         "an edit writes other log values");
}

/* A raster in runs, so that few bytes say it. */
static int build(sheet *a, input *in, size_t room) {
    size_t pixels = (size_t)1 << 2 * a->m;
    uint8_t *raster = malloc(pixels);
    for (size_t i = 0; i < pixels;) {
        uint8_t run = take_byte(in);
        for (int k = 0; k <= run >> 3 && i < pixels; k++) raster[i++] = (uint8_t)((run & 7) % a->s);
    }
    a->keys = lend(room), a->bits = lend(room), a->summary = lend(HLQ_SUMMARY_PLACES(a->m, a->s));
    hlq_counted ours = hlq_build(a->m, a->s, raster, pixels, a->keys.ours, room, a->bits.ours, room, a->summary.ours,
                                 a->summary.len);
    hlq_counted theirs = ref_build(a->m, a->s, raster, pixels, a->keys.theirs, room, a->bits.theirs, room,
                                   a->summary.theirs, a->summary.len);
    SAME_ANSWER(ours, theirs, "hlq_build answers otherwise");
    a->n = ours.count;
    free(raster);
    return ours.refusal == HLQ_ACCEPTED;
}

/* The records stand where they stand; used and in_force may lie past them. */
static void give_log(sheet *a, input *in, size_t room) {
    size_t given = take_byte(in);
    a->log_keys = lend(room), a->log_values = lend(room);
    a->used = given, a->in_force = take_byte(in);
    for (size_t i = 0; i < given && i < room; i++) {
        a->log_keys.ours[i] = a->log_keys.theirs[i] = take_number(in);
        a->log_values.ours[i] = a->log_values.theirs[i] = take_number(in);
    }
}

static void edit(sheet *a, input *in) {
    hlq_edited ours, theirs;
    uint8_t what = take_byte(in);
    uint32_t row, column, height, width, feature;
    switch (what & 7) {
    case 0:
    case 1:
        ours = hlq_take_back(OURS(a)), theirs = ref_take_back(THEIRS(a));
        break;
    case 2:
    case 3:
        ours = hlq_redo(OURS(a)), theirs = ref_redo(THEIRS(a));
        break;
    case 4:
        row = take_number(in), feature = what >> 4;
        ours = hlq_paint(OURS(a), row, feature), theirs = ref_paint(THEIRS(a), row, feature);
        break;
    case 5: /* one record of the log, or of the list, becomes another */
        row = take_byte(in), feature = take_number(in);
        if (row < a->log_keys.len)
            *(what & 16 ? &a->log_keys.ours[row] : &a->log_values.ours[row]) =
                *(what & 16 ? &a->log_keys.theirs[row] : &a->log_values.theirs[row]) = feature;
        return;
    default:
        row = take_number(in), column = take_number(in), height = take_number(in), width = take_number(in);
        feature = what >> 4;
        ours = hlq_paint_window(OURS(a), row, column, height, width, feature);
        theirs = ref_paint_window(THEIRS(a), row, column, height, width, feature);
    }
    SAME_ANSWER(ours, theirs, "an edit answers otherwise");
    same_sheet(a);
    if (ours.refusal == HLQ_ACCEPTED) a->n = ours.n, a->used = ours.used, a->in_force = ours.in_force;
}

int LLVMFuzzerTestOneInput(const uint8_t *bytes, size_t size) {
    input in = { bytes, size };
    uint8_t how = take_byte(&in);
    sheet a = { .m = how & 3, .s = 1 + (how >> 2 & 7), .log_keys = { 0 } };
    int ready = build(&a, &in, how & 32 ? HLQ_MOST_RECORDS(a.m) : take_byte(&in));
    give_log(&a, &in, how & 64 ? MOST_LOG : take_byte(&in));
    for (int i = 0; ready && in.left && i < STEPS; i++) edit(&a, &in);
    same(&a.keys, "keys");
    same(&a.bits, "bits");
    same(&a.summary, "summary");
    same(&a.log_keys, "log keys");
    same(&a.log_values, "log values");
    return 0;
}
