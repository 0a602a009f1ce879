/* The paint of a window as one step, beyond the histories of test_edit.c: every window of small maps in exactly the
 * room of the end result, and in a place less; what a window's blocks painted one by one leave; groups of other maps,
 * whose blocks overlap in any order; logs with groups that are not sound; and the order of the refusals. */
#include "survey.h"

#include <stdio.h>
#include <stdlib.h>
#include <string.h>

/* How often a stage on the way, block by block, would have needed more room than the list had. */
static unsigned long narrow_paints, narrow_backs, narrow_redos;

static size_t larger(size_t a, size_t b) { return a > b ? a : b; }

static uint8_t *raster_like(uint32_t m, const uint8_t *raster) {
    uint8_t *copy = room_for((size_t)1 << 2 * m);
    return memcpy(copy, raster, (size_t)1 << 2 * m);
}

/* The most records of a list on the way from one raster to another, block by block from the first or from the last. */
static size_t most_on_the_way(uint32_t m, const uint8_t *from, const uint8_t *to, const uint32_t *blocks, size_t count,
                              int backwards) {
    uint8_t *raster = raster_like(m, from);
    size_t most = 0;
    for (size_t i = 0; i < count; i++) {
        window w = window_of(m, blocks[backwards ? count - 1 - i : i]);
        for (uint32_t r = w.row; r < w.row + w.height; r++)
            memcpy(raster + ((size_t)r << m) + w.column, to + ((size_t)r << m) + w.column, w.width);
        most = larger(most, records_of(m, raster, 0));
    }
    free(raster);
    return most;
}

/* The places that a window's group takes in the log. */
static size_t places_of_group(uint32_t m, const uint8_t *raster, const uint32_t *blocks, size_t count) {
    size_t places = 2;
    for (size_t i = 0; i < count; i++) places += records_of(m, raster, blocks[i]) + 2;
    return places;
}

/* The survey and the model of its log, after a step whose refusal is given. */
static void stepped(uint64_t refusal, const survey *a, const model *l, const uint8_t *raster) {
    must(refusal == HLQ_ACCEPTED, "a step is accepted where its end result fits");
    same_log(a, l);
    same_as_fresh(a, raster);
}

/* Paint, taking back and redo of a window where list and log have exactly the room that they need; a place less of
 * either, and of both, is refused. */
static void one_window(uint32_t m, uint32_t s, const uint8_t *before, window w, uint32_t feature) {
    uint8_t *after = raster_like(m, before);
    uint32_t *blocks = room_for(4 * (size_t)w.height * w.width);
    size_t count = largest_blocks(m, w, blocks), places = places_of_group(m, before, blocks, count);
    fill_window(m, after, w, feature);
    size_t n = records_of(m, before, 0), now = records_of(m, after, 0), room = larger(n, now);
    survey a = new_survey(m, s, before, room, places);
    model l = new_model(&a, 1);
    a.log_values.len--;
    must(paint_window(&a, w, feature) == HLQ_LOG_ROOM, "a place too few in the log");
    a.log_values.len++;
    if (now > n) {
        a.keys.len--;
        must(paint_window(&a, w, feature) == HLQ_LIST_ROOM, "a place too few in the list");
        a.keys.len++;
    }
    uint64_t refusal = paint_window(&a, w, feature);
    log_window(&l, m, before, w, feature);
    stepped(refusal, &a, &l, after);
    refusal = take_back(&a), l.in_force = 0;
    stepped(refusal, &a, &l, before);
    refusal = redo(&a), l.in_force = 1;
    stepped(refusal, &a, &l, after);
    if (m <= 3) {
        int narrow = most_on_the_way(m, before, after, blocks, count, 0) > room;
        narrow_paints += (unsigned long)narrow, narrow_redos += (unsigned long)narrow;
        narrow_backs += most_on_the_way(m, after, before, blocks, count, 1) > room;
    }
    free_model(&l), free_survey(&a);
    free(blocks), free(after);
}

static void every_window(uint32_t m, uint32_t s, uint32_t kind) {
    uint32_t edge = 1u << m;
    uint8_t *raster = room_for((size_t)edge * edge);
    fill_raster(raster, m, s, kind);
    window w;
    for (w.row = 0; w.row < edge; w.row++)
        for (w.column = 0; w.column < edge; w.column++)
            for (w.height = 1; w.row + w.height <= edge; w.height++)
                for (w.width = 1; w.column + w.width <= edge; w.width++)
                    for (uint32_t feature = 0; feature < s; feature++) one_window(m, s, raster, w, feature);
    free(raster);
}

/* List and summary of two surveys are the same. What lies past the list may differ. */
static void same_map(const survey *a, const survey *b, const char *what) {
    must(a->n == b->n && memcmp(start(a->keys), start(b->keys), 4 * a->n) == 0 &&
             memcmp(start(a->bits), start(b->bits), 4 * a->n) == 0,
         what);
    same_buffers(what, a->summary, b->summary);
}

/* A window's largest blocks painted one by one leave the same list, summary and entries; the group closes with two
 * records more. */
static void one_by_one(uint32_t m) {
    size_t pixels = (size_t)1 << 2 * m, most = HLQ_MOST_RECORDS(m), count;
    uint32_t s = 1 + below(HLQ_MOST_SLOTS), *blocks = room_for(4 * pixels), feature = below(s);
    uint8_t *raster = room_for(pixels);
    window w = random_window(m);
    fill_raster(raster, m, s, below(5));
    survey a = new_survey(m, s, raster, most, most + 4 * pixels), b = copy_survey(&a);
    count = largest_blocks(m, w, blocks);
    must(paint_window(&a, w, feature) == 0, "the window is painted");
    for (size_t i = 0; i < count; i++) must(paint(&b, blocks[i], feature) == 0, "a block of it is painted");
    same_map(&a, &b, "a window and its largest blocks one by one");
    must(a.used == b.used + 2 && memcmp(start(a.log_keys), start(b.log_keys), 4 * b.used) == 0 &&
             memcmp(start(a.log_values), start(b.log_values), 4 * b.used) == 0,
         "a group holds the entries of its blocks, and two records");
    free_survey(&a), free_survey(&b);
    free(raster), free(blocks);
}

/* Any block; or one that is the last, is around it, lies in it or beside it. */
static uint32_t next_key(uint32_t m, uint32_t last) {
    window w = window_of(m, last);
    uint32_t level = 0, pick = below(6);
    while (w.height << level < 1u << m) level++;
    if (pick == 0) return last;
    if (pick == 1) level = below(level + 1);
    if (pick == 2) level += below(m - level + 1);
    if (pick == 3) w.column ^= w.width % (1u << m);
    if (pick > 3) return random_key(m);
    return (uint32_t)ref_key_at(m, w.row, w.column, level).key;
}

/* Entries of any blocks of any rasters, and the records that close the last of them, so many, to a group. */
static void append_group(survey *a, uint32_t entries, uint32_t number) {
    uint8_t *raster = room_for((size_t)1 << 2 * a->m);
    uint32_t key = random_key(a->m);
    for (uint32_t i = 0; i < entries; i++) {
        fill_raster(raster, a->m, a->s, below(5));
        append(a, raster, key, below(a->s));
        key = next_key(a->m, key);
    }
    if (number > 0) append_record(a, 0, number), append_record(a, 0, HLQ_GROUP_MARK);
    free(raster);
}

/* Taking back or redo of the step at the log's end, a group: it leaves what its entries leave as single ones, in
 * exactly the room of that, and in a place less it is refused. Gives whether a stage on the way needs more room. */
static int one_step(survey *a, uint32_t number, uint64_t (*step)(survey *)) {
    survey single = copy_survey(a), tight = copy_survey(a), less = copy_survey(a);
    size_t n = a->n, most = 0;
    single.used -= 2;
    if (a->in_force == a->used) single.in_force = single.used;
    for (uint32_t i = 0; i < number; i++) {
        must(step(&single) == 0, "a single entry is a step");
        most = larger(most, single.n);
    }
    must(step(a) == 0, "a group is a step");
    same_map(a, &single, "a group and its entries one by one");
    must(a->in_force == (step == redo ? a->used : single.in_force), "a group is one step");
    tight.keys.len = larger(n, a->n), less.bits.len = a->n - 1;
    must(step(&tight) == 0, "only the end result has to fit");
    if (a->n > n) must(step(&less) == HLQ_LIST_ROOM, "the end result has to fit");
    free_survey(&single), free_survey(&tight), free_survey(&less);
    return most > larger(n, a->n);
}

/* A log that is not this map's, with a group at its end; then with steps past it. */
static void other_maps(uint32_t m) {
    size_t pixels = (size_t)1 << 2 * m, most = HLQ_MOST_RECORDS(m);
    uint32_t s = 1 + below(below(2) ? 3 : HLQ_MOST_SLOTS), entries = 1 + below(6), number = 1 + below(entries);
    uint8_t *raster = room_for(pixels);
    fill_raster(raster, m, s, below(5));
    survey a = new_survey(m, s, raster, most, 12 * (most + 2) + 6);
    if (below(2)) append_group(&a, 1 + below(2), below(2));
    append_group(&a, entries, number);
    a.in_force = a.used;
    for (uint32_t i = 0; i < 2; i++) {
        narrow_backs += (unsigned long)one_step(&a, number, take_back);
        narrow_redos += (unsigned long)one_step(&a, number, redo);
    }
    append_group(&a, 1 + below(2), below(2));
    take_back(&a), redo(&a), redo(&a), redo(&a), take_back(&a), take_back(&a), take_back(&a), take_back(&a);
    a.in_force = below((uint32_t)a.used + 1);
    take_back(&a), redo(&a), redo(&a);
    a.in_force = a.used;
    must(paint_window(&a, random_window(m), below(s)) != HLQ_LOG, "a paint behind any sound log");
    take_back(&a), take_back(&a), redo(&a);
    free_survey(&a);
    free(raster);
}

/* Every edit is refused for the log exactly when it is not sound with this count in force. */
static void expect(const survey *a, size_t in_force, int sound) {
    for (int i = 0; i < 4; i++) {
        survey b = copy_survey(a);
        b.in_force = in_force;
        uint64_t refusal = i == 0   ? paint(&b, 0, 1)
                           : i == 1 ? paint_window(&b, (window){ 0, 0, 1, 1 }, 1)
                           : i == 2 ? take_back(&b)
                                    : redo(&b);
        must((refusal != HLQ_LOG) == sound, "a log is refused exactly when it is not sound");
        free_survey(&b);
    }
}

/* An entry of a leaf. */
static void append_leaf(survey *a, uint32_t key, uint32_t feature) {
    append_record(a, key, 1), append_record(a, key, 1), append_record(a, key, feature);
}

/* The counts in force from 0 to one past the log, where only those of the string with a + are right. */
static void expect_at(const survey *a, const char *right) {
    must(strlen(right) == a->used + 2, "a sign for every count");
    for (size_t i = 0; i <= a->used + 1; i++) expect(a, i, right[i] == '+');
}

/* Three entries and a record that closes so many to a group, with other records in the closing places. */
static void groups_by_hand(void) {
    static const struct {
        uint32_t number_key, number, mark_key, mark;
        const char *right;
    } logs[] = {
        { 0, 1, 0, 255, "+..+..+....+." }, { 0, 2, 0, 255, "+..+.......+." }, { 0, 3, 0, 255, "+..........+." },
        { 0, 0, 0, 255, "............." }, { 0, 4, 0, 255, "............." }, { 6, 2, 0, 255, "............." },
        { 0, 2, 6, 255, "............." }, { 6, 2, 6, 255, "............." }, { 0, 2, 0, 254, "............." },
        { 0, 2, 0, 256, "............." }, { 0, 2, 0, 0, "............." },   { 0, 2, 0, 3, "............." },
        { 0, 0xFFFFFFFFu, 0, 255, "............." },
    };
    uint8_t raster[16] = { 0, 1, 2 };
    for (size_t i = 0; i < sizeof logs / sizeof *logs; i++) {
        survey a = new_survey(2, 3, raster, HLQ_MOST_RECORDS(2), 64);
        append_leaf(&a, 6, 2), append_leaf(&a, 0, 1), append_leaf(&a, 10, 0);
        append_record(&a, logs[i].number_key, logs[i].number);
        append_record(&a, logs[i].mark_key, logs[i].mark);
        expect_at(&a, logs[i].right);
        free_survey(&a);
    }
    survey a = new_survey(2, 3, raster, HLQ_MOST_RECORDS(2), 64);
    append_record(&a, 0, 1), append_record(&a, 0, HLQ_GROUP_MARK);
    expect_at(&a, "...."); /* a group of nothing */
    a.used = 0, append_leaf(&a, 0, HLQ_GROUP_MARK);
    expect_at(&a, "....."); /* the mark is no feature: this closes a group, and there is no entry in it */
    a.used = 0, append_leaf(&a, 6, HLQ_GROUP_MARK);
    expect_at(&a, ".....");
    a.used = 0, append_leaf(&a, 6, 0), append_record(&a, 0, 1), append_record(&a, 0, HLQ_GROUP_MARK);
    expect_at(&a, "+....+.");
    survey b = copy_survey(&a);
    append_leaf(&b, 6, 0), append_record(&b, 0, 1), append_record(&b, 0, HLQ_GROUP_MARK);
    expect_at(&b, "+....+....+."); /* one group after the other */
    ((uint32_t *)start(b.log_values))[8] = 2;
    expect_at(&b, "............"); /* a group holds no group */
    append_record(&a, 0, 1), append_record(&a, 0, HLQ_GROUP_MARK);
    expect_at(&a, "........."); /* a group straight before it is no entry */
    free_survey(&a), free_survey(&b);
}

/* A log that an accepted history left, with a place of it changed. */
static void spoilt(uint32_t m) {
    size_t pixels = (size_t)1 << 2 * m, most = HLQ_MOST_RECORDS(m);
    uint8_t *raster = room_for(pixels);
    fill_raster(raster, m, 3, 1);
    survey a = new_survey(m, 3, raster, most, 8 * most + 64);
    for (int i = 0; i < 3; i++)
        if (below(2)) paint_window(&a, random_window(m), below(3));
        else paint(&a, random_key(m), below(3));
    uint32_t *keys = start(a.log_keys), *values = start(a.log_values);
    size_t at = below((uint32_t)a.used);
    switch (below(7)) {
    case 0: keys[at] ^= 1u << below(32); break;
    case 1: values[at] ^= 1u << below(32); break;
    case 2: values[at] = HLQ_GROUP_MARK; break;
    case 3: keys[at] = 0, values[at] = HLQ_GROUP_MARK; break;
    case 4: values[a.used - 2] += below(2) ? 1 : (uint32_t)-1; break;
    case 5: a.used = at; break;
    default: a.in_force = at;
    }
    survey b = copy_survey(&a);
    take_back(&a), take_back(&a), redo(&a), paint_window(&a, random_window(m), below(3));
    paint_window(&b, random_window(m), below(3)), redo(&b);
    free_survey(&a), free_survey(&b);
    free(raster);
}

/* Every set of the eight faults at once: the first in order is the refusal. */
static void orders(void) {
    static const uint64_t order[] = { 1, 4, 18, 5, 6, 7, 10, 9 };
    uint8_t raster[16] = { 0 };
    for (uint32_t faults = 0; faults < 256; faults++) {
        survey a = new_survey(2, 2, raster, 5, 6); /* the pixel's entry and group take 5 places, and its list 9 */
        window w = { 3, 3, 1, 1 };
        uint32_t feature = 1;
        uint64_t first = 0;
        for (int i = 7; i >= 0; i--)
            if (faults >> i & 1) first = order[i];
        survey b = faults >> 7 & 1 ? copy_survey(&a) : new_survey(2, 2, raster, 9, 6);
        if (faults >> 0 & 1) b.s = below(2) ? 0 : HLQ_MOST_SLOTS + 1;
        if (faults >> 1 & 1) b.n = below(2) ? 0 : 2;
        if (faults >> 2 & 1) ((uint32_t *)start(b.summary))[below(32)]++;
        if (faults >> 3 & 1) b.in_force = 1;
        if (faults >> 4 & 1) w.height = below(2) ? 0 : 2;
        if (faults >> 5 & 1) feature = 2 + below(254);
        if (faults >> 6 & 1) b.log_keys.len = 4;
        must(paint_window(&b, w, feature) == first, "the first refusal in order");
        free_survey(&a), free_survey(&b);
    }
}

/* Windows whose edges wrap at 32 bits, and others past the sheet. */
static void no_windows(void) {
    static const window windows[] = { { 0, 0, 0, 1 },           { 0, 0, 1, 0 },           { 0, 0, 5, 1 },
                                      { 0, 0, 1, 5 },           { 4, 0, 1, 1 },           { 0, 4, 1, 1 },
                                      { 0xFFFFFFFFu, 0, 2, 1 }, { 0, 0xFFFFFFFFu, 1, 2 }, { 1, 1, 0xFFFFFFFFu, 1 },
                                      { 1, 1, 1, 0xFFFFFFFFu }, { 3, 3, 1, 2 },           { 0, 0, 0, 0 } };
    uint8_t raster[16] = { 0 };
    survey a = new_survey(2, 2, raster, 21, 64);
    for (size_t i = 0; i < sizeof windows / sizeof *windows; i++)
        must(paint_window(&a, windows[i], 1) == HLQ_WINDOW, "not a window of the raster");
    free_survey(&a);
}

/* A few windows of the largest map: a strip, a side of 512 that no block has, the sheet, and a pixel. */
static void large(uint32_t m, uint32_t kind) {
    uint32_t edge = 1u << m, s = 5;
    uint8_t *raster = room_for((size_t)edge * edge);
    fill_raster(raster, m, s, kind);
    one_window(m, s, raster, (window){ edge / 2 - 1, 0, 1, edge }, below(s));
    one_window(m, s, raster, (window){ edge / 4 + 1, edge / 4 - 1, edge / 2, edge / 2 }, below(s));
    if (m < HLQ_DEEPEST_M) one_window(m, s, raster, (window){ 0, 0, edge, edge }, below(s));
    if (m < HLQ_DEEPEST_M) one_window(m, s, raster, (window){ below(edge), below(edge), 1, 1 }, below(s));
    free(raster);
}

int main(void) {
    for (uint32_t m = 0; m <= 3; m++)
        for (uint32_t kind = 0; kind < (m == 3 ? SOME(3u) : 5u); kind++) {
            seed(100 * m + kind);
            every_window(m, m == 3 ? 2 : 3, (1 + 3 * kind) % 5); /* patches, a few odd pixels, noise, and the others */
        }
    for (uint32_t m = 0; m <= 5; m++)
        for (uint32_t i = 0; i < SOME(m < 5 ? 120u : 20u); i++) {
            seed(7000 * m + i);
            one_by_one(m);
            other_maps(m);
            spoilt(m);
        }
    seed(5);
    groups_by_hand();
    orders();
    no_windows();
    for (uint32_t m = 6; m <= HLQ_DEEPEST_M; m += 2) {
        seed(m);
        large(m, 1);
    }
    printf("  more room on the way than in the end: %lu paints, %lu takings back, %lu redos\n", narrow_paints,
           narrow_backs, narrow_redos);
    must(narrow_paints > 9 && narrow_backs > 9 && narrow_redos > 9, "rooms in which only the end result fits");
    expect_pairs(CALL_PAINT_WINDOW,
                 1u << 0 | 1u << 1 | 1u << 4 | 1u << 18 | 1u << 5 | 1u << 6 | 1u << 7 | 1u << 10 | 1u << 9);
    expect_pairs(CALL_TAKE_BACK, 1u << 0 | 1u << 5 | 1u << 11 | 1u << 9);
    expect_pairs(CALL_REDO, 1u << 0 | 1u << 5 | 1u << 20 | 1u << 9);
    return finish("window paint");
}
