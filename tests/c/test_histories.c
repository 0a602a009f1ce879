/* Histories by the thousand against the reference: test_histories [CALLS [SEED]]. A run has up to 10,000 calls on one
 * survey: paints of blocks and windows, taking back, redo, an emptied log, list and log stored and loaded, the log of
 * another map. Rooms are tight or ample, and often exactly those of the end result, or a place less; one call in ten is
 * given something that is refused. After every call the result and every buffer are those of the reference, guard zones
 * included. */
#include "survey.h"

#include <stdio.h>
#include <stdlib.h>
#include <string.h>

enum { LONGEST_RUN = 10000, ENOUGH = 16000 }; /* calls in which every refusal comes */

static unsigned long calls, exact, too_small, other_maps, rests;

static size_t larger(size_t a, size_t b) { return a > b ? a : b; }
static size_t smaller(size_t a, size_t b) { return a < b ? a : b; }

/* A survey whose slices have memory for more than the room that they are lent with. */
typedef struct {
    survey a;
    size_t most, log_most; /* places that there is memory for */
    size_t room, log_room; /* places that are lent */
} history;

static void lend_rooms(history *h) {
    h->room = larger(h->room, h->a.n), h->log_room = larger(h->log_room, h->a.used);
    h->a.keys.len = h->a.bits.len = h->room;
    h->a.log_keys.len = h->a.log_values.len = h->log_room;
}

static void lend_all(history *h) {
    h->a.keys.len = h->a.bits.len = h->most;
    h->a.log_keys.len = h->a.log_values.len = h->log_most;
}

typedef struct {
    enum { PAINT, PAINT_WINDOW, TAKE_BACK, REDO } what;
    uint32_t key, feature;
    window w;
} edit;

/* For a while mostly paints, then mostly steps back and forth: a paint drops what could be redone. */
static edit random_edit(const survey *a) {
    static int forward;
    if (below(12) == 0) forward = !forward;
    uint32_t what = below(20), paints = forward ? 15 : 2;
    edit e = { what >= paints ? (below(2) ? TAKE_BACK : REDO) : below(3) ? PAINT : PAINT_WINDOW, random_key(a->m),
               below(a->s + (below(60) == 0)), random_window(a->m) };
    if (below(60) == 0) e.key = below(0xFFFFFFFFu);
    if (below(60) == 0) *(below(2) ? &e.w.row : &e.w.width) = below(0xFFFFFFFFu);
    return e;
}

static uint64_t apply(survey *a, const edit *e) {
    calls++;
    switch (e->what) {
    case PAINT: return paint(a, e->key, e->feature);
    case PAINT_WINDOW: return paint_window(a, e->w, e->feature);
    case TAKE_BACK: return take_back(a);
    default: return redo(a);
    }
}

/* The edit on a copy with all the room there is; then in exactly the room of what it led to, or a place less in one of
 * the four slices. */
static void edit_in_exact_room(history *h, const edit *e) {
    survey *a = &h->a;
    lend_all(h);
    survey copy = copy_survey(a);
    if (apply(&copy, e) == HLQ_ACCEPTED) {
        size_t n = larger(a->n, copy.n), used = larger(a->used, copy.used);
        lent *slices[] = { &a->keys, &a->bits, &a->log_keys, &a->log_values };
        uint32_t less = below(8);
        a->keys.len = a->bits.len = n, a->log_keys.len = a->log_values.len = used;
        if (less < 4 && slices[less]->len > 0) {
            slices[less]->len--;
            uint64_t refusal = apply(a, e);
            must(refusal == (less < 2 ? (copy.n > a->n ? HLQ_LIST_ROOM : HLQ_LIST)
                                      : (copy.used > a->used ? HLQ_LOG_ROOM : HLQ_LOG)),
                 "a place less than the end result needs");
            slices[less]->len++;
            too_small++;
        }
        must(apply(a, e) == HLQ_ACCEPTED && a->n == copy.n && a->used == copy.used, "exactly the room that is needed");
        exact++;
    }
    free_survey(&copy);
    lend_rooms(h);
}

#define LIST(a) (a)->m, (a)->s, start((a)->keys), (a)->keys.len, start((a)->bits), (a)->bits.len, (a)->n
#define LOG(a) (a)->m, (a)->s, start((a)->log_keys), (a)->log_keys.len, start((a)->log_values), (a)->log_values.len, \
               (a)->used, (a)->in_force

/* The call by both, with a file that each writes; gives the library's. */
#define STORED(name, which, arguments) \
    static lent name(const survey *a, size_t length, uint64_t *refusal) { \
        lent x = lend(length, 1), y = copy_of(x); \
        hlq_counted p = hlq_##name(arguments(a), start(x), length), q = ref_##name(arguments(a), start(y), length); \
        calls++; \
        same_results(which, q.refusal, &p, &q, sizeof p); \
        same_buffers("a file", x, y); \
        give_back(y); \
        *refusal = p.refusal; \
        return x; \
    }
STORED(store, CALL_STORE, LIST)
STORED(store_log, CALL_STORE_LOG, LOG)

/* The file by both into the survey's slices; gives the refusal. */
static uint64_t load(survey *a, lent file, hlq_loaded *loaded) {
    lent keys = copy_of(a->keys), bits = copy_of(a->bits);
    *loaded = hlq_load(start(file), file.len, start(a->keys), a->keys.len, start(a->bits), a->bits.len);
    hlq_loaded other = ref_load(start(file), file.len, start(keys), keys.len, start(bits), bits.len);
    calls++;
    same_results(CALL_LOAD, other.refusal, loaded, &other, sizeof other);
    same_buffers("loaded keys", a->keys, keys);
    same_buffers("loaded bits", a->bits, bits);
    give_back(keys), give_back(bits);
    return loaded->refusal;
}

static uint64_t load_log(survey *a, lent file, hlq_loaded_log *loaded) {
    lent keys = copy_of(a->log_keys), values = copy_of(a->log_values);
    *loaded = hlq_load_log(start(file), file.len, start(a->log_keys), a->log_keys.len, start(a->log_values),
                           a->log_values.len);
    hlq_loaded_log other = ref_load_log(start(file), file.len, start(keys), keys.len, start(values), values.len);
    calls++;
    same_results(CALL_LOAD_LOG, other.refusal, loaded, &other, sizeof other);
    same_buffers("loaded log keys", a->log_keys, keys);
    same_buffers("loaded log values", a->log_values, values);
    give_back(keys), give_back(values);
    return loaded->refusal;
}

static uint64_t fill(survey *a) {
    lent summary = copy_of(a->summary);
    hlq_done p = hlq_fill_summary(LIST(a), start(a->summary), a->summary.len);
    hlq_done q = ref_fill_summary(LIST(a), start(summary), summary.len);
    calls++;
    same_results(CALL_FILL_SUMMARY, q.refusal, &p, &q, sizeof p);
    same_buffers("a summary filled", a->summary, summary);
    give_back(summary);
    return p.refusal;
}

/* Some byte of a file is another, or the file has another length. What is read from it then is compared, and let go. */
static void load_spoilt(const survey *a, lent file, int of_log) {
    survey b = copy_survey(a);
    hlq_loaded list;
    hlq_loaded_log log;
    uint8_t *bytes = start(file), *one = bytes + below(below(2) ? 23 : (uint32_t)file.len);
    size_t length = file.len;
    uint8_t kept = *one;
    *one ^= (uint8_t)(1u << below(8));
    if (below(6) == 0) file.len = below((uint32_t)file.len + 3);
    if (of_log) load_log(&b, file, &log);
    else load(&b, file, &list);
    *one = kept;
    file.len = length;
    free_survey(&b);
}

/* Other slices, with so much of their memory lent. */
static void new_slices(lent *a, lent *b, size_t most, size_t room) {
    give_back(*a), give_back(*b);
    *a = lend(most, 4), *b = lend(most, 4);
    a->len = b->len = room;
}

/* A rest: the list goes into a file and comes back into other slices, sometimes after it was refused in too few. */
static void rest(history *h) {
    survey *a = &h->a;
    uint64_t refusal;
    hlq_loaded loaded;
    size_t length = HLQ_FILE_BYTES(a->n, a->s);
    if (below(2)) give_back(store(a, length - 1 - below(3), &refusal));
    lent file = store(a, length, &refusal);
    must(refusal == 0, "the list of a history is stored");
    if (below(2)) load_spoilt(a, file, 0);
    h->room = below(3) == 0 ? h->most : smaller(h->most, a->n + below(4));
    new_slices(&a->keys, &a->bits, h->most, h->room);
    if (below(2)) {
        a->bits.len = a->n - 1;
        must(load(a, file, &loaded) == HLQ_LIST_ROOM, "a place too few for a file's list");
        a->bits.len = h->room;
    }
    must(load(a, file, &loaded) == 0 && loaded.n == a->n, "and loaded");
    give_back(a->summary);
    a->summary = lend(HLQ_SUMMARY_PLACES(a->m, a->s), 4);
    must(fill(a) == 0, "and its summary filled");
    give_back(file);
    rests++;
}

static void rest_log(history *h) {
    survey *a = &h->a;
    uint64_t refusal;
    hlq_loaded_log loaded;
    size_t length = HLQ_LOG_FILE_BYTES(a->used);
    if (below(2)) give_back(store_log(a, length - 1 - below(3), &refusal));
    lent file = store_log(a, length, &refusal);
    must(refusal == 0, "the log of a history is stored");
    if (below(2)) load_spoilt(a, file, 1);
    h->log_room = below(4) == 0 ? h->log_most : smaller(h->log_most, a->used + below(40));
    new_slices(&a->log_keys, &a->log_values, h->log_most, h->log_room);
    if (a->used > 0 && below(2)) {
        a->log_keys.len = a->used - 1;
        must(load_log(a, file, &loaded) == HLQ_LOG_ROOM, "a place too few for a file's log");
        a->log_keys.len = h->log_room;
    }
    must(load_log(a, file, &loaded) == 0 && loaded.used == a->used && loaded.in_force == a->in_force, "and loaded");
    give_back(file);
    rests++;
}

/* The log of another map: entries of any blocks of another raster, some of them closed to a group. */
static void take_other_log(history *h) {
    survey *a = &h->a;
    size_t ends[9] = { 0 }, steps = 0, most = HLQ_MOST_RECORDS(a->m) + 4;
    uint8_t *raster = room_for((size_t)1 << 2 * a->m);
    lend_all(h);
    a->used = 0;
    for (uint32_t i = 1 + below(8); i > 0 && a->used + 3 * most <= h->log_most; i--) {
        uint32_t entries = below(3) ? 0 : 1 + below(2);
        fill_raster(raster, a->m, a->s, below(5));
        append(a, raster, random_key(a->m), below(a->s));
        for (uint32_t j = 1; j < entries; j++) append(a, raster, random_key(a->m), below(a->s));
        if (entries) append_record(a, 0, entries), append_record(a, 0, HLQ_GROUP_MARK);
        ends[++steps] = a->used;
    }
    a->in_force = ends[below((uint32_t)steps + 1)];
    lend_rooms(h);
    free(raster);
    other_maps++;
}

/* One thing about a copy of the survey is wrong, or seems so. */
static void spoil(survey *b) {
    uint32_t *log_keys = start(b->log_keys), *log_values = start(b->log_values), *keys = start(b->keys);
    uint32_t *bits = start(b->bits), *summary = start(b->summary);
    size_t record = b->used ? below((uint32_t)b->used) : 0;
    switch (below(14)) {
    case 0: b->s = below(2) ? 0 : HLQ_MOST_SLOTS + 1 + below(9); break;
    case 1: b->m = HLQ_DEEPEST_M + 1 + below(30); break;
    case 2: b->n = below(2) ? b->n - 1 : b->n + 1; break;
    case 3: b->n = (size_t)-1 - below(3); break;
    case 4: keys[below((uint32_t)b->n)] ^= 1u << below(32); break;
    case 5: bits[below((uint32_t)b->n)] ^= 1u << below(32); break;
    case 6: summary[below((uint32_t)b->summary.len)] += 1 + below(3); break;
    case 7: b->summary.len--; break;
    case 8: b->used = b->log_keys.len + 1 + below(3); break;
    case 9: b->used = (size_t)-1; break;
    case 10: b->in_force = below((uint32_t)b->used + 3); break;
    case 11: if (b->used) log_keys[record] ^= 1u << below(32); break;
    case 12: if (b->used) log_values[record] ^= 1u << below(32); break;
    default: if (b->used) log_values[record] = HLQ_GROUP_MARK; break;
    }
}

static void refused(history *h) {
    survey b = copy_survey(&h->a);
    uint64_t refusal;
    edit e = random_edit(&h->a);
    spoil(&b);
    uint32_t what = below(7);
    if (what < 4) apply(&b, &e);
    else if (what == 4) give_back(store(&b, HLQ_FILE_BYTES(h->a.n, 32), &refusal));
    else if (what == 5) give_back(store_log(&b, HLQ_LOG_FILE_BYTES(h->a.used), &refusal));
    else fill(&b);
    free_survey(&b);
}

static void empty(survey *a) {
    hlq_emptied emptied = hlq_empty();
    calls++;
    must(emptied.used == 0 && emptied.in_force == 0, "an emptied log has no used places and none in force");
    a->used = emptied.used, a->in_force = emptied.in_force;
}

static void one_step(history *h) {
    uint32_t what = below(100);
    edit e = random_edit(&h->a);
    if (what < 62) apply(&h->a, &e);
    else if (what < 82) edit_in_exact_room(h, &e);
    else if (what < 92) refused(h);
    else if (what < 95) rest(h);
    else if (what < 98) rest_log(h);
    else if (what < 99) take_other_log(h);
    else if (below(3) == 0) empty(&h->a);
}

/* Most maps are small, since the reference scans them for every call. */
static void run(unsigned long wanted) {
    uint32_t m = below(20) ? below(5) : 5 + below(2), tight = below(3);
    size_t pixels = (size_t)1 << 2 * m, most = HLQ_MOST_RECORDS(m);
    uint32_t s = 1 + below(below(2) ? 4 : HLQ_MOST_SLOTS);
    uint8_t *raster = room_for(pixels);
    fill_raster(raster, m, s, below(5));
    size_t n = records_of(m, raster, 0), log_most = 4 * most + 3 * pixels + 64 + (below(24) ? 0 : 8000);
    history h = { new_survey(m, s, raster, most, log_most), most, log_most,
                  tight ? smaller(most, n + below(2 * m + 6)) : most, tight == 1 ? 3 + below(60) : log_most };
    lend_rooms(&h);
    for (unsigned long end = calls + wanted; calls < end;) one_step(&h);
    free_survey(&h.a);
    free(raster);
}

#define BITS(...) mask((const int[]){ __VA_ARGS__, -1 })
static uint32_t mask(const int *refusals) {
    uint32_t bits = 0;
    for (; *refusals >= 0; refusals++) bits |= 1u << *refusals;
    return bits;
}

static void every_refusal(void) {
    expect_pairs(CALL_PAINT, BITS(0, 1, 4, 18, 5, 8, 7, 10, 9));
    expect_pairs(CALL_PAINT_WINDOW, BITS(0, 1, 4, 18, 5, 6, 7, 10, 9));
    expect_pairs(CALL_TAKE_BACK, BITS(0, 1, 4, 18, 5, 11, 9));
    expect_pairs(CALL_REDO, BITS(0, 1, 4, 18, 5, 20, 9));
    expect_pairs(CALL_STORE, BITS(0, 1, 4, 12));
    expect_pairs(CALL_LOAD, BITS(0, 15, 16, 17, 1, 4, 9));
    expect_pairs(CALL_STORE_LOG, BITS(0, 1, 5, 12));
    expect_pairs(CALL_LOAD_LOG, BITS(0, 15, 16, 17, 1, 5, 10));
    expect_pairs(CALL_FILL_SUMMARY, BITS(0, 1, 4, 18));
}

int main(int count, char **words) {
    unsigned long wanted = count > 1 ? strtoul(words[1], NULL, 10) : SOME(ENOUGH);
    uint64_t first = count > 2 ? strtoull(words[2], NULL, 10) : 42;
    unsigned long runs = 0, longest = 0;
    printf("histories: %lu calls, seed %llu\n", wanted, (unsigned long long)first);
    while (calls < wanted) {
        seed(first * 1000003 + runs);
        unsigned long most = runs % 16 == 0 ? LONGEST_RUN : 1 + below(below(2) ? 400 : LONGEST_RUN), before = calls;
        if (wanted <= ENOUGH) most = 1 + most / 16;
        run(most < wanted - calls ? most : wanted - calls);
        runs++;
        if (calls - before > longest) longest = calls - before;
    }
    if (wanted >= ENOUGH) every_refusal();
    printf("  %lu calls in %lu runs, of which the longest had %lu; %lu edits in exactly their room, %lu in a place "
           "less; %lu rests, %lu logs of other maps\n", calls, runs, longest, exact, too_small, rests, other_maps);
    return finish("histories");
}
