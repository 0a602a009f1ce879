#include "support.h"

#include <stdio.h>
#include <stdlib.h>
#include <string.h>

static const char *const names[CALLS] = {
    [CALL_KEY_AT] = "key at",
    [CALL_BLOCK_OF] = "block of",
    [CALL_BUILD] = "build",
    [CALL_RASTER] = "raster",
    [CALL_STANDING] = "standing",
    [CALL_PART] = "part",
    [CALL_EXIST] = "exist",
    [CALL_REPORT] = "report",
    [CALL_SELECT] = "select",
    [CALL_FILL_SUMMARY] = "fill summary",
    [CALL_AREA] = "area",
    [CALL_EXIST_CLIPPED] = "exist clipped",
    [CALL_REPORT_CLIPPED] = "report clipped",
    [CALL_SELECT_CLIPPED] = "select clipped",
    [CALL_AREA_CLIPPED] = "area clipped",
    [CALL_BATCH] = "batch",
    [CALL_PAINT] = "paint",
    [CALL_PAINT_WINDOW] = "paint window",
    [CALL_TAKE_BACK] = "take back",
    [CALL_REDO] = "redo",
    [CALL_ADD_WAIVER] = "add waiver",
    [CALL_REMOVE_WAIVER] = "remove waiver",
    [CALL_FINDINGS] = "findings",
    [CALL_STORE] = "store",
    [CALL_LOAD] = "load",
    [CALL_STORE_LOG] = "store log",
    [CALL_LOAD_LOG] = "load log",
    [CALL_READ_LEAVES] = "read leaves",
    [CALL_WRITE_LEAVES] = "write leaves",
    [CALL_WRITE_BIT_STRINGS] = "write bit strings",
    [CALL_READ_BIT_STRINGS] = "read bit strings",
    [CALL_COMBINE] = "combine",
};
static uint64_t state = 1, comparisons, pairs[CALLS][MAX_REFUSAL + 1];

static void fail(const char *what) {
    printf("FAILED after %llu comparisons: %s\n", (unsigned long long)comparisons, what);
    exit(1);
}

void must(int ok, const char *what) {
    if (!ok) fail(what);
}

void *room_for(size_t bytes) {
    void *room = malloc(bytes ? bytes : 1);
    must(room != NULL, "no memory");
    return room;
}

void seed(uint64_t value) { state = value * 2654435769u + 88172645463325252u; }

uint32_t below(uint32_t n) {
    state ^= state << 13;
    state ^= state >> 7;
    state ^= state << 17;
    return n ? (uint32_t)((state >> 16) % n) : 0;
}

lent lend(size_t len, size_t size) {
    lent b = { room_for((len + 2 * GUARD) * size), len, size };
    for (size_t i = 0; i < (len + 2 * GUARD) * size; i++) b.whole[i] = (uint8_t)below(256);
    return b;
}

lent copy_of(lent b) {
    lent c = { room_for((b.len + 2 * GUARD) * b.size), b.len, b.size };
    memcpy(c.whole, b.whole, (b.len + 2 * GUARD) * b.size);
    return c;
}

void *start(lent b) { return b.whole + GUARD * b.size; }

void give_back(lent b) { free(b.whole); }

laid lay_sheet(uint32_t m, uint32_t s, size_t log_room) {
    laid a;
    a.memory = lend(HLQ_SHEET_NUMBERS(m, s, log_room), sizeof(uint32_t));
    must(hlq_sheet_in(start(a.memory), hlq_sheet_bytes(m, s, log_room), m, s, log_room, &a.sheet) == HLQ_ACCEPTED,
         "a sheet is laid out");
    return a;
}

laid copy_of_sheet(const laid *a) {
    laid b = *a;
    b.memory = copy_of(a->memory);
    uint32_t *from = start(a->memory), *to = start(b.memory);
    b.sheet.list.keys = to + (a->sheet.list.keys - from);
    b.sheet.list.bits = to + (a->sheet.list.bits - from);
    b.sheet.summary = to + (a->sheet.summary - from);
    b.sheet.log_keys = to + (a->sheet.log_keys - from);
    b.sheet.log_values = to + (a->sheet.log_values - from);
    return b;
}

void same_buffers(const char *what, lent library, lent reference) {
    comparisons++;
    if (memcmp(library.whole, reference.whole, (library.len + 2 * GUARD) * library.size) != 0) fail(what);
}

void same_results(call which, uint64_t refusal, const void *library, const void *reference, size_t size) {
    comparisons++;
    if (memcmp(library, reference, size) != 0) {
        printf("result of %s:", names[which]);
        for (size_t i = 0; i < size / 8; i++)
            printf(" %llu/%llu", (unsigned long long)((const uint64_t *)library)[i],
                   (unsigned long long)((const uint64_t *)reference)[i]);
        printf(" (library/reference)\n");
        fail(names[which]);
    }
    if (refusal <= MAX_REFUSAL) pairs[which][refusal]++;
}

static void patch(uint8_t *raster, uint32_t edge, uint32_t feature) {
    uint32_t height = 1 + below(edge), width = 1 + below(edge), row = below(edge - height + 1),
             column = below(edge - width + 1);
    for (uint32_t r = row; r < row + height; r++) memset(raster + (size_t)r * edge + column, (int)feature, width);
}

void fill_raster(uint8_t *raster, uint32_t m, uint32_t s, uint32_t kind) {
    uint32_t edge = 1u << m;
    size_t pixels = (size_t)edge * edge;
    memset(raster, (int)below(s), pixels);
    if (kind == 1)
        for (uint32_t i = 1 + below(12); i > 0; i--) patch(raster, edge, below(s));
    if (kind == 2)
        for (size_t i = 0; i < pixels; i++) raster[i] = (uint8_t)below(s);
    if (kind == 3)
        for (uint32_t r = 0; r < (edge + 1) / 2; r++)
            for (uint32_t c = 0; c < (edge + 1) / 2; c++) raster[(size_t)r * edge + c] = (uint8_t)below(s);
    if (kind == 4)
        for (uint32_t i = 1 + below(6); i > 0; i--) raster[below((uint32_t)pixels)] = (uint8_t)below(s);
}

map random_map(uint32_t m) {
    size_t pixels = (size_t)1 << 2 * m, most = HLQ_MOST_RECORDS(m);
    map a = { m, 1 + below(HLQ_MOST_SLOTS), 0, room_for(4 * most), room_for(4 * most) };
    uint8_t *raster = room_for(pixels);
    fill_raster(raster, m, a.s, below(5));
    a.n = ref_list(m, a.s, raster, pixels, a.keys, most, a.bits, most).count;
    free(raster);
    return a;
}

void free_map(map a) {
    free(a.keys);
    free(a.bits);
}

uint32_t random_key(uint32_t m) {
    uint32_t level = below(m + 1), key = 0;
    for (uint32_t i = 0; i < m; i++) key = key * 5 + (i < level ? 1 + below(4) : 0);
    return key;
}

void damage(map *a) {
    size_t i = below((uint32_t)a->n), j = below((uint32_t)a->n);
    uint32_t t;
    switch (below(14)) {
    case 0: a->n = below((uint32_t)a->n + 1); break;
    case 1: a->bits[i] ^= 1u << below(32); break;
    case 2: a->keys[i] ^= 1u << below(32); break;
    case 3:
        t = a->keys[i];
        a->keys[i] = a->keys[j];
        a->keys[j] = t;
        break;
    case 4:
        t = a->bits[i];
        a->bits[i] = a->bits[j];
        a->bits[j] = t;
        break;
    case 5: a->bits[i] = 0; break;
    case 6: a->bits[i] = 1u << below(32); break;
    case 7: a->keys[i] = random_key(a->m); break;
    case 8: a->s = 1 + below(HLQ_MOST_SLOTS); break;
    case 9: a->m = below(HLQ_DEEPEST_M + 1); break;
    case 10: a->bits[i] = 0xFFFFFFFFu; break;
    case 11: a->keys[i] = 0xFFFFFFFFu - below(3); break;
    case 12:
        memmove(a->keys + i, a->keys + i + 1, 4 * (a->n - i - 1));
        memmove(a->bits + i, a->bits + i + 1, 4 * (a->n - i - 1));
        a->n--;
        break;
    default: /* four equal leaves where one leaf stood at the end */
        if (a->m == 1 && a->n == 1) {
            for (uint32_t d = 1; d <= 4; d++) {
                a->keys[d] = d;
                a->bits[d] = a->bits[0];
            }
            a->n = 5;
        } else a->bits[a->n - 1] |= a->bits[0];
    }
}

void expect_pairs(call which, uint32_t mask) {
    printf("  %s gave", names[which]);
    for (uint32_t r = 0; r <= MAX_REFUSAL; r++)
        if (pairs[which][r]) printf(" %u (%llu times)", r, (unsigned long long)pairs[which][r]);
    printf("\n");
    for (uint32_t r = 0; r <= MAX_REFUSAL; r++) {
        if ((mask >> r & 1) && pairs[which][r] == 0) {
            printf("%s never gave %u\n", names[which], r);
            fail("a refusal that did not occur");
        }
        if (!(mask >> r & 1) && pairs[which][r] != 0) {
            printf("%s gave %u\n", names[which], r);
            fail("a refusal that the specification does not list");
        }
    }
}

int finish(const char *name) {
    unsigned seen = 0;
    for (int c = 0; c < CALLS; c++)
        for (int r = 0; r <= MAX_REFUSAL; r++) seen += pairs[c][r] != 0;
    printf("%s: %llu comparisons, %u pairs of a call and its refusal\n", name, (unsigned long long)comparisons, seen);
    return 0;
}
