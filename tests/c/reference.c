/* The second implementation: rasters, and scans of their pixels. Slow and plain on purpose. */
#include "reference.h"

#include <stdlib.h>
#include <string.h>

/* The limits of specification S2, S11 and S15, written here a second time: the header's names are what is tested. */
enum { DEEPEST = 10, SLOTS = 32, OLD_SLOTS = 16, NO_FEATURE = 255, MARK = 255 };

/* The most pixels and records that a map can have. */
static size_t pixels_of(uint32_t m) { return (size_t)1 << 2 * m; }
static size_t most_of(uint32_t m) { return (4 * pixels_of(m) - 1) / 3; }

/* A list of its own, and a raster. */
typedef struct {
    uint32_t *keys, *bits;
    size_t n;
} records;

static records new_records(uint32_t m) {
    records r = { calloc(most_of(m), sizeof(uint32_t)), calloc(most_of(m), sizeof(uint32_t)), 0 };
    if (!r.keys || !r.bits) abort();
    return r;
}

static void free_records(records *r) {
    free(r->keys);
    free(r->bits);
}

static size_t shorter(size_t a, size_t b) { return a < b ? a : b; }

uint32_t ref_power(uint32_t base, uint32_t exponent) {
    uint32_t p = 1;
    while (exponent--) p *= base;
    return p;
}

/* The digits of a key, the highest first; 0 where it has more than m. */
static int digits_of(uint32_t m, uint32_t key, uint32_t *digits) {
    for (uint32_t i = m; i > 0; i--) {
        digits[i - 1] = key % 5;
        key /= 5;
    }
    return key == 0;
}

int ref_key_is_valid(uint32_t m, uint32_t key) {
    uint32_t d[DEEPEST];
    if (!digits_of(m, key, d)) return 0;
    uint32_t i = 0;
    while (i < m && d[i] != 0) i++;
    while (i < m)
        if (d[i++] != 0) return 0;
    return 1;
}

void ref_block(uint32_t m, uint32_t key, uint32_t *row, uint32_t *column, uint32_t *side) {
    uint32_t d[DEEPEST], edge = 1u << m;
    digits_of(m, key, d);
    *row = *column = 0;
    for (uint32_t i = 0; i < m && d[i] != 0; i++) {
        edge /= 2;
        if (d[i] == 3 || d[i] == 4) *row += edge;
        if (d[i] == 2 || d[i] == 4) *column += edge;
    }
    *side = edge;
}

uint32_t ref_pixel_key(uint32_t m, uint32_t row, uint32_t column) {
    uint32_t key = 0;
    for (uint32_t i = m; i > 0; i--) key = key * 5 + 1 + 2 * (row >> (i - 1) & 1) + (column >> (i - 1) & 1);
    return key;
}

static uint32_t features_in(const uint8_t *raster, uint32_t edge, uint32_t row, uint32_t column, uint32_t height,
                            uint32_t width) {
    uint32_t bits = 0;
    for (uint32_t r = row; r < row + height; r++)
        for (uint32_t c = column; c < column + width; c++) bits |= 1u << raster[(size_t)r * edge + c];
    return bits;
}

static int has_one_bit(uint32_t b) {
    int bits = 0;
    for (int i = 0; i < 32; i++) bits += b >> i & 1;
    return bits == 1;
}

static uint32_t slot_of(uint32_t b) {
    uint32_t i = 0;
    while (!(b >> i & 1)) i++;
    return i;
}

/* Every block at or below this one that is this one, or whose parent has more than one feature. */
static void list_block(const uint8_t *raster, uint32_t edge, uint32_t row, uint32_t column, uint32_t side, uint32_t key,
                       uint32_t step, records *out) {
    uint32_t bits = features_in(raster, edge, row, column, side, side);
    out->keys[out->n] = key;
    out->bits[out->n++] = bits;
    if (has_one_bit(bits)) return;
    for (uint32_t d = 1; d <= 4; d++)
        list_block(raster, edge, row + (d > 2 ? side / 2 : 0), column + (d % 2 == 0 ? side / 2 : 0), side / 2,
                   key + d * step, step / 5, out);
}

static void list_of(uint32_t m, const uint8_t *raster, uint32_t key, records *out) {
    uint32_t row, column, side, level = 0, d[DEEPEST];
    ref_block(m, key, &row, &column, &side);
    digits_of(m, key, d);
    while (level < m && d[level] != 0) level++;
    out->n = 0;
    list_block(raster, 1u << m, row, column, side, key, level < m ? ref_power(5, m - level - 1) : 0, out);
}

static int settings_are_bad(uint32_t m, uint32_t s) { return m > DEEPEST || s == 0 || s > SLOTS; }

/* The leaves of the records paint the raster inside the block; they are its list exactly when building it again gives
 * them. */
static int shows_block(uint32_t m, uint32_t s, uint32_t block, const uint32_t *keys, const uint32_t *bits, size_t n,
                       uint8_t *raster) {
    uint32_t edge = 1u << m, row, column, side;
    if (n == 0 || n > most_of(m)) return 0;
    ref_block(m, block, &row, &column, &side);
    for (uint32_t r = row; r < row + side; r++) memset(raster + (size_t)r * edge + column, NO_FEATURE, side);
    for (size_t i = 0; i < n; i++) {
        uint32_t r0, c0, e;
        if (!ref_key_is_valid(m, keys[i])) return 0;
        if (!has_one_bit(bits[i])) continue;
        if (slot_of(bits[i]) >= s) return 0;
        ref_block(m, keys[i], &r0, &c0, &e);
        if (r0 < row || c0 < column || r0 + e > row + side || c0 + e > column + side) return 0;
        for (uint32_t r = r0; r < r0 + e; r++) memset(raster + (size_t)r * edge + c0, (int)slot_of(bits[i]), e);
    }
    for (uint32_t r = row; r < row + side; r++)
        for (uint32_t c = column; c < column + side; c++)
            if (raster[(size_t)r * edge + c] == NO_FEATURE) return 0;
    uint32_t height = 0;
    while (1u << height < side) height++;
    records again = new_records(height);
    list_of(m, raster, block, &again);
    int same = again.n == n && memcmp(again.keys, keys, n * sizeof *keys) == 0 &&
               memcmp(again.bits, bits, n * sizeof *bits) == 0;
    free_records(&again);
    return same;
}

static uint8_t *new_raster(uint32_t m) {
    uint8_t *r = malloc(pixels_of(m));
    if (!r) abort();
    return r;
}

/* Room for the keys that a selection can have. */
static uint32_t *new_selection(uint32_t m) {
    uint32_t *keys = malloc(sizeof(uint32_t) * pixels_of(m));
    if (!keys) abort();
    return keys;
}

/* The raster of a list, or null where there is none (refusal 4). */
static uint8_t *raster_of(uint32_t m, uint32_t s, const uint32_t *keys, size_t keys_len, const uint32_t *bits,
                          size_t bits_len, size_t n) {
    if (n > shorter(keys_len, bits_len)) return NULL;
    uint8_t *raster = new_raster(m);
    if (shows_block(m, s, 0, keys, bits, n, raster)) return raster;
    free(raster);
    return NULL;
}

/* The block of the level that has the pixel is looked for among all of that level's squares, by going down. */
hlq_keyed ref_key_at(uint32_t m, uint32_t row, uint32_t column, uint32_t level) {
    if (m > DEEPEST) return (hlq_keyed){ 1, 0 };
    if (row >> m || column >> m) return (hlq_keyed){ 6, 0 };
    if (level > m) return (hlq_keyed){ 8, 0 };
    uint32_t key = 0;
    for (uint32_t d = 1; d <= level; d++)
        for (uint32_t digit = 1; digit <= 4; digit++) {
            uint32_t child = key + digit * ref_power(5, m - d), r, c, side;
            ref_block(m, child, &r, &c, &side);
            if (r <= row && row < r + side && c <= column && column < c + side) {
                key = child;
                break;
            }
        }
    return (hlq_keyed){ 0, key };
}

hlq_block ref_block_of(uint32_t m, uint32_t key) {
    if (m > DEEPEST) return (hlq_block){ 1, 0, 0, 0, 0 };
    if (!ref_key_is_valid(m, key)) return (hlq_block){ 8, 0, 0, 0, 0 };
    uint32_t row, column, side, level = m;
    ref_block(m, key, &row, &column, &side);
    while (side >> (m - level + 1)) level--;
    return (hlq_block){ 0, row, column, side, level };
}

hlq_counted ref_list(uint32_t m, uint32_t s, const uint8_t *raster, size_t raster_len, uint32_t *keys, size_t keys_len,
                     uint32_t *bits, size_t bits_len) {
    if (settings_are_bad(m, s)) return (hlq_counted){ 1, 0 };
    if (raster_len != pixels_of(m)) return (hlq_counted){ 2, 0 };
    for (size_t i = 0; i < raster_len; i++)
        if (raster[i] >= s) return (hlq_counted){ 3, 0 };
    records l = new_records(m);
    list_of(m, raster, 0, &l);
    hlq_counted answer = { 9, 0 };
    if (l.n <= shorter(keys_len, bits_len)) {
        memcpy(keys, l.keys, l.n * sizeof *keys);
        memcpy(bits, l.bits, l.n * sizeof *bits);
        answer = (hlq_counted){ 0, l.n };
    }
    free_records(&l);
    return answer;
}

hlq_done ref_raster(uint32_t m, uint32_t s, const uint32_t *keys, size_t keys_len, const uint32_t *bits,
                    size_t bits_len, size_t n, uint8_t *raster, size_t raster_len) {
    if (settings_are_bad(m, s)) return (hlq_done){ 1 };
    uint8_t *shown = raster_of(m, s, keys, keys_len, bits, bits_len, n);
    if (!shown) return (hlq_done){ 4 };
    hlq_done answer = { raster_len == pixels_of(m) ? 0 : 2 };
    if (answer.refusal == 0) memcpy(raster, shown, raster_len);
    free(shown);
    return answer;
}

/* 1, 4 or 8, or 0. */
static uint64_t standing_refusal(uint32_t m, uint32_t s, const uint32_t *keys, size_t keys_len, const uint32_t *bits,
                                 size_t bits_len, size_t n, uint32_t key) {
    if (settings_are_bad(m, s)) return 1;
    uint8_t *shown = raster_of(m, s, keys, keys_len, bits, bits_len, n);
    if (!shown) return 4;
    free(shown);
    return ref_key_is_valid(m, key) ? 0 : 8;
}

hlq_stands ref_standing(uint32_t m, uint32_t s, const uint32_t *keys, size_t keys_len, const uint32_t *bits,
                        size_t bits_len, size_t n, uint32_t key) {
    uint64_t refusal = standing_refusal(m, s, keys, keys_len, bits, bits_len, n, key);
    if (refusal) return (hlq_stands){ refusal, 0, 0, 0, 0, 0 };
    size_t own = n, leaf = n, records = 0;
    uint32_t row, column, side, level = 0;
    ref_block(m, key, &row, &column, &side);
    for (size_t i = 0; i < n; i++) {
        uint32_t r, c, e;
        ref_block(m, keys[i], &r, &c, &e);
        if (keys[i] == key) own = i;
        if (row <= r && column <= c && r + e <= row + side && c + e <= column + side) records++;
        if (has_one_bit(bits[i]) && r <= row && c <= column && row + side <= r + e && column + side <= c + e) {
            leaf = i, level = 0;
            while (e << level != (uint32_t)1 << m) level++;
        }
    }
    if (own < n) return (hlq_stands){ 0, 1, own, records, 0, 0 };
    return (hlq_stands){ 0, 2, leaf, 0, keys[leaf], level };
}

hlq_span ref_part(uint32_t m, uint32_t s, const uint32_t *keys, size_t keys_len, const uint32_t *bits, size_t bits_len,
                  size_t n, uint32_t key) {
    hlq_stands at = ref_standing(m, s, keys, keys_len, bits, bits_len, n, key);
    if (at.refusal) return (hlq_span){ 0, 0 };
    if (at.kind == 2) return (hlq_span){ at.place, 1 };
    uint32_t row, column, side;
    ref_block(m, key, &row, &column, &side);
    size_t end = at.place;
    while (end < n) {
        uint32_t r, c, e;
        ref_block(m, keys[end], &r, &c, &e);
        if (r < row || c < column || r + e > row + side || c + e > column + side) break;
        end++;
    }
    return (hlq_span){ at.place, end - at.place };
}

static int is_window(uint32_t m, uint32_t row, uint32_t column, uint32_t height, uint32_t width) {
    uint64_t edge = (uint64_t)1 << m;
    return height >= 1 && width >= 1 && (uint64_t)row + height <= edge && (uint64_t)column + width <= edge;
}

hlq_exists ref_exist(uint32_t m, uint32_t s, const uint32_t *keys, size_t keys_len, const uint32_t *bits,
                     size_t bits_len, size_t n, uint32_t row, uint32_t column, uint32_t height, uint32_t width,
                     uint32_t feature) {
    if (settings_are_bad(m, s)) return (hlq_exists){ 1, 0 };
    uint8_t *shown = raster_of(m, s, keys, keys_len, bits, bits_len, n);
    if (!shown) return (hlq_exists){ 4, 0 };
    hlq_exists answer = { 0, 0 };
    if (!is_window(m, row, column, height, width)) answer.refusal = 6;
    else if (feature >= s) answer.refusal = 7;
    else answer.yes = features_in(shown, 1u << m, row, column, height, width) >> feature & 1;
    free(shown);
    return answer;
}

hlq_reported ref_report(uint32_t m, uint32_t s, const uint32_t *keys, size_t keys_len, const uint32_t *bits,
                        size_t bits_len, size_t n, uint32_t row, uint32_t column, uint32_t height, uint32_t width) {
    if (settings_are_bad(m, s)) return (hlq_reported){ 1, 0 };
    uint8_t *shown = raster_of(m, s, keys, keys_len, bits, bits_len, n);
    if (!shown) return (hlq_reported){ 4, 0 };
    hlq_reported answer = { 0, 0 };
    if (!is_window(m, row, column, height, width)) answer.refusal = 6;
    else answer.bits = features_in(shown, 1u << m, row, column, height, width);
    free(shown);
    return answer;
}

typedef struct {
    const uint8_t *raster;
    uint32_t edge, row, column, height, width, feature;
    uint32_t *out;
    size_t n;
} selection;

static int is_given(const selection *w, uint32_t row, uint32_t column, uint32_t side) {
    if (row < w->row || column < w->column || row + side > w->row + w->height || column + side > w->column + w->width)
        return 0;
    return features_in(w->raster, w->edge, row, column, side, side) == 1u << w->feature;
}

static void select_block(selection *w, uint32_t row, uint32_t column, uint32_t side, uint32_t key, uint32_t step) {
    if (is_given(w, row, column, side)) {
        w->out[w->n++] = key;
        return;
    }
    if (side == 1) return;
    for (uint32_t d = 1; d <= 4; d++)
        select_block(w, row + (d > 2 ? side / 2 : 0), column + (d % 2 == 0 ? side / 2 : 0), side / 2, key + d * step,
                     step / 5);
}

static size_t select_keys(uint32_t m, const uint8_t *raster, uint32_t row, uint32_t column, uint32_t height,
                          uint32_t width, uint32_t feature, uint32_t *out) {
    selection w = { raster, 1u << m, row, column, height, width, feature, out, 0 };
    select_block(&w, 0, 0, 1u << m, 0, m ? ref_power(5, m - 1) : 0);
    return w.n;
}

hlq_counted ref_select(uint32_t m, uint32_t s, const uint32_t *keys, size_t keys_len, const uint32_t *bits,
                       size_t bits_len, size_t n, uint32_t row, uint32_t column, uint32_t height, uint32_t width,
                       uint32_t feature, uint32_t *answer, size_t answer_len) {
    if (settings_are_bad(m, s)) return (hlq_counted){ 1, 0 };
    uint8_t *shown = raster_of(m, s, keys, keys_len, bits, bits_len, n);
    if (!shown) return (hlq_counted){ 4, 0 };
    hlq_counted result = { 0, 0 };
    if (!is_window(m, row, column, height, width)) result.refusal = 6;
    else if (feature >= s) result.refusal = 7;
    else {
        uint32_t *found = new_selection(m);
        result.count = select_keys(m, shown, row, column, height, width, feature, found);
        if (result.count > answer_len) result.refusal = 12;
        else memcpy(answer, found, result.count * sizeof *answer);
        free(found);
    }
    free(shown);
    return result;
}

/* How many pixels of a rectangle have the feature. */
static uint32_t pixels_with(const uint8_t *raster, uint32_t edge, uint32_t row, uint32_t column, uint32_t height,
                            uint32_t width, uint32_t feature) {
    uint32_t count = 0;
    for (uint32_t r = row; r < row + height; r++)
        for (uint32_t c = column; c < column + width; c++) count += raster[(size_t)r * edge + c] == feature;
    return count;
}

/* The summary's level, and how many places it has. */
static uint32_t summary_level(uint32_t m) { return m < 2 ? m : 2; }
static size_t summary_places(uint32_t m, uint32_t s) { return (size_t)ref_power(4, summary_level(m)) * s; }

/* The count of one place: its block is found by the block's number, whose digits in base 4 are the key's less one. */
static uint32_t summary_place(uint32_t m, uint32_t s, const uint8_t *raster, size_t place) {
    uint32_t level = summary_level(m), block = (uint32_t)(place / s), key = 0, row, column, side;
    for (uint32_t d = 1; d <= level; d++)
        key += (block / ref_power(4, level - d) % 4 + 1) * ref_power(5, m - d);
    ref_block(m, key, &row, &column, &side);
    return pixels_with(raster, 1u << m, row, column, side, side, (uint32_t)(place % s));
}

static int is_summary(uint32_t m, uint32_t s, const uint8_t *raster, const uint32_t *summary, size_t summary_len) {
    if (summary_len != summary_places(m, s)) return 0;
    for (size_t i = 0; i < summary_len; i++)
        if (summary[i] != summary_place(m, s, raster, i)) return 0;
    return 1;
}

void ref_summary(uint32_t m, uint32_t s, const uint8_t *raster, uint32_t *summary) {
    for (size_t i = 0; i < summary_places(m, s); i++) summary[i] = summary_place(m, s, raster, i);
}

/* 18 comes before 9, and after all that the raster decides. */
hlq_counted ref_build(uint32_t m, uint32_t s, const uint8_t *raster, size_t raster_len, uint32_t *keys, size_t keys_len,
                      uint32_t *bits, size_t bits_len, uint32_t *summary, size_t summary_len) {
    hlq_counted none = ref_list(m, s, raster, raster_len, keys, 0, bits, 0);
    if (none.refusal != 9) return none;
    if (summary_len != summary_places(m, s)) return (hlq_counted){ 18, 0 };
    hlq_counted answer = ref_list(m, s, raster, raster_len, keys, keys_len, bits, bits_len);
    if (answer.refusal == 0) ref_summary(m, s, raster, summary);
    return answer;
}

/* Both rasters, a class for each pixel, and the list of that raster. */
hlq_counted ref_combine(uint32_t m1, uint32_t s1, const uint32_t *keys1, size_t keys1_len, const uint32_t *bits1,
                        size_t bits1_len, size_t n1, uint32_t m2, uint32_t s2, const uint32_t *keys2, size_t keys2_len,
                        const uint32_t *bits2, size_t bits2_len, size_t n2, uint32_t s3, const uint8_t *table,
                        size_t table_len, uint32_t *keys3, size_t keys3_len, uint32_t *bits3, size_t bits3_len) {
    if (settings_are_bad(m1, s1) || settings_are_bad(m2, s2) || s3 == 0 || s3 > SLOTS) return (hlq_counted){ 1, 0 };
    if (m1 != m2) return (hlq_counted){ 24, 0 };
    uint8_t *first = raster_of(m1, s1, keys1, keys1_len, bits1, bits1_len, n1);
    if (!first) return (hlq_counted){ 4, 0 };
    hlq_counted answer = { 4, 0 };
    uint8_t *second = raster_of(m2, s2, keys2, keys2_len, bits2, bits2_len, n2);
    if (second) {
        int bad = table_len != (size_t)s1 * s2;
        for (size_t i = 0; i < table_len; i++) bad |= table[i] >= s3;
        answer = (hlq_counted){ 25, 0 };
        if (!bad) {
            for (size_t i = 0; i < pixels_of(m1); i++) first[i] = table[(size_t)first[i] * s2 + second[i]];
            answer = ref_list(m1, s3, first, pixels_of(m1), keys3, keys3_len, bits3, bits3_len);
        }
    }
    free(first), free(second);
    return answer;
}

hlq_done ref_fill_summary(uint32_t m, uint32_t s, const uint32_t *keys, size_t keys_len, const uint32_t *bits,
                          size_t bits_len, size_t n, uint32_t *summary, size_t summary_len) {
    if (settings_are_bad(m, s)) return (hlq_done){ 1 };
    uint8_t *shown = raster_of(m, s, keys, keys_len, bits, bits_len, n);
    if (!shown) return (hlq_done){ 4 };
    hlq_done answer = { summary_len == summary_places(m, s) ? 0 : 18 };
    if (answer.refusal == 0) ref_summary(m, s, shown, summary);
    free(shown);
    return answer;
}

hlq_measured ref_area(uint32_t m, uint32_t s, const uint32_t *keys, size_t keys_len, const uint32_t *bits,
                      size_t bits_len, size_t n, const uint32_t *summary, size_t summary_len, uint32_t row,
                      uint32_t column, uint32_t height, uint32_t width, uint32_t feature) {
    if (settings_are_bad(m, s)) return (hlq_measured){ 1, 0 };
    uint8_t *shown = raster_of(m, s, keys, keys_len, bits, bits_len, n);
    if (!shown) return (hlq_measured){ 4, 0 };
    hlq_measured answer = { 0, 0 };
    if (!is_summary(m, s, shown, summary, summary_len)) answer.refusal = 18;
    else if (!is_window(m, row, column, height, width)) answer.refusal = 6;
    else if (feature >= s) answer.refusal = 7;
    else answer.pixels = pixels_with(shown, 1u << m, row, column, height, width, feature);
    free(shown);
    return answer;
}

typedef struct {
    int64_t row, column, height, width;
} dragged;

static int was_dragged(dragged w, int64_t row, int64_t column) {
    return w.row <= row && row < w.row + w.height && w.column <= column && column < w.column + w.width;
}

/* The bitstring of the features of all pixels of the raster that were dragged over: 0 where there is none. */
static uint32_t features_dragged(const uint8_t *raster, uint32_t edge, dragged w) {
    uint32_t bits = 0;
    for (uint32_t row = 0; row < edge; row++)
        for (uint32_t column = 0; column < edge; column++)
            if (was_dragged(w, row, column)) bits |= 1u << raster[(size_t)row * edge + column];
    return bits;
}

hlq_exists ref_exist_clipped(uint32_t m, uint32_t s, const uint32_t *keys, size_t keys_len, const uint32_t *bits,
                             size_t bits_len, size_t n, int32_t row, int32_t column, uint32_t height, uint32_t width,
                             uint32_t feature) {
    if (settings_are_bad(m, s)) return (hlq_exists){ 1, 0 };
    uint8_t *shown = raster_of(m, s, keys, keys_len, bits, bits_len, n);
    if (!shown) return (hlq_exists){ 4, 0 };
    uint32_t found = features_dragged(shown, 1u << m, (dragged){ row, column, height, width });
    free(shown);
    if (!found) return (hlq_exists){ 6, 0 };
    if (feature >= s) return (hlq_exists){ 7, 0 };
    return (hlq_exists){ 0, found >> feature & 1 };
}

hlq_reported ref_report_clipped(uint32_t m, uint32_t s, const uint32_t *keys, size_t keys_len, const uint32_t *bits,
                                size_t bits_len, size_t n, int32_t row, int32_t column, uint32_t height,
                                uint32_t width) {
    if (settings_are_bad(m, s)) return (hlq_reported){ 1, 0 };
    uint8_t *shown = raster_of(m, s, keys, keys_len, bits, bits_len, n);
    if (!shown) return (hlq_reported){ 4, 0 };
    uint32_t found = features_dragged(shown, 1u << m, (dragged){ row, column, height, width });
    free(shown);
    return found ? (hlq_reported){ 0, found } : (hlq_reported){ 6, 0 };
}

/* The keys are those of the largest blocks of a raster that has 1 at the pixels asked for, and 0 elsewhere. */
static size_t select_dragged(uint32_t m, uint8_t *raster, dragged w, uint32_t feature, uint32_t *out) {
    uint32_t edge = 1u << m;
    for (uint32_t row = 0; row < edge; row++)
        for (uint32_t column = 0; column < edge; column++) {
            uint8_t *pixel = raster + (size_t)row * edge + column;
            *pixel = was_dragged(w, row, column) && *pixel == feature;
        }
    return select_keys(m, raster, 0, 0, edge, edge, 1, out);
}

hlq_counted ref_select_clipped(uint32_t m, uint32_t s, const uint32_t *keys, size_t keys_len, const uint32_t *bits,
                               size_t bits_len, size_t n, int32_t row, int32_t column, uint32_t height, uint32_t width,
                               uint32_t feature, uint32_t *answer, size_t answer_len) {
    if (settings_are_bad(m, s)) return (hlq_counted){ 1, 0 };
    uint8_t *shown = raster_of(m, s, keys, keys_len, bits, bits_len, n);
    if (!shown) return (hlq_counted){ 4, 0 };
    dragged w = { row, column, height, width };
    hlq_counted result = { 0, 0 };
    if (!features_dragged(shown, 1u << m, w)) result.refusal = 6;
    else if (feature >= s) result.refusal = 7;
    else {
        uint32_t *found = new_selection(m);
        result.count = select_dragged(m, shown, w, feature, found);
        if (result.count > answer_len) result.refusal = 12;
        else memcpy(answer, found, result.count * sizeof *answer);
        free(found);
    }
    free(shown);
    return result;
}

/* Every pixel of the raster is asked whether it was dragged over and has the feature. */
hlq_measured ref_area_clipped(uint32_t m, uint32_t s, const uint32_t *keys, size_t keys_len, const uint32_t *bits,
                              size_t bits_len, size_t n, const uint32_t *summary, size_t summary_len, int32_t row,
                              int32_t column, uint32_t height, uint32_t width, uint32_t feature) {
    if (settings_are_bad(m, s)) return (hlq_measured){ 1, 0 };
    uint8_t *shown = raster_of(m, s, keys, keys_len, bits, bits_len, n);
    if (!shown) return (hlq_measured){ 4, 0 };
    dragged w = { row, column, height, width };
    hlq_measured answer = { 0, 0 };
    uint32_t edge = 1u << m;
    if (!is_summary(m, s, shown, summary, summary_len)) answer.refusal = 18;
    else if (!features_dragged(shown, edge, w)) answer.refusal = 6;
    else if (feature >= s) answer.refusal = 7;
    else
        for (uint32_t r = 0; r < edge; r++)
            for (uint32_t c = 0; c < edge; c++)
                answer.pixels += was_dragged(w, r, c) && shown[(size_t)r * edge + c] == feature;
    free(shown);
    return answer;
}

/* Every question scans the raster anew; nothing is written unless all questions have a place on either side. */
hlq_counted ref_batch(uint32_t m, uint32_t s, const uint32_t *keys, size_t keys_len, const uint32_t *bits,
                      size_t bits_len, size_t n, const hlq_question *questions, size_t questions_len,
                      uint32_t *refusals, size_t refusals_len, uint32_t *values, size_t values_len) {
    if (settings_are_bad(m, s)) return (hlq_counted){ 1, 0 };
    uint8_t *shown = raster_of(m, s, keys, keys_len, bits, bits_len, n);
    if (!shown) return (hlq_counted){ 4, 0 };
    int fits = questions_len <= refusals_len && questions_len <= values_len;
    for (size_t i = 0; fits && i < questions_len; i++) {
        hlq_question q = questions[i];
        uint32_t found = features_dragged(shown, 1u << m, (dragged){ q.row, q.column, q.height, q.width });
        int no_feature = q.report == 0 && q.feature >= s;
        refusals[i] = !found ? 6 : no_feature ? 7 : 0;
        values[i] = refusals[i] ? 0 : q.report ? found : found >> q.feature & 1;
    }
    free(shown);
    return (hlq_counted){ fits ? 0 : 12, questions_len };
}

typedef struct {
    uint32_t key, feature;
    size_t start, count, end;
} entry;

/* The entry whose two closing records end at a place, its content painted into the raster; 0 where there is none. */
static int entry_before(uint32_t m, uint32_t s, const uint32_t *log_keys, const uint32_t *log_values, size_t end,
                        uint8_t *raster, entry *e) {
    if (end < 3) return 0;
    *e = (entry){ log_keys[end - 1], log_values[end - 1], 0, log_values[end - 2], end };
    if (log_keys[end - 2] != e->key || e->feature >= s || e->count == 0 || e->count > end - 2) return 0;
    e->start = end - 2 - e->count;
    return ref_key_is_valid(m, e->key) &&
           shows_block(m, s, e->key, log_keys + e->start, log_values + e->start, e->count, raster);
}

/* A step of the log: where it starts, where its last entry ends, and where the step ends. */
typedef struct {
    size_t start, entries_end, end;
} log_step;

/* The step that ends at a place: the single entry there or, where the last record is (0, 255), so many entries as the
 * record before says; 0 where there is none. */
static int step_before(uint32_t m, uint32_t s, const uint32_t *log_keys, const uint32_t *log_values, size_t end,
                       uint8_t *raster, log_step *t) {
    entry e;
    uint32_t number = 1;
    *t = (log_step){ end, end, end };
    if (end >= 2 && log_keys[end - 1] == 0 && log_values[end - 1] == MARK) {
        if (log_keys[end - 2] != 0 || log_values[end - 2] == 0) return 0;
        number = log_values[end - 2];
        t->start = t->entries_end = end - 2;
    }
    for (; number > 0; number--) {
        if (!entry_before(m, s, log_keys, log_values, t->start, raster, &e)) return 0;
        t->start = e.start;
    }
    return 1;
}

/* Steps from the end, as far as used; the count in force is 0 or the end of one of them. Gives the step that ends there
 * and the one that starts there, where there are such. */
static int log_is_sound(uint32_t m, uint32_t s, const uint32_t *log_keys, const uint32_t *log_values, size_t room,
                        size_t used, size_t in_force, log_step *last, log_step *next) {
    if (used > room) return 0;
    uint8_t *raster = new_raster(m);
    int sound = 1, met = in_force == 0;
    for (size_t end = used; sound && end > 0;) {
        log_step t = { 0, 0, 0 };
        sound = step_before(m, s, log_keys, log_values, end, raster, &t);
        if (!sound) break;
        if (t.end == in_force) met = 1, *last = t;
        if (t.start == in_force) *next = t;
        end = t.start;
    }
    free(raster);
    return sound && met;
}

static void fill_block(uint32_t m, uint32_t key, uint32_t feature, uint8_t *raster) {
    uint32_t row, column, side;
    ref_block(m, key, &row, &column, &side);
    for (uint32_t r = row; r < row + side; r++) memset(raster + ((size_t)r << m) + column, (int)feature, side);
}

/* The list of the raster in place of the first n records; 9 where it does not fit. */
static uint64_t relist(uint32_t m, const uint8_t *raster, uint32_t *keys, size_t keys_len, uint32_t *bits,
                       size_t bits_len, size_t n, size_t *now) {
    records l = new_records(m);
    list_of(m, raster, 0, &l);
    uint64_t refusal = l.n > shorter(keys_len, bits_len) ? 9 : 0;
    if (!refusal) {
        memcpy(keys, l.keys, l.n * sizeof *keys);
        memcpy(bits, l.bits, l.n * sizeof *bits);
        for (size_t i = l.n; i < n; i++) keys[i] = bits[i] = 0;
        *now = l.n;
    }
    free_records(&l);
    return refusal;
}

static const hlq_edited no_edit = { 0, 0, 0, 0 };

/* What a paint writes into the log, before it is known to fit. */
typedef struct {
    uint32_t *keys, *values;
    size_t n, room;
} draft;

static void write_log(draft *d, uint32_t key, uint32_t value) {
    if (d->n == d->room) {
        d->room = 2 * d->room + 64;
        d->keys = realloc(d->keys, d->room * sizeof *d->keys);
        d->values = realloc(d->values, d->room * sizeof *d->values);
        if (!d->keys || !d->values) abort();
    }
    d->keys[d->n] = key;
    d->values[d->n++] = value;
}

/* Each block in turn: its content goes into the draft, with the closing records, and its pixels get the feature. */
static void paint_in_turn(uint32_t m, uint8_t *raster, const uint32_t *blocks, size_t count, uint32_t feature,
                          draft *d) {
    records content = new_records(m);
    for (size_t b = 0; b < count; b++) {
        list_of(m, raster, blocks[b], &content);
        for (size_t i = 0; i < content.n; i++) write_log(d, content.keys[i], content.bits[i]);
        write_log(d, blocks[b], (uint32_t)content.n);
        write_log(d, blocks[b], feature);
        fill_block(m, blocks[b], feature, raster);
    }
    free_records(&content);
}

/* The blocks that a paint is of, in order: one block, or the largest blocks of a window, which are those of a raster
 * that has 1 at its pixels. */
static uint32_t *blocks_to_paint(uint32_t m, int window, uint32_t key, dragged w, size_t *count) {
    uint32_t *blocks = new_selection(m), edge = 1u << m;
    uint8_t *marks = new_raster(m);
    if (window) {
        for (uint32_t r = 0; r < edge; r++)
            for (uint32_t c = 0; c < edge; c++) marks[(size_t)r * edge + c] = (uint8_t)was_dragged(w, r, c);
        *count = select_keys(m, marks, 0, 0, edge, edge, 1, blocks);
    } else blocks[0] = key, *count = 1;
    free(marks);
    return blocks;
}

/* A paint of a block or, where the window is not null, of a window. */
static hlq_edited paint_step(uint32_t m, uint32_t s, uint32_t *keys, size_t keys_len, uint32_t *bits, size_t bits_len,
                             size_t n, uint32_t *summary, size_t summary_len, uint32_t *log_keys, size_t log_keys_len,
                             uint32_t *log_values, size_t log_values_len, size_t used, size_t in_force, uint32_t key,
                             const uint32_t *window, uint32_t feature) {
    size_t log_room = shorter(log_keys_len, log_values_len), now = 0, count;
    if (settings_are_bad(m, s)) return (hlq_edited){ 1, 0, 0, 0 };
    uint8_t *raster = raster_of(m, s, keys, keys_len, bits, bits_len, n);
    if (!raster) return (hlq_edited){ 4, 0, 0, 0 };
    hlq_edited answer = no_edit;
    log_step last, next;
    if (!is_summary(m, s, raster, summary, summary_len)) answer.refusal = 18;
    else if (!log_is_sound(m, s, log_keys, log_values, log_room, used, in_force, &last, &next)) answer.refusal = 5;
    else if (window && !is_window(m, window[0], window[1], window[2], window[3])) answer.refusal = 6;
    else if (!window && !ref_key_is_valid(m, key)) answer.refusal = 8;
    else if (feature >= s) answer.refusal = 7;
    else {
        dragged w = { 0, 0, 0, 0 };
        draft d = { NULL, NULL, 0, 0 };
        if (window) w = (dragged){ window[0], window[1], window[2], window[3] };
        uint32_t *blocks = blocks_to_paint(m, window != NULL, key, w, &count);
        paint_in_turn(m, raster, blocks, count, feature, &d);
        if (window) write_log(&d, 0, (uint32_t)count), write_log(&d, 0, MARK);
        if (in_force + d.n > log_room) answer.refusal = 10;
        else answer.refusal = relist(m, raster, keys, keys_len, bits, bits_len, n, &now);
        if (answer.refusal == 0) {
            for (size_t i = in_force; i < used; i++) log_keys[i] = log_values[i] = 0;
            memcpy(log_keys + in_force, d.keys, d.n * sizeof *log_keys);
            memcpy(log_values + in_force, d.values, d.n * sizeof *log_values);
            ref_summary(m, s, raster, summary);
            answer = (hlq_edited){ 0, now, in_force + d.n, in_force + d.n };
        }
        free(d.keys), free(d.values), free(blocks);
    }
    free(raster);
    return answer;
}

hlq_edited ref_paint(uint32_t m, uint32_t s, uint32_t *keys, size_t keys_len, uint32_t *bits, size_t bits_len, size_t n,
                     uint32_t *summary, size_t summary_len, uint32_t *log_keys, size_t log_keys_len,
                     uint32_t *log_values, size_t log_values_len, size_t used, size_t in_force, uint32_t key,
                     uint32_t feature) {
    return paint_step(m, s, keys, keys_len, bits, bits_len, n, summary, summary_len, log_keys, log_keys_len, log_values,
                      log_values_len, used, in_force, key, NULL, feature);
}

hlq_edited ref_paint_window(uint32_t m, uint32_t s, uint32_t *keys, size_t keys_len, uint32_t *bits, size_t bits_len,
                            size_t n, uint32_t *summary, size_t summary_len, uint32_t *log_keys, size_t log_keys_len,
                            uint32_t *log_values, size_t log_values_len, size_t used, size_t in_force, uint32_t row,
                            uint32_t column, uint32_t height, uint32_t width, uint32_t feature) {
    uint32_t window[] = { row, column, height, width };
    return paint_step(m, s, keys, keys_len, bits, bits_len, n, summary, summary_len, log_keys, log_keys_len, log_values,
                      log_values_len, used, in_force, 0, window, feature);
}

/* The contents of a step's entries go into their blocks, from the last to the first. */
static void put_contents(uint32_t m, uint32_t s, const uint32_t *log_keys, const uint32_t *log_values, log_step t,
                         uint8_t *raster) {
    entry e;
    for (size_t end = t.entries_end; end > t.start; end = e.start)
        entry_before(m, s, log_keys, log_values, end, raster, &e);
}

/* The blocks of a step's entries get their features, from the first to the last. */
static void put_features(uint32_t m, uint32_t s, const uint32_t *log_keys, const uint32_t *log_values, log_step t,
                         uint8_t *raster) {
    size_t count = 0;
    entry *all = malloc((t.end - t.start) / 3 * sizeof *all);
    uint8_t *aside = new_raster(m);
    if (!all) abort();
    for (size_t end = t.entries_end; end > t.start; end = all[count++].start)
        entry_before(m, s, log_keys, log_values, end, aside, &all[count]);
    while (count-- > 0) fill_block(m, all[count].key, all[count].feature, raster);
    free(all), free(aside);
}

/* Taking back the last step in force, or redo of the next one. */
static hlq_edited step(int forward, uint32_t m, uint32_t s, uint32_t *keys, size_t keys_len, uint32_t *bits,
                       size_t bits_len, size_t n, uint32_t *summary, size_t summary_len, const uint32_t *log_keys,
                       size_t log_keys_len, const uint32_t *log_values, size_t log_values_len, size_t used,
                       size_t in_force) {
    if (settings_are_bad(m, s)) return (hlq_edited){ 1, 0, 0, 0 };
    uint8_t *raster = raster_of(m, s, keys, keys_len, bits, bits_len, n);
    if (!raster) return (hlq_edited){ 4, 0, 0, 0 };
    hlq_edited answer = no_edit;
    log_step last = { 0, 0, 0 }, next = last;
    size_t now = 0, log_room = shorter(log_keys_len, log_values_len);
    if (!is_summary(m, s, raster, summary, summary_len)) answer.refusal = 18;
    else if (!log_is_sound(m, s, log_keys, log_values, log_room, used, in_force, &last, &next)) answer.refusal = 5;
    else if (forward && in_force == used) answer.refusal = 20;
    else if (!forward && in_force == 0) answer.refusal = 11;
    else {
        if (forward) put_features(m, s, log_keys, log_values, next, raster);
        else put_contents(m, s, log_keys, log_values, last, raster);
        answer.refusal = relist(m, raster, keys, keys_len, bits, bits_len, n, &now);
        if (answer.refusal == 0) {
            ref_summary(m, s, raster, summary);
            answer = (hlq_edited){ 0, now, used, forward ? next.end : last.start };
        }
    }
    free(raster);
    return answer;
}

hlq_edited ref_take_back(uint32_t m, uint32_t s, uint32_t *keys, size_t keys_len, uint32_t *bits, size_t bits_len,
                         size_t n, uint32_t *summary, size_t summary_len, uint32_t *log_keys, size_t log_keys_len,
                         uint32_t *log_values, size_t log_values_len, size_t used, size_t in_force) {
    return step(0, m, s, keys, keys_len, bits, bits_len, n, summary, summary_len, log_keys, log_keys_len, log_values,
                log_values_len, used, in_force);
}

hlq_edited ref_redo(uint32_t m, uint32_t s, uint32_t *keys, size_t keys_len, uint32_t *bits, size_t bits_len, size_t n,
                    uint32_t *summary, size_t summary_len, uint32_t *log_keys, size_t log_keys_len,
                    uint32_t *log_values, size_t log_values_len, size_t used, size_t in_force) {
    return step(1, m, s, keys, keys_len, bits, bits_len, n, summary, summary_len, log_keys, log_keys_len, log_values,
                log_values_len, used, in_force);
}

static int rules_are_bad(uint32_t m, uint32_t s, const hlq_rule *rules, size_t n) {
    for (size_t i = 0; i < n; i++) {
        if (i > 0 && rules[i - 1].id >= rules[i].id) return 1;
        if (!is_window(m, rules[i].row, rules[i].column, rules[i].height, rules[i].width) || rules[i].feature >= s)
            return 1;
    }
    return 0;
}

static int waivers_are_bad(uint32_t m, const hlq_rule *rules, size_t rules_len, const uint32_t *ids,
                           const uint32_t *keys, size_t n) {
    for (size_t i = 0; i < n; i++) {
        int known = 0;
        if (i > 0 && (ids[i - 1] > ids[i] || (ids[i - 1] == ids[i] && keys[i - 1] >= keys[i]))) return 1;
        for (size_t j = 0; j < rules_len; j++) known |= rules[j].id == ids[i];
        if (!known || !ref_key_is_valid(m, keys[i])) return 1;
    }
    return 0;
}

/* A raster of yes and no: the pixels that lie in a waived block of the rule. */
static void mark_waived(uint32_t m, const uint32_t *ids, const uint32_t *keys, size_t n, uint32_t id, uint8_t *marks) {
    memset(marks, 0, pixels_of(m));
    for (size_t i = 0; i < n; i++) {
        uint32_t row, column, side;
        if (ids[i] != id) continue;
        ref_block(m, keys[i], &row, &column, &side);
        for (uint32_t r = row; r < row + side; r++) memset(marks + ((size_t)r << m) + column, 1, side);
    }
}

/* Every pixel of the block is marked. */
static int is_waived(uint32_t m, const uint8_t *marks, uint32_t key) {
    uint32_t row, column, side;
    ref_block(m, key, &row, &column, &side);
    for (uint32_t r = row; r < row + side; r++)
        for (uint32_t c = column; c < column + side; c++)
            if (!marks[((size_t)r << m) + c]) return 0;
    return 1;
}

/* A row of a table as a number of its own, so that rows are compared as a whole. */
typedef struct {
    uint32_t office, id, key;
} table_row;

static int by_row(const void *a, const void *b) {
    const table_row *x = a, *y = b;
    if (x->office != y->office) return x->office < y->office ? -1 : 1;
    if (x->id != y->id) return x->id < y->id ? -1 : 1;
    return (x->key > y->key) - (x->key < y->key);
}

/* The rows of a table, or 0 where it is none. */
static int read_table(const uint32_t *offices, size_t offices_len, const uint32_t *ids, size_t ids_len,
                      const uint32_t *waived, size_t waived_len, size_t rows, table_row *table) {
    size_t held[2] = { 0, 0 };
    if (offices_len != 512 || ids_len != 512 || waived_len != 512 || rows > 512) return 0;
    for (size_t i = 0; i < rows; i++) {
        table[i] = (table_row){ offices[i], ids[i], waived[i] };
        if (offices[i] > 1) return 0;
        held[offices[i]]++;
        if (i > 0 && by_row(table + i - 1, table + i) >= 0) return 0;
    }
    return held[0] <= 256 && held[1] <= 256;
}

static hlq_counted change_table(int adding, uint32_t m, uint32_t office, uint32_t *offices, size_t offices_len,
                                uint32_t *ids, size_t ids_len, uint32_t *waived, size_t waived_len, size_t rows,
                                uint32_t id, uint32_t key) {
    table_row table[513], own = { office, id, key };
    size_t at = 0, held = 0;
    if (office > 1) return (hlq_counted){ 21, 0 };
    if (m > 10) return (hlq_counted){ 1, 0 };
    if (!read_table(offices, offices_len, ids, ids_len, waived, waived_len, rows, table)) return (hlq_counted){ 14, 0 };
    if (!ref_key_is_valid(m, key)) return (hlq_counted){ 8, 0 };
    for (size_t i = 0; i < rows; i++) held += table[i].office == office;
    while (at < rows && by_row(table + at, &own) != 0) at++;
    if ((at < rows) == adding) return (hlq_counted){ 22, 0 };
    if (adding && held == 256) return (hlq_counted){ 12, 257 };
    if (adding) table[rows] = own; /* behind the others, and then in order */
    else table[at] = (table_row){ 2, 0, 0 };
    qsort(table, rows + (size_t)adding, sizeof *table, by_row);
    size_t now = adding ? rows + 1 : rows - 1;
    if (!adding) table[now] = (table_row){ 0, 0, 0 };
    for (size_t i = 0; i < now + !adding; i++)
        offices[i] = table[i].office, ids[i] = table[i].id, waived[i] = table[i].key;
    return (hlq_counted){ 0, now };
}

hlq_counted ref_add_waiver(uint32_t m, uint32_t office, uint32_t *offices, size_t offices_len, uint32_t *ids,
                           size_t ids_len, uint32_t *waived, size_t waived_len, size_t rows, uint32_t id,
                           uint32_t key) {
    return change_table(1, m, office, offices, offices_len, ids, ids_len, waived, waived_len, rows, id, key);
}

hlq_counted ref_remove_waiver(uint32_t m, uint32_t office, uint32_t *offices, size_t offices_len, uint32_t *ids,
                              size_t ids_len, uint32_t *waived, size_t waived_len, size_t rows, uint32_t id,
                              uint32_t key) {
    return change_table(0, m, office, offices, offices_len, ids, ids_len, waived, waived_len, rows, id, key);
}

hlq_found ref_findings(uint32_t m, uint32_t s, const uint32_t *keys, size_t keys_len, const uint32_t *bits,
                       size_t bits_len, size_t n, uint32_t office, const hlq_rule *rules, size_t rules_len,
                       const uint32_t *offices, size_t offices_len, const uint32_t *ids, size_t ids_len,
                       const uint32_t *waived, size_t waived_len, size_t rows, uint32_t *found_ids,
                       size_t found_ids_len, uint32_t *found_keys, size_t found_keys_len) {
    size_t waivers = 0, room = shorter(found_ids_len, found_keys_len);
    uint32_t waiver_ids[512], waiver_keys[512];
    table_row table[513];
    if (office > 1) return (hlq_found){ 21, 0, 0 };
    int good = read_table(offices, offices_len, ids, ids_len, waived, waived_len, rows, table);
    for (size_t i = 0; good && i < rows; i++) {
        if (m <= 10 && !ref_key_is_valid(m, table[i].key)) good = 0;
        if (table[i].office == office) waiver_ids[waivers] = table[i].id, waiver_keys[waivers++] = table[i].key;
    }
    if (settings_are_bad(m, s)) return (hlq_found){ 1, 0, 0 };
    uint8_t *raster = raster_of(m, s, keys, keys_len, bits, bits_len, n);
    if (!raster) return (hlq_found){ 4, 0, 0 };
    hlq_found answer = { 0, 0, 0 };
    if (rules_are_bad(m, s, rules, rules_len)) answer.refusal = 13;
    else if (!good || waivers_are_bad(m, rules, rules_len, waiver_ids, waiver_keys, waivers)) answer.refusal = 14;
    else {
        uint32_t *found = new_selection(m);
        uint8_t *marks = malloc(pixels_of(m));
        if (!marks) abort();
        for (int write = 0; write <= 1 && answer.refusal == 0; write++) {
            answer.live = answer.hidden = 0;
            for (size_t i = 0; i < rules_len; i++) {
                const hlq_rule *r = rules + i;
                size_t count = select_keys(m, raster, r->row, r->column, r->height, r->width, r->feature, found);
                mark_waived(m, waiver_ids, waiver_keys, waivers, r->id, marks);
                for (size_t j = 0; j < count; j++) {
                    if (is_waived(m, marks, found[j])) {
                        answer.hidden++;
                        continue;
                    }
                    if (write) {
                        found_ids[answer.live] = r->id;
                        found_keys[answer.live] = found[j];
                    }
                    answer.live++;
                }
            }
            if (answer.live > room) answer = (hlq_found){ 12, answer.live, 0 };
        }
        free(marks);
        free(found);
    }
    free(raster);
    return answer;
}

/* So many bytes of a number, the highest first. */
static uint8_t *put_number(uint8_t *at, size_t width, uint64_t x) {
    for (size_t b = width; b > 0; b--) *at++ = (uint8_t)(x >> 8 * (b - 1));
    return at;
}

static uint32_t number_at(const uint8_t *at, size_t width) {
    uint32_t x = 0;
    for (size_t b = 0; b < width; b++) x = x << 8 | at[b];
    return x;
}

hlq_counted ref_store(uint32_t m, uint32_t s, const uint32_t *keys, size_t keys_len, const uint32_t *bits,
                      size_t bits_len, size_t n, uint8_t *file, size_t file_len) {
    if (settings_are_bad(m, s)) return (hlq_counted){ 1, 0 };
    uint8_t *raster = raster_of(m, s, keys, keys_len, bits, bits_len, n);
    if (!raster) return (hlq_counted){ 4, 0 };
    free(raster);
    size_t width = s > OLD_SLOTS ? 4 : 2, needed = 11 + (4 + width) * n;
    if (file_len < needed) return (hlq_counted){ 12, needed };
    memcpy(file, "HLQ", 3);
    uint8_t *at = put_number(file + 3, 2, s > OLD_SLOTS ? 2 : 1);
    at = put_number(at, 1, m);
    at = put_number(at, 1, s);
    at = put_number(at, 4, (uint32_t)n);
    for (size_t i = 0; i < n; i++) {
        at = put_number(at, 4, keys[i]);
        at = put_number(at, width, bits[i]);
    }
    return (hlq_counted){ 0, needed };
}

hlq_loaded ref_load(const uint8_t *file, size_t file_len, uint32_t *keys, size_t keys_len, uint32_t *bits,
                    size_t bits_len) {
    if (file_len < 11) return (hlq_loaded){ 15, 0, 0, 0 };
    if (memcmp(file, "HLQ", 3) != 0) return (hlq_loaded){ 16, 0, 0, 0 };
    uint32_t version = number_at(file + 3, 2), m = file[5], s = file[6];
    if ((version != 1 && version != 2) || (version == 2 && s <= OLD_SLOTS)) return (hlq_loaded){ 17, 0, 0, 0 };
    if (settings_are_bad(m, s) || (version == 1 && s > OLD_SLOTS)) return (hlq_loaded){ 1, 0, 0, 0 };
    uint64_t n = number_at(file + 7, 4), width = version == 2 ? 4 : 2;
    if (file_len != 11 + (4 + width) * n) return (hlq_loaded){ 15, 0, 0, 0 };
    if (n > most_of(m)) return (hlq_loaded){ 4, 0, 0, 0 };
    records l = new_records(m);
    for (size_t i = 0; i < n; i++) {
        l.keys[i] = number_at(file + 11 + (4 + width) * i, 4);
        l.bits[i] = number_at(file + 15 + (4 + width) * i, width);
    }
    uint8_t *raster = raster_of(m, s, l.keys, n, l.bits, n, n);
    hlq_loaded answer = { 4, 0, 0, 0 };
    if (raster && n > shorter(keys_len, bits_len)) answer.refusal = 9;
    else if (raster) {
        memcpy(keys, l.keys, n * sizeof *keys);
        memcpy(bits, l.bits, n * sizeof *bits);
        answer = (hlq_loaded){ 0, m, s, n };
    }
    free(raster);
    free_records(&l);
    return answer;
}

hlq_counted ref_store_log(uint32_t m, uint32_t s, const uint32_t *log_keys, size_t log_keys_len,
                          const uint32_t *log_values, size_t log_values_len, size_t used, size_t in_force,
                          uint8_t *file, size_t file_len) {
    log_step last, next;
    if (settings_are_bad(m, s)) return (hlq_counted){ 1, 0 };
    if (!log_is_sound(m, s, log_keys, log_values, shorter(log_keys_len, log_values_len), used, in_force, &last, &next))
        return (hlq_counted){ 5, 0 };
    if (file_len < 23 + 8 * used) return (hlq_counted){ 12, 23 + 8 * used };
    memcpy(file, "HLG", 3);
    uint8_t *at = put_number(file + 3, 2, 1);
    at = put_number(at, 1, m);
    at = put_number(at, 1, s);
    at = put_number(at, 8, used);
    at = put_number(at, 8, in_force);
    for (size_t i = 0; i < used; i++) {
        at = put_number(at, 4, log_keys[i]);
        at = put_number(at, 4, log_values[i]);
    }
    return (hlq_counted){ 0, 23 + 8 * used };
}

static uint64_t count_at(const uint8_t *at) { return (uint64_t)number_at(at, 4) << 32 | number_at(at + 4, 4); }

hlq_loaded_log ref_load_log(const uint8_t *file, size_t file_len, uint32_t *log_keys, size_t log_keys_len,
                            uint32_t *log_values, size_t log_values_len) {
    if (file_len < 23) return (hlq_loaded_log){ 15, 0, 0, 0, 0 };
    if (memcmp(file, "HLG", 3) != 0) return (hlq_loaded_log){ 16, 0, 0, 0, 0 };
    if (number_at(file + 3, 2) != 1) return (hlq_loaded_log){ 17, 0, 0, 0, 0 };
    uint32_t m = file[5], s = file[6];
    if (settings_are_bad(m, s)) return (hlq_loaded_log){ 1, 0, 0, 0, 0 };
    uint64_t used = count_at(file + 7), in_force = count_at(file + 15);
    if (used > file_len || file_len != 23 + 8 * used) return (hlq_loaded_log){ 15, 0, 0, 0, 0 };
    uint32_t *keys = calloc(used + 1, sizeof *keys), *values = calloc(used + 1, sizeof *values);
    if (!keys || !values) abort();
    for (size_t i = 0; i < used; i++) {
        keys[i] = number_at(file + 23 + 8 * i, 4);
        values[i] = number_at(file + 27 + 8 * i, 4);
    }
    log_step last, next;
    hlq_loaded_log answer = { 5, 0, 0, 0, 0 };
    int sound = log_is_sound(m, s, keys, values, used, used, in_force, &last, &next);
    if (sound && used > shorter(log_keys_len, log_values_len)) answer.refusal = 10;
    else if (sound) {
        memcpy(log_keys, keys, used * sizeof *keys);
        memcpy(log_values, values, used * sizeof *values);
        answer = (hlq_loaded_log){ 0, m, s, used, in_force };
    }
    free(keys);
    free(values);
    return answer;
}

/* The raster that leaves describe, or NULL where they are no delivery. */
static uint8_t *raster_of_leaves(uint32_t m, uint32_t s, const uint32_t *leaf_keys, const uint32_t *leaf_features,
                                 size_t leaves) {
    uint8_t *raster = new_raster(m);
    int good = 1;
    memset(raster, NO_FEATURE, pixels_of(m));
    for (size_t i = 0; good && i < leaves; i++) {
        uint32_t row, column, side;
        good = ref_key_is_valid(m, leaf_keys[i]) && leaf_features[i] < s && (i == 0 || leaf_keys[i - 1] < leaf_keys[i]);
        if (!good) break;
        ref_block(m, leaf_keys[i], &row, &column, &side);
        for (uint32_t r = row; r < row + side; r++)
            for (uint32_t c = column; c < column + side; c++) {
                uint8_t *pixel = raster + ((size_t)r << m) + c;
                if (*pixel != NO_FEATURE) good = 0;
                *pixel = (uint8_t)leaf_features[i];
            }
    }
    for (size_t i = 0; good && i < pixels_of(m); i++) good = raster[i] != NO_FEATURE;
    if (good) return raster;
    free(raster);
    return NULL;
}

hlq_counted ref_read_leaves(uint32_t m, uint32_t s, const uint32_t *leaf_keys, size_t leaf_keys_len,
                            const uint32_t *leaf_features, size_t leaf_features_len, size_t leaves, uint32_t *keys,
                            size_t keys_len, uint32_t *bits, size_t bits_len) {
    if (settings_are_bad(m, s)) return (hlq_counted){ 1, 0 };
    if (leaves > shorter(leaf_keys_len, leaf_features_len)) return (hlq_counted){ 19, 0 };
    uint8_t *raster = raster_of_leaves(m, s, leaf_keys, leaf_features, leaves);
    if (!raster) return (hlq_counted){ 19, 0 };
    hlq_counted answer = ref_list(m, s, raster, pixels_of(m), keys, keys_len, bits, bits_len);
    free(raster);
    return answer;
}

hlq_counted ref_write_leaves(uint32_t m, uint32_t s, const uint32_t *keys, size_t keys_len, const uint32_t *bits,
                             size_t bits_len, size_t n, uint32_t *leaf_keys, size_t leaf_keys_len,
                             uint32_t *leaf_features, size_t leaf_features_len) {
    if (settings_are_bad(m, s)) return (hlq_counted){ 1, 0 };
    uint8_t *raster = raster_of(m, s, keys, keys_len, bits, bits_len, n);
    if (!raster) return (hlq_counted){ 4, 0 };
    records list = new_records(m);
    list_of(m, raster, 0, &list);
    hlq_counted answer = { 0, 0 };
    for (size_t i = 0; i < list.n; i++) answer.count += (uint64_t)has_one_bit(list.bits[i]);
    if (answer.count > shorter(leaf_keys_len, leaf_features_len)) answer.refusal = 12;
    for (size_t i = 0, at = 0; answer.refusal == 0 && i < list.n; i++)
        if (has_one_bit(list.bits[i])) {
            leaf_keys[at] = list.keys[i];
            leaf_features[at++] = slot_of(list.bits[i]);
        }
    free_records(&list), free(raster);
    return answer;
}

/* Bit strings. Each is made as a text of characters 0 and 1 first, and packed afterwards. */
typedef struct {
    char *bits;
    size_t n;
} text;

static text new_text(size_t most) {
    text t = { malloc(most + 8), 0 };
    if (!t.bits) abort();
    return t;
}

/* One character a node and, apart from it, one a leaf, by scans of the raster. */
static void texts_of(const uint8_t *raster, uint32_t edge, uint32_t row, uint32_t column, uint32_t side, text *nodes,
                     text *leaves) {
    uint32_t found = features_in(raster, edge, row, column, side, side);
    if (has_one_bit(found)) {
        nodes->bits[nodes->n++] = '1';
        leaves->bits[leaves->n++] = (char)('0' + raster[(size_t)row * edge + column]);
        return;
    }
    nodes->bits[nodes->n++] = '0';
    for (uint32_t d = 0; d < 4; d++)
        texts_of(raster, edge, row + d / 2 * (side / 2), column + d % 2 * (side / 2), side / 2, nodes, leaves);
}

static size_t bytes_of(const text *t) { return t->n / 8 + (t->n % 8 != 0); }

static void pack_text(const text *t, uint8_t *bytes) {
    for (size_t k = 0; k < bytes_of(t); k++) {
        uint32_t byte = 0;
        for (size_t i = 8 * k; i < 8 * k + 8; i++) byte = byte * 2 + (i < t->n && t->bits[i] == '1');
        bytes[k] = (uint8_t)byte;
    }
}

hlq_strings ref_write_bit_strings(uint32_t m, uint32_t s, const uint32_t *keys, size_t keys_len, const uint32_t *bits,
                                  size_t bits_len, size_t n, uint8_t *node_bits, size_t node_bits_len,
                                  uint8_t *leaf_bits, size_t leaf_bits_len) {
    if (settings_are_bad(m, s)) return (hlq_strings){ 1, 0, 0 };
    if (s != 2) return (hlq_strings){ 23, 0, 0 };
    uint8_t *raster = raster_of(m, s, keys, keys_len, bits, bits_len, n);
    if (!raster) return (hlq_strings){ 4, 0, 0 };
    text nodes = new_text(most_of(m)), leaves = new_text(pixels_of(m));
    texts_of(raster, 1u << m, 0, 0, 1u << m, &nodes, &leaves);
    free(raster);
    hlq_strings answer = { 12, bytes_of(&nodes), bytes_of(&leaves) };
    if (node_bits_len >= answer.node_bytes && leaf_bits_len >= answer.leaf_bytes) {
        answer.refusal = 0;
        pack_text(&nodes, node_bits);
        pack_text(&leaves, leaf_bits);
    }
    free(nodes.bits);
    free(leaves.bits);
    return answer;
}

/* A byte string that is being read. */
typedef struct {
    const uint8_t *bytes;
    size_t len, at;
} source;

static int next_bit(source *from) {
    if (from->at / 8 >= from->len) return -1;
    int bit = from->bytes[from->at / 8] >> (7 - from->at % 8) & 1;
    from->at++;
    return bit;
}

/* Paints a block as the strings say; 0 where they end early or go too deep. */
static int paint_block(uint8_t *raster, uint32_t edge, uint32_t row, uint32_t column, uint32_t side, source *nodes,
                       source *leaves) {
    int leaf = next_bit(nodes), feature;
    if (leaf < 0) return 0;
    if (!leaf) {
        for (uint32_t d = 0; d < 4; d++)
            if (side == 1 || !paint_block(raster, edge, row + d / 2 * (side / 2), column + d % 2 * (side / 2),
                                          side / 2, nodes, leaves))
                return 0;
        return 1;
    }
    if ((feature = next_bit(leaves)) < 0) return 0;
    for (uint32_t r = row; r < row + side; r++) memset(raster + (size_t)r * edge + column, feature, side);
    return 1;
}

/* A pair is accepted exactly when it is what the raster that it paints is written as. */
hlq_counted ref_read_bit_strings(uint32_t m, uint32_t s, const uint8_t *node_bits, size_t node_bits_len,
                                 const uint8_t *leaf_bits, size_t leaf_bits_len, uint32_t *keys, size_t keys_len,
                                 uint32_t *bits, size_t bits_len) {
    if (settings_are_bad(m, s)) return (hlq_counted){ 1, 0 };
    if (s != 2) return (hlq_counted){ 23, 0 };
    source from_nodes = { node_bits, node_bits_len, 0 }, from_leaves = { leaf_bits, leaf_bits_len, 0 };
    uint8_t *raster = calloc(pixels_of(m), 1);
    if (!raster) abort();
    int good = paint_block(raster, 1u << m, 0, 0, 1u << m, &from_nodes, &from_leaves);
    text nodes = new_text(most_of(m)), leaves = new_text(pixels_of(m));
    if (good) texts_of(raster, 1u << m, 0, 0, 1u << m, &nodes, &leaves);
    good = good && bytes_of(&nodes) == node_bits_len && bytes_of(&leaves) == leaf_bits_len;
    if (good) {
        uint8_t *again = malloc(node_bits_len + leaf_bits_len);
        if (!again) abort();
        pack_text(&nodes, again);
        pack_text(&leaves, again + node_bits_len);
        good = memcmp(again, node_bits, node_bits_len) == 0 &&
               memcmp(again + node_bits_len, leaf_bits, leaf_bits_len) == 0;
        free(again);
    }
    hlq_counted answer = { 23, 0 };
    if (good && shorter(keys_len, bits_len) < nodes.n) answer.refusal = 9;
    if (good && answer.refusal == 23) {
        records l = new_records(m);
        list_of(m, raster, 0, &l);
        memcpy(keys, l.keys, 4 * l.n);
        memcpy(bits, l.bits, 4 * l.n);
        answer = (hlq_counted){ 0, l.n };
        free_records(&l);
    }
    free(raster);
    free(nodes.bits);
    free(leaves.bits);
    return answer;
}
