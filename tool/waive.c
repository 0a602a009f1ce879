/* waive, unwaive: an office accepts what a rule finds in a block, in a patch or in a window; or no longer does. */
#include "answer.h"
#include "commands.h"
#include "findings.h"
#include "waivers.h"

#include <stdlib.h>

/* What the command line says. */
typedef struct {
    uint32_t office, id;
    size_t rule; /* its place in the list of the office's rules */
    rule_list rules;
} asked;

static asked read_asked(line *l, const arguments *a) {
    asked q = { .office = (uint32_t)office_of(a, 1), .id = number_of(a->words[1], "RULE") };
    need_survey(l);
    q.rules = read_rules(l, (int)q.office);
    while (q.rule < q.rules.count && q.rules.at[q.rule].id != q.id) q.rule++;
    if (q.rule == q.rules.count)
        fail(HLQ_WAIVERS, "office %u has no rule %u; 'prowcurl get %s rules' lists them: refused, %d: %s", q.office,
             q.id, l->path, HLQ_WAIVERS, refusal_words(HLQ_WAIVERS));
    return q;
}

/* One of the three ways to say where. */
static int is_block(const arguments *a) { return a->count == 3; }
static int is_patch(const arguments *a) { return a->given[OPTION_PATCH] != NULL; }

static void accept_words(const arguments *a) {
    int ways = is_block(a) + is_patch(a) + (a->given[OPTION_BOX] || a->count > 3);
    if (ways != 1 || (a->count != 2 && a->count != 3 && a->count != 6))
        fail(STATUS_USAGE, "'prowcurl %s' wants one of BLOCK, --patch ROW COLUMN, ROW COLUMN HEIGHT WIDTH and --box",
             a->command);
}

/* The finding at the pixel of --patch, whose patch is meant. */
static const finding *patch_asked(const line *l, const findings *f, const asked *q, const arguments *a) {
    char **words = a->given[OPTION_PATCH];
    long long row = signed_number_of(words[0], "ROW"), column = signed_number_of(words[1], "COLUMN");
    window w;
    if (!clip_window(l, row, column, 1, 1, &w)) accept_or_end(HLQ_WINDOW, "--patch");
    const finding *x = finding_at(f, (uint32_t)q->rule, w.row, w.column);
    if (!x) fail(STATUS_USAGE, "--patch: rule %u of office %u finds nothing at row %u, column %u; 'prowcurl findings"
                               " --all' lists the patches", q->id, q->office, w.row, w.column);
    return x;
}

static block_list patch_blocks(line *l, const asked *q, const arguments *a) {
    block_list blocks = { 0 };
    findings f = find_all(l, (int)q->office);
    const finding *x = patch_asked(l, &f, q, a);
    for (size_t i = 0; i < f.count; i++) if (f.at[i].patch == x->patch) add_block(&blocks, f.at[i].b);
    give_back_findings(&f);
    return blocks;
}

/* The largest blocks of the rule's class that lie both in the window and in the rule's: so what is found later beside
 * them stays live. */
static block_list blocks_of_window(line *l, const asked *q, window w) {
    const rule *r = &q->rules.at[q->rule];
    char *where = text_of("%s, table rules, office %u", l->path, q->office);
    accept_rule(l, r, where);
    free(where);
    uint64_t top = w.row > r->row ? w.row : (uint64_t)r->row;
    uint64_t left = w.column > r->column ? w.column : (uint64_t)r->column;
    uint64_t bottom = w.row + w.height < r->row + r->height ? w.row + w.height : (uint64_t)(r->row + r->height);
    uint64_t right = w.column + w.width < r->column + r->width ? w.column + w.width : (uint64_t)(r->column + r->width);
    block_list blocks = { 0 };
    if (top < bottom && left < right)
        blocks = select_blocks(l, (window){ (uint32_t)top, (uint32_t)left, (uint32_t)(bottom - top),
                                            (uint32_t)(right - left) }, r->class);
    if (blocks.count == 0) fail(STATUS_USAGE, "rule %u of office %u finds nothing in this window", q->id, q->office);
    return blocks;
}

static int64_t rows_of(line *l, uint32_t office) {
    return number_from_sql(l, 0, "SELECT count(*) FROM waivers WHERE office = ?", "i", (int64_t)office);
}

/* A block that is waived already is refused; of a patch or a window only the new ones are added. */
static uint64_t add_all(line *l, const asked *q, const arguments *a, const block_list *blocks) {
    char *who = editor_of(a), *when = now_text();
    const char *note = value_of(a, OPTION_NOTE) ? value_of(a, OPTION_NOTE) : "";
    waiver *rows = room_for(blocks->count, sizeof *rows);
    for (size_t i = 0; i < blocks->count; i++)
        rows[i] = (waiver){ q->office, q->id, blocks->at[i], note, who, when, is_block(a) ? a->words[2] : NULL };
    uint64_t added = add_waivers(l, rows, blocks->count);
    if (is_block(a) && !added) accept_or_end(HLQ_ROW, a->words[2]);
    free(rows);
    free(who);
    free(when);
    return added;
}

static void answer_rows(const arguments *a, line *l, asked *q, const char *what, uint64_t rows) {
    int64_t all = rows_of(l, q->office);
    commit_line(l);
    answer_begin(a);
    fact_number("office", q->office);
    fact_number("rule", q->id);
    fact_number(what, rows);
    fact_number("rows", (uint64_t)all);
    answer_end();
    give_back_rules(&q->rules);
    close_line(l);
}

void run_waive(const arguments *a) {
    accept_words(a);
    line l = open_line(a, TO_WRITE);
    asked q = read_asked(&l, a);
    block_list blocks = { 0 };
    if (is_patch(a)) blocks = patch_blocks(&l, &q, a);
    else if (is_block(a)) add_block(&blocks, block_of(&l, a->words[2], "BLOCK", STATUS_USAGE));
    else blocks = blocks_of_window(&l, &q, window_of(&l, a, 2));
    uint64_t added = add_all(&l, &q, a, &blocks);
    free(blocks.at);
    answer_rows(a, &l, &q, "added", added);
}

/* All waivers of the rule, as blocks. */
static block_list waived_blocks(line *l, const asked *q) {
    block_list blocks = { 0 };
    sqlite3_stmt *row = ask_sql(l, "SELECT sheet_row, sheet_column, key FROM waivers WHERE office = ? AND rule = ?",
                                "ii", (int64_t)q->office, (int64_t)q->id);
    while (next_row(l, row)) add_block(&blocks, (block){ u32_at(row, 0), u32_at(row, 1), u32_at(row, 2) });
    return blocks;
}

static int meet(square a, square b) {
    return a.row < b.row + b.side && b.row < a.row + a.side && a.column < b.column + b.side &&
           b.column < a.column + a.side;
}

/* A patch is hidden by the waivers that meet it. */
static int meets_patch(const line *l, const block_list *patch, block b) {
    for (size_t i = 0; i < patch->count; i++)
        if (meet(square_of(l, patch->at[i]), square_of(l, b))) return 1;
    return 0;
}

static int lies_in(const line *l, window w, block b) {
    square q = square_of(l, b);
    return q.row >= w.row && q.column >= w.column && q.row + q.side <= w.row + w.height &&
           q.column + q.side <= w.column + w.width;
}

static block_list waivers_meant(line *l, const asked *q, const arguments *a) {
    block_list all = waived_blocks(l, q), patch = { 0 }, meant = { 0 };
    window w = { 0 };
    if (is_patch(a)) patch = patch_blocks(l, q, a);
    else w = window_of(l, a, 2);
    for (size_t i = 0; i < all.count; i++)
        if (is_patch(a) ? meets_patch(l, &patch, all.at[i]) : lies_in(l, w, all.at[i])) add_block(&meant, all.at[i]);
    if (meant.count == 0) accept_or_end(HLQ_ROW, is_patch(a) ? "--patch: it has no waiver" : "no waiver lies in it");
    free(patch.at);
    free(all.at);
    return meant;
}

void run_unwaive(const arguments *a) {
    accept_words(a);
    line l = open_line(a, TO_WRITE);
    asked q = read_asked(&l, a);
    block_list blocks = { 0 };
    if (is_block(a)) add_block(&blocks, block_of(&l, a->words[2], "BLOCK", STATUS_USAGE));
    else blocks = waivers_meant(&l, &q, a);
    for (size_t i = 0; i < blocks.count; i++)
        accept_or_end(remove_waiver(&l, q.office, q.id, blocks.at[i]), is_block(a) ? a->words[2] : NULL);
    uint64_t removed = blocks.count;
    free(blocks.at);
    answer_rows(a, &l, &q, "removed", removed);
}
