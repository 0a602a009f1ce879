/* Rules of a line. */
#include "rules.h"

#include <stdlib.h>

rule_list read_rules(line *l, int office) {
    rule_list r = { 0 };
    size_t room = 0;
    sqlite3_stmt *row = ask_sql(l, "SELECT office, id, class, \"row\", \"column\", height, width, name FROM rules"
                                   " WHERE ? IN (-1, office) ORDER BY office, id", "i", (int64_t)office);
    while (next_row(l, row)) {
        if (u32_at(row, 0) > 1)
            fail(STATUS_DATA, "%s, table rules, rule %u: office %s is neither 0 nor 1; 'prowcurl set' writes the rules"
                              " anew", l->path, u32_at(row, 1), text_at(row, 0));
        if (r.count == room) r.at = more_room_for(r.at, room = room * 2 + 16, sizeof *r.at);
        r.at[r.count++] = (rule){ u32_at(row, 0), u32_at(row, 1), u32_at(row, 2), sqlite3_column_int64(row, 3),
                                  sqlite3_column_int64(row, 4), sqlite3_column_int64(row, 5),
                                  sqlite3_column_int64(row, 6), text_of("%s", text_at(row, 7)) };
    }
    return r;
}

void give_back_rules(rule_list *r) {
    for (size_t i = 0; i < r->count; i++) free(r->at[i].name);
    free(r->at);
}

const char *wrong_with_rule(const line *l, const rule *r) {
    if (r->class >= l->slots) return "the line has no such class";
    if (r->height <= 0 || r->width <= 0) return "its window has no pixel";
    if (r->row < 0 || r->column < 0) return "its window begins outside the survey";
    if (!l->rows) return NULL;
    /* not the sum, which a table that somebody else wrote may make too large */
    if (r->height > (int64_t)l->rows - r->row) return "its window reaches over the survey's southern edge";
    if (r->width > (int64_t)l->columns - r->column) return "its window reaches over the survey's eastern edge";
    return NULL;
}

void accept_rule(const line *l, const rule *r, const char *where) {
    const char *wrong = wrong_with_rule(l, r);
    if (wrong)
        fail(HLQ_RULES, "%s, rule %u: %s: refused, %d: %s", where, r->id, wrong, HLQ_RULES,
             refusal_words(HLQ_RULES));
}

int office_of(const arguments *a, int must) {
    const char *text = value_of(a, OPTION_OFFICE);
    long long office = 0;
    if (!text && must) fail(STATUS_USAGE, "--office 0 or --office 1 is missing: which office writes?");
    if (text && !is_number(text, 0, UINT32_MAX, &office))
        fail(STATUS_USAGE, "--office: '%s' is neither 0 nor 1", text);
    if (office > 1) accept_or_end(HLQ_OFFICE, "--office");
    return (int)office;
}
