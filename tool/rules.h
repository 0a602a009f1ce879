/* Rules: an office's windows in which a class must not be. */
#ifndef RULES_H
#define RULES_H

#include "window.h"

typedef struct {
    uint32_t office, id, class;
    int64_t row, column, height, width;
    char *name;
} rule;

typedef struct {
    rule *at;
    size_t count;
} rule_list;

/* The rules of an office by id, or of both by office and id where it is -1. */
rule_list read_rules(line *l, int office);
void give_back_rules(rule_list *r);

/* NULL, or in words what is wrong with a rule: its window, which must lie in the survey, or its class. Where the line
 * has no survey yet, the window is not looked at but for being one. */
const char *wrong_with_rule(const line *l, const rule *r);
/* Ends with 13 and these words, where something is wrong; `where` names the file and line, or the table. */
void accept_rule(const line *l, const rule *r, const char *where);

/* --office as a number. Where something is written it has no default: `must` ends without it. */
int office_of(const arguments *a, int must);

#endif
