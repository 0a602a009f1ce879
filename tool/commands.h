/* The commands, one function each; main.c has their table. */
#ifndef COMMANDS_H
#define COMMANDS_H

#include "arguments.h"
#include "line.h"

void run_init(const arguments *a);
void run_add(const arguments *a);
void run_info(const arguments *a);
void run_check(const arguments *a);
void run_set(const arguments *a);
void run_get(const arguments *a);

void run_at(const arguments *a);
void run_report(const arguments *a);
void run_exist(const arguments *a);
void run_select(const arguments *a);
void run_areas(const arguments *a);
void run_batch(const arguments *a);

void run_findings(const arguments *a);
void run_waive(const arguments *a);
void run_unwaive(const arguments *a);
void run_publish(const arguments *a);
void run_page(const arguments *a);
void run_adopt(const arguments *a);

void run_paint(const arguments *a);
void run_undo(const arguments *a);
void run_redo(const arguments *a);
void run_forget(const arguments *a);
void run_steps(const arguments *a);

void run_change(const arguments *a);
void run_export(const arguments *a);

void run_help(const arguments *a);

/* What several of them use. */
uint32_t resolution_of(const char *text);
/* This moment, like 2026-05-31T12:00:00Z, in memory of its own. */
char *now_text(void);
/* --taken, or "". */
const char *day_given(const arguments *a);
void need_free_name(line *l, const char *name);
/* The table temp.new_sheets, and a transaction to fill it, without a lock on the line. */
void begin_new_sheets(line *l);
void answer_survey(const arguments *a, const line *l, const char *name, uint64_t bytes);

#endif
