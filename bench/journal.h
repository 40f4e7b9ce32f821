/* The search with a journal, beside the same in plain C; and the replay of a journal: its time per entry as journals grow, and beside
   the C. */
#ifndef JOURNAL_H
#define JOURNAL_H

#include "verdicts.h"

/* Sets the rows for them, after those for prefix lengths. They are checked and measured with the others. */
void set_journal_rows(void);

void print_journals(void);

/* Prints whether all of their rows reach the targets. */
void judge_journals(void);

#endif
