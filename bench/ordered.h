/* The searches in custom orders: the loop over a text, beside the same in plain C; and what a call costs before it, with the longest
   patterns. */
#ifndef ORDERED_H
#define ORDERED_H

#include "verdicts.h"

/* Sets the rows for them, after the others. They are checked and measured with those. */
void set_ordered_rows(void);

void print_ordered(void);

/* Prints whether all of their rows reach the targets. */
void judge_ordered(void);

#endif
