/* The search for the first occurrence, beside what it must never be slower than: Colussi's order with an empty list, which is full
   at the same place. */
#ifndef FIRST_H
#define FIRST_H

#include "verdicts.h"

/* Sets the rows for it, after the others. They are checked and measured with those. */
void set_first_rows(void);

void print_first(void);

/* Prints whether all of its rows reach the target; and how far two copies of the same search are apart. */
void judge_first(void);

#endif
