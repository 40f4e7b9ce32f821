/* The prefix lengths, beside the same in plain C; and their time per byte as the text grows. */
#ifndef LENGTHS_H
#define LENGTHS_H

#include "verdicts.h"

/* Sets the rows for them, after the others. They are checked and measured with those. */
void set_length_rows(void);

void print_lengths(void);

/* Prints whether all of their rows reach the targets. */
void judge_lengths(void);

#endif
