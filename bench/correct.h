/* The correction of one byte: its time as the text grows, as the pattern grows, and as the list grows, there beside the same in plain
   C. */
#ifndef CORRECT_H
#define CORRECT_H

#include "verdicts.h"

/* Sets the rows for it, after those for journals. They are checked and measured with the others. */
void set_correct_rows(void);

void print_corrections(void);

/* Prints whether all of their rows reach the targets. */
void judge_corrections(void);

#endif
