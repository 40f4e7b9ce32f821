/* The search of one record of an archive, beside the search of that record's bytes by themselves. Both check the pattern once, so
   that what is between them is the cost of the directory. */
#ifndef ARCHIVE_H
#define ARCHIVE_H

#include "verdicts.h"

/* Makes the archives, and sets the rows for them, after the others. They are checked and measured with those. */
void set_archive_rows(void);

void print_archives(void);

/* Prints whether the directory is as cheap as was asked, on all rows with the most records. */
void judge_archives(void);

#endif
