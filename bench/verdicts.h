/* The ratios of both searches in texts, by the fastest tenth, and whether they are what is asked. */
#ifndef VERDICTS_H
#define VERDICTS_H

#include "rows.h"

double ratio_of(const struct row *row, int search);

/* Of the text rows of some kinds, one after the other, but for those left out. */
struct range {
    const struct row *least, *greatest;
    size_t rows, missed;
};

struct range range_of(size_t kind, size_t count, int search, double target);
void into_range(struct range *range, const struct row *row, int search, double target);

/* Of a trial of all sizes: the time of the slowest to that of the fastest, by pairs. For they run the same code, so that a slow spell
   changes the times and not their ratio, and a run over 16 MiB is too long for a quiet moment. */
double spread_of(const struct trial *trial);

const char *word(bool holds);

/* Prints whether all of these rows reach the target, and the least of them. The other side goes by that name. */
void judge_ratio(const char *other, const char *claim, size_t kind, size_t count, int search, double target);
void judge_range(const char *other, const char *claim, const struct range *range, int search);

#endif
