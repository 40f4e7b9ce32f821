#include "verdicts.h"

#include <math.h>
#include <stdio.h>

double ratio_of(const struct row *row, int search)
{
    return row->trial[search].times[OTHER].ratios[TENTH];
}

void into_range(struct range *range, const struct row *row, int search, double target)
{
    range->rows++;
    range->missed += ratio_of(row, search) < target;
    if (range->least == NULL || ratio_of(row, search) < ratio_of(range->least, search))
        range->least = row;
    if (range->greatest == NULL || ratio_of(row, search) > ratio_of(range->greatest, search))
        range->greatest = row;
}

struct range range_of(size_t kind, size_t count, int search, double target)
{
    struct range range = {NULL, NULL, 0, 0};
    for (const struct row *row = rows; row < rows + TEXTS; row++)
        if (row->input.kind >= &kinds[kind] && row->input.kind < &kinds[kind] + count && row->trials > 0)
            into_range(&range, row, search, target);
    return range;
}

double spread_of(const struct trial *trial)
{
    double fastest = INFINITY, slowest = 0;
    for (size_t s = 0; s < COUNT_OF(sizes); s++) {
        fastest = fmin(fastest, trial->times[s].ratios[PAIRS]);
        slowest = fmax(slowest, trial->times[s].ratios[PAIRS]);
    }
    return slowest / fastest;
}

const char *word(bool holds)
{
    return holds ? "holds" : "FAILS";
}

/* The least times of each copy, in nanoseconds a byte or a call: what the place of the code does. */
static void print_copies(const struct row *row, int search, enum side side)
{
    const struct trial *trial = &row->trial[search];
    for (int copy = 0; copy < trial->share.copies; copy++)
        printf(" %.2f", nanoseconds_of(row, trial->seconds[side][copy][0]));
}

void judge_range(const char *other, const char *claim, const struct range *range, int search)
{
    const struct row *worst = range->least;
    printf("- %s: %s; least %.3f (%s, ", word(range->missed == 0), claim, ratio_of(worst, search), name_of(worst));
    if (worst->input.kind != NULL)
        printf("n = %s, ", size_name_of(worst));
    printf("m = %zu; copy by copy, ours", worst->input.m);
    print_copies(worst, search, OURS);
    printf(", %s", other);
    print_copies(worst, search, OTHER);
    printf("), missed on %zu of %zu rows\n", range->missed, range->rows);
}

void judge_ratio(const char *other, const char *claim, size_t kind, size_t count, int search, double target)
{
    const struct range range = range_of(kind, count, search, target);
    judge_range(other, claim, &range, search);
}
