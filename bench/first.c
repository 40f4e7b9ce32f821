#include "first.h"

#include <stdio.h>

/* The target: the time of the search with an empty list to ours, on every row. Never slower is 1. Equal code doesn't come to 1 on
   every row, so that something must be allowed for chance; how much chance there was, the control tells. */
#define LEAST_RATIO 0.98

/* The trials. Each has two variants: of three, one would come after the same other most of the time, and if the two share code, the
   branch predictor knows it then. For the same reason each trial runs copies of its own in a round. The control is the search with
   an empty list in two copies: over all rounds each is on either side as often, so that what is left of a difference is chance. The
   C checks no pattern, and is there for scans alone. */
enum { FIRST, CONTROL, AGAINST_C };

static int copy_after(int copy, int by)
{
    return (copy + by) % COPIES;
}

static void find_first(enum side side, int copy, struct first *first)
{
    for (size_t i = 0; i < subjects_made; i++)
        versions[side][copy]->first(subjects[i].prepared[side], &subjects[i], first);
}

static void search_with_empty_list(int copy)
{
    for (size_t i = 0; i < subjects_made; i++)
        versions[OURS][copy]->colussi(subjects[i].prepared[OURS], &subjects[i], UINT64_MAX, NULL, 0, NULL);
}

static void run_first(int variant, int copy)
{
    if (variant == 0)
        find_first(OURS, copy, NULL);
    else
        search_with_empty_list(copy);
}

static void run_control(int variant, int copy)
{
    search_with_empty_list(copy_after(copy, 1 + variant));
}

/* Both give an answer: gcc might leave the C out if nobody asked for it. */
static void run_against_c(int side, int copy)
{
    struct first first;
    find_first((enum side)side, copy_after(copy, 3), &first);
}

/* The rows. In the texts of most kinds the pattern stands near the start, so that a search for the first occurrence would be a call
   with a bit of a scan. The two are measured apart: a text without an occurrence is scanned to its end; and a call has one at the
   start, and no more text. 16 MiB are left out: the time per byte is that of 1 MiB. */

static void set_row(struct row *row, const struct row *like, const struct work *work, struct share share)
{
    static const struct work control = {"control", run_control, NULL};
    row->input = like->input;
    row->input.first = true;
    add_trial(row, work, 2, share);
    add_trial(row, &control, 2, share);
}

void set_first_rows(void)
{
    static const struct work scan = {"scan", run_first, NULL}, call = {"call", run_first, NULL};
    static const struct work against_c = {"against C", run_against_c, read_prepared};
    static const struct share of_sizes[] = {{2, 2, COPIES, wall_time, 0}, {4, 2, COPIES, thread_time, 0}};
    static const struct share of_calls = {4, 4, COPIES, wall_time, 31}; /* each turn of a copy at another place of the stack */
    static const struct share few = {8, 1, COPIES, wall_time, 0};
    struct row *row = first_rows;
    for (const struct row *like = rows; like < rows + SCANS; like++) {
        set_row(row, like, &scan, of_sizes[like->input.size - sizes]);
        add_trial(row++, &against_c, SIDES, few);
    }
    for (const struct row *like = rows + TEXTS; like < rows + TEXTS + PATTERNS; like++)
        set_row(row++, like, &call, of_calls);
}

/* The table. */

void print_first(void)
{
    puts("\n## The first occurrence\n\n"
         "The search for the first occurrence, beside Colussi's order with an empty list, which stops at the same place. A scan\n"
         "goes through a text of that kind in which each occurrence has a byte 0 at a random place, so that none is left; its\n"
         "times are in nanoseconds a byte. A call has the pattern itself for a text; its times are in nanoseconds a call. Then\n"
         "ratios of the time of Colussi's order to that of the first occurrence, as above. The control is the ratio, by the\n"
         "tenth, of two copies of Colussi's order with an empty list: what is not 1 in it is chance. The last column is the\n"
         "ratio, by the tenth, of the time of the same search in C to ours; the C checks no pattern, and has no calls.\n\n"
         "| work        | text, pattern         | n      | m   | Colussi  | first    | least | tenth | pairs | control | to C  |\n"
         "|-------------|-----------------------|-------:|----:|---------:|---------:|------:|------:|------:|--------:|------:|");
    for (const struct row *row = first_rows; row < first_rows + FIRSTS; row++) {
        print_row(row, &row->trial[FIRST]);
        printf(" %7.3f |", ratio_of(row, CONTROL));
        if (row->trials > AGAINST_C)
            printf(" %5.3f |\n", ratio_of(row, AGAINST_C));
        else
            printf(" %5s |\n", "");
    }
}

/* The verdict. */

void judge_first(void)
{
    struct range first = {NULL, NULL, 0, 0}, control = first;
    for (const struct row *row = first_rows; row < first_rows + FIRSTS; row++) {
        into_range(&first, row, FIRST, LEAST_RATIO);
        into_range(&control, row, CONTROL, LEAST_RATIO);
    }
    judge_range("Colussi", "first occurrence never slower than Colussi's order with an empty list, but for 2 % of chance", &first,
                FIRST);
    printf("- control: two copies of Colussi's order with an empty list; %.3f to %.3f, missed on %zu of %zu rows\n",
           ratio_of(control.least, CONTROL), ratio_of(control.greatest, CONTROL), control.missed, control.rows);
}
