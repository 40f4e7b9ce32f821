#include "lengths.h"

#include <stdio.h>

/* The targets, on every row: the time of the C to ours; and the spread of the time per byte from the shortest pieces to the longest,
   in per cent, as it was asked of Colussi's order. All pieces go over the same 16 MiB once, so that no size lies in a nearer cache
   than another; what is left is the call itself, a few microseconds at m = 256, and chance. A time that grew like n log n would come
   to 50 %, from 64 KiB to 16 MiB. */
#define LEAST_RATIO 0.95
#define GREATEST_SPREAD 15.0

/* The trials: beside the C as the rules are written, and beside the C that is tuned by hand, which has no target; and that of the
   longest texts alone. Both sides give an answer, so that none can leave out the count. */
enum { RATIO, TUNED, PIECES };

static void run_lengths(int side, int copy)
{
    versions[side][copy]->prefix_lengths(subjects[0].prepared[side], &subjects[0], lists.lengths, subjects[0].n);
}

static void run_tuned(int side, int copy)
{
    const struct version *version = versions[side][copy];
    lengths_function *function = side == OURS ? version->prefix_lengths : version->tuned_lengths;
    function(subjects[0].prepared[side], &subjects[0], lists.lengths, subjects[0].n);
}

/* The text in pieces of a size, one after the other, and the list with it. */
static void run_pieces(int size, int copy)
{
    struct subject piece = subjects[0];
    piece.n = sizes[size].n;
    for (size_t at = 0; at < subjects[0].n; at += piece.n) {
        piece.text = subjects[0].text + at;
        versions[OURS][copy]->prefix_lengths(piece.prepared[OURS], &piece, lists.lengths + at, piece.n);
    }
}

/* The rows: those of the searches; and texts of one letter with the shortest patterns that can miss, short and longest, and with the
   longest patterns in the longest text. The patterns are a^(m-1)b and a^m. */

#define SHORT 0
#define LONGEST (COUNT_OF(sizes) - 1)
#define EQUAL_TEXTS 3 /* of the kinds: this one and the next */

static struct row *set_row(struct row *row, size_t kind, size_t size, size_t m)
{
    static const struct work work = {"lengths", run_lengths, read_prepared}, tuned = {"lengths", run_tuned, read_prepared},
                             pieces = {"lengths", run_pieces, NULL};
    static const struct share shares[COUNT_OF(sizes)] = {
        {2, 2, COPIES, wall_time, 0}, {4, 2, COPIES, thread_time, 0}, {16, 2, COPIES / 2, thread_time, 0}};
    static const struct share of_pieces = {16, 1, 1, thread_time, 0}; /* the sizes share the place of the code */
    row->input = (struct input){.kind = &kinds[kind], .size = &sizes[size], .m = m, .number = m, .lengths = true};
    add_trial(row, &work, SIDES, shares[size]);
    add_trial(row, &tuned, SIDES, shares[size]);
    if (size == LONGEST)
        add_trial(row, &pieces, COUNT_OF(sizes), of_pieces);
    return row + 1;
}

void set_length_rows(void)
{
    struct row *row = length_rows;
    for (size_t k = 0; k < COUNT_OF(kinds); k++)
        for (size_t l = 0; l < COUNT_OF(lengths); l++)
            row = set_row(row, k, SHORT, lengths[l]);
    for (size_t s = 1; s < COUNT_OF(sizes); s++)
        for (size_t k = 0; k < COUNT_OF(kinds); k++)
            row = set_row(row, k, s, LENGTH_IN_LONG_TEXTS);
    for (size_t k = EQUAL_TEXTS; k < EQUAL_TEXTS + 2; k++) {
        row = set_row(row, k, SHORT, 2);
        row = set_row(row, k, LONGEST, 2);
        row = set_row(row, k, LONGEST, POQEWAN_LONGEST_PATTERN);
    }
}

/* The tables. */

static void print_ratios_to_c(int trial)
{
    print_head_of_ratios("C", "ours");
    print_trial("mean", "", length_rows, FOR_LENGTHS, trial);
}

static void print_growths(void)
{
    puts("| work        | text, pattern         | m   | 64 KiB |  1 MiB | 16 MiB | spread |\n"
         "|-------------|-----------------------|----:|-------:|-------:|-------:|-------:|");
    for (const struct row *row = length_rows; row < length_rows + FOR_LENGTHS; row++)
        if (row->trials > PIECES) {
            const struct trial *trial = &row->trial[PIECES];
            printf("| %-11s | %-21s | %3zu |", trial->work->name, name_of(row), row->input.m);
            for (size_t s = 0; s < COUNT_OF(sizes); s++)
                printf(" %6.3f |", nanoseconds_of(row, trial->times[s].least));
            printf(" %6.3f |\n", spread_of(trial));
        }
}

void print_lengths(void)
{
    puts("\n## Prefix lengths\n\n"
         "How much of the pattern begins at each position, beside the same in plain C by the same rules, as in the ratios above.\n"
         "The C checks no pattern.\n");
    print_ratios_to_c(RATIO);
    puts("\nBeside C that is tuned by hand.\n");
    print_ratios_to_c(TUNED);
    puts("\nThe time per byte in nanoseconds, the least, over the same 16 MiB of text in pieces of each size, one after the other. The\n"
         "spread is the time of the slowest size to that of the fastest, by pairs.\n");
    print_growths();
}

/* The verdicts. */

static double spread_in_per_cent(const struct row *row)
{
    return (spread_of(&row->trial[PIECES]) - 1) * 100;
}

static void judge_growths(void)
{
    const struct row *worst = NULL;
    size_t judged = 0, missed = 0;
    for (const struct row *row = length_rows; row < length_rows + FOR_LENGTHS; row++)
        if (row->trials > PIECES) {
            judged++;
            missed += spread_in_per_cent(row) > GREATEST_SPREAD;
            if (worst == NULL || spread_in_per_cent(row) > spread_in_per_cent(worst))
                worst = row;
        }
    printf("- %s: prefix lengths linear in n: time per byte from 64 KiB to 16 MiB within 15 %%; most %.1f %% (%s, m = %zu), missed on "
           "%zu of %zu rows\n",
           word(missed == 0), spread_in_per_cent(worst), name_of(worst), worst->input.m, missed, judged);
}

void judge_lengths(void)
{
    struct range range = {NULL, NULL, 0, 0};
    for (const struct row *row = length_rows; row < length_rows + FOR_LENGTHS; row++)
        into_range(&range, row, RATIO, LEAST_RATIO);
    judge_range("C", "prefix lengths at 0.95 of the C or better", &range, RATIO);

    struct range tuned = {NULL, NULL, 0, 0};
    for (const struct row *row = length_rows; row < length_rows + FOR_LENGTHS; row++)
        into_range(&tuned, row, TUNED, LEAST_RATIO);
    printf("- beside C tuned by hand, without a target: prefix lengths at %.3f to %.3f, below 0.95 on %zu of %zu rows\n",
           ratio_of(tuned.least, TUNED), ratio_of(tuned.greatest, TUNED), tuned.missed, tuned.rows);
    judge_growths();
}
