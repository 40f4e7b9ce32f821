#include "ordered.h"

#include <math.h>
#include <stdio.h>
#include <stdlib.h>

/* The targets, on every row: the time of the C to that of our loop over the text; and the time of a call with a pattern of 256 bytes
   and an empty text, in seconds: the check of the pattern, the test of the order, and the shifts. */
#define LEAST_RATIO 0.95
#define LONGEST_CALL 5e-3

static const char *const names[ORDERS] = {
    [ASCENDING] = "ascending",     [DESCENDING] = "descending", [OF_COLUSSI] = "Colussi's", [DRAWN] = "drawn",
    [INTERLEAVED] = "interleaved", [DRAWN_2] = "drawn, 2nd",    [DRAWN_3] = "drawn, 3rd",
};

/* The works. The trials of a row are the orders. Our call makes the shifts of its order, and the C has them from before. So in texts
   a third variant is our call with an empty text, whose least time is taken off: what is left is the loop over the text. Without a
   text the other side is the C that makes the shifts, which checks nothing. */
enum { EMPTY = SIDES, VARIANTS_IN_TEXTS };

static void search(int order, int variant, int copy)
{
    const enum side side = variant == OTHER ? OTHER : OURS;
    struct subject subject = subjects[0];
    subject.order = &orders[order];
    subject.n = variant == EMPTY ? 0 : subject.n;
    versions[side][copy]->ordered(subject.prepared[side], &subject, UINT64_MAX, lists.one, subject.n, NULL);
}

static void make_shifts(int order, int variant, int copy)
{
    if (variant == OURS)
        search(order, OURS, copy);
    else
        versions[OTHER][copy]->fill_shifts(subjects[0].prepared[OTHER], &orders[order]);
}

static void read_side(int variant)
{
    read_prepared(variant == OTHER ? OTHER : OURS);
}

#define RUN(name, work, order)                                                                                                    \
    static void name(int variant, int copy)                                                                                      \
    {                                                                                                                             \
        work(order, variant, copy);                                                                                               \
    }
RUN(search_ascending, search, ASCENDING)
RUN(search_descending, search, DESCENDING)
RUN(search_of_colussi, search, OF_COLUSSI)
RUN(search_drawn, search, DRAWN)
RUN(shifts_ascending, make_shifts, ASCENDING)
RUN(shifts_descending, make_shifts, DESCENDING)
RUN(shifts_of_colussi, make_shifts, OF_COLUSSI)
RUN(shifts_drawn, make_shifts, DRAWN)
RUN(shifts_interleaved, make_shifts, INTERLEAVED)
RUN(shifts_drawn_2, make_shifts, DRAWN_2)
RUN(shifts_drawn_3, make_shifts, DRAWN_3)

/* The rows. In a text, the kinds of the searches, and three more. A window is compared afresh, so that where the pattern or long parts
   of it occur all the time, a byte has up to m comparisons: there texts with long patterns are short. Others with the longest patterns
   are long, for what is before the loop shall be little beside it. */

static const struct kind more_kinds[] = {
    {"Fibonacci words", fibonacci, fibonacci_text, identity},
    {"aab, repeated", period_3, period_3_text, identity},
    {"a^kb^k, repeated", halves, repeated_text, identity},
};
_Static_assert(ORDERED_TEXTS == (COUNT_OF(kinds) + COUNT_OF(more_kinds)) * COUNT_OF(lengths), "another number of kinds");

/* Of the kinds, and of these after them. */
enum { LAST_DIFFERS = 3, EQUAL_TEXT = 4, RECORD = 6, RECORD_WITH_CLASSES = 8, REPEATED = COUNT_OF(kinds) + 1 };

#define SHORT 0
#define LONGER 1
static const struct size of_256_kib = {"256 KiB", 262144}, of_4_mib = {"4 MiB", 4194304};

static const struct size *size_for(size_t kind, size_t m)
{
    switch (kind) {
    case EQUAL_TEXT:
    case REPEATED:
        return &sizes[SHORT]; /* m comparisons a byte, or a third of it, in every order */
    case LAST_DIFFERS:
        return m <= LENGTH_IN_LONG_TEXTS ? &sizes[LONGER] : &of_256_kib; /* m, or one, as the order has it */
    case RECORD:
    case RECORD_WITH_CLASSES:
        return &sizes[LONGER];
    default:
        return m < POQEWAN_LONGEST_PATTERN ? &sizes[LONGER] : &of_4_mib;
    }
}

static void set_text_row(struct row *row, size_t kind, size_t m)
{
    static const struct work works[ORDERS_OF_TEXTS] = {{"ascending", search_ascending, read_side},
                                                       {"descending", search_descending, read_side},
                                                       {"Colussi's", search_of_colussi, read_side},
                                                       {"drawn", search_drawn, read_side}};
    static const struct share share = {8, 1, COPIES, thread_time, 0}, of_long = {16, 1, COPIES, thread_time, 0};
    row->input = (struct input){.kind = kind < COUNT_OF(kinds) ? &kinds[kind] : &more_kinds[kind - COUNT_OF(kinds)],
                                .size = size_for(kind, m),
                                .m = m,
                                .number = m,
                                .orders = ORDERS_OF_TEXTS};
    for (int order = 0; order < ORDERS_OF_TEXTS; order++) {
        add_trial(row, &works[order], VARIANTS_IN_TEXTS, m == POQEWAN_LONGEST_PATTERN ? of_long : share);
        row->trial[order].less_last = true;
    }
}

static void set_pattern_row(struct row *row, const struct family *family)
{
    static const struct work works[ORDERS] = {{"ascending", shifts_ascending, read_side},
                                              {"descending", shifts_descending, read_side},
                                              {"Colussi's", shifts_of_colussi, read_side},
                                              {"drawn", shifts_drawn, read_side},
                                              {"interleaved", shifts_interleaved, read_side},
                                              {"drawn", shifts_drawn_2, read_side},
                                              {"drawn", shifts_drawn_3, read_side}};
    static const struct share share = {16, 2, COPIES, wall_time, 0};
    row->input = (struct input){.family = family, .m = POQEWAN_LONGEST_PATTERN, .number = POQEWAN_LONGEST_PATTERN, .orders = ORDERS};
    for (int order = 0; order < ORDERS; order++)
        add_trial(row, &works[order], SIDES, share);
}

static struct row *const pattern_rows = rows + ROWS - COUNT_OF(ordered_families);

void set_ordered_rows(void)
{
    struct row *row = ordered_rows;
    for (size_t k = 0; k < COUNT_OF(kinds) + COUNT_OF(more_kinds); k++)
        for (size_t l = 0; l < COUNT_OF(lengths); l++)
            set_text_row(row++, k, lengths[l]);
    for (size_t f = 0; f < COUNT_OF(ordered_families); f++)
        set_pattern_row(row++, &ordered_families[f]);
}

/* The tables. */

/* What a call costs before the loop, in per cent of the loop. */
static double part_before(const struct times *times)
{
    return 100 * times[EMPTY].least / times[OURS].least;
}

static void print_loops(void)
{
    printf("| work        | text, pattern         | n      | m   | C        | ours     | least | tenth | pairs | before, %% |\n"
           "|-------------|-----------------------|-------:|----:|---------:|---------:|------:|------:|------:|----------:|\n");
    for (int order = 0; order < ORDERS_OF_TEXTS; order++) {
        double means[RATIOS] = {1, 1, 1};
        for (const struct row *row = ordered_rows; row < ordered_rows + ORDERED_TEXTS; row++) {
            print_row(row, &row->trial[order]);
            printf(" %9.2f |\n", part_before(row->trial[order].times));
            for (enum ratio ratio = 0; ratio < RATIOS; ratio++)
                into_mean(&means[ratio], row->trial[order].times[OTHER].ratios[ratio], ORDERED_TEXTS);
        }
        printf("| %-11s | %-21s | %6s |     |          |          | %5.3f | %5.3f | %5.3f |           |\n", names[order], "mean", "",
               means[LEAST], means[TENTH], means[PAIRS]);
    }
}

static double time_of(const struct row *row, int order, enum side side)
{
    return row->trial[order].times[side].tenth;
}

/* The order that takes the longest. */
static int slowest_of(const struct row *row, enum side side)
{
    int slowest = 0;
    for (int order = 1; order < ORDERS; order++)
        if (time_of(row, order, side) > time_of(row, slowest, side))
            slowest = order;
    return slowest;
}

static void print_calls(void)
{
    puts("| pattern             | ascending | descending | Colussi's | interleaved | drawn    | drawn    | drawn    | C, most  |\n"
         "|---------------------|----------:|-----------:|----------:|------------:|---------:|---------:|---------:|---------:|");
    for (const struct row *row = pattern_rows; row < rows + ROWS; row++)
        printf("| %-19s | %9.2f | %10.2f | %9.2f | %11.2f | %8.2f | %8.2f | %8.2f | %8.2f |\n", name_of(row),
               time_of(row, ASCENDING, OURS) * 1e6, time_of(row, DESCENDING, OURS) * 1e6, time_of(row, OF_COLUSSI, OURS) * 1e6,
               time_of(row, INTERLEAVED, OURS) * 1e6, time_of(row, DRAWN, OURS) * 1e6, time_of(row, DRAWN_2, OURS) * 1e6,
               time_of(row, DRAWN_3, OURS) * 1e6, time_of(row, slowest_of(row, OTHER), OTHER) * 1e6);
}

void print_ordered(void)
{
    puts("\n## Custom orders\n\n"
         "The search in an order of the caller's own, beside the same in plain C by the same rules, as in the ratios above: in the\n"
         "places' ascending order, in their descending one, in Colussi's own, and in one that is drawn. The C checks neither the\n"
         "pattern nor the order, and has its shifts from before. So what our call takes with an empty text is taken off: the times\n"
         "and ratios are those of the loop over the text. The last column is what was taken off, in per cent of that loop.\n");
    print_loops();
    puts("\nA call with a pattern of 256 bytes and an empty text, in microseconds, by the tenth: the check of the pattern, the test of the\n"
         "order, and the shifts. Interleaved are the places of even number and then the others. The last column is C that makes the\n"
         "shifts alone, by trying one distance after the other, in the order that takes it the longest.\n");
    print_calls();
}

/* The verdicts. */

static void judge_loops(void)
{
    double least = INFINITY, greatest = 0;
    size_t missed = 0;
    for (int order = 0; order < ORDERS_OF_TEXTS; order++) {
        char claim[80];
        struct range range = {NULL, NULL, 0, 0};
        for (const struct row *row = ordered_rows; row < ordered_rows + ORDERED_TEXTS; row++) {
            const struct times *times = row->trial[order].times;
            const double whole = times[OTHER].tenth / (times[OURS].tenth + times[EMPTY].least);
            into_range(&range, row, order, LEAST_RATIO);
            missed += whole < LEAST_RATIO;
            least = fmin(least, whole);
            greatest = fmax(greatest, whole);
        }
        snprintf(claim, sizeof claim, "custom orders, %s: the loop at 0.95 of the C or better", names[order]);
        judge_range("C", claim, &range, order);
    }
    printf("- with what comes before the loop, without a target: custom orders at %.3f to %.3f, below 0.95 on %zu of %zu rows\n", least,
           greatest, missed, ORDERED_TEXTS * ORDERS_OF_TEXTS);
}

#define CALLS (COUNT_OF(ordered_families) * ORDERS)

static int ascending(const void *a, const void *b)
{
    const double one = *(const double *)a, other = *(const double *)b;
    return (one > other) - (one < other);
}

static double median_of_calls(void)
{
    double times[CALLS];
    size_t count = 0;
    for (const struct row *row = pattern_rows; row < rows + ROWS; row++)
        for (int order = 0; order < ORDERS; order++)
            times[count++] = time_of(row, order, OURS);
    qsort(times, CALLS, sizeof *times, ascending);
    return times[CALLS / 2];
}

static const struct row *slowest_row(enum side side)
{
    const struct row *slowest = pattern_rows;
    for (const struct row *row = pattern_rows; row < rows + ROWS; row++)
        if (time_of(row, slowest_of(row, side), side) > time_of(slowest, slowest_of(slowest, side), side))
            slowest = row;
    return slowest;
}

static void print_slowest(enum side side)
{
    const struct row *row = slowest_row(side);
    const int order = slowest_of(row, side);
    printf("most %.3f ms (%s, %s)", time_of(row, order, side) * 1e3, name_of(row), names[order]);
}

static void judge_calls(void)
{
    size_t missed = 0;
    for (const struct row *row = pattern_rows; row < rows + ROWS; row++)
        for (int order = 0; order < ORDERS; order++)
            missed += time_of(row, order, OURS) >= LONGEST_CALL;
    printf("- %s: custom orders, a call with an empty text under 5 milliseconds at m = 256; ", word(missed == 0));
    print_slowest(OURS);
    printf(", median %.3f ms, missed on %zu of %zu rows; the shifts alone in C, by trying, ", median_of_calls() * 1e3, missed, CALLS);
    print_slowest(OTHER);
    putchar('\n');
}

void judge_ordered(void)
{
    judge_loops();
    judge_calls();
}
