#include "correct.h"

#include <stdio.h>
#include <string.h>

/* The targets, on every row: the time of a call with the longest text to that with a short one; its time per added byte of the
   pattern from 128 to 256 bytes to that from 64 to 128, which would be 2 if the time grew like m squared; and the time of the C to
   ours, in lists of so many entries or more. With fewer the call itself counts, and the C has the pattern by reference. */
#define GREATEST_RATIO 1.05
#define GREATEST_GROWTH 1.5
#define LEAST_RATIO 0.95
#define LEAST_ENTRIES 100000

/* In a run the same byte is corrected there and back, and the list with it, so that it is in the end what it was before. The third
   variant of some trials is the check of the pattern, which the C leaves out: our search of an empty text. */
enum { CHECK_ALONE = SIDES, WITH_CHECK };

static size_t calls; /* of a run */

static void correct(int variant, int copy, const struct subject *subject, size_t place, uint8_t byte, size_t room, size_t used)
{
    const enum side side = variant == OTHER ? OTHER : OURS;
    const struct version *version = versions[side][copy];
    const struct subject empty = {.n = 0};
    uint8_t *at = text_made + (subject->text - text_made) + place;
    const uint8_t bytes[] = {byte, *at};
    for (size_t i = 0; i < calls; i++)
        if (variant == CHECK_ALONE) {
            version->colussi(subject->prepared[side], &empty, 0, NULL, 0, NULL);
        } else {
            *at = bytes[i % 2];
            used = version->correct(subject->prepared[side], subject, place, lists.one, room, used).used;
        }
}

static void read_side(int variant)
{
    read_prepared(variant == OTHER ? OTHER : OURS);
}

/* A few entries in use. The place is in the middle of the text, and now the pattern ends there and now it doesn't. The entries lie on
   both sides of the windows that cover the place. They are wrong, mostly, and that makes no difference. The short text is the middle
   of the long one, so that the bytes around the place are the same, and lie in the same memory. */

static const struct size short_text = {"1,000", 1000};
static const int entries[] = {-490, -430, -370, -310, 10, 110, 210, 310}; /* as seen from the place */
#define FEW COUNT_OF(entries)
static struct subject middle;

static void fill_few(size_t n)
{
    middle = subjects[0];
    middle.text += subjects[0].n / 2 - n / 2;
    middle.n = n;
    for (size_t i = 0; i < FEW; i++)
        lists.one[i] = (uint32_t)((int)(n / 2) + entries[i]);
}

static uint8_t last_of_pattern(void)
{
    return subjects[0].bytes[subjects[0].m - 1];
}

static void make_few(const struct input *input)
{
    const size_t place = input->size->n / 2;
    calls = input->correction->calls;
    memcpy(text_made + place + 1 - input->m, subjects[0].bytes, input->m);
    text_made[place] = other_than(text_made[place]);
}

/* With the few entries in the text and in its middle, and with all positions. */
static bool agree_in_few(void)
{
    const struct version *ours = versions[OURS][0], *other = versions[OTHER][0];
    const size_t n = subjects[0].n, sizes[] = {short_text.n, n};
    for (size_t i = 0; i < COUNT_OF(sizes); i++) {
        fill_few(sizes[i]);
        if (!corrections_agree(ours, other, &middle, text_made + n / 2 - sizes[i] / 2, sizes[i] / 2, last_of_pattern(), FEW, lists))
            return false;
    }
    struct report whole;
    ours->colussi(subjects[0].prepared[OURS], &subjects[0], UINT64_MAX, lists.one, n, &whole);
    return whole.written < 2
        || corrections_agree(ours, other, &subjects[0], text_made, n / 2, last_of_pattern(), whole.written, lists);
}

static void run_few(int variant, int copy)
{
    correct(variant, copy, &middle, middle.n / 2, last_of_pattern(), FEW + POQEWAN_LONGEST_PATTERN, FEW);
}

/* By the length of the text. */

enum { SHORT, LONG, BOTH };

static void fill_by_size(int size)
{
    fill_few(size == SHORT ? short_text.n : subjects[0].n);
    read_prepared(OURS);
}

static void run_by_size(int size, int copy)
{
    (void)size;
    run_few(OURS, copy);
}

/* By the length of the pattern. */

static void fill_by_length(int variant)
{
    fill_few(subjects[0].n);
    read_side(variant);
}

/* Long lists, of all positions. One entry goes and comes, or as many at once as the pattern has bytes. At the front all others move,
   and at the back none does. */

static size_t in_use;

static void list_all(const struct input *input)
{
    struct report whole;
    calls = input->correction->calls;
    versions[OURS][0]->colussi(subjects[0].prepared[OURS], &subjects[0], UINT64_MAX, lists.one, subjects[0].n, &whole);
    in_use = whole.written;
}

static size_t front(void)
{
    return subjects[0].m - 1;
}

static size_t back(void)
{
    return subjects[0].n - subjects[0].m;
}

static bool agree_in_all(void)
{
    const struct version *ours = versions[OURS][0], *other = versions[OTHER][0];
    const size_t places[] = {front(), back()};
    for (size_t i = 0; i < COUNT_OF(places); i++)
        if (!corrections_agree(ours, other, &subjects[0], text_made, places[i], other_than(text_made[places[i]]), in_use, lists))
            return false;
    return true;
}

static void run_front(int variant, int copy)
{
    correct(variant, copy, &subjects[0], front(), other_than(text_made[front()]), in_use, in_use);
}

static void run_back(int variant, int copy)
{
    correct(variant, copy, &subjects[0], back(), other_than(text_made[back()]), in_use, in_use);
}

/* The rows. By size: two kinds. By length: these and more, among them the two in which a comparison of one window after the other
   takes the most, since every window agrees with the pattern up to its last byte, or all of it. Then the long lists. */

#define RANDOM_256 0
#define LAST_DIFFERS 3
#define EQUAL_TEXT 4
#define PIECES 5
#define LONGEST (COUNT_OF(sizes) - 1)
static const size_t kinds_by_size[] = {RANDOM_256, EQUAL_TEXT};
static const size_t kinds_by_length[] = {RANDOM_256, LAST_DIFFERS, EQUAL_TEXT, PIECES};
static const size_t all_lengths[] = {1, 2, 4, 8, 16, 32, 64, 128, 256};
enum { AT_64 = 6, AT_128, AT_256 };

static const struct kind cycles = {"flutter, repeated", flutter, repeated_text, identity};
static const struct long_list {
    const struct kind *kind;
    size_t m, entries;
    struct size size;
} long_lists[] = {
    {&cycles, 4, 1000, {"4,000", 4000}},
    {&cycles, 4, 100000, {"400,000", 400000}},
    {&cycles, 4, 4000000, {"16,000,000", 16000000}},
    {&kinds[EQUAL_TEXT], 256, 1000, {"1,255", 1255}},
    {&kinds[EQUAL_TEXT], 256, 100000, {"100,255", 100255}},
    {&kinds[EQUAL_TEXT], 256, 4000000, {"4,000,255", 4000255}},
};

#define BY_SIZE (COUNT_OF(kinds_by_size) * COUNT_OF(lengths))
#define BY_LENGTH (COUNT_OF(kinds_by_length) * COUNT_OF(all_lengths))
_Static_assert(FOR_CORRECTIONS == BY_SIZE + BY_LENGTH + COUNT_OF(long_lists), "another number of rows");
static struct row *const long_rows = rows + ROWS - FOR_ORDERS - COUNT_OF(long_lists);
static struct row *const rows_by_length = rows + ROWS - FOR_ORDERS - COUNT_OF(long_lists) - BY_LENGTH;

/* The trials: one of the former rows, and two of the latter. */
enum { FEW_ENTRIES };
enum { FRONT, BACK };

static void set_row(struct row *row, size_t kind, const struct size *size, size_t m, const struct work *work, int variants,
                    struct share share)
{
    static const struct correction few = {make_few, agree_in_few, 32};
    row->input = (struct input){.kind = &kinds[kind], .size = size, .m = m, .number = m, .correction = &few};
    add_trial(row, work, variants, share);
}

static void set_long_row(struct row *row, const struct long_list *list)
{
    static const struct correction some = {list_all, agree_in_all, 32}, many = {list_all, agree_in_all, 2};
    static const struct work works[] = {{"front", run_front, read_side}, {"back", run_back, read_side}};
    static const struct share share = {4, 2, COPIES, wall_time, 0}, of_longest = {16, 1, COPIES, thread_time, 0};
    row->input = (struct input){.kind = list->kind,
                                .size = &list->size,
                                .m = list->m,
                                .number = list->m,
                                .correction = list->entries < LEAST_ENTRIES ? &some : &many};
    for (int trial = FRONT; trial <= BACK; trial++) {
        add_trial(row, &works[trial], WITH_CHECK, list->entries <= LEAST_ENTRIES ? share : of_longest);
        row->trial[trial].less_last = true;
    }
}

void set_correct_rows(void)
{
    static const struct work by_size = {"by size", run_by_size, fill_by_size}, by_length = {"by length", run_few, fill_by_length};
    static const struct share of_sizes = {16, 16, COPIES, wall_time, 15}, of_lengths = {4, 2, COPIES, wall_time, 0};
    struct row *row = correct_rows;
    for (size_t k = 0; k < COUNT_OF(kinds_by_size); k++)
        for (size_t l = 0; l < COUNT_OF(lengths); l++)
            set_row(row++, kinds_by_size[k], &sizes[LONGEST], lengths[l], &by_size, BOTH, of_sizes);
    for (size_t k = 0; k < COUNT_OF(kinds_by_length); k++)
        for (size_t l = 0; l < COUNT_OF(all_lengths); l++)
            set_row(row++, kinds_by_length[k], &short_text, all_lengths[l], &by_length, WITH_CHECK, of_lengths);
    for (size_t i = 0; i < COUNT_OF(long_lists); i++)
        set_long_row(row++, &long_lists[i]);
}

/* The tables. Times are of a call, in nanoseconds. */

static double time_of(const struct row *row, int variant)
{
    return nanoseconds_of(row, row->trial[FEW_ENTRIES].times[variant].tenth);
}

static double ratio_of_sizes(const struct row *row)
{
    return row->trial[FEW_ENTRIES].times[LONG].ratios[TENTH];
}

static void print_by_size(void)
{
    puts("| text, pattern         | m   | n = 1,000 | 16,777,216 | ratio |\n"
         "|-----------------------|----:|----------:|-----------:|------:|");
    for (const struct row *row = correct_rows; row < correct_rows + BY_SIZE; row++)
        printf("| %-21s | %3zu | %9.1f | %10.1f | %5.3f |\n", name_of(row), row->input.m, time_of(row, SHORT), time_of(row, LONG),
               ratio_of_sizes(row));
}

/* The time per added byte of the pattern, from one of the lengths to another. The rows are those of a kind. */
static double time_per_byte(const struct row *of_kind, int variant, size_t from, size_t to)
{
    return (time_of(of_kind + to, variant) - time_of(of_kind + from, variant)) / (double)(all_lengths[to] - all_lengths[from]);
}

static double growth_of(const struct row *of_kind)
{
    return time_per_byte(of_kind, OURS, AT_128, AT_256) / time_per_byte(of_kind, OURS, AT_64, AT_128);
}

static void print_by_length(void)
{
    static const char *const names[] = {"ours", "C", "check"};
    puts("| text, pattern         | of    | m = 1 |     2 |     4 |     8 |    16 |    32 |    64 |   128 |   256 "
         "| to 128 | to 256 | growth |\n"
         "|-----------------------|-------|------:|------:|------:|------:|------:|------:|------:|------:|------:"
         "|-------:|-------:|-------:|");
    for (const struct row *of_kind = rows_by_length; of_kind < long_rows; of_kind += COUNT_OF(all_lengths))
        for (int variant = OURS; variant < WITH_CHECK; variant++) {
            printf("| %-21s | %-5s |", name_of(of_kind), names[variant]);
            for (size_t l = 0; l < COUNT_OF(all_lengths); l++)
                printf(" %5.0f |", time_of(of_kind + l, variant));
            printf(" %6.2f | %6.2f |", time_per_byte(of_kind, variant, AT_64, AT_128),
                   time_per_byte(of_kind, variant, AT_128, AT_256));
            if (variant == OURS)
                printf(" %6.3f |\n", growth_of(of_kind));
            else
                printf(" %6s |\n", "");
        }
}

static const struct long_list *list_of(const struct row *row)
{
    return &long_lists[row - long_rows];
}

/* All that stay: at the front the pattern is found once, or at every position that it can be. */
static double entries_moved(const struct long_list *list)
{
    return (double)(list->entries - (list->kind == &cycles ? 1 : list->m));
}

static double per_entry(const struct row *row, int trial)
{
    return nanoseconds_of(row, row->trial[trial].times[OURS].least) / (double)list_of(row)->entries;
}

static double per_entry_moved(const struct row *row)
{
    const double more = row->trial[FRONT].times[OURS].least - row->trial[BACK].times[OURS].least;
    return nanoseconds_of(row, more) / entries_moved(list_of(row));
}

static void print_long_lists(void)
{
    puts("| work  | text, pattern         | n          | m   | entries | C          | ours       | least | tenth | pairs "
         "| in use | moved  |\n"
         "|-------|-----------------------|-----------:|----:|--------:|-----------:|-----------:|------:|------:|------:"
         "|-------:|-------:|");
    for (int trial = FRONT; trial <= BACK; trial++)
        for (const struct row *row = long_rows; row < long_rows + COUNT_OF(long_lists); row++) {
            const struct times *times = row->trial[trial].times;
            const double *ratios = times[OTHER].ratios;
            printf("| %-5s | %-21s | %10s | %3zu | %7zu | %10.0f | %10.0f | %5.3f | %5.3f | %5.3f | %6.3f |",
                   row->trial[trial].work->name, name_of(row), size_name_of(row), row->input.m, list_of(row)->entries,
                   nanoseconds_of(row, times[OTHER].least), nanoseconds_of(row, times[OURS].least), ratios[LEAST], ratios[TENTH],
                   ratios[PAIRS], per_entry(row, trial));
            if (trial == FRONT)
                printf(" %6.3f |\n", per_entry_moved(row));
            else
                printf(" %6s |\n", "");
        }
}

void print_corrections(void)
{
    puts("\n## One byte corrected\n\n"
         "One byte is corrected there and back, and a list is brought up to date each time. In nanoseconds a call, by the tenth. The\n"
         "list has 8 entries in use, and every second time the pattern ends at the place. The short text is the middle of the long one.\n");
    print_by_size();
    puts("\nThe same in a text of 1,000 bytes, with longer and longer patterns; by the C, which checks no pattern; and the check alone,\n"
         "which is the search of an empty text. Then the time per added byte of the pattern, from 64 to 128 and from 128 to 256; and\n"
         "the latter to the former, which is about 1 if the time is linear in m, and 2 if it grows like m squared.\n");
    print_by_length();
    puts("\nLists of all positions, in nanoseconds a call, the least, beside the same in plain C by the same rules, as in the ratios\n"
         "above. What the check of the pattern takes is taken off ours. At the front one entry goes and comes, or 256 at once, and all\n"
         "others move; at the back none of them moves. Then our time per entry in use; and what the front takes longer than the back,\n"
         "per entry moved.\n");
    print_long_lists();
}

/* The verdicts. */

static void judge_sizes(void)
{
    const struct row *worst = correct_rows;
    size_t missed = 0;
    for (const struct row *row = correct_rows; row < correct_rows + BY_SIZE; row++) {
        missed += ratio_of_sizes(row) > GREATEST_RATIO;
        if (ratio_of_sizes(row) > ratio_of_sizes(worst))
            worst = row;
    }
    printf("- %s: a correction independent of n: a call at n = 16,777,216 at most 1.05 times that at n = 1,000; most %.3f (%s, m = %zu), "
           "missed on %zu of %zu rows\n",
           word(missed == 0), ratio_of_sizes(worst), name_of(worst), worst->input.m, missed, BY_SIZE);
}

static void judge_lengths_of_patterns(void)
{
    const struct row *worst = rows_by_length;
    size_t missed = 0;
    for (const struct row *of_kind = rows_by_length; of_kind < long_rows; of_kind += COUNT_OF(all_lengths)) {
        missed += growth_of(of_kind) > GREATEST_GROWTH;
        if (growth_of(of_kind) > growth_of(worst))
            worst = of_kind;
    }
    printf("- %s: a correction linear in m: time per added byte from 128 to 256 at most 1.5 times that from 64 to 128; most %.3f (%s), "
           "missed on %zu of %zu rows\n",
           word(missed == 0), growth_of(worst), name_of(worst), missed, COUNT_OF(kinds_by_length));
}

static void judge_long_lists(const char *claim, int trial)
{
    struct range range = {NULL, NULL, 0, 0};
    for (const struct row *row = long_rows; row < long_rows + COUNT_OF(long_lists); row++)
        if (list_of(row)->entries >= LEAST_ENTRIES)
            into_range(&range, row, trial, LEAST_RATIO);
    judge_range("C", claim, &range, trial);
}

void judge_corrections(void)
{
    judge_sizes();
    judge_lengths_of_patterns();
    judge_long_lists("a correction at the front of 100,000 entries or more, without the check, at 0.95 of the C or better", FRONT);
    judge_long_lists("a correction at the back of 100,000 entries or more, without the check, at 0.95 of the C or better", BACK);
}
