/*
 * Measures the library against plain C by the same rules and prints docs/performance-rows.md: the ratios to the C; the search for
 * the first occurrence, beside the library's own search with an empty list; the search of a record of an archive, beside that of the
 * record by itself; the prefix lengths, the searches in custom orders, the search with a journal and its replay, beside the C; the
 * correction of one byte, as text, pattern and list grow, and beside the C; the throughput, with the counts; the cost of preparation
 * and of the check of a pattern; the time per byte as the text grows; the ratios by kind; and whether each target holds.
 *
 * It exits with 1 if two searches differ in an answer, and then measures nothing. A missed target is printed and no more: times
 * depend on the machine.
 */
#include "archive.h"
#include "correct.h"
#include "first.h"
#include "journal.h"
#include "lengths.h"
#include "ordered.h"
#include "uncounted.h"

#include <inttypes.h>
#include <stdio.h>

/* The targets: ours to the C by the same rules, on every row of each search, for Knuth, Morris and Pratt a lower one through
   classes that join values, and for Colussi's order a higher one on random text over 256 letters; the spread of the time per byte in per cent; the check of a pattern of 256 bytes and of 8, in seconds. */
#define LEAST_RATIO 0.95
#define LEAST_RATIO_OF_KMP_BY_CLASSES 0.8
#define LEAST_RATIO_OF_256 3.0
#define GREATEST_SPREAD 15.0
#define LONGEST_CHECK_OF_256 4e-6
#define LONGEST_CHECK_OF_8 1e-6

/* The trials that are added: to the short texts; and to the longest. */
enum { UNCOUNTED = ADDED };
enum { PIECES = ADDED, LOOP };

/* Where there are classes, the first alone can search. */
enum uncounted { NAIVE, MEMMEM, UNCOUNTED_SEARCHES, UNCOUNTED_WITH_CLASSES = MEMMEM };

static void run_uncounted(int search, int copy)
{
    (void)copy;
    (search == NAIVE ? naive_search : memmem_search)(NULL, &subjects[0], UINT64_MAX, lists.one, subjects[0].n, NULL);
}

/* The text in pieces of a size, one after the other. Every size goes over the same bytes, each once: a short text that is
   searched again and again would be known to the caches and to the branch predictor. */
static void run_pieces(int size, int copy)
{
    struct subject piece = subjects[0];
    piece.n = sizes[size].n;
    for (size_t at = 0; at < subjects[0].n; at += piece.n) {
        piece.text = subjects[0].text + at;
        versions[OURS][copy]->colussi(piece.prepared[OURS], &piece, UINT64_MAX, lists.one + at, piece.n, NULL);
    }
}

/* The same of a loop for a byte that the text has not. */
static void run_loop(int size, int copy)
{
    (void)copy;
    for (size_t at = 0; at < subjects[0].n; at += sizes[size].n)
        find_byte(subjects[0].text + at, sizes[size].n, 'b');
}

/* Of the kinds. */
#define RANDOM_256 0
#define EQUAL_TEXT 4

static void add_trials(void)
{
    static const struct work uncounted = {"uncounted", run_uncounted, NULL}, pieces = {"pieces", run_pieces, NULL},
                             loop = {"loop", run_loop, NULL};
    const struct share few = {32, 1, 1, thread_time, 0}, more = {16, 1, 1, thread_time, 0}; /* the sizes share the place of the code */
    for (struct row *row = rows; row < rows + SHORT_TEXTS; row++)
        add_trial(row, &uncounted, row->input.kind->classes == identity ? UNCOUNTED_SEARCHES : UNCOUNTED_WITH_CLASSES, few);
    for (size_t k = 0; k < COUNT_OF(kinds); k++)
        add_trial(&longest_texts[k], &pieces, COUNT_OF(sizes), more);
    add_trial(&longest_texts[EQUAL_TEXT], &loop, COUNT_OF(sizes), more);
}

static bool all_agree(const struct subject *subject)
{
    return sides_agree(subject) && uncounted_agree(versions[OURS][0]->colussi, subject, lists)
        && uncounted_agree(versions[OURS][0]->kmp, subject, lists);
}

/* The tables. */

static void print_throughput(const struct row *row)
{
    const size_t n = row->input.size->n, m = row->input.m;
    make(&row->input);
    const uint64_t count = count_by(versions[OURS][0]->colussi);
    const double mega = (double)n * 1e-6;
    printf("| %-21s | %6s | %3zu | %7.0f | %5.0f | %5.0f |", name_of(row), size_name_of(row), m,
           mega / row->trial[COLUSSI].times[OURS].least, mega / row->trial[KMP].times[OURS].least,
           mega / row->trial[UNCOUNTED].times[NAIVE].least);
    if (row->trial[UNCOUNTED].variants > MEMMEM)
        printf(" %6.0f |", mega / row->trial[UNCOUNTED].times[MEMMEM].least);
    else
        printf(" %6s |", "");
    printf(" %8" PRIu64 " | %8zu | %7.1f |\n", count, (3 * n - m) / 2, 200.0 * (double)count / (double)(3 * n - m));
}

static void throughput(void)
{
    puts("\n## Throughput and counts\n\n"
         "In MB (1,000,000 bytes) of text a second, by the least times. Naive search and memmem count nothing and had few runs;\n"
         "memmem knows no classes. The count is that of Colussi's order; its ceiling is (3n - m) / 2.\n\n"
         "| text, pattern         | n      | m   | Colussi | KMP   | naive | memmem | count    | ceiling  | % of it |\n"
         "|-----------------------|-------:|----:|--------:|------:|------:|-------:|---------:|---------:|--------:|");
    for (const struct row *row = rows; row < rows + SHORT_TEXTS; row++)
        print_throughput(row);
}

/* Of a call. */
static double cost_of(const struct row *row, int trial)
{
    return row->trial[trial].times[OURS].tenth / IN_TURN;
}

static void costs(void)
{
    puts("\n## Preparation and the check of a pattern\n\n"
         "In nanoseconds a call, by the tenth. Preparation comes first; then the search of an empty text, which is its check.\n\n"
         "| pattern             | m = 1 |     8 |    16 |    64 |   256 | check: 1 |     8 |    16 |    64 |   256 |\n"
         "|---------------------|------:|------:|------:|------:|------:|---------:|------:|------:|------:|------:|");
    for (const struct row *of = rows + TEXTS; of < rows + TEXTS + PATTERNS; of += COUNT_OF(lengths_of_patterns)) {
        printf("| %-19s |", name_of(of));
        for (size_t l = 0; l < COUNT_OF(lengths_of_patterns); l++)
            printf(" %5.0f |", cost_of(of + l, PREPARATION) * 1e9);
        for (size_t l = 0; l < COUNT_OF(lengths_of_patterns); l++)
            printf(" %*.0f |", l == 0 ? 8 : 5, cost_of(of + l, CHECK) * 1e9);
        putchar('\n');
    }
}

static void print_growth(const char *name, const struct trial *trial)
{
    printf("| %-21s |", name);
    for (size_t s = 0; s < COUNT_OF(sizes); s++)
        printf(" %6.3f |", trial->times[s].least / POQEWAN_LONGEST_TEXT * 1e9);
    printf(" %6.3f |\n", spread_of(trial));
}

static void growths(void)
{
    puts("\n## Time per byte\n\n"
         "In nanoseconds, the least, of the search in Colussi's order with m = 16, over the same 16 MiB of text in pieces of each\n"
         "size, one after the other. The spread is the time of the slowest size to that of the fastest, by pairs. The last row is a\n"
         "loop in C for one byte that is absent.\n\n"
         "| text, pattern         | 64 KiB |  1 MiB | 16 MiB | spread |\n"
         "|-----------------------|-------:|-------:|-------:|-------:|");
    for (size_t k = 0; k < COUNT_OF(kinds); k++)
        print_growth(kinds[k].name, &longest_texts[k].trial[PIECES]);
    print_growth("C loop for a byte", &longest_texts[EQUAL_TEXT].trial[LOOP]);
}

/* The summary. Ratios are by the fastest tenth. */

static void ratios_by_kind(void)
{
    puts("\n## Ratios by kind\n\n"
         "The least and the greatest, by the tenth.\n\n"
         "| text, pattern         | Colussi's order | Knuth-Morris-Pratt |\n"
         "|-----------------------|-----------------|--------------------|");
    for (size_t k = 0; k < COUNT_OF(kinds); k++) {
        const struct range of_colussi = range_of(k, 1, COLUSSI, 0), of_kmp = range_of(k, 1, KMP, 0);
        printf("| %-21s | %4.2f to %4.2f    | %4.2f to %4.2f       |\n", kinds[k].name, ratio_of(of_colussi.least, COLUSSI),
               ratio_of(of_colussi.greatest, COLUSSI), ratio_of(of_kmp.least, KMP), ratio_of(of_kmp.greatest, KMP));
    }
}

static double spread_in_per_cent(size_t kind)
{
    return (spread_of(&longest_texts[kind].trial[PIECES]) - 1) * 100;
}

static void judge_growth(const char *claim, double target)
{
    size_t worst = 0, missed = 0;
    for (size_t k = 0; k < COUNT_OF(kinds); k++) {
        missed += spread_in_per_cent(k) > target;
        if (spread_in_per_cent(k) > spread_in_per_cent(worst))
            worst = k;
    }
    printf("- %s: %s; most %.1f %% (%s), missed on %zu of %zu rows\n", word(missed == 0), claim, spread_in_per_cent(worst),
           kinds[worst].name, missed, COUNT_OF(kinds));
}

static void judge_check(const char *claim, size_t m, double target)
{
    const struct row *worst = NULL;
    for (const struct row *row = rows + TEXTS; row < rows + TEXTS + PATTERNS; row++)
        if (row->input.m == m && (worst == NULL || cost_of(row, CHECK) > cost_of(worst, CHECK)))
            worst = row;
    printf("- %s: %s; most %.0f ns (%s)\n", word(cost_of(worst, CHECK) < target), claim, cost_of(worst, CHECK) * 1e9,
           name_of(worst));
}

static void verdicts(void)
{
    puts("\n## Verdicts\n");
    const size_t with_classes = COUNT_OF(kinds) - PLAIN_KINDS;
    judge_ratio("C", "Colussi's order at 0.95 of the C or better", 0, PLAIN_KINDS, COLUSSI, LEAST_RATIO);
    judge_ratio("C", "KMP at 0.95 of the C or better", 0, PLAIN_KINDS, KMP, LEAST_RATIO);
    judge_ratio("C", "Colussi's order at 3 times the C or better on random text over 256 letters", RANDOM_256, 1, COLUSSI,
                LEAST_RATIO_OF_256);
    judge_ratio("C", "through 16 classes, Colussi's order at 0.95 of the C or better", PLAIN_KINDS, with_classes, COLUSSI,
                LEAST_RATIO);
    judge_ratio("C", "through 16 classes, KMP at 0.8 of the C or better", PLAIN_KINDS, with_classes, KMP,
                LEAST_RATIO_OF_KMP_BY_CLASSES);
    judge_first();
    judge_archives();
    judge_lengths();
    judge_ordered();
    judge_journals();
    judge_corrections();
    judge_growth("time per byte from 64 KiB to 16 MiB within 15 %", GREATEST_SPREAD);
    judge_check("search of an empty text under 4 microseconds at m = 256", 256, LONGEST_CHECK_OF_256);
    judge_check("search of an empty text under 1 microsecond at m = 8", 8, LONGEST_CHECK_OF_8);
}

int main(void)
{
    setvbuf(stdout, NULL, _IOLBF, 0);
    set_rows();
    set_first_rows();
    set_archive_rows();
    set_length_rows();
    set_ordered_rows();
    set_journal_rows();
    set_correct_rows();
    add_trials();
    if (!agree_on_rows(all_agree))
        return 1;
    measure_rows();
    puts("# Performance, row by row\n\n"
         "Printed by `bash bench/run`. What it comes to, and how it was measured, is in [PERFORMANCE.md](PERFORMANCE.md).\n\n"
         "## Ratios to the C\n\n"
         "The least times of both in nanoseconds a byte of text. \"C\" is the same search by the same rules in plain C. Then\n"
         "ratios of its time to ours, so that above 1 ours is the faster: of the least times; of the means of the fastest tenth, by\n"
         "which the targets are judged; and the median over the pairs of runs. All are geometric means over the copies.\n"
         "In the rows with 16 classes, bytes are equal if their classes are; in the others each byte has a class to itself.\n");
    print_head_of_ratios("C", "ours");
    print_text_ratios();
    print_first();
    print_archives();
    print_lengths();
    print_ordered();
    print_journals();
    print_corrections();
    throughput();
    costs();
    growths();
    ratios_by_kind();
    verdicts();
    return 0;
}
