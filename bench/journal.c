#include "journal.h"

#include <stdio.h>

/* The targets, on every row: the time of the C to that of our search; and our replay's time per entry with the longest journals to
   that with the shortest. A time that grew like n log n would come to 1.375, from 64 KiB to 4 MiB. */
#define LEAST_RATIO 0.95
#define GREATEST_GROWTH 1.25

/* The search. Its cap is the journal's length, which is the least that is never too short. */
static void run_journaled(int side, int copy)
{
    const struct journal journal = {lists.journal, most_entries(&subjects[0])};
    struct subject subject = subjects[0];
    subject.journal = &journal;
    versions[side][copy]->journaled(subject.prepared[side], &subject, UINT64_MAX, lists.one, subject.n, NULL);
}

/* The replays of a text in pieces of a size, one after the other. Every size goes over journals of the same bytes, each once, so that
   none lies in a nearer cache when its replay begins. But a replay reads its journal twice. The second time the longest, of 16 MiB,
   comes from a far cache or from memory; a shorter one is nearer, and one of a few thousand entries may even be known to the branch
   predictor. So there are none of that length. */
#define SHORTEST_PIECE 65536
#define LONGEST_PIECE 4194304
static const struct size pieces[] = {{"64 KiB", SHORTEST_PIECE}, {"512 KiB", 524288}, {"4 MiB", LONGEST_PIECE}};
enum { SHORTEST, LONGEST = COUNT_OF(pieces) - 1 };
static size_t entries[LONGEST_PIECE / SHORTEST_PIECE]; /* of each piece's journal; these lie one after the other */

static void run_pieces(search_function *search, const void *prepared, const struct size *size, bool write)
{
    struct subject piece = subjects[0];
    struct journal journal = {lists.journal, 0};
    struct report report;
    piece.n = size->n;
    piece.journal = &journal;
    for (size_t at = 0, i = 0; at < subjects[0].n; at += size->n, i++) {
        piece.text = subjects[0].text + at;
        journal.len = write ? most_entries(&piece) : entries[i];
        search(prepared, &piece, UINT64_MAX, lists.one + at, size->n, write ? &report : NULL);
        if (write)
            entries[i] = (size_t)report.count;
        journal.entries += entries[i];
    }
}

static void write_pieces(int size)
{
    run_pieces(versions[OURS][0]->journaled, subjects[0].prepared[OURS], &pieces[size], true);
}

static void replay_pieces(int size, int copy)
{
    run_pieces(versions[OURS][copy]->replay, subjects[0].prepared[OURS], &pieces[size], false);
}

/* The same of the whole text, by both sides. */

static void write_whole(int side)
{
    write_pieces(LONGEST);
    read_prepared(side);
}

static void replay_whole(int side, int copy)
{
    run_pieces(versions[side][copy]->replay, subjects[0].prepared[side], &pieces[LONGEST], false);
}

/* The rows: those of the searches; and for the replay one of each kind. */

enum { JOURNALED };      /* the trial of the former, */
enum { REPLAY, GROWTH }; /* and those of the latter */
static struct row *const replay_rows = rows + TEXTS + PATTERNS + FIRSTS + IN_ARCHIVES + FOR_LENGTHS + TEXTS;

static struct row *set_row(struct row *row, size_t kind, size_t size, size_t m)
{
    static const struct work work = {"journaled", run_journaled, read_prepared};
    static const struct share shares[COUNT_OF(sizes)] = {
        {1, 2, COPIES, wall_time, 0}, {2, 1, COPIES, thread_time, 0}, {8, 1, COPIES / 2, thread_time, 0}};
    row->input = (struct input){.kind = &kinds[kind], .size = &sizes[size], .m = m, .number = m, .journal = true};
    add_trial(row, &work, SIDES, shares[size]);
    return row + 1;
}

static struct row *set_replay_row(struct row *row, size_t kind)
{
    static const struct work whole = {"replay", replay_whole, write_whole}, growth = {"replay", replay_pieces, write_pieces};
    static const struct share share = {8, 1, COPIES, thread_time, 0}, of_pieces = {8, 1, 1, thread_time, 0};
    const size_t m = LENGTH_IN_LONG_TEXTS;
    row->input = (struct input){.kind = &kinds[kind], .size = &pieces[LONGEST], .m = m, .number = m, .journal = true};
    add_trial(row, &whole, SIDES, share);
    add_trial(row, &growth, COUNT_OF(pieces), of_pieces); /* the sizes share the place of the code */
    return row + 1;
}

void set_journal_rows(void)
{
    struct row *row = journal_rows;
    for (size_t k = 0; k < COUNT_OF(kinds); k++)
        for (size_t l = 0; l < COUNT_OF(lengths); l++)
            row = set_row(row, k, 0, lengths[l]);
    for (size_t s = 1; s < COUNT_OF(sizes); s++)
        for (size_t k = 0; k < COUNT_OF(kinds); k++)
            row = set_row(row, k, s, LENGTH_IN_LONG_TEXTS);
    for (size_t k = 0; k < COUNT_OF(kinds); k++)
        row = set_replay_row(row, k);
}

/* The tables. */

/* All entries of the journals of a row's text in pieces. */
static size_t entries_of(const struct row *row, int size)
{
    size_t sum = 0;
    make(&row->input);
    write_pieces(size);
    for (size_t i = 0; i < LONGEST_PIECE / pieces[size].n; i++)
        sum += entries[i];
    return sum;
}

/* By pairs, as for the searches: all sizes run the same code. */
static double growth_of(const struct row *row)
{
    const double times = row->trial[GROWTH].times[LONGEST].ratios[PAIRS];
    return times * (double)entries_of(row, SHORTEST) / (double)entries_of(row, LONGEST);
}

static void print_growths(void)
{
    puts("| work        | text, pattern         | m   | entries  | 64 KiB | 512 KiB |  4 MiB | growth |\n"
         "|-------------|-----------------------|----:|---------:|-------:|--------:|-------:|-------:|");
    for (const struct row *row = replay_rows; row < replay_rows + COUNT_OF(kinds); row++) {
        const struct trial *trial = &row->trial[GROWTH];
        printf("| %-11s | %-21s | %3zu | %8zu |", trial->work->name, name_of(row), row->input.m, entries_of(row, LONGEST));
        for (int size = 0; size <= LONGEST; size++)
            printf(" %*.3f |", size == 1 ? 7 : 6, trial->times[size].least * 1e9 / (double)entries_of(row, size));
        printf(" %6.3f |\n", growth_of(row));
    }
}

void print_journals(void)
{
    puts("\n## Journals\n\n"
         "The search in Colussi's order that writes a journal, beside the same in plain C by the same rules, as in the ratios above. The\n"
         "journal has (3n - m) / 2 entries, and the cap is as great. The C checks no pattern.\n");
    print_head_of_ratios("C", "ours");
    print_trial("mean", "", journal_rows, TEXTS, JOURNALED);
    puts("\nThe replay of the journals, beside C that follows them twice: first only to see whether they are true, and then to write\n"
         "the list. In nanoseconds a byte of the text, which is not there.\n");
    print_head_of_ratios("C", "ours");
    print_trial("mean", "", replay_rows, COUNT_OF(kinds), REPLAY);
    puts("\nThe replay's time per entry in nanoseconds, the least, over the journals of the same 4 MiB of text in pieces of each size, one\n"
         "after the other. The growth is the time per entry at 4 MiB to that at 64 KiB, by pairs.\n");
    print_growths();
}

/* The verdicts. */

static void judge_growths(void)
{
    const struct row *worst = replay_rows;
    size_t missed = 0;
    for (const struct row *row = replay_rows; row < replay_rows + COUNT_OF(kinds); row++) {
        missed += growth_of(row) > GREATEST_GROWTH;
        if (growth_of(row) > growth_of(worst))
            worst = row;
    }
    printf("- %s: replay linear in the journal: time per entry at 4 MiB at most 1.25 times that at 64 KiB; most %.3f (%s), missed on "
           "%zu of %zu rows\n",
           word(missed == 0), growth_of(worst), name_of(worst), missed, COUNT_OF(kinds));
}

void judge_journals(void)
{
    struct range journaled = {NULL, NULL, 0, 0}, replay = {NULL, NULL, 0, 0};
    for (const struct row *row = journal_rows; row < journal_rows + TEXTS; row++)
        into_range(&journaled, row, JOURNALED, LEAST_RATIO);
    judge_range("C", "journaled at 0.95 of the C or better", &journaled, JOURNALED);
    judge_growths();
    for (const struct row *row = replay_rows; row < replay_rows + COUNT_OF(kinds); row++)
        into_range(&replay, row, REPLAY, LEAST_RATIO);
    printf("- beside the C, without a target: replay at %.3f to %.3f, below 0.95 on %zu of %zu rows\n", ratio_of(replay.least, REPLAY),
           ratio_of(replay.greatest, REPLAY), replay.missed, replay.rows);
}
