#include "archive.h"

#include <emmintrin.h>
#include <stdio.h>
#include <string.h>

/* The target, in seconds, on every row with the most records. */
#define LONGEST_DIRECTORY 20e-6

/* The archives. All records of one have the same length: with 4,000 bytes the most records just fit into the longest archive. */

#define MOST_RECORDS POQEWAN_MOST_RECORDS
#define RECORD_WITH_FLUTTERS 6 /* of the kinds */

static const struct size of_4000 = {"4,000 B", 4000}, empty = {"empty", 0};
static const struct shape {
    uint64_t records;
    const struct size *size;
} shapes[] = {{1, &of_4000}, {64, &of_4000}, {MOST_RECORDS, &of_4000}, {MOST_RECORDS, &empty}};
static struct archive archives[COUNT_OF(shapes)];

static uint8_t *put(uint8_t *at, size_t number)
{
    for (int i = 0; i < 4; i++)
        *at++ = (uint8_t)(number >> 8 * i);
    return at;
}

static void make_archive(struct archive *archive, const struct shape *shape, const struct input *input)
{
    uint8_t classes[POQEWAN_CLASSES], bytes[POQEWAN_LONGEST_PATTERN];
    const size_t n = shape->size->n, directory = n * shape->records, len = directory + 8 * shape->records + 12;
    *archive = (struct archive){touched(len), len, shape->records, directory};
    make_input(input->kind, classes, bytes, input->m, archive->bytes, directory, input->number);
    uint8_t *at = archive->bytes + directory;
    for (uint64_t record = 0; record < shape->records; record++)
        at = put(put(at, n * record), n);
    at = put(put(at, directory), shape->records);
    memcpy(at, "REEL", 4);
}

/* The works. In a run the same call is made many times, for one of an archive with one record is too short for the clock; but only
   once where the directory is out of the cache before. */

enum { COLUSSI_RECORD, KMP_RECORD, DIRECTORY };
enum { IN_ARCHIVE, ALONE, BOTH };
#define CALLS 16

static void repeat(search_function *search, int calls)
{
    for (int i = 0; i < calls; i++)
        search(subjects[0].prepared[OURS], &subjects[0], UINT64_MAX, lists.one, subjects[0].n, NULL);
}

static search_function *colussi_of(int variant, int copy)
{
    return variant == IN_ARCHIVE ? versions[OURS][copy]->colussi_record : versions[OURS][copy]->colussi;
}

static search_function *kmp_of(int variant, int copy)
{
    return variant == IN_ARCHIVE ? versions[OURS][copy]->kmp_record : versions[OURS][copy]->kmp;
}

static void run_colussi(int variant, int copy)
{
    repeat(colussi_of(variant, copy), CALLS);
}

static void run_kmp(int variant, int copy)
{
    repeat(kmp_of(variant, copy), CALLS);
}

static void run_colussi_once(int variant, int copy)
{
    repeat(colussi_of(variant, copy), 1);
}

static void run_kmp_once(int variant, int copy)
{
    repeat(kmp_of(variant, copy), 1);
}

static void run_directory(int variant, int copy)
{
    (void)variant;
    for (int i = 0; i < CALLS; i++)
        versions[OURS][copy]->read_directory(subjects[0].archive);
}

/* All lines of the directory and the trailer leave the cache. */
static void flush_directory(int variant)
{
    const struct archive *archive = subjects[0].archive;
    (void)variant;
    for (size_t at = archive->directory; at < archive->len; at += 64)
        _mm_clflush(archive->bytes + at);
    _mm_clflush(archive->bytes + archive->len - 1);
    _mm_mfence();
}

/* The rows. One that asks for a record that is not there has an empty text for the search alone, which is then the check of the
   pattern. */

enum record { FIRST, MIDDLE, LAST, NONE };
static const char *const names[] = {"first", "middle", "last", "none"};

static const struct asked {
    size_t shape;
    enum record record;
    bool flushed;
} asked[IN_ARCHIVES] = {
    {0, FIRST, false}, {0, NONE, false},
    {1, FIRST, false}, {1, MIDDLE, false}, {1, LAST, false}, {1, NONE, false},
    {2, FIRST, false}, {2, MIDDLE, false}, {2, LAST, false}, {2, NONE, false}, {2, LAST, true},
    {3, FIRST, false}, {3, MIDDLE, false}, {3, LAST, false}, {3, NONE, false}, {3, LAST, true},
};

static const struct asked *asked_of(const struct row *row)
{
    return &asked[row - archive_rows];
}

static uint64_t number_of(enum record record, uint64_t records)
{
    const uint64_t numbers[] = {0, records / 2, records - 1, records};
    return numbers[record];
}

static void set_row(struct row *row)
{
    static const struct work colussi = {"Colussi", run_colussi, NULL}, kmp = {"KMP", run_kmp, NULL};
    static const struct work colussi_once = {"Colussi", run_colussi_once, flush_directory};
    static const struct work kmp_once = {"KMP", run_kmp_once, flush_directory};
    static const struct work directory = {"directory", run_directory, NULL};
    static const struct share share = {2, 2, COPIES, wall_time, 0};
    const struct asked *of = asked_of(row);
    const struct shape *shape = &shapes[of->shape];
    row->input = (struct input){.kind = &kinds[RECORD_WITH_FLUTTERS],
                                .size = of->record == NONE ? &empty : shape->size,
                                .m = LENGTH_IN_LONG_TEXTS,
                                .number = LENGTH_IN_LONG_TEXTS,
                                .archive = &archives[of->shape],
                                .record = number_of(of->record, shape->records)};
    if (archives[of->shape].bytes == NULL)
        make_archive(&archives[of->shape], shape, &row->input);
    add_trial(row, of->flushed ? &colussi_once : &colussi, BOTH, share);
    add_trial(row, of->flushed ? &kmp_once : &kmp, BOTH, share);
    if (of->record == FIRST)
        add_trial(row, &directory, 1, share);
}

void set_archive_rows(void)
{
    for (struct row *row = archive_rows; row < archive_rows + IN_ARCHIVES; row++)
        set_row(row);
}

/* The table. */

/* Of a call, in seconds. */
static double time_of(const struct row *row, int trial, int variant)
{
    return row->trial[trial].times[variant].tenth / (asked_of(row)->flushed ? 1 : CALLS);
}

static double cost_of(const struct row *row, int trial)
{
    return time_of(row, trial, IN_ARCHIVE) - time_of(row, trial, ALONE);
}

static const char *name_asked(const struct asked *of)
{
    return of->flushed ? "last, flushed" : names[of->record];
}

void print_archives(void)
{
    puts("\n## Records of archives\n\n"
         "The search of one record of an archive, beside the search of its bytes alone, in nanoseconds a call, by the tenth. Both\n"
         "check the pattern once, so that what the first takes longer is the cost of the directory. The records are pieces of a\n"
         "record with flutters, and m = 16. If the record that is asked for is not there, the search alone is that of an empty\n"
         "text. \"Flushed\" is a directory that is in no cache before the call. The last column is the reading of the directory\n"
         "by itself.\n\n"
         "| records | each    | asked for       | Colussi  | alone    | directory | KMP      | alone    | directory | reading  |\n"
         "|--------:|---------|-----------------|---------:|---------:|----------:|---------:|---------:|----------:|---------:|");
    for (const struct row *row = archive_rows; row < archive_rows + IN_ARCHIVES; row++) {
        const struct asked *of = asked_of(row);
        printf("| %7d | %-7s | %-15s |", (int)shapes[of->shape].records, shapes[of->shape].size->name, name_asked(of));
        for (int trial = COLUSSI_RECORD; trial <= KMP_RECORD; trial++)
            printf(" %8.0f | %8.0f | %9.0f |", time_of(row, trial, IN_ARCHIVE) * 1e9, time_of(row, trial, ALONE) * 1e9,
                   cost_of(row, trial) * 1e9);
        if (row->trials > DIRECTORY)
            printf(" %8.0f |\n", time_of(row, DIRECTORY, 0) * 1e9);
        else
            printf(" %8s |\n", "");
    }
}

/* The verdict. */

void judge_archives(void)
{
    const struct row *worst = NULL;
    int by = COLUSSI_RECORD;
    size_t judged = 0, missed = 0;
    for (const struct row *row = archive_rows; row < archive_rows + IN_ARCHIVES; row++)
        for (int trial = COLUSSI_RECORD; trial <= KMP_RECORD && row->input.archive->records == MOST_RECORDS; trial++) {
            judged++;
            missed += cost_of(row, trial) >= LONGEST_DIRECTORY;
            if (worst == NULL || cost_of(row, trial) > cost_of(worst, by)) {
                worst = row;
                by = trial;
            }
        }
    const struct asked *of = asked_of(worst);
    printf("- %s: directory of 4,096 records under 20 microseconds; most %.0f ns (%s, records: %s, asked for: %s), missed on "
           "%zu of %zu rows\n",
           word(missed == 0), cost_of(worst, by) * 1e9, worst->trial[by].work->name, shapes[of->shape].size->name,
           name_asked(of), missed, judged);
}
