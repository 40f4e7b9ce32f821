#include "rows.h"

#include <stdio.h>
#include <stdlib.h>
#include <string.h>

#define EXTERN(side) side##_0, side##_16, side##_32, side##_48, side##_64, side##_80, side##_96, side##_112
#define COPIES_OF(side) {&side##_0, &side##_16, &side##_32, &side##_48, &side##_64, &side##_80, &side##_96, &side##_112}
extern const struct version EXTERN(ours), EXTERN(other);
const struct version *const versions[SIDES][COPIES] = {COPIES_OF(ours), COPIES_OF(other)};

/* Inputs. */

struct subject subjects[IN_TURN];
size_t subjects_made;
struct lists lists;
struct order orders[ORDERS];
uint8_t *text_made;
static uint8_t *stores[SIDES]; /* with a prepared pattern for each subject */

void *touched(size_t bytes)
{
    void *memory = malloc(bytes);
    if (memory == NULL) {
        fputs("bench: no memory\n", stderr);
        exit(1);
    }
    return memset(memory, 1, bytes);
}

static size_t length_of_text(const struct input *input)
{
    if (input->kind != NULL)
        return input->size->n;
    return input->first ? input->m : 0;
}

static const uint8_t *record_of(const struct input *input)
{
    return input->archive->bytes + input->size->n * input->record;
}

static bool without_occurrence(const struct input *input)
{
    return input->kind != NULL && input->first;
}

/* What a search of ours reports of the text of the first subject, with the positions in the first list. */
static struct report report_by(search_function *search)
{
    struct report report;
    search(subjects[0].prepared[OURS], &subjects[0], UINT64_MAX, lists.one, subjects[0].n, &report);
    return report;
}

/* A side that prepares nothing itself is given the tables of ours. */
static void prepare(const struct subject *subject, enum side side)
{
    uint16_t scratch[LENT_SCRATCH];
    const struct version *version = versions[side][0];
    if (version->prepare == NULL) {
        versions[OURS][0]->copy_tables(subject->prepared[OURS], subject->prepared[side]);
        return;
    }
    const uint32_t refusal = version->prepare(subject, scratch, LENT_SCRATCH, subject->prepared[side]);
    if (refusal != 0) {
        fprintf(stderr, "bench: a pattern is refused with %u\n", (unsigned)refusal);
        exit(1);
    }
}

/* In the generator's turn after the text. */
static void make_orders(const struct input *input)
{
    static order_maker *const makers[ORDERS] = {
        [ASCENDING] = ascending_order,     [DESCENDING] = descending_order, [OF_COLUSSI] = own_order, [DRAWN] = random_order,
        [INTERLEAVED] = interleaved_order, [DRAWN_2] = random_order,        [DRAWN_3] = random_order,
    };
    struct tables tables;
    versions[OURS][0]->copy_tables(subjects[0].prepared[OURS], &tables);
    for (size_t o = 0; o < input->orders; o++) {
        makers[o](tables.order, input->m, orders[o].places);
        if (input->kind != NULL)
            versions[OTHER][0]->fill_shifts(subjects[0].prepared[OTHER], &orders[o]);
    }
}

/* The journal lies so far from where the list lies in its page. If both grow side by side at the same place of a page, any search that
   writes them takes twice the time or more, in one run of the program and not in the next, as the system places the pages. */
#define HALF_PAGE 2048

void make(const struct input *input)
{
    static uint8_t bytes[IN_TURN][POQEWAN_LONGEST_PATTERN], classes[POQEWAN_CLASSES];
    const size_t most = most_entries(&(struct subject){.m = 1, .n = POQEWAN_LONGEST_TEXT});
    if (text_made == NULL) {
        text_made = touched(POQEWAN_LONGEST_TEXT);
        lists.one = touched(POQEWAN_LONGEST_TEXT * sizeof *lists.one);
        lists.other = touched(POQEWAN_LONGEST_TEXT * sizeof *lists.other);
        lists.lengths = touched(POQEWAN_LONGEST_TEXT * sizeof *lists.lengths);
        lists.other_lengths = touched(POQEWAN_LONGEST_TEXT * sizeof *lists.other_lengths);
        lists.journal = (uint32_t *)touched(HALF_PAGE + most * sizeof *lists.journal) + HALF_PAGE / sizeof *lists.journal;
        lists.other_journal = touched(most * sizeof *lists.other_journal);
        for (enum side side = 0; side < SIDES; side++)
            stores[side] = touched(IN_TURN * versions[side][0]->size);
    }
    subjects_made = input->kind != NULL || input->orders > 0 ? 1 : IN_TURN;
    if (input->kind != NULL) {
        const size_t n = input->archive != NULL ? 0 : input->size->n; /* an archive is there already */
        make_input(input->kind, classes, bytes[0], input->m, text_made, n, input->number);
    } else {
        identity(classes);
        if (input->orders > 0)
            make_pattern(input->family, bytes[0], input->m, input->number);
        else
            make_in_turn(input->family, bytes, input->m);
    }
    for (size_t i = 0; i < subjects_made; i++) {
        const uint8_t *in = input->archive != NULL ? record_of(input) : input->kind != NULL ? text_made : bytes[i];
        subjects[i] = (struct subject){
            bytes[i], input->m, classes, in, length_of_text(input), {NULL}, input->archive, input->record, NULL, NULL};
        for (enum side side = 0; side < SIDES; side++) {
            subjects[i].prepared[side] = stores[side] + i * versions[side][0]->size;
            prepare(&subjects[i], side);
        }
    }
    if (without_occurrence(input)) /* by KMP, which is not measured on it: the branch predictor knows what has just run */
        break_occurrences(text_made, lists.one, report_by(versions[OURS][0]->kmp).written, input->m);
    if (input->orders > 0)
        make_orders(input);
    if (input->correction != NULL)
        input->correction->ready(input);
}

uint64_t count_by(search_function *search)
{
    return report_by(search).count;
}

/* The works of both sides. */

static void run_colussi(int side, int copy)
{
    versions[side][copy]->colussi(subjects[0].prepared[side], &subjects[0], UINT64_MAX, lists.one, subjects[0].n, NULL);
}

static void run_kmp(int side, int copy)
{
    versions[side][copy]->kmp(subjects[0].prepared[side], &subjects[0], UINT64_MAX, lists.one, subjects[0].n, NULL);
}

static void run_preparation(int side, int copy)
{
    uint16_t scratch[LENT_SCRATCH];
    for (size_t i = 0; i < IN_TURN; i++)
        versions[side][copy]->prepare(&subjects[i], scratch, LENT_SCRATCH, NULL);
}

/* The search of an empty text does nothing else. */
static void run_check(int side, int copy)
{
    for (size_t i = 0; i < IN_TURN; i++)
        versions[side][copy]->colussi(subjects[i].prepared[side], &subjects[i], 0, NULL, 0, NULL);
}

void read_prepared(int side)
{
    const volatile uint8_t *store = stores[side];
    for (size_t at = 0; at < subjects_made * versions[side][0]->size; at += 64)
        (void)store[at];
}

static const struct work colussi = {"Colussi", run_colussi, read_prepared}, kmp = {"KMP", run_kmp, read_prepared};
static const struct work preparation = {"preparation", run_preparation, NULL}, check = {"check", run_check, read_prepared};

/* The rows. */

struct row rows[ROWS];
struct row *const longest_texts = rows + TEXTS - COUNT_OF(kinds), *const first_rows = rows + TEXTS + PATTERNS;
struct row *const archive_rows = rows + TEXTS + PATTERNS + FIRSTS;
struct row *const length_rows = rows + TEXTS + PATTERNS + FIRSTS + IN_ARCHIVES;
struct row *const journal_rows = rows + TEXTS + PATTERNS + FIRSTS + IN_ARCHIVES + FOR_LENGTHS;
struct row *const correct_rows = rows + TEXTS + PATTERNS + FIRSTS + IN_ARCHIVES + FOR_LENGTHS + FOR_JOURNALS;
struct row *const ordered_rows = rows + ROWS - FOR_ORDERS;

void add_trial(struct row *row, const struct work *work, int variants, struct share share)
{
    struct trial *trial = &row->trial[row->trials++];
    trial->work = work;
    trial->variants = variants;
    trial->share = share;
}

static void set_text_row(struct row *row, size_t kind, size_t size, size_t m)
{
    static const struct share shares[COUNT_OF(sizes)] = {
        {1, 2, COPIES, wall_time, 0}, {1, 1, COPIES, thread_time, 0}, {8, 1, COPIES / 2, thread_time, 0}};
    row->input = (struct input){.kind = &kinds[kind], .size = &sizes[size], .m = m, .number = m};
    if (kinds[kind].classes != identity && !(versions[OURS][0]->has_classes && versions[OTHER][0]->has_classes))
        return;
    add_trial(row, &colussi, SIDES, shares[size]);
    add_trial(row, &kmp, SIDES, shares[size]);
}

static void set_patterns_row(struct row *row, size_t family, size_t m)
{
    static const struct share share = {4, 3, COPIES, wall_time, 0};
    const int sides = versions[OTHER][0]->prepare != NULL ? SIDES : 1;
    row->input = (struct input){.family = &families[family], .m = m};
    add_trial(row, &preparation, sides, share);
    add_trial(row, &check, sides, share);
}

void set_rows(void)
{
    struct row *row = rows;
    for (size_t k = 0; k < COUNT_OF(kinds); k++)
        for (size_t l = 0; l < COUNT_OF(lengths); l++)
            set_text_row(row++, k, 0, lengths[l]);
    for (size_t s = 1; s < COUNT_OF(sizes); s++)
        for (size_t k = 0; k < COUNT_OF(kinds); k++)
            set_text_row(row++, k, s, LENGTH_IN_LONG_TEXTS);
    for (size_t f = 0; f < COUNT_OF(families); f++)
        for (size_t l = 0; l < COUNT_OF(lengths_of_patterns); l++)
            set_patterns_row(row++, f, lengths_of_patterns[l]);
}

const char *name_of(const struct row *row)
{
    return row->input.kind != NULL ? row->input.kind->name : row->input.family->name;
}

const char *size_name_of(const struct row *row)
{
    return row->input.kind != NULL ? row->input.size->name : "";
}

double nanoseconds_of(const struct row *row, double seconds)
{
    if (row->input.correction != NULL)
        return seconds * 1e9 / (double)row->input.correction->calls;
    return seconds * 1e9 / (row->input.kind != NULL ? (double)row->input.size->n : IN_TURN);
}

/* The check that comes before. */

bool sides_agree(const struct subject *subject)
{
    return versions_agree(versions[OURS][0], versions[OTHER][0], subject, lists);
}

static bool agree_in_orders(size_t count)
{
    struct subject subject = subjects[0];
    for (size_t o = 0; o < count; o++) {
        subject.order = &orders[o];
        if (!orders_agree(versions[OURS][0], versions[OTHER][0], &subject, lists))
            return false;
    }
    return true;
}

static bool agree_on_row(const struct row *row, bool (*agree)(const struct subject *subject))
{
    make(&row->input);
    if (without_occurrence(&row->input) && report_by(versions[OURS][0]->colussi).written > 0)
        return false;
    if (row->input.lengths)
        return lengths_agree(versions[OURS][0], versions[OTHER][0], &subjects[0], lists);
    if (row->input.journal)
        return journals_agree(versions[OURS][0], versions[OTHER][0], &subjects[0], lists);
    if (row->input.correction != NULL)
        return row->input.correction->agree();
    if (row->input.orders > 0)
        return agree_in_orders(row->input.orders);
    for (size_t i = 0; i < subjects_made; i++)
        if (!agree(&subjects[i]))
            return false;
    return true;
}

bool agree_on_rows(bool (*agree)(const struct subject *subject))
{
    bool agreed = true;
    for (const struct row *row = rows; row < rows + ROWS; row++)
        if (row->trials > 0 && !agree_on_row(row, agree)) {
            printf("DIFFERS: %s, %s, m = %zu%s\n", name_of(row), row->input.kind != NULL ? size_name_of(row) : "no text",
                   row->input.m,
                   row->input.first             ? ", for the first occurrence"
                   : row->input.archive != NULL ? ", in an archive"
                   : row->input.lengths         ? ", for prefix lengths"
                   : row->input.journal         ? ", for journals"
                   : row->input.correction      ? ", for corrections"
                   : row->input.orders > 0      ? ", in custom orders"
                                                : "");
            agreed = false;
        }
    return agreed;
}

/* The measurements. */

static void measure(struct row *row, int round)
{
    bool made = false;
    for (struct trial *trial = row->trial; trial < row->trial + row->trials; trial++)
        if (has_round(trial, round)) {
            if (!made)
                make(&row->input);
            made = true;
            take_turns(trial, round);
        }
}

void measure_rows(void)
{
    for (int round = 0; round < ROUNDS; round++)
        for (struct row *row = rows; row < rows + ROWS; row++)
            measure(row, round);
    for (struct row *row = rows; row < rows + ROWS; row++)
        for (int t = 0; t < row->trials; t++)
            summarise(&row->trial[t]);
}

/* The table. */

void print_head_of_ratios(const char *other, const char *ours)
{
    printf("| work        | text, pattern         | n      | m   | %-8s | %-8s | least | tenth | pairs |\n"
           "|-------------|-----------------------|-------:|----:|---------:|---------:|------:|------:|------:|\n",
           other, ours);
}

void print_row(const struct row *row, const struct trial *trial)
{
    const double *ratios = trial->times[OTHER].ratios;
    printf("| %-11s | %-21s | %6s | %3zu | %8.3f | %8.3f | %5.3f | %5.3f | %5.3f |", trial->work->name, name_of(row),
           size_name_of(row), row->input.m, nanoseconds_of(row, trial->times[OTHER].least),
           nanoseconds_of(row, trial->times[OURS].least), ratios[LEAST], ratios[TENTH], ratios[PAIRS]);
}

void print_trial(const char *mean, const char *size, const struct row *from, size_t count, int trial)
{
    double means[RATIOS] = {1, 1, 1};
    for (const struct row *row = from; row < from + count; row++) {
        print_row(row, &row->trial[trial]);
        putchar('\n');
        for (enum ratio ratio = 0; ratio < RATIOS; ratio++)
            into_mean(&means[ratio], row->trial[trial].times[OTHER].ratios[ratio], count);
    }
    printf("| %-11s | %-21s | %6s |     |          |          | %5.3f | %5.3f | %5.3f |\n", from->trial[trial].work->name, mean, size,
           means[LEAST], means[TENTH], means[PAIRS]);
}

void print_ratios(const char *mean, const struct row *from, size_t count)
{
    for (int t = 0; t < 2; t++)
        print_trial(mean, size_name_of(from), from, count, t);
}

/* The texts of one size, with so many rows of each kind. */
static void print_ratios_of_size(const struct row *from, size_t of_each)
{
    const struct row *with_classes = from + PLAIN_KINDS * of_each;
    print_ratios("mean", from, PLAIN_KINDS * of_each);
    if (with_classes->trials > 0)
        print_ratios("mean, 16 classes", with_classes, (COUNT_OF(kinds) - PLAIN_KINDS) * of_each);
}

void print_text_ratios(void)
{
    print_ratios_of_size(rows, COUNT_OF(lengths));
    for (const struct row *of_size = rows + SHORT_TEXTS; of_size < rows + TEXTS; of_size += COUNT_OF(kinds))
        print_ratios_of_size(of_size, 1);
}
