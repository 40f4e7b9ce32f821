/* The library's functions in the form in which they are measured. It is compiled with the header of each build: those from before
   C-19 know no classes, those from before C-16 report no columns, those from before C-12 have no search for the first
   occurrence, those from before C-11 have no archives, those from before C-14 have no prefix lengths, those from before C-20 have
   no custom orders, those from before C-21 have no journals, and those from before C-22 have no corrections. C can't ask whether a
   struct has a field, or whether there is a function, so `run` looks into the header and sets HAS_COLUMNS, HAS_FIRST, HAS_ARCHIVES,
   HAS_LENGTHS, HAS_ORDERED, HAS_JOURNAL and HAS_CORRECT to 1 or 0. */
#include "subject.h"

#include <poqewan.h>
#include <string.h>

#ifdef POQEWAN_CLASSES
#define CLASSES_OF(subject) (subject)->classes, CLASSES,
#define HAS_CLASSES true
_Static_assert(POQEWAN_CLASSES == CLASSES, "another number of classes");
#else
#define CLASSES_OF(subject)
#define HAS_CLASSES false
#endif
#if HAS_COLUMNS
#define COLUMNS_OF(report) (report)->at_noholes, (report)->at_holes,
#else
#define COLUMNS_OF(report) 0, 0,
#endif
_Static_assert(POQEWAN_LONGEST_PATTERN == LONGEST_PATTERN, "another longest pattern");

static struct report plain(const poqewan_report *report)
{
    return (struct report){report->refusal, report->ending, report->window, report->count, COLUMNS_OF(report) report->written};
}

/* The pattern is passed by value, as the library's callers do: the copy is a part of the call. */

static void colussi(const void *prepared, const struct subject *subject, uint64_t cap, uint32_t *positions, size_t room,
                    struct report *report)
{
    const poqewan_report answer =
        poqewan_colussi(*(const poqewan_pattern *)prepared, subject->text, subject->n, cap, positions, room);
    give(report, plain(&answer));
}

static void kmp(const void *prepared, const struct subject *subject, uint64_t cap, uint32_t *positions, size_t room,
                struct report *report)
{
    const poqewan_report answer =
        poqewan_kmp(*(const poqewan_pattern *)prepared, subject->text, subject->n, cap, positions, room);
    give(report, plain(&answer));
}

#if HAS_FIRST
static void first(const void *prepared, const struct subject *subject, struct first *first)
{
    const poqewan_first answer = poqewan_find_first(*(const poqewan_pattern *)prepared, subject->text, subject->n);
    if (first != NULL)
        *first = (struct first){answer.refusal, answer.found, answer.position, answer.count};
}
#else
#define first NULL
#endif

#if HAS_LENGTHS
static struct prefix_lengths prefix_lengths(const void *prepared, const struct subject *subject, uint16_t *lengths, size_t room)
{
    const poqewan_lengths answer =
        poqewan_prefix_lengths(*(const poqewan_pattern *)prepared, subject->text, subject->n, lengths, room);
    return (struct prefix_lengths){answer.refusal, answer.count};
}
#else
#define prefix_lengths NULL
#endif

#if HAS_ORDERED
static void ordered(const void *prepared, const struct subject *subject, uint64_t cap, uint32_t *positions, size_t room,
                    struct report *report)
{
    const poqewan_report answer = poqewan_ordered(*(const poqewan_pattern *)prepared, subject->order->places, subject->m,
                                                  subject->text, subject->n, cap, positions, room);
    give(report, plain(&answer));
}
#else
#define ordered NULL
#endif

#if HAS_JOURNAL
static void journaled(const void *prepared, const struct subject *subject, uint64_t cap, uint32_t *positions, size_t room,
                      struct report *report)
{
    const struct journal *journal = subject->journal;
    const poqewan_report answer = poqewan_journaled(*(const poqewan_pattern *)prepared, subject->text, subject->n,
                                                    cap_of(journal, cap), positions, room, journal->entries, journal->len);
    give(report, plain(&answer));
}

static void replay(const void *prepared, const struct subject *subject, uint64_t cap, uint32_t *positions, size_t room,
                   struct report *report)
{
    const struct journal *journal = subject->journal;
    (void)cap;
    const poqewan_report answer = poqewan_replay(*(const poqewan_pattern *)prepared, subject->n, positions, room, journal->entries,
                                                 journal->len);
    give(report, plain(&answer));
}
#else
#define journaled NULL
#define replay NULL
#endif

#if HAS_CORRECT
static struct update correct(const void *prepared, const struct subject *subject, size_t place, uint32_t *positions, size_t room,
                             size_t used)
{
    const poqewan_update answer =
        poqewan_correct(*(const poqewan_pattern *)prepared, subject->text, subject->n, place, positions, room, used);
    return (struct update){answer.refusal, answer.used};
}
#else
#define correct NULL
#endif

#if HAS_ARCHIVES
static void colussi_record(const void *prepared, const struct subject *subject, uint64_t cap, uint32_t *positions, size_t room,
                           struct report *report)
{
    const struct archive *archive = subject->archive;
    const poqewan_report answer = poqewan_colussi_record(*(const poqewan_pattern *)prepared, archive->bytes, archive->len,
                                                         subject->record, cap, positions, room);
    give(report, plain(&answer));
}

static void kmp_record(const void *prepared, const struct subject *subject, uint64_t cap, uint32_t *positions, size_t room,
                       struct report *report)
{
    const struct archive *archive = subject->archive;
    const poqewan_report answer = poqewan_kmp_record(*(const poqewan_pattern *)prepared, archive->bytes, archive->len,
                                                     subject->record, cap, positions, room);
    give(report, plain(&answer));
}

static uint32_t read_directory(const struct archive *archive)
{
    return poqewan_read_directory(archive->bytes, archive->len).refusal;
}
#else
#define colussi_record NULL
#define kmp_record NULL
#define read_directory NULL
#endif

static uint32_t prepare(const struct subject *subject, uint16_t *scratch, size_t scratch_len, void *prepared)
{
    const poqewan_preparation preparation =
        poqewan_prepare(subject->bytes, subject->m, CLASSES_OF(subject) scratch, scratch_len);
    if (prepared != NULL)
        *(poqewan_pattern *)prepared = preparation.pattern;
    return preparation.refusal;
}

static void copy_classes(const poqewan_pattern *pattern, uint8_t classes[CLASSES])
{
#ifdef POQEWAN_CLASSES
    memcpy(classes, pattern->classes, CLASSES);
#else
    (void)pattern;
    for (size_t value = 0; value < CLASSES; value++)
        classes[value] = (uint8_t)value;
#endif
}

static void copy_tables(const void *prepared, struct tables *tables)
{
    const poqewan_pattern *pattern = prepared;
    tables->len = pattern->len;
    tables->noholes = pattern->noholes;
    copy_classes(pattern, tables->classes);
    memcpy(tables->bytes, pattern->bytes, sizeof tables->bytes);
    memcpy(tables->order, pattern->order, sizeof tables->order);
    memcpy(tables->shift, pattern->shift, sizeof tables->shift);
    memcpy(tables->next, pattern->next, sizeof tables->next);
    memcpy(tables->marks, pattern->marks, sizeof tables->marks);
}

const struct version version = {colussi,
                                kmp,
                                first,
                                prefix_lengths,
                                NULL,
                                ordered,
                                NULL,
                                journaled,
                                replay,
                                correct,
                                colussi_record,
                                kmp_record,
                                read_directory,
                                sizeof(poqewan_pattern),
                                HAS_CLASSES,
                                HAS_COLUMNS,
                                prepare,
                                copy_tables,
                                poqewan_charge};
