#include "agreement.h"

#include <poqewan.h>
#include <string.h>

static bool same_columns(const struct report *a, const struct report *b)
{
    return a->at_noholes == b->at_noholes && a->at_holes == b->at_holes;
}

static bool same_report(const struct report *a, const struct report *b, bool columns)
{
    return a->refusal == b->refusal && a->ending == b->ending && a->window == b->window && a->count == b->count
        && a->written == b->written && (!columns || same_columns(a, b));
}

struct answers {
    struct report one, other;
    bool listed_alike;
};

/* The second list is spoilt before, so that positions which a search has left can't pass for those of the next. */
static struct answers ask(search_function *a, search_function *b, const struct subject *subject, uint64_t cap, size_t room,
                          struct lists lists)
{
    struct answers answers;
    a(subject->prepared[OURS], subject, cap, lists.one, room, &answers.one);
    const size_t bytes = answers.one.written * sizeof *lists.one;
    memset(lists.other, 0xff, bytes);
    b(subject->prepared[OTHER], subject, cap, lists.other, room, &answers.other);
    answers.listed_alike = answers.one.written == answers.other.written && memcmp(lists.one, lists.other, bytes) == 0;
    return answers;
}

static bool agree(search_function *a, search_function *b, bool columns, const struct subject *subject, uint64_t cap, size_t room,
                  struct lists lists)
{
    struct answers answers = ask(a, b, subject, cap, room, lists);
    return same_report(&answers.one, &answers.other, columns) && answers.listed_alike;
}

bool list_alike(search_function *a, search_function *b, const struct subject *subject, struct lists lists)
{
    return ask(a, b, subject, UINT64_MAX, subject->n, lists).listed_alike;
}

static bool searches_agree(search_function *a, search_function *b, bool columns, const struct subject *subject,
                           struct lists lists)
{
    struct report whole;
    a(subject->prepared[OURS], subject, UINT64_MAX, lists.one, subject->n, &whole);
    return agree(a, b, columns, subject, UINT64_MAX, subject->n, lists)
        && agree(a, b, columns, subject, whole.count / 2, subject->n, lists)
        && agree(a, b, columns, subject, UINT64_MAX, whole.written / 2, lists)
        && agree(a, b, columns, subject, UINT64_MAX, 0, lists);
}

/* By its own search in Colussi's order, with an empty list and with a whole one, in which the versions agree. */
static bool finds_first(const struct version *version, enum side side, const struct subject *subject, uint32_t *list)
{
    struct first first;
    struct report empty, whole;
    if (version->first == NULL)
        return true;
    version->first(subject->prepared[side], subject, &first);
    version->colussi(subject->prepared[side], subject, UINT64_MAX, NULL, 0, &empty);
    version->colussi(subject->prepared[side], subject, UINT64_MAX, list, subject->n, &whole);
    return first.refusal == empty.refusal && first.position == empty.window && first.count == empty.count
        && first.found == (empty.ending == POQEWAN_FULL) && first.found == (whole.written > 0)
        && (first.found == 0 || first.position == list[0]);
}

static bool tells_no_record(search_function *search, const struct subject *subject)
{
    const struct report expected = {.ending = POQEWAN_NO_SUCH_RECORD};
    struct report report;
    search(subject->prepared[OURS], subject, UINT64_MAX, NULL, 0, &report);
    return same_report(&report, &expected, true);
}

static bool searches_record(const struct version *a, const struct version *b, bool columns, const struct subject *subject,
                            struct lists lists)
{
    if (subject->archive == NULL)
        return true;
    if (a->read_directory(subject->archive) != 0)
        return false;
    if (subject->record >= subject->archive->records)
        return tells_no_record(a->colussi_record, subject) && tells_no_record(a->kmp_record, subject);
    return searches_agree(a->colussi_record, b->colussi, columns, subject, lists)
        && searches_agree(a->kmp_record, b->kmp, columns, subject, lists);
}

/* By Knuth, Morris and Pratt. */
static bool tell_occurrences(const uint16_t *lengths, const struct version *version, const struct subject *subject, uint32_t *list)
{
    struct report whole;
    size_t found = 0;
    version->kmp(subject->prepared[OURS], subject, UINT64_MAX, list, subject->n, &whole);
    for (size_t x = 0; x < subject->n; x++)
        if (lengths[x] == subject->m && (found == whole.written || list[found++] != x))
            return false;
    return found == whole.written;
}

/* Both lists are spoilt before, by different lengths. A function that is not there has nothing to tell. */
static bool give_lengths(lengths_function *a, lengths_function *b, const struct subject *subject, struct lists lists)
{
    const size_t n = subject->n, bytes = n * sizeof *lists.lengths;
    if (a == NULL || b == NULL)
        return true;
    memset(lists.lengths, 0xff, bytes);
    memset(lists.other_lengths, 0xfe, bytes);
    const struct prefix_lengths one = a(subject->prepared[OURS], subject, lists.lengths, n);
    const struct prefix_lengths other = b(subject->prepared[OTHER], subject, lists.other_lengths, n);
    return one.refusal == other.refusal && one.count == other.count && memcmp(lists.lengths, lists.other_lengths, bytes) == 0;
}

bool lengths_agree(const struct version *a, const struct version *b, const struct subject *subject, struct lists lists)
{
    if (a->prefix_lengths == NULL || b->prefix_lengths == NULL)
        return true;
    return give_lengths(a->prefix_lengths, b->tuned_lengths, subject, lists)
        && give_lengths(a->prefix_lengths, b->prefix_lengths, subject, lists) && tell_occurrences(lists.lengths, a, subject, lists.one);
}

bool orders_agree(const struct version *a, const struct version *b, const struct subject *subject, struct lists lists)
{
    if (a->ordered == NULL || b->ordered == NULL)
        return true;
    return searches_agree(a->ordered, b->ordered, a->has_columns && b->has_columns, subject, lists)
        && list_alike(a->ordered, b->colussi, subject, lists);
}

/* Both journals are spoilt before, differently. Those of a search with that cap must be the same up to its count, and spoilt past it.
   Gives the count in `len`. */
static bool write_alike(search_function *a, search_function *b, const struct subject *subject, uint64_t cap, struct lists lists,
                        size_t *len)
{
    const size_t most = most_entries(subject);
    const struct journal journals[SIDES] = {{lists.journal, most}, {lists.other_journal, most}};
    struct subject asked = *subject;
    struct report report;
    memset(lists.journal, 0xff, most * sizeof *lists.journal);
    memset(lists.other_journal, 0xfe, most * sizeof *lists.other_journal);
    asked.journal = &journals[OTHER];
    b(subject->prepared[OTHER], &asked, cap, lists.other, subject->n, &report);
    asked.journal = &journals[OURS];
    a(subject->prepared[OURS], &asked, cap, lists.one, subject->n, &report);
    *len = (size_t)report.count;
    for (size_t i = *len; i < most; i++)
        if (lists.journal[i] != UINT32_C(0xffffffff) || lists.other_journal[i] != UINT32_C(0xfefefefe))
            return false;
    return report.count <= most && memcmp(lists.journal, lists.other_journal, *len * sizeof *lists.journal) == 0;
}

bool journals_agree(const struct version *a, const struct version *b, const struct subject *subject, struct lists lists)
{
    if (a->journaled == NULL || b->journaled == NULL)
        return true;
    const bool columns = a->has_columns && b->has_columns;
    struct journal journal = {lists.journal, most_entries(subject)};
    struct subject asked = *subject;
    size_t half;
    asked.journal = &journal;
    return searches_agree(a->journaled, b->colussi, columns, &asked, lists)
        && searches_agree(a->journaled, b->journaled, columns, &asked, lists)
        && write_alike(a->journaled, b->journaled, subject, journal.len / 2, lists, &half)
        && write_alike(a->journaled, b->journaled, subject, UINT64_MAX, lists, &journal.len)
        && searches_agree(a->replay, b->replay, columns, &asked, lists)
        && agree(a->colussi, b->replay, columns, &asked, UINT64_MAX, subject->n, lists);
}

/* Corrects both lists, which are the same before, and must be so after, to the end of the room. */
static struct update correct_alike(const struct version *a, const struct version *b, const struct subject *subject, size_t place,
                                   size_t room, size_t used, struct lists lists, bool *alike)
{
    const struct update one = a->correct(subject->prepared[OURS], subject, place, lists.one, room, used);
    const struct update other = b->correct(subject->prepared[OTHER], subject, place, lists.other, room, used);
    *alike = *alike && one.refusal == other.refusal && one.used == other.used
        && memcmp(lists.one, lists.other, room * sizeof *lists.one) == 0;
    return one;
}

/* By our search, into the journal. */
static bool lists_all(const struct version *version, const struct subject *subject, size_t used, struct lists lists)
{
    struct report whole;
    version->colussi(subject->prepared[OURS], subject, UINT64_MAX, lists.journal, subject->n, &whole);
    return whole.written == used && memcmp(lists.one, lists.journal, used * sizeof *lists.one) == 0;
}

/* With no room beside the entries in use, and then with enough: the former is refused exactly if there must be more then. */
static bool corrected_alike(const struct version *a, const struct version *b, const struct subject *subject, size_t place, size_t room,
                            size_t *used, bool right, struct lists lists)
{
    bool alike = true;
    const struct update full = correct_alike(a, b, subject, place, *used, *used, lists, &alike);
    const struct update more = correct_alike(a, b, subject, place, room, full.refusal == 0 ? full.used : *used, lists, &alike);
    const bool grown = more.used > *used;
    *used = more.used;
    return alike && more.refusal == 0 && full.refusal == (grown ? POQEWAN_SHORT_LIST : 0) && (grown || full.used == more.used)
        && (!right || lists_all(a, subject, *used, lists));
}

bool corrections_agree(const struct version *a, const struct version *b, const struct subject *subject, uint8_t *text, size_t place,
                       uint8_t byte, size_t used, struct lists lists)
{
    if (a->correct == NULL || b->correct == NULL)
        return true;
    const bool right = lists_all(a, subject, used, lists);
    const size_t room = used + subject->m, before = used;
    const uint8_t bytes[] = {byte, text[place]};
    bool alike = true;
    memset(lists.one + used, 0xff, subject->m * sizeof *lists.one);
    memcpy(lists.other, lists.one, room * sizeof *lists.one);
    for (size_t i = 0; i < 2; i++) {
        text[place] = bytes[i];
        alike = corrected_alike(a, b, subject, place, room, &used, right, lists) && alike;
    }
    if (!alike || used != before)
        return false;
    const uint32_t entry = lists.one[used - 1];
    lists.one[used - 1] = lists.other[used - 1] = lists.one[used - 2];
    const bool refused = correct_alike(a, b, subject, place, room, used, lists, &alike).refusal == POQEWAN_FALSE_LIST
        && correct_alike(a, b, subject, place, used - 1, used, lists, &alike).refusal == POQEWAN_FALSE_LIST;
    lists.one[used - 1] = entry;
    return alike && refused;
}

/* Of two builds, which make their own shifts. In a longer text, windows that are compared afresh take too long. */
#define LONGEST_FOR_ORDERS 65536

static bool builds_agree_in_order(const struct version *a, const struct version *b, const struct subject *subject,
                                  struct lists lists)
{
    struct order descending;
    struct subject asked = *subject;
    if (subject->n == 0 || subject->n > LONGEST_FOR_ORDERS)
        return true;
    for (size_t i = 0; i < subject->m; i++)
        descending.places[i] = (uint8_t)(subject->m - 1 - i);
    asked.order = &descending;
    return orders_agree(a, b, &asked, lists);
}

static bool same_tables(const struct tables *a, const struct tables *b)
{
    return a->len == b->len && a->noholes == b->noholes && memcmp(a->bytes, b->bytes, sizeof a->bytes) == 0
        && memcmp(a->classes, b->classes, sizeof a->classes) == 0 && memcmp(a->order, b->order, sizeof a->order) == 0
        && memcmp(a->shift, b->shift, sizeof a->shift) == 0 && memcmp(a->next, b->next, sizeof a->next) == 0
        && memcmp(a->marks, b->marks, sizeof a->marks) == 0;
}

/* Both prepare the pattern anew, into the same stores. */
static bool prepare_alike(const struct version *a, const struct version *b, const struct subject *subject)
{
    uint16_t scratch[LENT_SCRATCH], other[LENT_SCRATCH];
    struct tables first, second;
    memset(scratch, 0xff, sizeof scratch);
    memset(other, 0xff, sizeof other);
    const uint32_t refusal = a->prepare(subject, scratch, LENT_SCRATCH, subject->prepared[OURS]);
    if (b->prepare(subject, other, LENT_SCRATCH, subject->prepared[OTHER]) != refusal)
        return false;
    a->copy_tables(subject->prepared[OURS], &first);
    b->copy_tables(subject->prepared[OTHER], &second);
    return same_tables(&first, &second) && memcmp(scratch, other, POQEWAN_SCRATCH * sizeof *scratch) == 0;
}

bool versions_agree(const struct version *a, const struct version *b, const struct subject *subject, struct lists lists)
{
    const bool columns = a->has_columns && b->has_columns;
    return searches_agree(a->colussi, b->colussi, columns, subject, lists)
        && searches_agree(a->kmp, b->kmp, columns, subject, lists)
        && finds_first(a, OURS, subject, lists.one) && finds_first(b, OTHER, subject, lists.other)
        && searches_record(a, b, columns, subject, lists) && lengths_agree(a, b, subject, lists)
        && (b->prepare == NULL
            || (prepare_alike(a, b, subject) && a->charge(subject->n) == b->charge(subject->n)
                && builds_agree_in_order(a, b, subject, lists) && journals_agree(a, b, subject, lists)));
}
