/*
 * The C interface as a C program uses it. Every buffer is a heap allocation of exactly the length that is lent, so that a
 * memory checker sees any step outside.
 *
 * With the argument "quick" it does less, for a checker under which it runs slowly. The last line is 'N checks, M failed'.
 */
#define _DEFAULT_SOURCE /* MAP_ANONYMOUS */
#include "poqewan.h"

#include <stdbool.h>
#include <stdio.h>
#include <stdlib.h>
#include <string.h>
#include <sys/mman.h>

/* The sizes, as the documents have them. */
_Static_assert(POQEWAN_LONGEST_PATTERN == 256, "the longest pattern");
_Static_assert(POQEWAN_LONGEST_TEXT == 16777216, "the longest text");
_Static_assert(POQEWAN_CLASSES == 256, "the number of classes");
_Static_assert(POQEWAN_SCRATCH == 514, "the least scratch");
_Static_assert(POQEWAN_MOST_RECORDS == 4096, "the most records");

/* The numbers of the refusals that the documents name. */
_Static_assert(POQEWAN_NO_PATTERN == 1, "no pattern");
_Static_assert(POQEWAN_LONG_PATTERN == 2, "long pattern");
_Static_assert(POQEWAN_SHORT_SCRATCH == 3, "short scratch");
_Static_assert(POQEWAN_FALSE_PATTERN == 4, "false pattern");
_Static_assert(POQEWAN_LONG_TEXT == 5, "long text");
_Static_assert(POQEWAN_NO_TRAILER == 7, "no trailer");
_Static_assert(POQEWAN_FALSE_DIRECTORY == 8, "false directory");
_Static_assert(POQEWAN_RECORDS_APART == 9, "records apart");
_Static_assert(POQEWAN_ZERO_IN_PATTERN == 10, "zero in pattern");
_Static_assert(POQEWAN_SHORT_LENGTHS == 11, "short list of lengths");
_Static_assert(POQEWAN_CLASSES_NOT_256 == 14, "classes not 256");
_Static_assert(POQEWAN_ZERO_CLASS_SHARED == 15, "zero's class shared");
_Static_assert(POQEWAN_FALSE_ORDER == 16, "false order");
_Static_assert(POQEWAN_SHORT_JOURNAL == 17, "short journal");
_Static_assert(POQEWAN_FALSE_JOURNAL == 18, "false journal");
_Static_assert(POQEWAN_FALSE_LIST == 19, "false list");
_Static_assert(POQEWAN_SHORT_LIST == 20, "short list");

/* The numbers of the endings. */
_Static_assert(POQEWAN_DONE == 0, "done");
_Static_assert(POQEWAN_SPENT == 1, "spent");
_Static_assert(POQEWAN_FULL == 2, "full");
_Static_assert(POQEWAN_NO_SUCH_RECORD == 3, "no such record");

/* The layout that the archive was built with. */
_Static_assert(sizeof(poqewan_pattern) == 1848, "poqewan_pattern");
_Static_assert(offsetof(poqewan_pattern, len) == 0, "len");
_Static_assert(offsetof(poqewan_pattern, noholes) == 8, "noholes");
_Static_assert(offsetof(poqewan_pattern, bytes) == 16, "bytes");
_Static_assert(offsetof(poqewan_pattern, classes) == 272, "classes");
_Static_assert(offsetof(poqewan_pattern, order) == 528, "order");
_Static_assert(offsetof(poqewan_pattern, shift) == 784, "shift");
_Static_assert(offsetof(poqewan_pattern, next) == 1298, "next");
_Static_assert(offsetof(poqewan_pattern, marks) == 1816, "marks");
_Static_assert(sizeof(poqewan_preparation) == 1856, "poqewan_preparation");
_Static_assert(offsetof(poqewan_preparation, refusal) == 0, "refusal");
_Static_assert(offsetof(poqewan_preparation, compared) == 4, "compared");
_Static_assert(offsetof(poqewan_preparation, pattern) == 8, "pattern");
_Static_assert(sizeof(poqewan_report) == 48, "poqewan_report");
_Static_assert(offsetof(poqewan_report, refusal) == 0, "refusal");
_Static_assert(offsetof(poqewan_report, ending) == 4, "ending");
_Static_assert(offsetof(poqewan_report, window) == 8, "window");
_Static_assert(offsetof(poqewan_report, count) == 16, "count");
_Static_assert(offsetof(poqewan_report, at_noholes) == 24, "at_noholes");
_Static_assert(offsetof(poqewan_report, at_holes) == 32, "at_holes");
_Static_assert(offsetof(poqewan_report, written) == 40, "written");
_Static_assert(sizeof(poqewan_first) == 24, "poqewan_first");
_Static_assert(offsetof(poqewan_first, refusal) == 0, "refusal");
_Static_assert(offsetof(poqewan_first, found) == 4, "found");
_Static_assert(offsetof(poqewan_first, position) == 8, "position");
_Static_assert(offsetof(poqewan_first, count) == 16, "count");
_Static_assert(sizeof(poqewan_lengths) == 16, "poqewan_lengths");
_Static_assert(offsetof(poqewan_lengths, refusal) == 0, "refusal");
_Static_assert(offsetof(poqewan_lengths, count) == 8, "count");
_Static_assert(sizeof(poqewan_update) == 16, "poqewan_update");
_Static_assert(offsetof(poqewan_update, refusal) == 0, "refusal");
_Static_assert(offsetof(poqewan_update, used) == 8, "used");
_Static_assert(sizeof(poqewan_directory) == 16, "poqewan_directory");
_Static_assert(offsetof(poqewan_directory, refusal) == 0, "refusal");
_Static_assert(offsetof(poqewan_directory, records) == 4, "records");
_Static_assert(offsetof(poqewan_directory, start) == 8, "start");
_Static_assert(sizeof(poqewan_bounds) == 24, "poqewan_bounds");
_Static_assert(offsetof(poqewan_bounds, refusal) == 0, "refusal");
_Static_assert(offsetof(poqewan_bounds, found) == 4, "found");
_Static_assert(offsetof(poqewan_bounds, start) == 8, "start");
_Static_assert(offsetof(poqewan_bounds, end) == 16, "end");

/* The bytes of a pattern that belong to no field. */
#define PADDING_FROM (offsetof(poqewan_pattern, next) + sizeof ((poqewan_pattern *)NULL)->next)
#define PADDING_TO offsetof(poqewan_pattern, marks)

/* What lists, journals and scratches hold before a call. No length is so great. */
#define UNWRITTEN UINT32_C(0xA5A5A5A5)
#define UNTOUCHED UINT16_C(0xA5A5)

/* Each value its own class; small and capital letters in one class, with c in b's and each other value in its own. The first m
   entries of the former are also the places of a pattern, from left to right. */
static uint8_t own[POQEWAN_CLASSES], joined[POQEWAN_CLASSES];

static void fill_classes(void)
{
    for (int v = 0; v < POQEWAN_CLASSES; v++) {
        own[v] = (uint8_t)v;
        joined[v] = (uint8_t)('A' <= v && v <= 'Z' ? v - 'A' + 'a' : v);
    }
    joined['c'] = joined['C'] = 'b';
}

static unsigned long checks, failed;

#define CHECK(condition) check((condition), #condition, __LINE__)

static void check(bool holds, const char *condition, int line)
{
    checks++;
    if (!holds) {
        failed++;
        fprintf(stderr, "line %d: not %s\n", line, condition);
    }
}

/* Memory of exactly this size. */
static void *lend(size_t size)
{
    void *memory = malloc(size);
    if (memory == NULL && size > 0) {
        fputs("out of memory\n", stderr);
        exit(2);
    }
    return memory;
}

static uint8_t *lend_bytes(const void *bytes, size_t len)
{
    uint8_t *copy = lend(len);
    if (len > 0)
        memcpy(copy, bytes, len);
    return copy;
}

/* A scratch, or a list of lengths. */
static uint16_t *lend_numbers(size_t len)
{
    uint16_t *numbers = lend(len * sizeof *numbers);
    for (size_t i = 0; i < len; i++)
        numbers[i] = UNTOUCHED;
    return numbers;
}

static uint32_t *lend_list(size_t len)
{
    uint32_t *list = lend(len * sizeof *list);
    for (size_t i = 0; i < len; i++)
        list[i] = UNWRITTEN;
    return list;
}

static bool numbers_are(const uint16_t *numbers, size_t from, size_t to, uint16_t number)
{
    for (size_t i = from; i < to; i++)
        if (numbers[i] != number)
            return false;
    return true;
}

static bool unwritten(const uint32_t *list, size_t from, size_t to)
{
    for (size_t i = from; i < to; i++)
        if (list[i] != UNWRITTEN)
            return false;
    return true;
}

/* Entries before and after a list or a journal that is lent, which no call may write. */
#define GUARD 2

static uint32_t *lend_guarded(size_t len)
{
    return lend_list(len + 2 * GUARD) + GUARD;
}

static void free_guarded(uint32_t *list, size_t len)
{
    CHECK(unwritten(list - GUARD, 0, GUARD) && unwritten(list, len, len + GUARD));
    free(list - GUARD);
}

static uint32_t *lend_entries(const uint32_t *entries, size_t len)
{
    uint32_t *copy = lend_list(len);
    memcpy(copy, entries, len * sizeof *copy);
    return copy;
}

static bool same_entries(const uint32_t *one, const uint32_t *other, size_t len)
{
    return len == 0 || memcmp(one, other, len * sizeof *one) == 0;
}

/* A generator of a fixed sequence (xorshift). */
static uint64_t random_number(void)
{
    static uint64_t state = UINT64_C(0x9E3779B97F4A7C15);
    state ^= state << 13;
    state ^= state >> 7;
    state ^= state << 17;
    return state;
}

static size_t random_below(size_t bound)
{
    return (size_t)(random_number() >> 32) % bound;
}

static void random_letters(uint8_t *word, size_t len, size_t letters)
{
    for (size_t i = 0; i < len; i++)
        word[i] = (uint8_t)('a' + random_below(letters));
}

/* Both searches, for what holds of either. */
typedef poqewan_report search_function(poqewan_pattern, const uint8_t *, size_t, uint64_t, uint32_t *, size_t);
static search_function *const searches[] = {poqewan_colussi, poqewan_kmp};
enum { COLUSSI, KMP, SEARCHES };

static bool is_refusal(poqewan_report report, uint32_t number)
{
    return report.refusal == number && report.ending == 0 && report.window == 0 && report.count == 0 &&
           report.at_noholes == 0 && report.at_holes == 0 && report.written == 0;
}

/* A count, and its two columns. */
struct counts {
    uint64_t count, at_noholes, at_holes;
};

static const struct counts none;

static struct counts counts_of(poqewan_report report)
{
    return (struct counts){report.count, report.at_noholes, report.at_holes};
}

static bool is_report(poqewan_report report, uint32_t ending, size_t window, struct counts counts, size_t written)
{
    return report.refusal == 0 && report.ending == ending && report.window == window && report.count == counts.count &&
           report.at_noholes == counts.at_noholes && report.at_holes == counts.at_holes && report.written == written;
}

static bool is_like(poqewan_report report, poqewan_report other)
{
    return is_report(report, other.ending, other.window, counts_of(other), other.written);
}

static bool is_first(poqewan_first first, uint32_t found, size_t position, uint64_t count)
{
    return first.refusal == 0 && first.found == found && first.position == position && first.count == count;
}

static bool is_refused_first(poqewan_first first, uint32_t number)
{
    return first.refusal == number && first.found == 0 && first.position == 0 && first.count == 0;
}

static bool is_lengths(poqewan_lengths lengths, uint32_t refusal, uint64_t count)
{
    return lengths.refusal == refusal && lengths.count == count;
}

static bool is_update(poqewan_update update, uint32_t refusal, size_t used)
{
    return update.refusal == refusal && update.used == used;
}

/* Field by field: what the padding holds is nobody's promise. */
static bool is_zero(const poqewan_pattern *pattern)
{
    static const poqewan_pattern zero;
    return pattern->len == 0 && pattern->noholes == 0 &&
           memcmp(pattern->bytes, zero.bytes, sizeof zero.bytes) == 0 &&
           memcmp(pattern->classes, zero.classes, sizeof zero.classes) == 0 &&
           memcmp(pattern->order, zero.order, sizeof zero.order) == 0 &&
           memcmp(pattern->shift, zero.shift, sizeof zero.shift) == 0 &&
           memcmp(pattern->next, zero.next, sizeof zero.next) == 0 &&
           memcmp(pattern->marks, zero.marks, sizeof zero.marks) == 0;
}

/* Prepares a pattern and checks the refusal, or the scratch that success leaves. */
static poqewan_preparation prepare_by(const uint8_t *classes, size_t classes_len, const void *bytes, size_t len,
                                      size_t scratch_len, uint32_t refusal)
{
    uint8_t *lent = lend_bytes(bytes, len), *lent_classes = lend_bytes(classes, classes_len);
    uint16_t *scratch = lend_numbers(scratch_len);
    poqewan_preparation p = poqewan_prepare(lent, len, lent_classes, classes_len, scratch, scratch_len);
    CHECK(p.refusal == refusal);
    CHECK(len == 0 || memcmp(lent, bytes, len) == 0);
    CHECK(classes_len == 0 || memcmp(lent_classes, classes, classes_len) == 0);
    if (refusal == 0) {
        CHECK(p.pattern.len == len);
        CHECK(memcmp(p.pattern.bytes, bytes, len) == 0);
        CHECK(memcmp(p.pattern.classes, classes, sizeof p.pattern.classes) == 0);
        CHECK(numbers_are(scratch, 0, POQEWAN_SCRATCH, 0));
        CHECK(numbers_are(scratch, POQEWAN_SCRATCH, scratch_len, UNTOUCHED));
    } else {
        CHECK(p.compared == 0);
        CHECK(is_zero(&p.pattern));
        CHECK(numbers_are(scratch, 0, scratch_len, UNTOUCHED));
    }
    free(scratch);
    free(lent_classes);
    free(lent);
    return p;
}

static poqewan_preparation prepare(const void *bytes, size_t len, size_t scratch_len, uint32_t refusal)
{
    return prepare_by(own, POQEWAN_CLASSES, bytes, len, scratch_len, refusal);
}

static poqewan_pattern prepared_by(const uint8_t *classes, const char *word)
{
    return prepare_by(classes, POQEWAN_CLASSES, word, strlen(word), POQEWAN_SCRATCH, 0).pattern;
}

static poqewan_pattern prepared(const char *word)
{
    return prepared_by(own, word);
}

/* All searches must refuse with this number and leave the list as it is. The list of lengths has an entry for each byte, and the
   custom order has the places from left to right. The journal of a search is left as it is, too, and may be short; that of a replay
   may be false. A correction must refuse as well, with no entries in use, and with such as do not ascend or are too many. */
static void check_refused(const poqewan_pattern *pattern, const uint8_t *text, size_t text_len, uint32_t number)
{
    size_t order_len = pattern->len < sizeof own ? pattern->len : sizeof own;
    uint8_t *order = lend_bytes(own, order_len);
    uint32_t *list = lend_list(4), *journal = lend_list(4);
    uint16_t *lengths = lend_numbers(text_len);
    CHECK(is_refused_first(poqewan_find_first(*pattern, text, text_len), number));
    for (int s = 0; s < SEARCHES; s++) {
        CHECK(is_refusal(searches[s](*pattern, text, text_len, UINT64_MAX, list, 4), number));
        CHECK(unwritten(list, 0, 4));
    }
    CHECK(is_refusal(poqewan_ordered(*pattern, order, order_len, text, text_len, UINT64_MAX, list, 4), number));
    CHECK(unwritten(list, 0, 4));
    for (size_t len = 0; len <= 4; len += 4) {
        CHECK(is_refusal(poqewan_journaled(*pattern, text, text_len, len, list, 4, journal, len), number));
        CHECK(is_refusal(poqewan_journaled(*pattern, text, text_len, UINT64_MAX, list, 4, journal, len), number));
        CHECK(is_refusal(poqewan_replay(*pattern, text_len, list, 4, journal, len), number));
        CHECK(unwritten(list, 0, 4) && unwritten(journal, 0, 4));
    }
    CHECK(is_lengths(poqewan_prefix_lengths(*pattern, text, text_len, lengths, text_len), number, 0));
    CHECK(numbers_are(lengths, 0, text_len, UNTOUCHED));
    for (size_t used = 0; used <= 6; used += 2) {
        CHECK(is_update(poqewan_correct(*pattern, text, text_len, 0, list, 4, used), number, 0));
        CHECK(unwritten(list, 0, 4));
    }
    free(lengths);
    free(journal);
    free(list);
    free(order);
}

#define LONG_LIST 16

/* The worked records of document 01. Its counts are Colussi's, and those of Knuth, Morris and Pratt for ab and aabaa. Their
   other counts and all columns are worked by hand from its rules. The two searches end alike. */
static const struct record {
    const char *pattern, *text;
    uint64_t cap;
    size_t list_len;
    uint32_t ending;
    size_t window, written;
    uint32_t positions[3];
    struct counts counts[SEARCHES];
} records[] = {
    {"a", "aab", UINT64_MAX, LONG_LIST, POQEWAN_DONE, 0, 2, {0, 1}, {{3, 0, 3}, {3, 0, 3}}},
    {"aa", "aaaa", UINT64_MAX, LONG_LIST, POQEWAN_DONE, 0, 3, {0, 1, 2}, {{4, 0, 4}, {4, 0, 4}}},
    {"ab", "aaaa", UINT64_MAX, LONG_LIST, POQEWAN_DONE, 0, 0, {0}, {{3, 3, 0}, {6, 3, 3}}},
    {"aba", "ababa", UINT64_MAX, LONG_LIST, POQEWAN_DONE, 0, 2, {0, 2}, {{5, 2, 3}, {5, 2, 3}}},
    {"aba", "ababa", 3, LONG_LIST, POQEWAN_SPENT, 2, 1, {0}, {{3, 1, 2}, {3, 1, 2}}},
    {"aba", "ababa", 4, LONG_LIST, POQEWAN_SPENT, 2, 1, {0}, {{4, 2, 2}, {4, 2, 2}}},
    {"aba", "ababa", 5, LONG_LIST, POQEWAN_DONE, 0, 2, {0, 2}, {{5, 2, 3}, {5, 2, 3}}},
    {"aba", "ababa", UINT64_MAX, 1, POQEWAN_FULL, 2, 1, {0}, {{5, 2, 3}, {5, 2, 3}}},
    {"aabaa", "aabaaaabaa", UINT64_MAX, LONG_LIST, POQEWAN_DONE, 0, 2, {0, 5}, {{12, 4, 8}, {12, 4, 8}}},
    {"aba", "ab", 0, LONG_LIST, POQEWAN_DONE, 0, 0, {0}, {{0, 0, 0}, {0, 0, 0}}},
    {"aba", "aba", 0, LONG_LIST, POQEWAN_SPENT, 0, 0, {0}, {{0, 0, 0}, {0, 0, 0}}},
};

/* Worked by hand from the same rules, where the two searches have different columns. */
static const struct record more_records[] = {
    {"aab", "aaaaab", UINT64_MAX, LONG_LIST, POQEWAN_DONE, 0, 1, {3}, {{6, 4, 2}, {9, 4, 5}}},
    {"abab", "abacabab", UINT64_MAX, LONG_LIST, POQEWAN_DONE, 0, 1, {4}, {{7, 5, 2}, {9, 4, 5}}},
    {"aba", "abcaba", UINT64_MAX, LONG_LIST, POQEWAN_DONE, 0, 1, {3}, {{5, 2, 3}, {6, 2, 4}}},
    {"aabaa", "aaabaa", UINT64_MAX, LONG_LIST, POQEWAN_DONE, 0, 1, {1}, {{6, 2, 4}, {7, 2, 5}}},
    {"abb", "cabb", UINT64_MAX, LONG_LIST, POQEWAN_DONE, 0, 1, {1}, {{4, 3, 1}, {4, 2, 2}}},
    {"abab", "ababab", 5, LONG_LIST, POQEWAN_SPENT, 2, 1, {0}, {{5, 3, 2}, {5, 2, 3}}},
};

/* By the joined classes: records of document 01 in small and capital letters, and records worked by hand from its rules
   with the tables below. */
static const struct record joined_records[] = {
    {"aB", "AaaA", UINT64_MAX, LONG_LIST, POQEWAN_DONE, 0, 0, {0}, {{3, 3, 0}, {6, 3, 3}}},
    {"abA", "aBAba", UINT64_MAX, LONG_LIST, POQEWAN_DONE, 0, 2, {0, 2}, {{5, 2, 3}, {5, 2, 3}}},
    {"Aba", "abABa", 4, LONG_LIST, POQEWAN_SPENT, 2, 1, {0}, {{4, 2, 2}, {4, 2, 2}}},
    {"aBa", "ABAba", UINT64_MAX, 1, POQEWAN_FULL, 2, 1, {0}, {{5, 2, 3}, {5, 2, 3}}},
    {"AabaA", "aABAaAabAa", UINT64_MAX, LONG_LIST, POQEWAN_DONE, 0, 2, {0, 5}, {{12, 4, 8}, {12, 4, 8}}},
    {"bca", "bbacabca", UINT64_MAX, LONG_LIST, POQEWAN_DONE, 0, 2, {0, 5}, {{8, 4, 4}, {8, 2, 6}}},
    {"abAB", "aBAbAba", UINT64_MAX, LONG_LIST, POQEWAN_DONE, 0, 2, {0, 2}, {{6, 3, 3}, {6, 3, 3}}},
    {"abAB", "aBAbAba", 5, LONG_LIST, POQEWAN_SPENT, 2, 1, {0}, {{5, 3, 2}, {5, 2, 3}}},
};

static void check_record(const struct record *r, const uint8_t *classes)
{
    poqewan_pattern pattern = prepared_by(classes, r->pattern);
    size_t n = strlen(r->text);
    uint8_t *text = lend_bytes(r->text, n);
    for (int s = 0; s < SEARCHES; s++) {
        uint32_t *list = lend_list(r->list_len);
        poqewan_report got = searches[s](pattern, text, n, r->cap, list, r->list_len);
        CHECK(is_report(got, r->ending, r->window, r->counts[s], r->written));
        CHECK(got.count == got.at_noholes + got.at_holes);
        CHECK(memcmp(list, r->positions, r->written * sizeof *list) == 0);
        CHECK(unwritten(list, r->written, r->list_len));
        free(list);
    }
    free(text);
}

static void test_worked_records(void)
{
    for (size_t i = 0; i < sizeof records / sizeof *records; i++)
        check_record(&records[i], own);
    for (size_t i = 0; i < sizeof more_records / sizeof *more_records; i++)
        check_record(&more_records[i], own);
    for (size_t i = 0; i < sizeof joined_records / sizeof *joined_records; i++)
        check_record(&joined_records[i], joined);
}

/* Worked by hand from the same rules: the first position or absent, with the places that are compared, a word for each
   window. First document 01's records. Then such as have the occurrence after misses, or none; where a miss at a hole sets
   the known edge, which saves comparisons in the next window; texts as long as the pattern, and shorter; patterns of one
   byte; and by the joined classes. */
static const struct first_record {
    const uint8_t *classes;
    const char *pattern, *text;
    uint32_t found;
    size_t position;
    const char *compared;
} first_records[] = {
    {own, "a", "aab", 1, 0, "0"},
    {own, "aa", "aaaa", 1, 0, "10"},
    {own, "ab", "aaaa", 0, 0, "1 1 1"},
    {own, "aba", "ababa", 1, 0, "120"},
    {own, "aabaa", "aabaaaabaa", 1, 0, "24310"},
    {own, "aba", "ab", 0, 0, ""},
    {own, "aba", "aba", 1, 0, "120"},
    {own, "aab", "aaaaab", 1, 3, "2 2 2 210"},
    {own, "abab", "abacabab", 1, 4, "13 1 1320"},
    {own, "aba", "cabababa", 1, 1, "1 120"},
    {own, "abb", "ababab", 0, 0, "12 12"},
    {own, "abab", "abacabac", 0, 0, "13 1 13"},
    {own, "aaa", "baaa", 1, 1, "210 2"},
    {own, "aba", "cbaba", 1, 2, "120 12"},
    {own, "abab", "cbabab", 1, 2, "1320 32"},
    {own, "aabaa", "cabaabaa", 1, 3, "24310 243"},
    {own, "aba", "cbaca", 0, 0, "120 1"},
    {own, "aba", "bba", 0, 0, "120"},
    {own, "aba", "", 0, 0, ""},
    {own, "a", "", 0, 0, ""},
    {own, "a", "b", 0, 0, "0"},
    {own, "a", "bbbab", 1, 3, "0 0 0 0"},
    {joined, "aBa", "DbAcA", 1, 2, "120 12"},
    {joined, "bca", "cabBA", 1, 2, "2 2 210"},
    {joined, "bca", "cacac", 0, 0, "2 210"},
};

static void test_worked_first_positions(void)
{
    for (size_t i = 0; i < sizeof first_records / sizeof *first_records; i++) {
        const struct first_record *r = &first_records[i];
        poqewan_pattern pattern = prepared_by(r->classes, r->pattern);
        size_t n = strlen(r->text);
        uint8_t *text = lend_bytes(r->text, n);
        uint64_t count = 0;
        for (const char *c = r->compared; *c != '\0'; c++)
            count += *c != ' ';
        CHECK(is_first(poqewan_find_first(pattern, text, n), r->found, r->position, count));
        CHECK(n == 0 || memcmp(text, r->text, n) == 0);
        free(text);
    }
}

/* Document 01's tables for aba and aabaa: of these words and, by the joined classes, of such as have others by themselves.
   Then, worked by hand from its definitions: with joined classes bca is bba and abAB is abab. */
static const struct tables {
    const uint8_t *classes;
    const char *pattern;
    size_t noholes;
    uint8_t order[5];
    uint16_t shift[6], next[6];
    uint64_t marks;
    uint32_t compared;
} tables[] = {
    {own, "aba", 1, {1, 2, 0}, {1, 3, 2, 2}, {0}, 0x02, 2},
    {own, "aabaa", 1, {2, 4, 3, 1, 0}, {1, 5, 4, 3, 3, 3}, {0}, 0x04, 5},
    {joined, "abA", 1, {1, 2, 0}, {1, 3, 2, 2}, {0}, 0x02, 2},
    {joined, "aAbAa", 1, {2, 4, 3, 1, 0}, {1, 5, 4, 3, 3, 3}, {0}, 0x04, 5},
    {own, "bca", 2, {1, 2, 0}, {1, 2, 3, 3}, {0}, 0x06, 2},
    {joined, "bca", 1, {2, 1, 0}, {1, 3, 3, 3}, {0}, 0x04, 3},
    {own, "abAB", 3, {1, 2, 3, 0}, {1, 2, 3, 4, 4}, {0}, 0x0E, 3},
    {joined, "abAB", 2, {1, 3, 2, 0}, {1, 3, 4, 2, 2}, {0, 0, 0, 1, 1}, 0x0A, 3},
};

static void test_worked_tables(void)
{
    for (size_t i = 0; i < sizeof tables / sizeof *tables; i++) {
        const struct tables *t = &tables[i];
        size_t m = strlen(t->pattern);
        poqewan_preparation p = prepare_by(t->classes, POQEWAN_CLASSES, t->pattern, m, POQEWAN_SCRATCH, 0);
        poqewan_pattern expected;
        memset(&expected, 0, sizeof expected);
        memcpy(expected.order, t->order, sizeof t->order);
        memcpy(expected.shift, t->shift, sizeof t->shift);
        memcpy(expected.next, t->next, sizeof t->next);
        CHECK(p.compared == t->compared);
        CHECK(p.pattern.noholes == t->noholes);
        CHECK(memcmp(p.pattern.order, expected.order, sizeof expected.order) == 0);
        CHECK(memcmp(p.pattern.shift, expected.shift, sizeof expected.shift) == 0);
        CHECK(memcmp(p.pattern.next, expected.next, sizeof expected.next) == 0);
        CHECK(p.pattern.marks[0] == t->marks && p.pattern.marks[1] == 0 && p.pattern.marks[2] == 0 &&
              p.pattern.marks[3] == 0);
    }
}

/* No byte, so that a look at it is no comparison of two bytes. */
#define SENTINEL 256

static bool same(const int *w, size_t i, size_t j, uint32_t *compared)
{
    if (w[i] != SENTINEL)
        ++*compared;
    return w[i] == w[j];
}

/* Source document 003's Algorithm 7, line by line. Gives its comparisons of two pattern bytes. */
static uint32_t compared_by_method(const uint8_t *classes, const uint8_t *bytes, size_t m)
{
    int w[POQEWAN_LONGEST_PATTERN + 1];
    size_t hmax[POQEWAN_LONGEST_PATTERN + 1], k = 1, i = k;
    uint32_t compared = 0;
    for (size_t p = 0; p < m; p++)
        w[p] = classes[bytes[p]];
    w[m] = SENTINEL;
    do {
        while (same(w, i, i - k, &compared))
            i++;
        hmax[k] = i;
        size_t q = k + 1;
        while (hmax[q - k] + k < i) {
            hmax[q] = hmax[q - k] + k;
            q++;
        }
        k = q;
        if (k == i + 1)
            i = k;
    } while (k <= m);
    return compared;
}

/* Prepares a pattern and checks the cost: it is the method's, and 0 with one byte, at most 2 * m - 3 with more. */
static uint32_t check_cost(const uint8_t *bytes, size_t m)
{
    uint32_t compared = prepare(bytes, m, POQEWAN_SCRATCH, 0).compared;
    CHECK(compared == compared_by_method(own, bytes, m));
    CHECK(compared <= (m == 1 ? 0 : 2 * m - 3));
    return compared;
}

/* Worked by hand from source document 003's Algorithm 7. In ababc a copied entry saves a comparison; the last word is
   source document 000's. */
static const struct cost {
    const char *pattern;
    uint32_t compared;
} costs[] = {
    {"a", 0}, {"aa", 1}, {"ab", 1}, {"aba", 2}, {"ababc", 5}, {"aabaa", 5}, {"aabacaacaab", 14},
};

static void test_worked_costs(void)
{
    for (size_t i = 0; i < sizeof costs / sizeof *costs; i++)
        CHECK(check_cost((const uint8_t *)costs[i].pattern, strlen(costs[i].pattern)) == costs[i].compared);
}

/* One letter costs m - 1; with another one at its end it costs the most that any pattern does. */
static void test_costs_of_the_longest(void)
{
    uint8_t bytes[POQEWAN_LONGEST_PATTERN];
    memset(bytes, 'a', sizeof bytes);
    CHECK(check_cost(bytes, sizeof bytes) == 255);
    bytes[sizeof bytes - 1] = 'b';
    CHECK(check_cost(bytes, sizeof bytes) == 509);
}

/* Powers of random words, of every length in turn; every second round with a byte changed. */
static void test_random_costs(size_t rounds)
{
    uint8_t bytes[POQEWAN_LONGEST_PATTERN];
    for (size_t round = 0; round < rounds; round++) {
        size_t m = 1 + round / 2 % POQEWAN_LONGEST_PATTERN, root = 1 + random_below(m);
        random_letters(bytes, root, 1 + random_below(4));
        for (size_t p = root; p < m; p++)
            bytes[p] = bytes[p - root];
        if (round % 2 == 1)
            random_letters(bytes + random_below(m), 1, 4);
        check_cost(bytes, m);
    }
}

static void test_charge(void)
{
    CHECK(poqewan_charge(0) == 0);
    CHECK(poqewan_charge(1) == 1);
    CHECK(poqewan_charge(1000) == 1);
    CHECK(poqewan_charge(1001) == 2);
    CHECK(poqewan_charge(UINT64_MAX) == UINT64_C(18446744073709552));
}

/* The least scratch before C-18. */
#define FORMER_SCRATCH 771

#define AROUND(size) (size) - 1, (size), (size) + 1

/* Refusals 1, 2 and 3, each at its edges, in their order. */
static void test_preparation(void)
{
    static const size_t lengths[] = {0, 1, 2, AROUND(POQEWAN_LONGEST_PATTERN), 1000};
    static const size_t scratches[] = {0, 1, AROUND(POQEWAN_SCRATCH), FORMER_SCRATCH, 1000};
    uint8_t bytes[1000];
    random_letters(bytes, sizeof bytes, 2);
    for (size_t i = 0; i < sizeof lengths / sizeof *lengths; i++)
        for (size_t j = 0; j < sizeof scratches / sizeof *scratches; j++) {
            size_t m = lengths[i], scratch_len = scratches[j];
            uint32_t refusal = m == 0                          ? POQEWAN_NO_PATTERN
                               : m > POQEWAN_LONGEST_PATTERN   ? POQEWAN_LONG_PATTERN
                               : scratch_len < POQEWAN_SCRATCH ? POQEWAN_SHORT_SCRATCH
                                                               : 0;
            prepare(bytes, m, scratch_len, refusal);
        }
}

/* Refusal 10: a byte 0 at the first, a middle and the last place, with a scratch that is long enough and with one that is
   short. A pattern that is too long as well is refused for that. */
static void test_zero_in_pattern(void)
{
    static const size_t lengths[] = {1, 2, 3, 16, 33, AROUND(POQEWAN_LONGEST_PATTERN)};
    static const size_t scratches[] = {0, AROUND(POQEWAN_SCRATCH), 1000};
    uint8_t bytes[POQEWAN_LONGEST_PATTERN + 1];
    for (size_t i = 0; i < sizeof lengths / sizeof *lengths; i++)
        for (size_t j = 0; j < sizeof scratches / sizeof *scratches; j++) {
            size_t m = lengths[i], places[] = {0, m / 2, m - 1};
            for (size_t k = 0; k < 3; k++) {
                random_letters(bytes, m, 2);
                bytes[places[k]] = 0;
                prepare(bytes, m, scratches[j],
                        m > POQEWAN_LONGEST_PATTERN ? POQEWAN_LONG_PATTERN : POQEWAN_ZERO_IN_PATTERN);
            }
        }
}

/* The tables of aba are those of any word of its shape: with another letter for b it is true, and with a byte 0 false. Past
   its length a byte 0 stands in every pattern. The counts are worked by hand. */
static void test_zero_in_a_value(void)
{
    static const struct counts counts[SEARCHES] = {{7, 4, 3}, {9, 3, 6}};
    uint8_t *text = lend_bytes("a\0ac\0aca", 8);
    uint32_t *list = lend_list(8);
    poqewan_pattern pattern = prepared("aba");
    CHECK(pattern.bytes[3] == 0);
    for (int s = 0; s < SEARCHES; s++) {
        pattern.bytes[1] = 'c';
        CHECK(is_report(searches[s](pattern, text, 8, UINT64_MAX, list, 8), POQEWAN_DONE, 0, counts[s], 1));
        CHECK(list[0] == 5);
        list[0] = UNWRITTEN;
        CHECK(unwritten(list, 0, 8));
    }
    pattern.bytes[1] = 0;
    check_refused(&pattern, text, 8, POQEWAN_FALSE_PATTERN);
    free(list);
    free(text);
}

/* Entry v is v mod 256, and nothing is written after the last. */
static void test_identity(void)
{
    static const size_t lengths[] = {0, 1, 2, 128, AROUND(POQEWAN_CLASSES), 600, 100000};
    static const size_t spares[] = {0, 1, 300};
    for (size_t i = 0; i < sizeof lengths / sizeof *lengths; i++)
        for (size_t j = 0; j < sizeof spares / sizeof *spares; j++) {
            size_t len = lengths[i], spare = spares[j];
            uint8_t *classes = lend(len + spare);
            for (size_t v = 0; v < len + spare; v++)
                classes[v] = (uint8_t)~v;
            poqewan_identity(classes, len);
            bool filled = true, kept = true;
            for (size_t v = 0; v < len; v++)
                filled = filled && classes[v] == v % 256;
            for (size_t v = len; v < len + spare; v++)
                kept = kept && classes[v] == (uint8_t)~v;
            CHECK(filled);
            CHECK(kept);
            free(classes);
        }
    poqewan_identity(NULL, 0);
}

/* Classes of a number other than 256, and such as share that of 0, by themselves and with each other condition, in the
   order of the tests: 1, 2, 10, 14, 15, 3. */
static void test_refused_classes(void)
{
    static const size_t numbers[] = {0, 1, 2, 128, AROUND(POQEWAN_CLASSES), 512, 1000};
    static const size_t scratches[] = {0, AROUND(POQEWAN_SCRATCH)};
    static const size_t patterns[] = {0, 1, 3, AROUND(POQEWAN_LONGEST_PATTERN)};
    uint8_t classes[1000], bytes[POQEWAN_LONGEST_PATTERN + 1];
    for (size_t i = 0; i < sizeof numbers / sizeof *numbers; i++)
        for (size_t j = 0; j < sizeof scratches / sizeof *scratches; j++)
            for (size_t k = 0; k < sizeof patterns / sizeof *patterns; k++)
                for (int which = 0; which < 4; which++) {
                    size_t number = numbers[i], scratch_len = scratches[j], m = patterns[k];
                    bool zero = which % 2 == 1 && m > 0, shared = which / 2 == 1;
                    random_letters(bytes, m, 2);
                    if (zero)
                        bytes[m - 1] = 0;
                    poqewan_identity(classes, number);
                    if (shared)
                        memset(classes, 7, number);
                    uint32_t refusal = m == 0                          ? POQEWAN_NO_PATTERN
                                       : m > POQEWAN_LONGEST_PATTERN   ? POQEWAN_LONG_PATTERN
                                       : zero                          ? POQEWAN_ZERO_IN_PATTERN
                                       : number != POQEWAN_CLASSES     ? POQEWAN_CLASSES_NOT_256
                                       : shared                        ? POQEWAN_ZERO_CLASS_SHARED
                                       : scratch_len < POQEWAN_SCRATCH ? POQEWAN_SHORT_SCRATCH
                                                                       : 0;
                    prepare_by(classes, number, bytes, m, scratch_len, refusal);
                }
}

/* Each value with the class of 0, and 0 with the class of each; and the two with each other's, which is no refusal. */
static void test_class_of_zero(void)
{
    uint8_t classes[POQEWAN_CLASSES];
    for (int v = 1; v < POQEWAN_CLASSES; v++) {
        memcpy(classes, own, sizeof classes);
        classes[v] = 0;
        prepare_by(classes, POQEWAN_CLASSES, "aba", 3, POQEWAN_SCRATCH, POQEWAN_ZERO_CLASS_SHARED);
        classes[0] = (uint8_t)v;
        prepare_by(classes, POQEWAN_CLASSES, "aba", 3, POQEWAN_SCRATCH, 0);
        classes[v] = (uint8_t)v;
        prepare_by(classes, POQEWAN_CLASSES, "aba", 3, POQEWAN_SCRATCH, POQEWAN_ZERO_CLASS_SHARED);
    }
}

/* With a number of 0 the pointer is not followed. */
static void test_null(void)
{
    uint8_t *a = lend_bytes("a", 1);
    uint32_t *list = lend_list(1), *journal = lend_list(1);
    uint16_t *lengths = lend_numbers(1);
    poqewan_pattern pattern = prepared("a");

    CHECK(poqewan_prepare(NULL, 0, NULL, 0, NULL, 0).refusal == POQEWAN_NO_PATTERN);
    CHECK(poqewan_prepare(NULL, 0, own, POQEWAN_CLASSES, NULL, 0).refusal == POQEWAN_NO_PATTERN);
    CHECK(poqewan_prepare(a, 1, NULL, 0, NULL, 0).refusal == POQEWAN_CLASSES_NOT_256);
    CHECK(poqewan_prepare(a, 1, own, POQEWAN_CLASSES, NULL, 0).refusal == POQEWAN_SHORT_SCRATCH);
    CHECK(poqewan_prepare((const uint8_t *)"", 1, NULL, 0, NULL, 0).refusal == POQEWAN_ZERO_IN_PATTERN);
    for (int s = 0; s < SEARCHES; s++) {
        CHECK(is_report(searches[s](pattern, NULL, 0, 0, NULL, 0), POQEWAN_DONE, 0, none, 0));
        CHECK(is_report(searches[s](pattern, NULL, 0, 0, list, 1), POQEWAN_DONE, 0, none, 0));
        CHECK(is_report(searches[s](pattern, a, 1, 0, NULL, 0), POQEWAN_SPENT, 0, none, 0));
        CHECK(is_report(searches[s](pattern, a, 1, 1, NULL, 0), POQEWAN_FULL, 0, (struct counts){1, 0, 1}, 0));
    }
    CHECK(is_refusal(poqewan_ordered(pattern, NULL, 0, NULL, 0, 0, NULL, 0), POQEWAN_FALSE_ORDER));
    CHECK(is_refusal(poqewan_ordered(pattern, NULL, 0, a, 1, 1, list, 1), POQEWAN_FALSE_ORDER));
    CHECK(is_report(poqewan_ordered(pattern, own, 1, NULL, 0, 0, NULL, 0), POQEWAN_DONE, 0, none, 0));
    CHECK(is_report(poqewan_ordered(pattern, own, 1, NULL, 0, 0, list, 1), POQEWAN_DONE, 0, none, 0));
    CHECK(is_report(poqewan_ordered(pattern, own, 1, a, 1, 0, NULL, 0), POQEWAN_SPENT, 0, none, 0));
    CHECK(is_report(poqewan_ordered(pattern, own, 1, a, 1, 1, NULL, 0), POQEWAN_FULL, 0, (struct counts){1, 0, 1}, 0));
    CHECK(is_report(poqewan_journaled(pattern, NULL, 0, 0, NULL, 0, NULL, 0), POQEWAN_DONE, 0, none, 0));
    CHECK(is_report(poqewan_journaled(pattern, NULL, 0, 1, list, 1, journal, 1), POQEWAN_DONE, 0, none, 0));
    CHECK(is_report(poqewan_journaled(pattern, a, 1, 0, NULL, 0, NULL, 0), POQEWAN_SPENT, 0, none, 0));
    CHECK(is_report(poqewan_journaled(pattern, a, 1, 0, list, 1, journal, 1), POQEWAN_SPENT, 0, none, 0));
    CHECK(is_refusal(poqewan_journaled(pattern, a, 1, 1, list, 1, NULL, 0), POQEWAN_SHORT_JOURNAL));
    CHECK(is_refusal(poqewan_journaled(pattern, NULL, 0, 1, NULL, 0, NULL, 0), POQEWAN_SHORT_JOURNAL));
    CHECK(is_report(poqewan_replay(pattern, 0, NULL, 0, NULL, 0), POQEWAN_DONE, 0, none, 0));
    CHECK(is_report(poqewan_replay(pattern, 0, list, 1, NULL, 0), POQEWAN_DONE, 0, none, 0));
    CHECK(is_report(poqewan_replay(pattern, 1, list, 1, NULL, 0), POQEWAN_SPENT, 0, none, 0));
    CHECK(is_report(poqewan_replay(pattern, 1, NULL, 0, NULL, 0), POQEWAN_SPENT, 0, none, 0));
    CHECK(unwritten(list, 0, 1) && unwritten(journal, 0, 1));
    CHECK(is_report(poqewan_journaled(pattern, a, 1, 1, NULL, 0, journal, 1), POQEWAN_FULL, 0, (struct counts){1, 0, 1}, 0));
    CHECK(journal[0] == 1);
    CHECK(is_report(poqewan_replay(pattern, 1, NULL, 0, journal, 1), POQEWAN_FULL, 0, (struct counts){1, 0, 1}, 0));
    CHECK(is_refusal(poqewan_replay(pattern, 0, NULL, 0, journal, 1), POQEWAN_FALSE_JOURNAL));
    CHECK(unwritten(list, 0, 1) && journal[0] == 1);
    CHECK(is_first(poqewan_find_first(pattern, NULL, 0), 0, 0, 0));
    CHECK(is_lengths(poqewan_prefix_lengths(pattern, NULL, 0, NULL, 0), 0, 0));
    CHECK(is_lengths(poqewan_prefix_lengths(pattern, NULL, 0, lengths, 1), 0, 0));
    CHECK(is_lengths(poqewan_prefix_lengths(pattern, a, 0, lengths, 1), 0, 0));
    CHECK(is_lengths(poqewan_prefix_lengths(pattern, a, 1, NULL, 0), POQEWAN_SHORT_LENGTHS, 0));
    CHECK(numbers_are(lengths, 0, 1, UNTOUCHED));
    CHECK(is_update(poqewan_correct(pattern, NULL, 0, 0, NULL, 0, 0), 0, 0));
    CHECK(is_update(poqewan_correct(pattern, NULL, 0, 0, list, 1, 0), 0, 0));
    CHECK(is_update(poqewan_correct(pattern, NULL, 0, 0, list, 1, 1), 0, 1));
    CHECK(is_update(poqewan_correct(pattern, a, 1, 1, NULL, 0, 0), 0, 0));
    CHECK(is_update(poqewan_correct(pattern, (const uint8_t *)"b", 1, 0, NULL, 0, 0), 0, 0));
    CHECK(is_update(poqewan_correct(pattern, a, 1, 0, NULL, 0, 0), POQEWAN_SHORT_LIST, 0));
    CHECK(is_update(poqewan_correct(pattern, a, 1, 0, NULL, 0, 1), POQEWAN_FALSE_LIST, 0));
    CHECK(is_update(poqewan_correct(pattern, NULL, 0, 0, NULL, 0, SIZE_MAX), POQEWAN_FALSE_LIST, 0));
    CHECK(unwritten(list, 0, 1));
    pattern.noholes++;
    check_refused(&pattern, NULL, 0, POQEWAN_FALSE_PATTERN);
    free(lengths);
    free(journal);
    free(list);
    free(a);
}

/* A bit changed in any byte of a pattern but its own m bytes and its classes makes it false; in the padding it changes
   nothing. */
static void test_changed_patterns(void)
{
    static const char *const patterns[] = {"a", "aba", "aabaabaab"};
    uint8_t *text = lend_bytes("aabaabaabaab", 12);
    uint16_t *lengths = lend_numbers(12);
    for (size_t i = 0; i < sizeof patterns / sizeof *patterns; i++) {
        poqewan_pattern pattern = prepared(patterns[i]), changed;
        for (size_t at = 0; at < sizeof pattern; at++) {
            if (offsetof(poqewan_pattern, bytes) <= at && at < offsetof(poqewan_pattern, bytes) + pattern.len)
                continue;
            if (offsetof(poqewan_pattern, classes) <= at && at < offsetof(poqewan_pattern, order))
                continue;
            memcpy(&changed, &pattern, sizeof pattern);
            ((uint8_t *)&changed)[at] ^= (uint8_t)(1u << at % 8);
            if (PADDING_FROM <= at && at < PADDING_TO) {
                CHECK(is_report(poqewan_colussi(changed, text, 12, 0, NULL, 0), POQEWAN_SPENT, 0, none, 0));
                CHECK(is_report(poqewan_ordered(changed, own, pattern.len, text, 12, 0, NULL, 0), POQEWAN_SPENT, 0, none, 0));
                CHECK(is_report(poqewan_journaled(changed, text, 12, 0, NULL, 0, NULL, 0), POQEWAN_SPENT, 0, none, 0));
                CHECK(is_report(poqewan_replay(changed, 12, NULL, 0, NULL, 0), POQEWAN_SPENT, 0, none, 0));
                CHECK(poqewan_find_first(changed, text, 12).found == 1);
                CHECK(poqewan_prefix_lengths(changed, text, 12, lengths, 12).refusal == 0);
                CHECK(is_update(poqewan_correct(changed, text, 12, 12, NULL, 0, 0), 0, 0));
            } else {
                check_refused(&changed, text, 12, POQEWAN_FALSE_PATTERN);
            }
        }
    }
    free(lengths);
    free(text);
}

static void test_false_lengths(void)
{
    static const size_t lengths[] = {0, 2, 4, AROUND(POQEWAN_LONGEST_PATTERN), SIZE_MAX};
    uint8_t *text = lend_bytes("ababa", 5);
    for (size_t i = 0; i < sizeof lengths / sizeof *lengths; i++) {
        poqewan_pattern pattern = prepared("aba");
        pattern.len = lengths[i];
        check_refused(&pattern, text, 5, POQEWAN_FALSE_PATTERN);
    }
    free(text);
}

/* All zero, and random junk; half of it with numbers that could be lengths. */
static void test_junk(size_t rounds)
{
    uint8_t *text = lend_bytes("abaababaab", 10);
    poqewan_pattern junk;
    memset(&junk, 0, sizeof junk);
    check_refused(&junk, text, 10, POQEWAN_FALSE_PATTERN);
    for (size_t round = 0; round < rounds; round++) {
        for (size_t at = 0; at < sizeof junk; at++)
            ((uint8_t *)&junk)[at] = (uint8_t)random_number();
        if (round % 2 == 0) {
            junk.len %= POQEWAN_LONGEST_PATTERN + 1;
            junk.noholes %= POQEWAN_LONGEST_PATTERN;
        }
        check_refused(&junk, text, 10, POQEWAN_FALSE_PATTERN);
    }
    free(text);
}

static bool equal(const poqewan_pattern *pattern, uint8_t one, uint8_t other)
{
    return pattern->classes[one] == pattern->classes[other];
}

/* The naive search, by the pattern's classes. */
static bool occurs(const poqewan_pattern *pattern, const uint8_t *text, size_t n, size_t b)
{
    if (b + pattern->len > n)
        return false;
    for (size_t p = 0; p < pattern->len; p++)
        if (!equal(pattern, pattern->bytes[p], text[b + p]))
            return false;
    return true;
}

/* Whether the list holds exactly the occurrences below a window. */
static bool lists_occurrences(const uint32_t *list, size_t written, const poqewan_pattern *pattern, const uint8_t *text,
                              size_t n, size_t window)
{
    size_t found = 0;
    for (size_t b = 0; b < window; b++)
        if (occurs(pattern, text, n, b)) {
            if (found == written || list[found] != b)
                return false;
            found++;
        }
    return found == written;
}

/* 2 * count <= 3 * n - m and count <= 2 * n - m at the end; 3 * b + 2 * m and 2 * b + m where cut off at window b. */
static bool under_ceiling(int search, poqewan_report report, size_t m, size_t n)
{
    if (report.ending == POQEWAN_DONE && n < m)
        return report.count == 0;
    if (report.ending == POQEWAN_DONE)
        return search == COLUSSI ? 2 * report.count <= 3 * n - m : report.count <= 2 * n - m;
    return search == COLUSSI ? 2 * report.count <= 3 * report.window + 2 * m : report.count <= 2 * report.window + m;
}

/* kmin, at each place: the least k for which it is the first place that differs from the one k before. There is none at a
   hole, which has 0. At m, past the last place, it is the least k for which none differs: rmin(0). */
static void fill_kmin(const poqewan_pattern *pattern, size_t *kmin)
{
    size_t m = pattern->len;
    memset(kmin, 0, (m + 1) * sizeof *kmin);
    for (size_t k = m; k > 0; k--) {
        size_t p = k;
        while (p < m && equal(pattern, pattern->bytes[p], pattern->bytes[p - k]))
            p++;
        kmin[p] = k;
    }
}

/* The shift of Knuth, Morris and Pratt with so much matched: at a nohole kmin, at a hole one more than the place, and after an
   occurrence rmin(0). */
static size_t kmp_shift(const size_t *kmin, size_t i)
{
    return kmin[i] > 0 ? kmin[i] : i + 1;
}

/* The report by document 01's rules, with the pattern's order, shifts and nexts. Each comparison goes into the column of
   its place. Which places are noholes is found from the pattern's bytes and classes, and not from its marks. */
static poqewan_report by_rules(int search, const poqewan_pattern *pattern, const uint8_t *text, size_t n, uint64_t cap,
                               size_t list_len)
{
    size_t m = pattern->len, b = 0, i = 0, e = 0, kmin[POQEWAN_LONGEST_PATTERN + 1];
    poqewan_report r = {0};
    fill_kmin(pattern, kmin);
    while (b + m <= n) {
        size_t p = search == COLUSSI && i < m ? pattern->order[i] : i;
        if (i == m || b + p < e) {
            if (r.written == list_len) {
                r.ending = POQEWAN_FULL;
                r.window = b;
                return r;
            }
            r.written++;
            i = m;
        } else {
            if (r.count == cap) {
                r.ending = POQEWAN_SPENT;
                r.window = b;
                return r;
            }
            r.count++;
            if (kmin[p] > 0)
                r.at_noholes++;
            else
                r.at_holes++;
            if (equal(pattern, pattern->bytes[p], text[b + p])) {
                i++;
                continue;
            }
        }
        if (search == COLUSSI) {
            if (i >= pattern->noholes)
                e = b + m;
            b += pattern->shift[i];
            i = pattern->next[i];
        } else {
            size_t shift = kmp_shift(kmin, i);
            b += shift;
            i = i > shift ? i - shift : 0;
        }
    }
    return r;
}

/* Asks for the first position and checks it: it is that of the naive search, and the first entry of the list of the full
   search, which is given; the count is the rules' when they come to it or at their end; and the ceiling is kept. */
static void check_first(const poqewan_pattern *pattern, const uint8_t *text, size_t n, poqewan_report full,
                        const uint32_t *list)
{
    poqewan_first first = poqewan_find_first(*pattern, text, n);
    poqewan_report rules = by_rules(COLUSSI, pattern, text, n, UINT64_MAX, 0);
    size_t b = 0;
    while (b < n && !occurs(pattern, text, n, b))
        b++;
    CHECK(is_first(first, b < n, b < n ? b : 0, rules.count));
    CHECK(rules.ending == (first.found ? POQEWAN_FULL : POQEWAN_DONE) && rules.window == first.position);
    CHECK(first.found ? full.written > 0 && list[0] == first.position && first.count <= full.count
                      : full.written == 0 && first.count == full.count);
    CHECK(under_ceiling(COLUSSI, rules, pattern->len, n));
}

/* The longest prefix of the pattern that begins at a position, by the naive search. */
static size_t longest_prefix(const poqewan_pattern *pattern, const uint8_t *text, size_t n, size_t x)
{
    size_t len = 0;
    while (len < pattern->len && x + len < n && equal(pattern, pattern->bytes[len], text[x + len]))
        len++;
    return len;
}

/* The count of the prefix lengths by document 01's rules, carried on to the text's end; and what of it is made in windows
   that lie within the text. */
static uint64_t count_to_the_end(const poqewan_pattern *pattern, const uint8_t *text, size_t n, uint64_t *within)
{
    size_t m = pattern->len, b = 0, i = 0, kmin[POQEWAN_LONGEST_PATTERN + 1];
    uint64_t count = 0;
    *within = 0;
    fill_kmin(pattern, kmin);
    while (b + i < n) {
        if (i < m) {
            count++;
            *within += b + m <= n;
            if (equal(pattern, pattern->bytes[i], text[b + i])) {
                i++;
                continue;
            }
        }
        size_t shift = kmp_shift(kmin, i);
        b += shift;
        i = i > shift ? i - shift : 0;
    }
    return count;
}

/* Asks for the prefix lengths: with an entry less than the text has bytes, which is refused; with as many; and with one more,
   which stays. */
static void check_lengths(const poqewan_pattern *pattern, const uint8_t *text, size_t n, const uint16_t *expected,
                          uint64_t count)
{
    for (size_t list_len = n == 0 ? 0 : n - 1; list_len <= n + 1; list_len++) {
        uint16_t *list = lend_numbers(list_len);
        poqewan_lengths lengths = poqewan_prefix_lengths(*pattern, text, n, list, list_len);
        if (list_len < n) {
            CHECK(is_lengths(lengths, POQEWAN_SHORT_LENGTHS, 0));
            CHECK(numbers_are(list, 0, list_len, UNTOUCHED));
        } else {
            CHECK(is_lengths(lengths, 0, count));
            CHECK(n == 0 || memcmp(list, expected, n * sizeof *list) == 0);
            CHECK(numbers_are(list, n, list_len, UNTOUCHED));
        }
        free(list);
    }
}

/* Checks the prefix lengths: they are those of the naive search, and m exactly at the positions of the full list of Knuth,
   Morris and Pratt, which is given; the count is the rules', in the windows within the text that of the given report, and at
   most 2 * n. */
static void check_lengths_by_rules(const poqewan_pattern *pattern, const uint8_t *text, size_t n, poqewan_report full,
                                   const uint32_t *list)
{
    uint16_t *expected = lend(n * sizeof *expected);
    size_t whole = 0;
    bool listed = true;
    for (size_t x = 0; x < n; x++) {
        expected[x] = (uint16_t)longest_prefix(pattern, text, n, x);
        if (expected[x] == pattern->len) {
            listed = listed && whole < full.written && list[whole] == x;
            whole++;
        }
    }
    uint64_t within, count = count_to_the_end(pattern, text, n, &within);
    check_lengths(pattern, text, n, expected, count);
    CHECK(listed && whole == full.written);
    CHECK(within == full.count);
    CHECK(count <= 2 * n);
    free(expected);
}

/* rmin, at each place: the least period of the pattern above it. m is a period. */
static void fill_rmin(const poqewan_pattern *pattern, size_t *rmin)
{
    size_t m = pattern->len, least = m;
    for (size_t k = m; k > 0; k--) {
        if (longest_prefix(pattern, pattern->bytes, m, k) == m - k)
            least = k;
        rmin[k - 1] = least;
    }
}

/* The places that a window compares, by rank: the noholes from one place on, and then the holes from right to left, as far as the
   text is not known. Gives how many. */
static size_t fill_places(uint8_t *places, const size_t *kmin, size_t m, size_t from, size_t known)
{
    size_t count = 0;
    for (size_t p = from; p < m; p++)
        if (kmin[p] > 0)
            places[count++] = (uint8_t)p;
    for (size_t p = m; p > known; p--)
        if (kmin[p - 1] == 0)
            places[count++] = (uint8_t)(p - 1);
    return count;
}

/* What the rules come to: the report, the positions, and for each comparison its entry in a journal and its place. */
struct course {
    poqewan_report report;
    uint32_t *list, *journal;
    uint8_t *places;
    size_t due; /* the position that was to be compared where the cap was spent */
};

static struct course cut_off(struct course course, uint32_t ending, size_t window)
{
    course.report.ending = ending;
    course.report.window = window;
    return course;
}

/* Colussi's rules, from document 01's kmin and rmin and without the pattern's tables; a text answers, or, if there are any, entries
   of a journal, whatever their positions are. There are as many as the cap says. */
static struct course follow(const poqewan_pattern *pattern, const uint8_t *text, const uint32_t *entries, size_t n, uint64_t cap,
                            size_t list_len)
{
    size_t m = pattern->len, b = 0, from = 0, edge = 0, kmin[POQEWAN_LONGEST_PATTERN + 1], rmin[POQEWAN_LONGEST_PATTERN];
    size_t most = entries == NULL && cap > 2 * n ? 2 * n : (size_t)cap;
    struct course c = {{0}, lend_list(list_len < n ? list_len : n), lend_list(most), lend(most), 0};
    poqewan_report *r = &c.report;
    fill_kmin(pattern, kmin);
    fill_rmin(pattern, rmin);
    while (b + m <= n) {
        uint8_t places[POQEWAN_LONGEST_PATTERN];
        size_t count = fill_places(places, kmin, m, from, edge > b ? edge - b : 0), i = 0;
        for (bool agrees = true; agrees && i < count; i += agrees) {
            size_t p = places[i];
            c.due = b + p;
            if (r->count == cap)
                return cut_off(c, POQEWAN_SPENT, b);
            agrees = entries != NULL ? entries[r->count] % 2 == 1 : equal(pattern, pattern->bytes[p], text[b + p]);
            c.places[r->count] = (uint8_t)p;
            c.journal[r->count++] = (uint32_t)(2 * (b + p) + agrees);
            if (kmin[p] > 0)
                r->at_noholes++;
            else
                r->at_holes++;
        }
        if (i < count && kmin[places[i]] > 0) {
            from = places[i] - kmin[places[i]];
            b += kmin[places[i]];
            continue;
        }
        if (i == count) {
            if (r->written == list_len)
                return cut_off(c, POQEWAN_FULL, b);
            c.list[r->written++] = (uint32_t)b;
        }
        size_t shift = rmin[i == count ? 0 : places[i]];
        edge = b + m;
        from = m - shift;
        b += shift;
    }
    return c;
}

static void free_course(struct course course)
{
    free(course.places);
    free(course.journal);
    free(course.list);
}

/* Whether a journal, whose answers have that course, has the position of each comparison, and no entry after the last. */
static bool is_true(const uint32_t *journal, size_t len, const struct course *course)
{
    size_t i = 0;
    while (i < course->report.count && journal[i] / 2 == course->journal[i] / 2)
        i++;
    return i == len;
}

/* Replays a journal: it is refused if it is false, and the list stays. Or else report and list are those of its course. Gives the
   report. */
static poqewan_report check_replay(const poqewan_pattern *pattern, size_t n, size_t list_len, const uint32_t *journal, size_t len)
{
    uint32_t *list = lend_guarded(list_len), *lent = lend_entries(journal, len);
    poqewan_report r = poqewan_replay(*pattern, n, list, list_len, lent, len);
    struct course course = follow(pattern, NULL, lent, n, len, list_len);
    size_t written = 0;
    CHECK(same_entries(lent, journal, len));
    if (is_true(journal, len, &course)) {
        written = course.report.written;
        CHECK(is_like(r, course.report));
        CHECK(same_entries(list, course.list, written));
    } else {
        CHECK(is_refusal(r, POQEWAN_FALSE_JOURNAL));
    }
    CHECK(unwritten(list, written, list_len));
    free_course(course);
    free(lent);
    free_guarded(list, list_len);
    return r;
}

/* Searches with a journal, and checks all of the answer: report and list are those of poqewan_colussi and of the rules, the journal
   is that of the rules, and what was written is replayed to the same report and list. A short journal is refused. Gives the
   report. */
static poqewan_report check_journaled(const poqewan_pattern *pattern, const uint8_t *text, size_t n, uint64_t cap, size_t list_len,
                                      size_t journal_len)
{
    uint32_t *list = lend_guarded(list_len), *journal = lend_guarded(journal_len);
    poqewan_report r = poqewan_journaled(*pattern, text, n, cap, list, list_len, journal, journal_len);
    if (cap > journal_len) {
        CHECK(is_refusal(r, POQEWAN_SHORT_JOURNAL));
        CHECK(unwritten(list, 0, list_len) && unwritten(journal, 0, journal_len));
    } else {
        uint32_t *plain = lend_list(list_len), *again = lend_list(list_len);
        struct course course = follow(pattern, text, NULL, n, cap, list_len);
        size_t count = course.report.count;
        CHECK(is_like(r, course.report));
        CHECK(is_like(r, poqewan_colussi(*pattern, text, n, cap, plain, list_len)));
        CHECK(same_entries(list, course.list, course.report.written));
        CHECK(same_entries(list, plain, list_len));
        CHECK(same_entries(journal, course.journal, count));
        CHECK(unwritten(journal, count, journal_len));
        uint32_t *entries = lend_entries(journal, count);
        CHECK(is_like(poqewan_replay(*pattern, n, again, list_len, entries, count), r));
        CHECK(same_entries(again, list, list_len));
        CHECK(same_entries(entries, journal, count));
        free(entries);
        free_course(course);
        free(again);
        free(plain);
    }
    free_guarded(journal, journal_len);
    free_guarded(list, list_len);
    return r;
}

/* The cap that is never spent, and the length of a journal that is always long enough. */
static size_t most_entries(size_t m, size_t n)
{
    return n < m ? 0 : (3 * n - m) / 2;
}

/* Runs one search and checks what is promised of any report; in Colussi's order with a journal as well and, where it is run to its
   end, the first position; and by Knuth, Morris and Pratt the prefix lengths. Gives the report. */
static poqewan_report check_search(int search, const poqewan_pattern *pattern, const uint8_t *text, size_t n,
                                   uint64_t cap, size_t list_len)
{
    size_t m = pattern->len;
    uint32_t *list = lend_list(list_len);
    poqewan_report r = searches[search](*pattern, text, n, cap, list, list_len);

    CHECK(r.refusal == 0);
    CHECK(r.ending == POQEWAN_DONE || r.ending == POQEWAN_SPENT || r.ending == POQEWAN_FULL);
    CHECK(r.written <= list_len && unwritten(list, r.written, list_len));
    CHECK(lists_occurrences(list, r.written, pattern, text, n, r.ending == POQEWAN_DONE ? n : r.window));
    CHECK(r.count <= cap);
    CHECK(r.count == r.at_noholes + r.at_holes);
    CHECK(under_ceiling(search, r, m, n));
    poqewan_report rules = by_rules(search, pattern, text, n, cap, list_len);
    CHECK(is_report(r, rules.ending, rules.window, counts_of(rules), rules.written));
    if (r.ending == POQEWAN_DONE)
        CHECK(r.window == 0);
    if (r.ending == POQEWAN_SPENT)
        CHECK(r.count == cap && r.window + m <= n);
    if (r.ending == POQEWAN_FULL)
        CHECK(r.written == list_len && occurs(pattern, text, n, r.window));
    if (search == COLUSSI) {
        size_t most = most_entries(m, n), len = cap < most ? (size_t)cap : most;
        CHECK(is_like(check_journaled(pattern, text, n, len, list_len, len), r));
    }
    if (search == COLUSSI && r.ending == POQEWAN_DONE)
        check_first(pattern, text, n, r, list);
    if (search == KMP && r.ending == POQEWAN_DONE)
        check_lengths_by_rules(pattern, text, n, r, list);
    free(list);
    return r;
}

static bool same_letters(const poqewan_pattern *pattern, size_t p, size_t q)
{
    return equal(pattern, pattern->bytes[p], pattern->bytes[q]);
}

/* How far a window of a custom order moves on, at each rank and, at m, after an occurrence: the least distance that is not ruled
   out. 0 always is. A place that agreed rules a distance out if the letter so far before it is another, and one that differed if
   that letter is the same. A distance that reaches past a place is none of its business, and so none rules out m. */
static void fill_ordered_shifts(const poqewan_pattern *pattern, const uint8_t *order, size_t *shifts)
{
    size_t m = pattern->len;
    bool out[POQEWAN_LONGEST_PATTERN + 1] = {true}; /* by the places that agreed */
    for (size_t i = 0; i <= m; i++) {
        size_t k = 0;
        while (out[k] || (i < m && k <= order[i] && same_letters(pattern, order[i], order[i] - k)))
            k++;
        shifts[i] = k;
        for (size_t d = 1; i < m && d <= order[i]; d++)
            out[d] = out[d] || !same_letters(pattern, order[i], order[i] - d);
    }
}

/* The report of a custom order by the words of the request. Noholes are found as above. */
static poqewan_report ordered_by_rules(const poqewan_pattern *pattern, const uint8_t *order, const uint8_t *text, size_t n,
                                       uint64_t cap, size_t list_len)
{
    size_t m = pattern->len, i = 0, kmin[POQEWAN_LONGEST_PATTERN + 1], shifts[POQEWAN_LONGEST_PATTERN + 1];
    poqewan_report r = {0};
    fill_kmin(pattern, kmin);
    fill_ordered_shifts(pattern, order, shifts);
    for (size_t b = 0; b + m <= n; b += shifts[i]) {
        for (i = 0; i < m; i++) {
            if (r.count == cap) {
                r.ending = POQEWAN_SPENT;
                r.window = b;
                return r;
            }
            r.count++;
            if (kmin[order[i]] > 0)
                r.at_noholes++;
            else
                r.at_holes++;
            if (!equal(pattern, pattern->bytes[order[i]], text[b + order[i]]))
                break;
        }
        if (i == m && r.written == list_len) {
            r.ending = POQEWAN_FULL;
            r.window = b;
            return r;
        }
        r.written += i == m;
    }
    return r;
}

/* Searches in a custom order and checks what is promised of any report. The positions are those of Colussi's order run to its
   end, or those of them below the window of a cut. Gives the report. */
static poqewan_report check_ordered(const poqewan_pattern *pattern, const uint8_t *order, const uint8_t *text, size_t n,
                                    uint64_t cap, size_t list_len)
{
    size_t m = pattern->len, below = 0;
    uint8_t *lent = lend_bytes(order, m);
    uint32_t *list = lend_list(list_len), *full = lend_list(n);
    poqewan_report r = poqewan_ordered(*pattern, lent, m, text, n, cap, list, list_len);
    poqewan_report rules = ordered_by_rules(pattern, order, text, n, cap, list_len);
    poqewan_report colussi = poqewan_colussi(*pattern, text, n, UINT64_MAX, full, n);
    while (below < colussi.written && (r.ending == POQEWAN_DONE || full[below] < r.window))
        below++;

    CHECK(is_report(r, rules.ending, rules.window, counts_of(rules), rules.written));
    CHECK(r.written <= list_len && unwritten(list, r.written, list_len));
    CHECK(lists_occurrences(list, r.written, pattern, text, n, r.ending == POQEWAN_DONE ? n : r.window));
    CHECK(r.written == below && (below == 0 || memcmp(list, full, below * sizeof *list) == 0));
    CHECK(r.count <= cap);
    CHECK(r.count == r.at_noholes + r.at_holes);
    if (r.ending == POQEWAN_DONE)
        CHECK(r.window == 0);
    if (r.ending == POQEWAN_SPENT)
        CHECK(r.count == cap && r.window + m <= n);
    if (r.ending == POQEWAN_FULL)
        CHECK(r.written == list_len && occurs(pattern, text, n, r.window));
    CHECK(memcmp(lent, order, m) == 0);
    free(full);
    free(list);
    free(lent);
    return r;
}

/* With what the whole search spends and fills it is done; with less it is cut off. */
static void check_limits(int search, const poqewan_pattern *pattern, const uint8_t *text, size_t n)
{
    poqewan_report whole = check_search(search, pattern, text, n, UINT64_MAX, n + 1);
    CHECK(whole.ending == POQEWAN_DONE);
    for (uint64_t cap = 0; cap <= whole.count + 1; cap++) {
        poqewan_report r = check_search(search, pattern, text, n, cap, whole.written);
        CHECK(r.ending == (cap < whole.count ? POQEWAN_SPENT : POQEWAN_DONE));
    }
    /* A cap that is 0 in its lower half. */
    CHECK(check_search(search, pattern, text, n, UINT64_C(1) << 32, whole.written).ending == POQEWAN_DONE);
    for (size_t list_len = 0; list_len <= whole.written + 1; list_len++) {
        poqewan_report r = check_search(search, pattern, text, n, UINT64_MAX, list_len);
        CHECK(r.ending == (list_len < whole.written ? POQEWAN_FULL : POQEWAN_DONE));
    }
}

static void test_limits(void)
{
    static const char *const pairs[][2] = {
        {"a", ""}, {"a", "a"}, {"ab", "a"}, {"aba", "aba"}, {"aba", "abab"}, {"aa", "aaaaaa"}, {"aabaa", "aabaaaabaabaa"},
        {"aab", "aaaaabaab"}, {"abab", "abacabababab"}, {"abb", "cabbababb"},
    };
    for (size_t i = 0; i < sizeof pairs / sizeof *pairs; i++)
        for (int s = 0; s < SEARCHES; s++) {
            poqewan_pattern pattern = prepared(pairs[i][0]);
            size_t n = strlen(pairs[i][1]);
            uint8_t *text = lend_bytes(pairs[i][1], n);
            check_limits(s, &pattern, text, n);
            free(text);
        }
}

/* Searches a text of one window, and checks the columns by each search. */
static void check_window(const poqewan_pattern *pattern, const uint8_t *text, struct counts colussi, struct counts kmp)
{
    const struct counts counts[SEARCHES] = {colussi, kmp};
    for (int s = 0; s < SEARCHES; s++) {
        poqewan_report r = check_search(s, pattern, text, pattern->len, UINT64_MAX, 1);
        CHECK(is_report(r, POQEWAN_DONE, 0, counts[s], r.written));
    }
}

/* At each place the only nohole of a pattern: another letter than all others, with no more after it than before. Then at
   each place the only hole but place 0: the letter of place 0, with others between and others still after. The texts are
   the pattern itself, where each place is compared once, and the pattern with a byte at that place that differs. */
static void test_column_of_each_place(void)
{
    for (size_t place = 1; place < POQEWAN_LONGEST_PATTERN; place++) {
        size_t m = 2 * place + 1 < POQEWAN_LONGEST_PATTERN ? 2 * place + 1 : POQEWAN_LONGEST_PATTERN;
        uint8_t *text = lend(m);
        memset(text, 'a', m);
        text[place] = 'b';
        poqewan_pattern pattern = prepare(text, m, POQEWAN_SCRATCH, 0).pattern;
        CHECK(pattern.noholes == 1);
        check_window(&pattern, text, (struct counts){m, 1, m - 1}, (struct counts){m, 1, m - 1});
        text[place] = 0;
        check_window(&pattern, text, (struct counts){1, 1, 0}, (struct counts){place + 1, 1, place});
        free(text);

        m = POQEWAN_LONGEST_PATTERN;
        text = lend(m);
        memset(text, 'b', place);
        memset(text + place, 'c', m - place);
        text[0] = text[place] = 'a';
        pattern = prepare(text, m, POQEWAN_SCRATCH, 0).pattern;
        CHECK(pattern.noholes == m - 2);
        check_window(&pattern, text, (struct counts){m, m - 2, 2}, (struct counts){m, m - 2, 2});
        text[place] = 0;
        check_window(&pattern, text, (struct counts){m - 1, m - 2, 1}, (struct counts){place + 1, place - 1, 2});
        free(text);
    }
}

/* 128 holes, then 128 noholes, and no period but 256: each repetition is compared once, and both columns pass 2^16. */
static void test_large_columns(void)
{
    const size_t m = POQEWAN_LONGEST_PATTERN, times = 1000, n = times * m;
    uint8_t *text = lend(n);
    for (size_t b = 0; b < n; b++)
        text[b] = b % m < m / 2 ? 'a' : 'b';
    poqewan_pattern pattern = prepare(text, m, POQEWAN_SCRATCH, 0).pattern;
    for (int s = 0; s < SEARCHES; s++) {
        poqewan_report r = check_search(s, &pattern, text, n, UINT64_MAX, times);
        CHECK(is_report(r, POQEWAN_DONE, 0, (struct counts){n, n / 2, n / 2}, times));
    }
    free(text);
}

/* Windows that miss at once: in Colussi's order at a nohole, by Knuth, Morris and Pratt at place 0, a hole. */
static void test_misses(void)
{
    static const char *const patterns[] = {"ab", "aab", "abab", "aabaa"};
    for (size_t i = 0; i < sizeof patterns / sizeof *patterns; i++)
        for (size_t windows = 0; windows <= 20; windows++) {
            poqewan_pattern pattern = prepared(patterns[i]);
            size_t n = pattern.len - 1 + windows;
            uint8_t *text = lend(n);
            memset(text, 'c', n);
            for (uint64_t cap = 0; cap <= windows; cap++) {
                poqewan_report r = check_search(COLUSSI, &pattern, text, n, cap, 0);
                CHECK(r.at_noholes == cap && r.at_holes == 0);
                r = check_search(KMP, &pattern, text, n, cap, 0);
                CHECK(r.at_noholes == 0 && r.at_holes == cap);
            }
            free(text);
        }
}

/* A text may hold any byte, and byte 0 breaks every occurrence that would cover it. */
static void test_zero_in_text(void)
{
    static const uint32_t positions[] = {0, 4, 6};
    uint8_t *text = lend_bytes("aba\0ababa\0a\0a", 13);
    uint32_t *list = lend_list(4);
    poqewan_pattern pattern = prepared("aba");
    for (int s = 0; s < SEARCHES; s++) {
        check_limits(s, &pattern, text, 13);
        poqewan_report r = searches[s](pattern, text, 13, UINT64_MAX, list, 4);
        CHECK(r.refusal == 0 && r.ending == POQEWAN_DONE && r.written == 3);
        CHECK(r.count == r.at_noholes + r.at_holes);
        CHECK(memcmp(list, positions, sizeof positions) == 0);
    }
    free(list);
    free(text);
}

static bool same_tables(const poqewan_pattern *one, const poqewan_pattern *other)
{
    return one->noholes == other->noholes && memcmp(one->order, other->order, sizeof one->order) == 0 &&
           memcmp(one->shift, other->shift, sizeof one->shift) == 0 &&
           memcmp(one->next, other->next, sizeof one->next) == 0 &&
           memcmp(one->marks, other->marks, sizeof one->marks) == 0;
}

/* A pattern with one class changed is true exactly where preparation by the changed classes gives its tables. */
static void test_changed_classes(void)
{
    static const char *const patterns[] = {"a", "aba", "abAB", "bcacAb"};
    const uint8_t *const both[] = {own, joined};
    uint8_t *text = lend_bytes("aabaabCabaab", 12);
    size_t accepted = 0, refused = 0;
    for (size_t i = 0; i < sizeof patterns / sizeof *patterns; i++)
        for (size_t j = 0; j < 2; j++)
            for (size_t v = 0; v < POQEWAN_CLASSES; v++) {
                poqewan_pattern changed = prepared_by(both[j], patterns[i]);
                const uint8_t others[] = {changed.classes[0], 'a', 'b', (uint8_t)(changed.classes[v] ^ 1u << v % 8)};
                uint8_t before = changed.classes[v];
                for (size_t k = 0; k < sizeof others; k++) {
                    changed.classes[v] = others[k];
                    if (others[k] == before)
                        continue;
                    uint16_t scratch[POQEWAN_SCRATCH];
                    poqewan_preparation p = poqewan_prepare(changed.bytes, changed.len, changed.classes,
                                                            POQEWAN_CLASSES, scratch, POQEWAN_SCRATCH);
                    if (p.refusal == 0 && same_tables(&p.pattern, &changed)) {
                        for (int s = 0; s < SEARCHES; s++)
                            check_search(s, &changed, text, 12, UINT64_MAX, 12);
                        check_ordered(&changed, own, text, 12, UINT64_MAX, 12);
                        accepted++;
                    } else {
                        check_refused(&changed, text, 12, POQEWAN_FALSE_PATTERN);
                        refused++;
                    }
                }
            }
    CHECK(accepted > 0 && refused > 0);
    free(text);
}

/* Small searches with limits drawn by lot; now and then the longest pattern. */
static void test_random_searches(size_t rounds)
{
    uint8_t bytes[POQEWAN_LONGEST_PATTERN];
    for (size_t round = 0; round < rounds; round++) {
        size_t letters = 1 + random_below(3);
        size_t m = round % 50 == 0 ? POQEWAN_LONGEST_PATTERN : 1 + random_below(6);
        random_letters(bytes, m, letters);
        poqewan_pattern pattern = prepare(bytes, m, POQEWAN_SCRATCH, 0).pattern;

        size_t n = random_below(m + 60);
        uint8_t *text = lend(n);
        random_letters(text, n, letters);
        for (int s = 0; s < SEARCHES; s++) {
            poqewan_report whole = check_search(s, &pattern, text, n, UINT64_MAX, n + 1);
            CHECK(whole.ending == POQEWAN_DONE);
            check_search(s, &pattern, text, n, random_below(whole.count + 2), random_below(whole.written + 2));
        }
        free(text);
    }
}

/* The same with one to three classes beside that of 0, for patterns of any bytes but 0 in texts of any. The cost is the
   method's. With other names for the classes, a name each, the tables, the cost and the reports stay. */
static void test_random_classes(size_t rounds)
{
    uint8_t bytes[POQEWAN_LONGEST_PATTERN], classes[POQEWAN_CLASSES], renamed[POQEWAN_CLASSES];
    size_t found = 0;
    for (size_t round = 0; round < rounds; round++) {
        size_t others = 1 + random_below(3), of_zero = random_below(256);
        for (size_t v = 0; v < POQEWAN_CLASSES; v++) {
            classes[v] = (uint8_t)(of_zero + (v == 0 ? 0 : 1 + random_below(others)));
            renamed[v] = (uint8_t)(classes[v] * 5u + 3u);
        }
        size_t m = round % 50 == 0 ? POQEWAN_LONGEST_PATTERN : 1 + random_below(6);
        for (size_t p = 0; p < m; p++)
            bytes[p] = (uint8_t)(1 + random_below(255));
        poqewan_preparation p = prepare_by(classes, POQEWAN_CLASSES, bytes, m, POQEWAN_SCRATCH, 0);
        poqewan_preparation q = prepare_by(renamed, POQEWAN_CLASSES, bytes, m, POQEWAN_SCRATCH, 0);
        CHECK(p.compared == compared_by_method(classes, bytes, m) && p.compared == q.compared);
        CHECK(same_tables(&p.pattern, &q.pattern));

        size_t n = random_below(m + 60);
        uint8_t *text = lend(n);
        for (size_t b = 0; b < n; b++)
            text[b] = (uint8_t)random_below(256);
        for (int s = 0; s < SEARCHES; s++) {
            poqewan_report whole = check_search(s, &p.pattern, text, n, UINT64_MAX, n + 1);
            CHECK(whole.ending == POQEWAN_DONE);
            poqewan_report again = check_search(s, &q.pattern, text, n, UINT64_MAX, n + 1);
            CHECK(is_report(again, POQEWAN_DONE, 0, counts_of(whole), whole.written));
            check_search(s, &p.pattern, text, n, random_below(whole.count + 2), random_below(whole.written + 2));
            found += whole.written;
        }
        free(text);
    }
    CHECK(found > 0);
}

/* In a text of the greatest length, an occurrence in the last window is found. Each window is compared at place 1, the only
   nohole. Place 0 is compared in the last window alone, or by Knuth, Morris and Pratt in each. */
static void test_longest_text(void)
{
    const size_t n = POQEWAN_LONGEST_TEXT;
    poqewan_pattern pattern = prepared("ab");
    uint8_t *text = lend(n);
    memset(text, 'a', n);
    text[n - 1] = 'b';
    for (int s = 0; s < SEARCHES; s++) {
        uint32_t *list = lend_list(1);
        poqewan_report r = searches[s](pattern, text, n, UINT64_MAX, list, 1);
        CHECK(r.refusal == 0 && r.ending == POQEWAN_DONE && r.written == 1 && list[0] == n - 2);
        CHECK(r.at_noholes == n - 1 && r.at_holes == (s == COLUSSI ? 1 : n - 1));
        CHECK(r.count == r.at_noholes + r.at_holes);
        CHECK(under_ceiling(s, r, 2, n));
        free(list);
    }
    CHECK(is_first(poqewan_find_first(pattern, text, n), 1, n - 2, n));
    CHECK(is_first(poqewan_find_first(pattern, text, n - 1), 0, 0, n - 2));
    free(text);
}

/* A list with an entry for each window of the longest text. Each text byte is compared once. */
static void test_longest_list(void)
{
    const size_t n = POQEWAN_LONGEST_TEXT;
    poqewan_pattern pattern = prepared("aa");
    uint8_t *text = lend(n);
    memset(text, 'a', n);
    for (int s = 0; s < SEARCHES; s++) {
        poqewan_report r = check_search(s, &pattern, text, n, UINT64_MAX, n - 1);
        CHECK(is_report(r, POQEWAN_DONE, 0, (struct counts){n, 0, n}, n - 1));
    }
    free(text);
}

/* One byte more is refused, after a false pattern is. */
static void test_long_text(void)
{
    const size_t n = POQEWAN_LONGEST_TEXT + 1;
    poqewan_pattern pattern = prepared("aba");
    uint8_t *text = lend(n);
    memset(text, 'a', n);
    check_refused(&pattern, text, n, POQEWAN_LONG_TEXT);
    pattern.noholes++;
    check_refused(&pattern, text, n, POQEWAN_FALSE_PATTERN);
    free(text);
}

/* Worked by hand from document 01's rules of Knuth, Morris and Pratt, carried on to the text's end: the lengths, with the
   places that are compared, a word for each window. Texts longer than the pattern, shorter, as long, and empty; patterns of
   one byte; document 01's records; misses up to the last byte; comparisons in windows that reach past the text's end; lengths
   that the pattern's periods would make longer than what is matched; and by the joined classes. */
static const struct lengths_record {
    const uint8_t *classes;
    const char *pattern, *text;
    uint16_t lengths[10];
    const char *compared;
} lengths_records[] = {
    {own, "aba", "ababa", {3, 0, 3, 0, 1}, "012 12"},
    {own, "aba", "ab", {2, 0}, "01"},
    {own, "ab", "aaaa", {1, 1, 1, 1}, "01 01 01 0"},
    {own, "aba", "", {0}, ""},
    {own, "aba", "a", {1}, "0"},
    {own, "aba", "c", {0}, "0"},
    {own, "abab", "ac", {1, 0}, "01 0"},
    {own, "aabaa", "aaab", {2, 3, 1, 0}, "012 12"},
    {own, "aba", "aba", {3, 0, 1}, "012"},
    {own, "aa", "aa", {2, 1}, "01"},
    {own, "ab", "ba", {0, 1}, "0 0"},
    {own, "a", "", {0}, ""},
    {own, "a", "a", {1}, "0"},
    {own, "a", "b", {0}, "0"},
    {own, "a", "aab", {1, 1, 0}, "0 0 0"},
    {own, "aa", "aaaa", {2, 2, 2, 1}, "01 1 1"},
    {own, "aabaa", "aabaaaabaa", {5, 1, 0, 2, 2, 5, 1, 0, 2, 1}, "01234 2 12 1234"},
    {own, "aab", "aaaaab", {2, 2, 2, 3, 1, 0}, "012 12 12 12"},
    {own, "abab", "abacabab", {3, 0, 1, 0, 4, 0, 2, 0}, "0123 0 0123"},
    {own, "aba", "abcaba", {2, 0, 0, 3, 0, 1}, "012 012"},
    {own, "abb", "cabb", {0, 3, 0, 0}, "0 012"},
    {own, "ab", "aac", {1, 1, 0}, "01 01 0"},
    {own, "aba", "abab", {3, 0, 2, 0}, "012 1"},
    {own, "abab", "ababab", {4, 0, 4, 0, 2, 0}, "0123 23"},
    {own, "aaaa", "aabaa", {2, 1, 0, 2, 1}, "012 01"},
    {own, "abaababa", "abaab", {5, 0, 1, 2, 0}, "01234"},
    {own, "aaab", "aaac", {3, 2, 1, 0}, "0123 2"},
    {own, "abcabd", "abcabcabd", {5, 0, 0, 6, 0, 0, 2, 0, 0}, "012345 2345"},
    {joined, "aBa", "DbAcA", {0, 0, 3, 0, 1}, "0 0 012"},
    {joined, "bca", "bbacabca", {3, 1, 0, 1, 0, 3, 1, 0}, "012 01 012"},
    {joined, "abAB", "aBAbAba", {4, 0, 4, 0, 3, 0, 1}, "0123 23 2"},
    {joined, "aCb", "Ab", {2, 0}, "01"},
};

static void test_worked_lengths(void)
{
    for (size_t i = 0; i < sizeof lengths_records / sizeof *lengths_records; i++) {
        const struct lengths_record *r = &lengths_records[i];
        poqewan_pattern pattern = prepared_by(r->classes, r->pattern);
        size_t n = strlen(r->text);
        uint8_t *text = lend_bytes(r->text, n);
        uint64_t count = 0;
        for (const char *c = r->compared; *c != '\0'; c++)
            count += *c != ' ';
        check_lengths(&pattern, text, n, r->lengths, count);
        CHECK(n == 0 || memcmp(text, r->text, n) == 0);
        free(text);
    }
}

/* A byte 0 of the text ends every prefix. By hand: 012 1 0 012 12 1 0 01 0 0 are compared. */
static void test_zero_in_text_of_lengths(void)
{
    static const uint16_t expected[] = {3, 0, 1, 0, 3, 0, 3, 0, 1, 0, 1, 0, 1};
    uint8_t *text = lend_bytes("aba\0ababa\0a\0a", 13);
    poqewan_pattern pattern = prepared("aba");
    check_lengths(&pattern, text, 13, expected, 16);
    free(text);
}

/* Each value as a pattern of one byte, in a text of all values: it is equal to itself alone. */
static void test_lengths_of_each_value(void)
{
    uint8_t *text = lend_bytes(own, POQEWAN_CLASSES);
    for (unsigned value = 1; value < POQEWAN_CLASSES; value++) {
        uint8_t byte = (uint8_t)value;
        uint16_t expected[POQEWAN_CLASSES] = {0};
        expected[value] = 1;
        poqewan_pattern pattern = prepare(&byte, 1, POQEWAN_SCRATCH, 0).pattern;
        check_lengths(&pattern, text, POQEWAN_CLASSES, expected, POQEWAN_CLASSES);
    }
    free(text);
}

/* In a text of one letter, and of so many bytes: the same letter m times compares each byte once. With another one at the end
   each window that lies within the text ends with a miss there, and each after the first has two comparisons, the place
   before and the miss; then comes one more for the last byte. */
static void check_equal_text(size_t m, size_t n)
{
    uint8_t bytes[POQEWAN_LONGEST_PATTERN], *text = lend(n);
    uint16_t *expected = lend(n * sizeof *expected);
    memset(bytes, 'a', m);
    if (n > 0)
        memset(text, 'a', n);
    poqewan_pattern pattern = prepare(bytes, m, POQEWAN_SCRATCH, 0).pattern;
    for (size_t x = 0; x < n; x++)
        expected[x] = (uint16_t)(n - x < m ? n - x : m);
    check_lengths(&pattern, text, n, expected, n);

    if (m > 1) {
        bytes[m - 1] = 'b';
        pattern = prepare(bytes, m, POQEWAN_SCRATCH, 0).pattern;
        for (size_t x = 0; x < n; x++)
            expected[x] = (uint16_t)(n - x < m - 1 ? n - x : m - 1);
        check_lengths(&pattern, text, n, expected, n < m ? n : 2 * n - m + 1);
    }
    free(expected);
    free(text);
}

static void test_equal_texts(void)
{
    static const size_t lengths[] = {1, 2, 3, 16, 255, 256};
    for (size_t i = 0; i < sizeof lengths / sizeof *lengths; i++) {
        size_t m = lengths[i], sizes[] = {0, 1, AROUND(m), AROUND(2 * m), 600};
        for (size_t j = 0; j < sizeof sizes / sizeof *sizes; j++)
            check_equal_text(m, sizes[j]);
    }
}

/* The longest pattern in itself, and in all of itself but the last byte or the first. Its lengths go up to 256. */
static void test_longest_pattern_in_itself(void)
{
    const size_t m = POQEWAN_LONGEST_PATTERN;
    uint16_t expected[POQEWAN_LONGEST_PATTERN];
    uint8_t *text = lend(m), *shorter = lend(m - 1);
    memset(text, 'a', m);
    poqewan_pattern pattern = prepare(text, m, POQEWAN_SCRATCH, 0).pattern;
    for (size_t x = 0; x < m; x++)
        expected[x] = (uint16_t)(m - x);
    check_lengths(&pattern, text, m, expected, m);

    text[m - 1] = 'b';
    pattern = prepare(text, m, POQEWAN_SCRATCH, 0).pattern;
    for (size_t x = 1; x < m; x++)
        expected[x] = (uint16_t)(m - 1 - x);
    check_lengths(&pattern, text, m, expected, m);

    memcpy(shorter, text, m - 1);
    for (size_t x = 0; x < m - 1; x++)
        expected[x] = (uint16_t)(m - 1 - x);
    check_lengths(&pattern, shorter, m - 1, expected, m - 1);

    /* A miss at place 254, which is a hole: the window moves past the text. */
    memcpy(shorter, text + 1, m - 1);
    for (size_t x = 0; x < m - 1; x++)
        expected[x] = (uint16_t)(m - 2 - x);
    check_lengths(&pattern, shorter, m - 1, expected, m - 1);
    free(shorter);
    free(text);
}

/* The word of a number over so many letters: its digits, from the least. */
static void put_word(uint8_t *word, size_t len, size_t letters, size_t number)
{
    for (size_t i = 0; i < len; i++) {
        word[i] = (uint8_t)('a' + number % letters);
        number /= letters;
    }
}

static size_t words_of(size_t len, size_t letters)
{
    size_t words = 1;
    while (len-- > 0)
        words *= letters;
    return words;
}

/* Every pattern in every text, over so many letters and up to these lengths. */
static void check_all_words(size_t letters, size_t longest_pattern, size_t longest_text)
{
    uint8_t bytes[POQEWAN_LONGEST_PATTERN];
    for (size_t m = 1; m <= longest_pattern; m++)
        for (size_t word = 0; word < words_of(m, letters); word++) {
            put_word(bytes, m, letters, word);
            poqewan_pattern pattern = prepare(bytes, m, POQEWAN_SCRATCH, 0).pattern;
            for (size_t n = 0; n <= longest_text; n++) {
                uint8_t *text = lend(n);
                for (size_t number = 0; number < words_of(n, letters); number++) {
                    put_word(text, n, letters, number);
                    CHECK(check_search(KMP, &pattern, text, n, UINT64_MAX, n + 1).ending == POQEWAN_DONE);
                }
                free(text);
            }
        }
}

static void test_all_words(bool quick)
{
    check_all_words(2, quick ? 3 : 6, quick ? 5 : 9);
    check_all_words(3, quick ? 2 : 4, quick ? 3 : 6);
}

/* A byte of that class, other than 0. */
static uint8_t member_of(const uint8_t *classes, uint8_t class)
{
    uint8_t v;
    do
        v = (uint8_t)(1 + random_below(255));
    while (classes[v] != class);
    return v;
}

/* A power of a random word, of every length in turn, long ones soon, every second round with a byte changed. One to three classes
   beside that of 0. */
static poqewan_pattern random_power(size_t round)
{
    uint8_t bytes[POQEWAN_LONGEST_PATTERN], classes[POQEWAN_CLASSES];
    size_t others = 1 + random_below(3), of_zero = random_below(256);
    for (size_t v = 0; v < POQEWAN_CLASSES; v++)
        classes[v] = (uint8_t)(of_zero + (v == 0 ? 0 : 1 + random_below(others)));
    size_t m = 1 + round / 2 * 37 % POQEWAN_LONGEST_PATTERN, root = 1 + random_below(random_below(2) ? m : 1 + m / 4);
    for (size_t p = 0; p < m; p++)
        bytes[p] = p < root ? (uint8_t)(1 + random_below(255)) : member_of(classes, classes[bytes[p - root]]);
    if (round % 2 == 1)
        bytes[random_below(m)] = (uint8_t)(1 + random_below(255));
    return prepare_by(classes, POQEWAN_CLASSES, bytes, m, POQEWAN_SCRATCH, 0).pattern;
}

/* A text of pieces of the pattern, from its start or from within, with any byte between them now and then. A byte of a piece is
   any of its class. */
static uint8_t *lend_pieces(const poqewan_pattern *pattern, size_t n)
{
    size_t m = pattern->len;
    uint8_t *text = lend(n);
    for (size_t at = 0; at < n;) {
        size_t from = random_below(2) ? 0 : random_below(m);
        size_t len = random_below(3) == 0 ? m - from : random_below(m - from + 1);
        for (size_t p = from; p < from + len && at < n; p++)
            text[at++] = member_of(pattern->classes, pattern->classes[pattern->bytes[p]]);
        if (at < n && random_below(3) == 0)
            text[at++] = (uint8_t)random_below(256);
    }
    return text;
}

static void test_random_lengths(size_t rounds)
{
    size_t found = 0;
    for (size_t round = 0; round < rounds; round++) {
        poqewan_pattern pattern = random_power(round);
        size_t n = random_below(3 * pattern.len + 8);
        uint8_t *text = lend_pieces(&pattern, n);
        found += check_search(KMP, &pattern, text, n, UINT64_MAX, n + 1).written;
        free(text);
    }
    CHECK(found > 0);
}

/* The refusal of the first condition that is chosen, or 0. */
static uint32_t first_chosen(int chosen, const uint32_t *refusals)
{
    for (int i = 0; chosen >> i != 0; i++)
        if (chosen & 1 << i)
            return refusals[i];
    return 0;
}

/* Every choice of the three conditions, and lists that are short by one, by all but one, and by all entries: the first
   condition, in the order of the tests, is what is told. */
static void test_order_of_lengths_tests(void)
{
    enum { IS_FALSE = 1, IS_LONG = 2, IS_SHORT = 4, ALL = 7 };
    static const uint32_t refusals[] = {4, 5, 11};
    poqewan_pattern pattern = prepared("ab"), wrong = pattern;
    wrong.noholes++;
    for (int is_long = 0; is_long <= IS_LONG; is_long += IS_LONG) {
        size_t n = is_long ? POQEWAN_LONGEST_TEXT + 1 : 5;
        uint8_t *text = lend(n);
        memset(text, 'a', n);
        for (int chosen = 0; chosen <= ALL; chosen++) {
            if ((chosen & IS_LONG) != is_long)
                continue;
            uint32_t refusal = first_chosen(chosen, refusals);
            size_t too_few[] = {n - 1, 1, 0};
            for (size_t i = 0; i < (chosen & IS_SHORT ? 3 : 1); i++) {
                size_t list_len = chosen & IS_SHORT ? too_few[i] : n;
                uint16_t *list = lend_numbers(list_len);
                poqewan_lengths lengths =
                    poqewan_prefix_lengths(chosen & IS_FALSE ? wrong : pattern, text, n, list, list_len);
                CHECK(is_lengths(lengths, refusal, refusal == 0 ? 2 * n - 1 : 0));
                CHECK(numbers_are(list, 0, refusal == 0 ? n : 0, 1));
                CHECK(numbers_are(list, refusal == 0 ? n : 0, list_len, UNTOUCHED));
                free(list);
            }
        }
        free(text);
    }
}

/* Texts and lists around 2^16; and lists whose number is right in its lower half alone. aba in ababab... compares each
   byte once. */
static void test_lengths_past_16_bits(void)
{
    static const size_t sizes[] = {AROUND(65536), AROUND(2 * 65536)};
    poqewan_pattern pattern = prepared("aba");
    for (size_t i = 0; i < sizeof sizes / sizeof *sizes; i++) {
        size_t n = sizes[i];
        uint8_t *text = lend(n);
        uint16_t *expected = lend(n * sizeof *expected);
        for (size_t x = 0; x < n; x++) {
            text[x] = x % 2 == 0 ? 'a' : 'b';
            expected[x] = (uint16_t)(x % 2 == 1 ? 0 : n - x < 3 ? n - x : 3);
        }
        check_lengths(&pattern, text, n, expected, n);
        uint16_t *list = lend_numbers(n % 65536);
        poqewan_lengths lengths = poqewan_prefix_lengths(pattern, text, n, list, n % 65536);
        CHECK(n < 65536 ? is_lengths(lengths, 0, n) : is_lengths(lengths, POQEWAN_SHORT_LENGTHS, 0));
        free(list);
        free(expected);
        free(text);
    }
}

/* In a text of the greatest length: ab compares two places in each window but the last, which lies past the occurrence. */
static void test_lengths_of_longest_text(void)
{
    const size_t n = POQEWAN_LONGEST_TEXT;
    poqewan_pattern pattern = prepared("ab");
    uint8_t *text = lend(n);
    memset(text, 'a', n);
    text[n - 1] = 'b';
    uint16_t *list = lend_numbers(n);
    CHECK(is_lengths(poqewan_prefix_lengths(pattern, text, n, list, n), 0, 2 * n - 2));
    CHECK(numbers_are(list, 0, n - 2, 1) && list[n - 2] == 2 && list[n - 1] == 0);
    free(list);
    list = lend_numbers(n - 1);
    CHECK(is_lengths(poqewan_prefix_lengths(pattern, text, n, list, n - 1), POQEWAN_SHORT_LENGTHS, 0));
    CHECK(numbers_are(list, 0, n - 1, UNTOUCHED));
    free(list);
    free(text);
}

/* Worked by hand from the words of the request: the positions, and the places that are compared, a word for each window, with
   those of them that are noholes. Orders from left to right, from right to left, Colussi's own and others; the last window; shifts
   after an occurrence that are less than the pattern's length, and as much; equal places that are compared afresh; caps and lists
   at their edges; texts as long as the pattern, and shorter; patterns of one byte; and by the joined classes. */
static const struct ordered_record {
    const uint8_t *classes;
    const char *pattern, *order, *text;
    uint64_t cap;
    size_t list_len;
    uint32_t ending;
    size_t window, written;
    uint32_t positions[3];
    const char *compared;
    uint64_t at_noholes;
} ordered_records[] = {
    {own, "aab", "012", "aaaab", UINT64_MAX, LONG_LIST, POQEWAN_DONE, 0, 1, {2}, "012 012 012", 3},
    {own, "aab", "210", "aaaab", UINT64_MAX, LONG_LIST, POQEWAN_DONE, 0, 1, {2}, "2 2 210", 3},
    {own, "aab", "120", "aaaab", UINT64_MAX, LONG_LIST, POQEWAN_DONE, 0, 1, {2}, "12 12 120", 3},
    {own, "aba", "012", "ababa", UINT64_MAX, LONG_LIST, POQEWAN_DONE, 0, 2, {0, 2}, "012 012", 2},
    {own, "aba", "201", "ababa", UINT64_MAX, LONG_LIST, POQEWAN_DONE, 0, 2, {0, 2}, "201 201", 2},
    {own, "aba", "012", "abcaba", UINT64_MAX, LONG_LIST, POQEWAN_DONE, 0, 1, {3}, "012 012", 2},
    {own, "aba", "120", "abcaba", UINT64_MAX, LONG_LIST, POQEWAN_DONE, 0, 1, {3}, "12 120", 2},
    {own, "aba", "210", "abcaba", UINT64_MAX, LONG_LIST, POQEWAN_DONE, 0, 1, {3}, "2 21 210", 2},
    {own, "ab", "01", "aaaa", UINT64_MAX, LONG_LIST, POQEWAN_DONE, 0, 0, {0}, "01 01 01", 3},
    {own, "ab", "10", "aaaa", UINT64_MAX, LONG_LIST, POQEWAN_DONE, 0, 0, {0}, "1 1 1", 3},
    {own, "ab", "10", "cbab", UINT64_MAX, LONG_LIST, POQEWAN_DONE, 0, 1, {2}, "10 10", 2},
    {own, "ab", "01", "abab", UINT64_MAX, LONG_LIST, POQEWAN_DONE, 0, 2, {0, 2}, "01 01", 2},
    {own, "aa", "01", "aaaa", UINT64_MAX, LONG_LIST, POQEWAN_DONE, 0, 3, {0, 1, 2}, "01 01 01", 0},
    {own, "aa", "01", "aabaa", UINT64_MAX, LONG_LIST, POQEWAN_DONE, 0, 2, {0, 3}, "01 01 01", 0},
    {own, "aa", "10", "aabaa", UINT64_MAX, LONG_LIST, POQEWAN_DONE, 0, 2, {0, 3}, "10 1 10", 0},
    {own, "abab", "0123", "abacabab", UINT64_MAX, LONG_LIST, POQEWAN_DONE, 0, 1, {4}, "0123 0 0123", 4},
    {own, "abab", "3210", "abacabab", UINT64_MAX, LONG_LIST, POQEWAN_DONE, 0, 1, {4}, "3 3 321 3210", 6},
    {own, "aabaa", "43210", "aabaaaabaa", UINT64_MAX, LONG_LIST, POQEWAN_DONE, 0, 2, {0, 5}, "43210 4 43210", 2},
    {own, "aabaa", "02413", "aabaaaabaa", UINT64_MAX, LONG_LIST, POQEWAN_DONE, 0, 2, {0, 5}, "02413 02 02 02413", 4},
    {own, "a", "0", "aab", UINT64_MAX, LONG_LIST, POQEWAN_DONE, 0, 2, {0, 1}, "0 0 0", 0},
    {own, "a", "0", "aab", 2, LONG_LIST, POQEWAN_SPENT, 2, 2, {0, 1}, "0 0", 0},
    {own, "a", "0", "aab", UINT64_MAX, 1, POQEWAN_FULL, 1, 1, {0}, "0 0", 0},
    {own, "a", "0", "", 0, 0, POQEWAN_DONE, 0, 0, {0}, "", 0},
    {own, "aba", "201", "ab", 0, LONG_LIST, POQEWAN_DONE, 0, 0, {0}, "", 0},
    {own, "aba", "201", "aba", 0, LONG_LIST, POQEWAN_SPENT, 0, 0, {0}, "", 0},
    {own, "aba", "201", "aba", 3, LONG_LIST, POQEWAN_DONE, 0, 1, {0}, "201", 1},
    {own, "aba", "120", "ababa", 3, LONG_LIST, POQEWAN_SPENT, 2, 1, {0}, "120", 1},
    {own, "aba", "120", "ababa", 5, LONG_LIST, POQEWAN_SPENT, 2, 1, {0}, "120 12", 2},
    {own, "aba", "120", "ababa", 6, 2, POQEWAN_DONE, 0, 2, {0, 2}, "120 120", 2},
    {own, "aba", "120", "ababa", UINT64_MAX, 1, POQEWAN_FULL, 2, 1, {0}, "120 120", 2},
    {own, "aba", "120", "ababa", 6, 1, POQEWAN_FULL, 2, 1, {0}, "120 120", 2},
    {own, "aba", "120", "ababa", 3, 0, POQEWAN_FULL, 0, 0, {0}, "120", 1},
    {own, "aba", "120", "ababa", 2, 0, POQEWAN_SPENT, 0, 0, {0}, "12", 1},
    {own, "bca", "021", "bbacabca", UINT64_MAX, LONG_LIST, POQEWAN_DONE, 0, 1, {5}, "021 0 0 021", 4},
    {joined, "bca", "021", "bbacabca", UINT64_MAX, LONG_LIST, POQEWAN_DONE, 0, 2, {0, 5}, "021 02 0 021", 3},
    {joined, "abAB", "1302", "aBAbAba", UINT64_MAX, LONG_LIST, POQEWAN_DONE, 0, 2, {0, 2}, "1302 1302", 4},
    {joined, "abAB", "1302", "aBAbAba", 5, LONG_LIST, POQEWAN_SPENT, 2, 1, {0}, "1302 1", 3},
};

static void test_worked_orders(void)
{
    for (size_t i = 0; i < sizeof ordered_records / sizeof *ordered_records; i++) {
        const struct ordered_record *r = &ordered_records[i];
        poqewan_pattern pattern = prepared_by(r->classes, r->pattern);
        size_t m = strlen(r->order), n = strlen(r->text);
        uint8_t *order = lend(m), *text = lend_bytes(r->text, n);
        uint32_t *list = lend_list(r->list_len);
        struct counts counts = {0, r->at_noholes, 0};
        for (const char *c = r->compared; *c != '\0'; c++)
            counts.count += *c != ' ';
        counts.at_holes = counts.count - counts.at_noholes;
        for (size_t p = 0; p < m; p++)
            order[p] = (uint8_t)(r->order[p] - '0');
        poqewan_report got = poqewan_ordered(pattern, order, m, text, n, r->cap, list, r->list_len);
        CHECK(is_report(got, r->ending, r->window, counts, r->written));
        CHECK(memcmp(list, r->positions, r->written * sizeof *list) == 0);
        CHECK(unwritten(list, r->written, r->list_len));
        CHECK(n == 0 || memcmp(text, r->text, n) == 0);
        check_ordered(&pattern, order, text, n, r->cap, r->list_len);
        free(list);
        free(text);
        free(order);
    }
}

static void swap(uint8_t *one, uint8_t *other)
{
    uint8_t kept = *one;
    *one = *other;
    *other = kept;
}

/* The next arrangement of the places, if there is one. The first has them from left to right. */
static bool next_order(uint8_t *order, size_t m)
{
    size_t i = m - 1, j = m - 1;
    while (i > 0 && order[i - 1] > order[i])
        i--;
    if (i == 0)
        return false;
    while (order[j] < order[i - 1])
        j--;
    swap(&order[i - 1], &order[j]);
    for (j = m - 1; i < j; i++, j--)
        swap(&order[i], &order[j]);
    return true;
}

/* The same as for the other searches, in a custom order. */
static void check_ordered_limits(const poqewan_pattern *pattern, const uint8_t *order, const uint8_t *text, size_t n)
{
    poqewan_report whole = check_ordered(pattern, order, text, n, UINT64_MAX, n + 1);
    CHECK(whole.ending == POQEWAN_DONE);
    for (uint64_t cap = 0; cap <= whole.count + 1; cap++) {
        poqewan_report r = check_ordered(pattern, order, text, n, cap, whole.written);
        CHECK(r.ending == (cap < whole.count ? POQEWAN_SPENT : POQEWAN_DONE));
    }
    /* A cap that is 0 in its lower half. */
    CHECK(check_ordered(pattern, order, text, n, UINT64_C(1) << 32, whole.written).ending == POQEWAN_DONE);
    for (size_t list_len = 0; list_len <= whole.written + 1; list_len++) {
        poqewan_report r = check_ordered(pattern, order, text, n, UINT64_MAX, list_len);
        CHECK(r.ending == (list_len < whole.written ? POQEWAN_FULL : POQEWAN_DONE));
    }
}

/* In every arrangement, or in a quick run in every seventh. */
static void test_limits_of_orders(bool quick)
{
    static const char *const pairs[][2] = {
        {"a", ""}, {"a", "a"}, {"ab", "a"}, {"aba", "aba"}, {"aba", "abab"}, {"aa", "aaaaaa"}, {"aab", "aaaaabaab"},
        {"abab", "abacabababab"}, {"abb", "cabbababb"}, {"aabaa", "aabaaaabaabaa"},
    };
    uint8_t order[5];
    for (size_t i = 0; i < sizeof pairs / sizeof *pairs; i++) {
        poqewan_pattern pattern = prepared(pairs[i][0]);
        size_t n = strlen(pairs[i][1]), number = 0;
        uint8_t *text = lend_bytes(pairs[i][1], n);
        memcpy(order, own, pattern.len);
        do
            if (!quick || number++ % 7 == 0)
                check_ordered_limits(&pattern, order, text, n);
        while (next_order(order, pattern.len));
        free(text);
    }
}

/* Byte 0 breaks every occurrence that would cover it, whatever the order is. */
static void test_zero_in_text_of_orders(void)
{
    static const uint32_t positions[] = {0, 4, 6};
    uint8_t *text = lend_bytes("aba\0ababa\0a\0a", 13), order[3];
    uint32_t *list = lend_list(4);
    poqewan_pattern pattern = prepared("aba");
    memcpy(order, own, sizeof order);
    do {
        check_ordered_limits(&pattern, order, text, 13);
        poqewan_report r = poqewan_ordered(pattern, order, 3, text, 13, UINT64_MAX, list, 4);
        CHECK(r.refusal == 0 && r.ending == POQEWAN_DONE && r.written == 3);
        CHECK(memcmp(list, positions, sizeof positions) == 0);
    } while (next_order(order, 3));
    free(list);
    free(text);
}

/* Each value as a pattern of one byte, in a text of all values: it is equal to itself alone. */
static void test_orders_of_each_value(void)
{
    uint8_t *text = lend_bytes(own, POQEWAN_CLASSES);
    for (unsigned value = 1; value < POQEWAN_CLASSES; value++) {
        uint8_t byte = (uint8_t)value;
        poqewan_pattern pattern = prepare(&byte, 1, POQEWAN_SCRATCH, 0).pattern;
        poqewan_report r = check_ordered(&pattern, own, text, POQEWAN_CLASSES, UINT64_MAX, 2);
        CHECK(is_report(r, POQEWAN_DONE, 0, (struct counts){POQEWAN_CLASSES, 0, POQEWAN_CLASSES}, 1));
    }
    free(text);
}

/* Every pattern in every text, over so many letters and up to these lengths, in every arrangement: with all that the search asks
   for, and with a cap and a list drawn by lot. */
static void check_all_orders(size_t letters, size_t longest_pattern, size_t longest_text)
{
    uint8_t bytes[POQEWAN_LONGEST_PATTERN], order[POQEWAN_LONGEST_PATTERN];
    for (size_t m = 1; m <= longest_pattern; m++)
        for (size_t word = 0; word < words_of(m, letters); word++) {
            put_word(bytes, m, letters, word);
            poqewan_pattern pattern = prepare(bytes, m, POQEWAN_SCRATCH, 0).pattern;
            memcpy(order, own, m);
            do
                for (size_t n = 0; n <= longest_text; n++) {
                    uint8_t *text = lend(n);
                    for (size_t number = 0; number < words_of(n, letters); number++) {
                        put_word(text, n, letters, number);
                        poqewan_report whole = check_ordered(&pattern, order, text, n, UINT64_MAX, n + 1);
                        CHECK(whole.ending == POQEWAN_DONE);
                        check_ordered(&pattern, order, text, n, random_below(whole.count + 2), random_below(whole.written + 2));
                    }
                    free(text);
                }
            while (next_order(order, m));
        }
}

static void test_all_orders(bool quick)
{
    check_all_orders(2, quick ? 3 : 4, quick ? 4 : 7);
    check_all_orders(3, quick ? 2 : 3, quick ? 3 : 5);
}

static void random_order(uint8_t *order, size_t m)
{
    memcpy(order, own, m);
    for (size_t i = m - 1; i > 0; i--)
        swap(&order[i], &order[random_below(i + 1)]);
}

/* The orders that a drawn pattern is searched in: from left to right, from right to left, Colussi's own, the places of even
   number before the others, and two drawn by lot, of which one is the first with a few places exchanged. */
enum { ASCENDING, DESCENDING, OF_COLUSSI, EVEN_FIRST, EXCHANGED, DRAWN, ORDERS };

static void fill_order(uint8_t *order, const poqewan_pattern *pattern, int which)
{
    size_t m = pattern->len;
    memcpy(order, which == OF_COLUSSI ? pattern->order : own, m);
    if (which == DESCENDING)
        for (size_t i = 0; i < m; i++)
            order[i] = (uint8_t)(m - 1 - i);
    if (which == EVEN_FIRST)
        for (size_t i = 0; i < m; i++)
            order[i] = (uint8_t)(i < (m + 1) / 2 ? 2 * i : 2 * (i - (m + 1) / 2) + 1);
    if (which == EXCHANGED)
        for (int times = 0; times < 3; times++)
            swap(&order[random_below(m)], &order[random_below(m)]);
    if (which == DRAWN)
        random_order(order, m);
}

/* The places from one of them on, and then those before it. */
static void order_from(uint8_t *order, size_t m, size_t place)
{
    for (size_t i = 0; i < m; i++)
        order[i] = (uint8_t)((place + i) % m);
}

/* A column goes by the place, and not by its rank: each place as the only nohole, and then as the only hole but place 0, in the
   patterns of the same test above. It is compared first, and differs. In a quick run every eleventh. */
static void test_column_of_each_place_in_orders(bool quick)
{
    uint8_t order[POQEWAN_LONGEST_PATTERN];
    for (size_t place = 1; place < POQEWAN_LONGEST_PATTERN; place += quick ? 11 : 1) {
        size_t m = 2 * place + 1 < POQEWAN_LONGEST_PATTERN ? 2 * place + 1 : POQEWAN_LONGEST_PATTERN;
        uint8_t *text = lend(m);
        memset(text, 'a', m);
        text[place] = 'b';
        poqewan_pattern pattern = prepare(text, m, POQEWAN_SCRATCH, 0).pattern;
        text[place] = 0;
        order_from(order, m, place);
        poqewan_report r = check_ordered(&pattern, order, text, m, UINT64_MAX, 1);
        CHECK(is_report(r, POQEWAN_DONE, 0, (struct counts){1, 1, 0}, 0));
        free(text);

        m = POQEWAN_LONGEST_PATTERN;
        text = lend(m);
        memset(text, 'b', place);
        memset(text + place, 'c', m - place);
        text[0] = text[place] = 'a';
        pattern = prepare(text, m, POQEWAN_SCRATCH, 0).pattern;
        text[place] = 0;
        order_from(order, m, place);
        r = check_ordered(&pattern, order, text, m, UINT64_MAX, 1);
        CHECK(is_report(r, POQEWAN_DONE, 0, (struct counts){1, 0, 1}, 0));
        free(text);
    }
}

/* Patterns of every length by drawn classes, in texts of their pieces, in each of these orders: whole, and with a cap and a list
   drawn by lot, so that all endings are met. */
static void test_random_orders(size_t rounds)
{
    uint8_t order[POQEWAN_LONGEST_PATTERN];
    size_t endings[3] = {0}, found = 0;
    for (size_t round = 0; round < rounds; round++) {
        poqewan_pattern pattern = random_power(round);
        size_t n = random_below(3 * pattern.len + 8);
        uint8_t *text = lend_pieces(&pattern, n);
        for (int which = 0; which < ORDERS; which++) {
            fill_order(order, &pattern, which);
            poqewan_report whole = check_ordered(&pattern, order, text, n, UINT64_MAX, n + 1);
            CHECK(whole.ending == POQEWAN_DONE);
            uint64_t cap = random_below(2) ? UINT64_MAX : random_below(whole.count + 2);
            poqewan_report r = check_ordered(&pattern, order, text, n, cap, random_below(whole.written + 2));
            CHECK(r.ending <= POQEWAN_FULL);
            endings[r.ending <= POQEWAN_FULL ? r.ending : 0]++;
            found += whole.written;
        }
        free(text);
    }
    CHECK(found > 0 && endings[POQEWAN_DONE] > 0 && endings[POQEWAN_SPENT] > 0 && endings[POQEWAN_FULL] > 0);
}

/* The search must refuse with this number and leave the list as it is, whatever the cap is and with or without a list. */
static void check_refused_order(const poqewan_pattern *pattern, const uint8_t *order, size_t order_len, const uint8_t *text,
                                size_t n, uint32_t number)
{
    uint8_t *lent = lend_bytes(order, order_len);
    uint32_t *list = lend_list(4);
    for (size_t list_len = 0; list_len <= 4; list_len += 4) {
        uint64_t cap = list_len == 0 ? 0 : UINT64_MAX;
        CHECK(is_refusal(poqewan_ordered(*pattern, lent, order_len, text, n, cap, list, list_len), number));
        CHECK(unwritten(list, 0, 4));
    }
    free(list);
    free(lent);
}

static size_t how_often(uint8_t byte, const uint8_t *bytes, size_t len)
{
    size_t times = 0;
    for (size_t i = 0; i < len; i++)
        times += bytes[i] == byte;
    return times;
}

/* Every sequence of up to m + 1 bytes, each at most m, and in a text that is empty, too: refused are all but the arrangements. */
static void test_every_sequence(bool quick)
{
    static const char *const patterns[] = {"a", "ab", "aba", "aabb"};
    static const size_t arrangements[] = {1, 2, 6, 24};
    uint8_t *text = lend_bytes("aabbabaabb", 10), order[5];
    for (size_t i = 0; i < (quick ? 3 : sizeof patterns / sizeof *patterns); i++) {
        poqewan_pattern pattern = prepared(patterns[i]);
        size_t m = pattern.len, accepted = 0;
        for (size_t len = 0; len <= m + 1; len++)
            for (size_t word = 0; word < words_of(len, m + 1); word++) {
                put_word(order, len, m + 1, word);
                for (size_t p = 0; p < len; p++)
                    order[p] = (uint8_t)(order[p] - 'a');
                size_t p = 0;
                while (p < m && how_often((uint8_t)p, order, len) == 1)
                    p++;
                if (len == m && p == m) {
                    check_ordered(&pattern, order, text, 10, UINT64_MAX, 10);
                    accepted++;
                } else {
                    check_refused_order(&pattern, order, len, text, 10, POQEWAN_FALSE_ORDER);
                    check_refused_order(&pattern, order, len, NULL, 0, POQEWAN_FALSE_ORDER);
                }
            }
        CHECK(accepted == arrangements[i]);
    }
    free(text);
}

/* Numbers of bytes other than m, also such as are m in their lowest byte or their lower half; and at each rank a place that stands
   elsewhere, a place just past the last, and others past it. */
static void test_false_orders(void)
{
    static const size_t lengths[] = {1, 2, 3, 16, AROUND(64), 128, 255, 256};
    uint8_t *text = lend(600), order[POQEWAN_LONGEST_PATTERN], *longer = lend(65536 + POQEWAN_LONGEST_PATTERN);
    random_letters(text, 600, 2);
    for (size_t i = 0; i < sizeof lengths / sizeof *lengths; i++) {
        size_t m = lengths[i], numbers[] = {0, 1, m - 1, m + 1, 2 * m, m + 256, m + 65536};
        poqewan_pattern pattern = prepare(text, m, POQEWAN_SCRATCH, 0).pattern;
        random_order(order, m);
        check_ordered(&pattern, order, text, 600, UINT64_MAX, 600);
        for (size_t at = 0; at < 65536 + m; at++)
            longer[at] = order[at % m];
        for (size_t j = 0; j < sizeof numbers / sizeof *numbers; j++)
            if (numbers[j] != m)
                check_refused_order(&pattern, longer, numbers[j], text, 600, POQEWAN_FALSE_ORDER);
        for (size_t rank = 0; rank < m; rank++) {
            uint8_t place = order[rank];
            size_t others[] = {order[(rank + 1) % m], order[random_below(m)], m, m + 1 + random_below(256), 255};
            for (size_t j = 0; j < sizeof others / sizeof *others; j++)
                if (others[j] < POQEWAN_LONGEST_PATTERN && others[j] != place) {
                    order[rank] = (uint8_t)others[j];
                    check_refused_order(&pattern, order, m, text, 600, POQEWAN_FALSE_ORDER);
                }
            order[rank] = place;
        }
        check_ordered(&pattern, order, text, 600, UINT64_MAX, 600);
    }
    /* The sum of the places, and that of their squares, are those of an arrangement. */
    static const uint8_t same_sums[] = {1, 2, 3, 1, 2, 6, 6};
    poqewan_pattern pattern = prepare(text, sizeof same_sums, POQEWAN_SCRATCH, 0).pattern;
    check_refused_order(&pattern, same_sums, sizeof same_sums, text, 600, POQEWAN_FALSE_ORDER);
    free(longer);
    free(text);
}

/* Every choice of the three conditions, with orders that are short by one byte, long by one, empty, with a place twice, and with
   one that is none: the first condition, in the order of the tests, is what is told. In a^n each window of ab has one comparison
   from right to left. */
static void test_order_of_ordered_tests(void)
{
    enum { IS_FALSE = 1, NO_ORDER = 2, IS_LONG = 4, ALL = 7 };
    static const uint32_t refusals[] = {4, 16, 5};
    static const struct {
        size_t len;
        uint8_t bytes[3];
    } orders[] = {{1, {1}}, {3, {1, 0, 2}}, {0, {0}}, {2, {1, 1}}, {2, {1, 2}}};
    const uint8_t right[] = {1, 0};
    poqewan_pattern pattern = prepared("ab"), wrong = pattern;
    wrong.noholes++;
    for (int is_long = 0; is_long <= IS_LONG; is_long += IS_LONG) {
        size_t n = is_long ? POQEWAN_LONGEST_TEXT + 1 : 5;
        uint8_t *text = lend(n);
        memset(text, 'a', n);
        for (int chosen = 0; chosen <= ALL; chosen++) {
            if ((chosen & IS_LONG) != is_long)
                continue;
            uint32_t refusal = first_chosen(chosen, refusals);
            const poqewan_pattern *asked = chosen & IS_FALSE ? &wrong : &pattern;
            if (refusal == 0)
                CHECK(is_report(check_ordered(asked, right, text, n, UINT64_MAX, 4), POQEWAN_DONE, 0,
                                (struct counts){n - 1, n - 1, 0}, 0));
            else if (chosen & NO_ORDER)
                for (size_t i = 0; i < sizeof orders / sizeof *orders; i++)
                    check_refused_order(asked, orders[i].bytes, orders[i].len, text, n, refusal);
            else
                check_refused_order(asked, right, 2, text, n, refusal);
        }
        free(text);
    }
}

/* Positions and windows past 2^16: aa in a^n is compared at two places in each window. And a count past it, with the longest
   pattern: a^255 b from left to right, all places in each window; from right to left one. */
static void test_orders_past_16_bits(void)
{
    const size_t n = 65536 + 300, m = POQEWAN_LONGEST_PATTERN, windows = 1000;
    const uint8_t right_to_left[] = {1, 0};
    uint8_t *text = lend(n), order[POQEWAN_LONGEST_PATTERN];
    memset(text, 'a', n);
    poqewan_pattern pattern = prepared("aa");
    poqewan_report r = check_ordered(&pattern, right_to_left, text, n, UINT64_MAX, n - 1);
    CHECK(is_report(r, POQEWAN_DONE, 0, (struct counts){2 * n - 2, 0, 2 * n - 2}, n - 1));
    r = check_ordered(&pattern, right_to_left, text, n, UINT64_MAX, n - 2);
    CHECK(is_report(r, POQEWAN_FULL, n - 2, (struct counts){2 * n - 2, 0, 2 * n - 2}, n - 2));
    r = check_ordered(&pattern, right_to_left, text, n, 2 * n - 3, n - 1);
    CHECK(is_report(r, POQEWAN_SPENT, n - 2, (struct counts){2 * n - 3, 0, 2 * n - 3}, n - 2));
    text[m - 1] = 'b';
    pattern = prepare(text, m, POQEWAN_SCRATCH, 0).pattern;
    text[m - 1] = 'a';
    r = check_ordered(&pattern, own, text, m - 1 + windows, UINT64_MAX, 0);
    CHECK(is_report(r, POQEWAN_DONE, 0, (struct counts){windows * m, windows, windows * (m - 1)}, 0));
    fill_order(order, &pattern, DESCENDING);
    r = check_ordered(&pattern, order, text, m - 1 + windows, UINT64_MAX, 0);
    CHECK(is_report(r, POQEWAN_DONE, 0, (struct counts){windows, windows, 0}, 0));
    free(text);
}

/* A text of the greatest length is accepted, and an occurrence in its last window is found: from left to right each window has two
   comparisons, and from right to left one, but for the last. A quick run goes only as far as a cap. */
static void test_orders_of_longest_text(bool quick)
{
    const size_t n = POQEWAN_LONGEST_TEXT;
    const uint8_t right_to_left[] = {1, 0};
    poqewan_pattern pattern = prepared("ab");
    uint8_t *text = lend(n);
    uint32_t *list = lend_list(1);
    memset(text, 'a', n);
    text[n - 1] = 'b';
    poqewan_report r = poqewan_ordered(pattern, own, 2, text, n, 5, list, 1);
    CHECK(is_report(r, POQEWAN_SPENT, 2, (struct counts){5, 2, 3}, 0));
    CHECK(unwritten(list, 0, 1));
    for (int i = 0; i < (quick ? 0 : 2); i++) {
        r = poqewan_ordered(pattern, i == 0 ? own : right_to_left, 2, text, n, UINT64_MAX, list, 1);
        CHECK(is_report(r, POQEWAN_DONE, 0, (struct counts){i == 0 ? 2 * n - 2 : n, n - 1, i == 0 ? n - 1 : 1}, 1));
        CHECK(list[0] == n - 2);
    }
    free(list);
    free(text);
}

/* Worked by hand from document 01's rules: the entries are twice the positions as they are compared, plus 1 where the bytes are
   equal. Occurrences one after the other; windows that move on by one; misses at holes, after which a window knows its start;
   patterns of one byte; texts as long as the pattern, and shorter; caps and lists at their edges; byte 0 in the text; and by the
   joined classes. */
#define TEXT(word) word, sizeof(word) - 1

static const struct journal_record {
    const uint8_t *classes;
    const char *pattern, *text;
    size_t n;
    uint64_t cap;
    size_t list_len;
    uint32_t ending;
    size_t window, written;
    uint32_t positions[3];
    uint64_t count, at_noholes;
    uint32_t journal[12];
} journal_records[] = {
    {own, "aba", TEXT("ababa"), 6, LONG_LIST, POQEWAN_DONE, 0, 2, {0, 2}, 5, 2, {3, 5, 1, 7, 9}},
    {own, "aba", TEXT("ababa"), 5, 2, POQEWAN_DONE, 0, 2, {0, 2}, 5, 2, {3, 5, 1, 7, 9}},
    {own, "aba", TEXT("ababa"), 4, LONG_LIST, POQEWAN_SPENT, 2, 1, {0}, 4, 2, {3, 5, 1, 7}},
    {own, "aba", TEXT("ababa"), 3, LONG_LIST, POQEWAN_SPENT, 2, 1, {0}, 3, 1, {3, 5, 1}},
    {own, "aba", TEXT("ababa"), 2, LONG_LIST, POQEWAN_SPENT, 0, 0, {0}, 2, 1, {3, 5}},
    {own, "aba", TEXT("ababa"), 0, LONG_LIST, POQEWAN_SPENT, 0, 0, {0}, 0, 0, {0}},
    {own, "aba", TEXT("ababa"), 6, 1, POQEWAN_FULL, 2, 1, {0}, 5, 2, {3, 5, 1, 7, 9}},
    {own, "aba", TEXT("ababa"), 5, 1, POQEWAN_FULL, 2, 1, {0}, 5, 2, {3, 5, 1, 7, 9}},
    {own, "aba", TEXT("ababa"), 6, 0, POQEWAN_FULL, 0, 0, {0}, 3, 1, {3, 5, 1}},
    {own, "aba", TEXT("ababa"), 2, 0, POQEWAN_SPENT, 0, 0, {0}, 2, 1, {3, 5}},
    {own, "aab", TEXT("aaaab"), 6, LONG_LIST, POQEWAN_DONE, 0, 1, {2}, 5, 3, {4, 6, 9, 7, 5}},
    {own, "aab", TEXT("aaaab"), 2, LONG_LIST, POQEWAN_SPENT, 2, 0, {0}, 2, 2, {4, 6}},
    {own, "aab", TEXT("aaaab"), 5, 0, POQEWAN_FULL, 2, 0, {0}, 5, 3, {4, 6, 9, 7, 5}},
    {own, "aa", TEXT("aaaa"), 5, LONG_LIST, POQEWAN_DONE, 0, 3, {0, 1, 2}, 4, 0, {3, 1, 5, 7}},
    {own, "aa", TEXT("aaaa"), 5, 2, POQEWAN_FULL, 2, 2, {0, 1}, 4, 0, {3, 1, 5, 7}},
    {own, "ab", TEXT("aaaa"), 5, LONG_LIST, POQEWAN_DONE, 0, 0, {0}, 3, 3, {2, 4, 6}},
    {own, "abab", TEXT("abacabab"), 10, LONG_LIST, POQEWAN_DONE, 0, 1, {4}, 7, 5, {3, 6, 8, 11, 15, 13, 9}},
    {own, "aabaa", TEXT("aabaaaabaa"), 12, LONG_LIST, POQEWAN_DONE, 0, 2, {0, 5}, 12, 4,
     {5, 9, 7, 3, 1, 10, 12, 15, 19, 17, 13, 11}},
    {own, "aba", TEXT("cbaba"), 6, LONG_LIST, POQEWAN_DONE, 0, 1, {2}, 5, 2, {3, 5, 0, 7, 9}},
    {own, "aba", TEXT("abcaba"), 7, LONG_LIST, POQEWAN_DONE, 0, 1, {3}, 5, 2, {3, 4, 9, 11, 7}},
    {own, "a", TEXT("aab"), 4, LONG_LIST, POQEWAN_DONE, 0, 2, {0, 1}, 3, 0, {1, 3, 4}},
    {own, "a", TEXT("aab"), 2, LONG_LIST, POQEWAN_SPENT, 2, 2, {0, 1}, 2, 0, {1, 3}},
    {own, "a", TEXT("aab"), 4, 1, POQEWAN_FULL, 1, 1, {0}, 2, 0, {1, 3}},
    {own, "a", TEXT("b"), 1, 0, POQEWAN_DONE, 0, 0, {0}, 1, 0, {0}},
    {own, "a", TEXT("a"), 1, 1, POQEWAN_DONE, 0, 1, {0}, 1, 0, {1}},
    {own, "a", TEXT(""), 0, 0, POQEWAN_DONE, 0, 0, {0}, 0, 0, {0}},
    {own, "aba", TEXT(""), 2, LONG_LIST, POQEWAN_DONE, 0, 0, {0}, 0, 0, {0}},
    {own, "aba", TEXT("ab"), 2, LONG_LIST, POQEWAN_DONE, 0, 0, {0}, 0, 0, {0}},
    {own, "aba", TEXT("ab"), 0, 0, POQEWAN_DONE, 0, 0, {0}, 0, 0, {0}},
    {own, "aba", TEXT("aba"), 3, LONG_LIST, POQEWAN_DONE, 0, 1, {0}, 3, 1, {3, 5, 1}},
    {own, "aba", TEXT("bba"), 3, LONG_LIST, POQEWAN_DONE, 0, 0, {0}, 3, 1, {3, 5, 0}},
    {own, "aba", TEXT("abb"), 3, LONG_LIST, POQEWAN_DONE, 0, 0, {0}, 2, 1, {3, 4}},
    {own, "aba", TEXT("aaa"), 3, LONG_LIST, POQEWAN_DONE, 0, 0, {0}, 1, 1, {2}},
    {own, "aba", TEXT("a\0aba"), 6, LONG_LIST, POQEWAN_DONE, 0, 1, {2}, 5, 3, {2, 4, 7, 9, 5}},
    {own, "a", TEXT("\0a\0"), 4, LONG_LIST, POQEWAN_DONE, 0, 1, {1}, 3, 0, {0, 3, 4}},
    {joined, "bca", TEXT("cabBA"), 6, LONG_LIST, POQEWAN_DONE, 0, 1, {2}, 5, 3, {4, 6, 9, 7, 5}},
    {own, "bca", TEXT("cabBA"), 6, LONG_LIST, POQEWAN_DONE, 0, 0, {0}, 3, 3, {2, 4, 6}},
    {joined, "aBa", TEXT("DbAcA"), 6, LONG_LIST, POQEWAN_DONE, 0, 1, {2}, 5, 2, {3, 5, 0, 7, 9}},
    {joined, "abAB", TEXT("aBAbAba"), 5, LONG_LIST, POQEWAN_SPENT, 2, 1, {0}, 5, 3, {3, 7, 5, 1, 11}},
};

/* With a journal as long as the cap, and with a longer one. */
static void test_worked_journals(void)
{
    for (size_t i = 0; i < sizeof journal_records / sizeof *journal_records; i++)
        for (size_t more = 0; more <= 3; more += 3) {
            const struct journal_record *r = &journal_records[i];
            poqewan_pattern pattern = prepared_by(r->classes, r->pattern);
            struct counts counts = {r->count, r->at_noholes, r->count - r->at_noholes};
            size_t journal_len = (size_t)r->cap + more;
            uint8_t *text = lend_bytes(r->text, r->n);
            uint32_t *list = lend_list(r->list_len), *again = lend_list(r->list_len), *journal = lend_list(journal_len);
            poqewan_report got = poqewan_journaled(pattern, text, r->n, r->cap, list, r->list_len, journal, journal_len);
            CHECK(is_report(got, r->ending, r->window, counts, r->written));
            CHECK(same_entries(list, r->positions, r->written) && unwritten(list, r->written, r->list_len));
            CHECK(same_entries(journal, r->journal, r->count) && unwritten(journal, r->count, journal_len));
            CHECK(r->n == 0 || memcmp(text, r->text, r->n) == 0);
            got = poqewan_replay(pattern, r->n, again, r->list_len, r->journal, r->count);
            CHECK(is_report(got, r->ending, r->window, counts, r->written));
            CHECK(same_entries(again, list, r->list_len));
            check_journaled(&pattern, text, r->n, r->cap, r->list_len, journal_len);
            free(journal);
            free(again);
            free(list);
            free(text);
        }
}

/* Replays worked by hand from the same rules. Journals that run out; entries that are not of the next comparison, or come after the
   last; other answers than any of the texts above gives; and two that no text could have given: in abaa, position 3 differs from a
   and is then equal to it, and in abaaa it is equal to a and then differs from it. */
static const struct replay_record {
    const uint8_t *classes;
    const char *pattern;
    size_t n, list_len;
    uint32_t refusal, ending;
    size_t window, written;
    uint32_t positions[3];
    uint64_t at_noholes;
    size_t len;
    uint32_t journal[8];
} replay_records[] = {
    {own, "aba", 5, LONG_LIST, 0, POQEWAN_SPENT, 0, 0, {0}, 0, 0, {0}},
    {own, "aba", 5, 0, 0, POQEWAN_SPENT, 0, 0, {0}, 0, 0, {0}},
    {own, "aba", 3, LONG_LIST, 0, POQEWAN_SPENT, 0, 0, {0}, 0, 0, {0}},
    {own, "aba", 2, LONG_LIST, 0, POQEWAN_DONE, 0, 0, {0}, 0, 0, {0}},
    {own, "aba", 0, LONG_LIST, 0, POQEWAN_DONE, 0, 0, {0}, 0, 0, {0}},
    {own, "aba", 2, LONG_LIST, POQEWAN_FALSE_JOURNAL, 0, 0, 0, {0}, 0, 1, {3}},
    {own, "aba", 0, LONG_LIST, POQEWAN_FALSE_JOURNAL, 0, 0, 0, {0}, 0, 1, {3}},
    {own, "aba", 3, LONG_LIST, 0, POQEWAN_SPENT, 0, 0, {0}, 1, 1, {3}},
    {own, "aba", 5, LONG_LIST, 0, POQEWAN_SPENT, 2, 1, {0}, 1, 3, {3, 5, 1}},
    {own, "aba", 5, 0, 0, POQEWAN_FULL, 0, 0, {0}, 1, 3, {3, 5, 1}},
    {own, "aba", 3, 1, 0, POQEWAN_DONE, 0, 1, {0}, 1, 3, {3, 5, 1}},
    {own, "aba", 5, 0, POQEWAN_FALSE_JOURNAL, 0, 0, 0, {0}, 0, 4, {3, 5, 1, 7}},
    {own, "aba", 3, 1, POQEWAN_FALSE_JOURNAL, 0, 0, 0, {0}, 0, 4, {3, 5, 1, 7}},
    {own, "aba", 4, 1, 0, POQEWAN_DONE, 0, 1, {0}, 1, 3, {3, 5, 1}},
    {own, "aba", 5, 2, POQEWAN_FALSE_JOURNAL, 0, 0, 0, {0}, 0, 6, {3, 5, 1, 7, 9, 11}},
    {own, "aba", 5, 2, POQEWAN_FALSE_JOURNAL, 0, 0, 0, {0}, 0, 5, {3, 5, 1, 7, 11}},
    {own, "aba", 5, LONG_LIST, 0, POQEWAN_DONE, 0, 1, {0}, 2, 5, {3, 5, 1, 7, 8}},
    {own, "aba", 5, LONG_LIST, 0, POQEWAN_DONE, 0, 1, {0}, 2, 4, {3, 5, 1, 6}},
    {own, "aba", 5, LONG_LIST, 0, POQEWAN_DONE, 0, 0, {0}, 1, 2, {3, 4}},
    {own, "aba", 6, LONG_LIST, 0, POQEWAN_SPENT, 3, 0, {0}, 1, 2, {3, 4}},
    {own, "aba", 5, LONG_LIST, 0, POQEWAN_SPENT, 2, 0, {0}, 1, 3, {3, 5, 0}},
    {own, "aba", 5, LONG_LIST, 0, POQEWAN_DONE, 0, 0, {0}, 3, 3, {2, 4, 6}},
    {own, "aba", 5, LONG_LIST, 0, POQEWAN_SPENT, 2, 0, {0}, 2, 2, {2, 4}},
    {own, "aba", 5, LONG_LIST, POQEWAN_FALSE_JOURNAL, 0, 0, 0, {0}, 0, 4, {2, 4, 6, 8}},
    {own, "aba", 5, LONG_LIST, POQEWAN_FALSE_JOURNAL, 0, 0, 0, {0}, 0, 2, {2, 3}},
    {own, "aba", 5, LONG_LIST, POQEWAN_FALSE_JOURNAL, 0, 0, 0, {0}, 0, 1, {0}},
    {own, "aba", 5, LONG_LIST, POQEWAN_FALSE_JOURNAL, 0, 0, 0, {0}, 0, 1, {1}},
    {own, "aba", 5, LONG_LIST, POQEWAN_FALSE_JOURNAL, 0, 0, 0, {0}, 0, 1, {5}},
    {own, "aba", 5, LONG_LIST, POQEWAN_FALSE_JOURNAL, 0, 0, 0, {0}, 0, 1, {UINT32_C(0x80000003)}},
    {own, "aba", 5, LONG_LIST, POQEWAN_FALSE_JOURNAL, 0, 0, 0, {0}, 0, 1, {UINT32_MAX}},
    {own, "a", 3, LONG_LIST, 0, POQEWAN_DONE, 0, 2, {0, 2}, 0, 3, {1, 2, 5}},
    {own, "a", 3, 1, 0, POQEWAN_FULL, 2, 1, {0}, 0, 3, {1, 2, 5}},
    {own, "a", 3, 1, 0, POQEWAN_SPENT, 2, 1, {0}, 0, 2, {1, 2}},
    {own, "a", 3, 1, 0, POQEWAN_FULL, 1, 1, {0}, 0, 2, {1, 3}},
    {own, "a", 3, 1, POQEWAN_FALSE_JOURNAL, 0, 0, 0, {0}, 0, 3, {1, 3, 5}},
    {own, "a", 0, 1, POQEWAN_FALSE_JOURNAL, 0, 0, 0, {0}, 0, 1, {0}},
    {own, "a", 0, 1, POQEWAN_FALSE_JOURNAL, 0, 0, 0, {0}, 0, 1, {1}},
    {own, "a", 1, 1, POQEWAN_FALSE_JOURNAL, 0, 0, 0, {0}, 0, 2, {1, 2}},
    {own, "aa", 4, LONG_LIST, 0, POQEWAN_DONE, 0, 1, {2}, 0, 3, {2, 7, 5}},
    {own, "aa", 4, LONG_LIST, 0, POQEWAN_SPENT, 2, 0, {0}, 0, 1, {2}},
    {own, "aab", 5, LONG_LIST, 0, POQEWAN_DONE, 0, 0, {0}, 3, 4, {4, 6, 9, 6}},
    {own, "abaa", 7, LONG_LIST, 0, POQEWAN_DONE, 0, 1, {3}, 5, 7, {3, 6, 6, 9, 13, 11, 7}},
    {own, "abaa", 7, 0, 0, POQEWAN_FULL, 3, 0, {0}, 5, 7, {3, 6, 6, 9, 13, 11, 7}},
    {own, "abaaa", 8, LONG_LIST, 0, POQEWAN_DONE, 0, 0, {0}, 6, 8, {3, 7, 8, 9, 13, 15, 11, 6}},
    {joined, "bca", 5, LONG_LIST, 0, POQEWAN_DONE, 0, 1, {2}, 3, 5, {4, 6, 9, 7, 5}},
    {own, "bca", 5, LONG_LIST, POQEWAN_FALSE_JOURNAL, 0, 0, 0, {0}, 0, 5, {4, 6, 9, 7, 5}},
};

static void test_worked_replays(void)
{
    for (size_t i = 0; i < sizeof replay_records / sizeof *replay_records; i++) {
        const struct replay_record *r = &replay_records[i];
        poqewan_pattern pattern = prepared_by(r->classes, r->pattern);
        uint32_t *list = lend_list(r->list_len), *journal = lend_entries(r->journal, r->len);
        poqewan_report got = poqewan_replay(pattern, r->n, list, r->list_len, journal, r->len);
        struct counts counts = {r->len, r->at_noholes, r->len - r->at_noholes};
        CHECK(r->refusal == 0 ? is_report(got, r->ending, r->window, counts, r->written) : is_refusal(got, r->refusal));
        CHECK(same_entries(list, r->positions, r->written) && unwritten(list, r->written, r->list_len));
        CHECK(same_entries(journal, r->journal, r->len));
        check_replay(&pattern, r->n, r->list_len, r->journal, r->len);
        free(journal);
        free(list);
    }
}

/* The list sizes at the edges of a search that lists so many. */
#define EDGES(written) {0, (written) / 2, (written) > 0 ? (written) - 1 : 0, (written), (written) + 1}

/* Every cap, with lists at the edges, and journals that are just long enough, longer, and too short. */
static void check_journal_limits(const poqewan_pattern *pattern, const uint8_t *text, size_t n)
{
    size_t most = most_entries(pattern->len, n);
    poqewan_report whole = check_journaled(pattern, text, n, most, n + 1, most);
    size_t sizes[] = EDGES(whole.written);
    CHECK(whole.ending == POQEWAN_DONE);
    for (size_t i = 0; i < sizeof sizes / sizeof *sizes; i++)
        if (i == 0 || sizes[i] > sizes[i - 1])
            for (uint64_t cap = 0; cap <= whole.count + 1; cap++)
                check_journaled(pattern, text, n, cap, sizes[i], (size_t)cap + i);
    for (size_t len = 0; len < most; len++)
        CHECK(check_journaled(pattern, text, n, len + 1, n, len).refusal == POQEWAN_SHORT_JOURNAL);
    /* A cap that is 0 in its lower half, and the greatest. */
    CHECK(check_journaled(pattern, text, n, UINT64_C(1) << 32, n, most).refusal == POQEWAN_SHORT_JOURNAL);
    CHECK(check_journaled(pattern, text, n, UINT64_MAX, n, most).refusal == POQEWAN_SHORT_JOURNAL);
}

/* Replays a journal that the rules accept: with less of it, down to none; with more; and with an entry changed, in its answer and
   in its position. Each is judged by the rules. With a step of 1 each entry is changed, or else the first, the last and some
   between. */
static void check_changes(const poqewan_pattern *pattern, size_t n, size_t list_len, const uint32_t *journal, size_t len,
                          size_t step)
{
    static const uint32_t more[] = {0, 1, UNWRITTEN, UINT32_MAX};
    uint32_t *changed = lend_list(len + 1);
    for (size_t less = 0; less <= len; less += step)
        CHECK(check_replay(pattern, n, list_len, journal, len - less).refusal == 0);
    memcpy(changed, journal, len * sizeof *changed);
    for (size_t i = 0; i < sizeof more / sizeof *more; i++) {
        changed[len] = more[i];
        check_replay(pattern, n, list_len, changed, len + 1);
    }
    for (size_t i = 0; i < len; i += i + 1 < len && i + step >= len ? len - 1 - i : step) {
        uint32_t entry = journal[i], others[] = {entry ^ 1, entry + 1, entry - 1, entry + 2, entry - 2, entry / 2, 2 * entry,
                                                 entry ^ UINT32_C(1) << 31, entry ^ UINT32_C(1) << 16, 0, UINT32_MAX};
        for (size_t j = 0; j < sizeof others / sizeof *others; j++) {
            changed[i] = others[j];
            check_replay(pattern, n, list_len, changed, len);
            check_replay(pattern, n, list_len, changed, i + 1);
        }
        changed[i] = entry;
    }
    free(changed);
}

/* Changes the journal of a whole search, and of one that is full in the middle of its list. */
static void check_changed_journals(const poqewan_pattern *pattern, const uint8_t *text, size_t n, size_t step)
{
    size_t most = most_entries(pattern->len, n), list_len = n;
    uint32_t *list = lend_list(n), *journal = lend_list(most);
    for (int i = 0; i < 2; i++) {
        poqewan_report r = poqewan_journaled(*pattern, text, n, most, list, list_len, journal, most);
        CHECK(r.refusal == 0 && r.count <= most && r.written <= list_len);
        if (r.count <= most)
            check_changes(pattern, n, list_len, journal, (size_t)r.count, step);
        if (r.written == 0)
            break;
        list_len = r.written / 2;
    }
    free(journal);
    free(list);
}

/* Every pattern in every text, over two letters and up to these lengths; the journals of all but the longest are changed, too. */
static void check_all_journals(size_t longest_pattern, size_t longest_text)
{
    uint8_t bytes[POQEWAN_LONGEST_PATTERN];
    for (size_t m = 1; m <= longest_pattern; m++)
        for (size_t word = 0; word < words_of(m, 2); word++) {
            put_word(bytes, m, 2, word);
            poqewan_pattern pattern = prepare(bytes, m, POQEWAN_SCRATCH, 0).pattern;
            for (size_t n = 0; n <= longest_text; n++) {
                uint8_t *text = lend(n);
                for (size_t number = 0; number < words_of(n, 2); number++) {
                    put_word(text, n, 2, number);
                    check_journal_limits(&pattern, text, n);
                    if (m < longest_pattern && n < longest_text)
                        check_changed_journals(&pattern, text, n, 1);
                }
                free(text);
            }
        }
}

static void test_all_journals(bool quick)
{
    check_all_journals(quick ? 2 : 4, quick ? 4 : 7);
}

/* The entries that are tried for a text of so many bytes: all up to those of the position past its end, and the greatest. */
#define CHOICES(n) (2 * (n) + 4)

static uint32_t choice(size_t n, size_t number)
{
    return number % CHOICES(n) == CHOICES(n) - 1 ? UINT32_MAX : (uint32_t)(number % CHOICES(n));
}

/* Every journal of so many of these entries. Gives how many are accepted. */
static size_t check_every_journal(const poqewan_pattern *pattern, size_t n, size_t list_len, size_t len)
{
    uint32_t journal[8];
    size_t accepted = 0;
    for (size_t word = 0; word < words_of(len, CHOICES(n)); word++) {
        size_t number = word;
        for (size_t i = 0; i < len; i++) {
            journal[i] = choice(n, number);
            number /= CHOICES(n);
        }
        accepted += check_replay(pattern, n, list_len, journal, len).refusal == 0;
    }
    return accepted;
}

/* Patterns over two letters, and lists with no entry, one, and one for each byte. */
static void test_every_journal(bool quick)
{
    static const size_t longest[] = {3, 4, 4, 4, 3};
    uint8_t bytes[3];
    size_t accepted = 0;
    for (size_t m = 1; m <= (quick ? 2 : 3); m++)
        for (size_t word = 0; word < words_of(m, 2); word++) {
            put_word(bytes, m, 2, word);
            poqewan_pattern pattern = prepare(bytes, m, POQEWAN_SCRATCH, 0).pattern;
            for (size_t n = 0; n < (quick ? 3 : sizeof longest / sizeof *longest); n++)
                for (size_t len = 0; len <= longest[n] - quick; len++)
                    for (size_t list_len = 0; list_len <= n; list_len += list_len == 0 || n == 1 ? 1 : n - 1)
                        accepted += check_every_journal(&pattern, n, list_len, len);
        }
    CHECK(accepted > 0);
}

/* The least value of a text byte, or the greatest, that answers all comparisons at a position as a course has them; or 256. */
static unsigned value_at(const poqewan_pattern *pattern, const struct course *course, size_t position, bool greatest)
{
    for (unsigned i = 0; i < POQEWAN_CLASSES; i++) {
        unsigned value = greatest ? POQEWAN_CLASSES - 1 - i : i;
        size_t c = 0;
        while (c < course->report.count &&
               (course->journal[c] / 2 != position ||
                equal(pattern, pattern->bytes[course->places[c]], (uint8_t)value) == (course->journal[c] % 2 == 1)))
            c++;
        if (c == course->report.count)
            return value;
    }
    return POQEWAN_CLASSES;
}

/* Looks for texts that answer so. In these, poqewan_colussi with the journal's length for its cap must give the course's report and
   list. Gives whether there are any. */
static bool check_texts(const poqewan_pattern *pattern, size_t n, const struct course *course, size_t list_len)
{
    uint32_t *list = lend_list(list_len);
    uint8_t *text = lend(n);
    bool found = true;
    for (int greatest = 0; greatest < 2 && found; greatest++) {
        for (size_t x = 0; x < n; x++) {
            unsigned value = value_at(pattern, course, x, greatest);
            found = found && value < POQEWAN_CLASSES;
            text[x] = (uint8_t)value;
        }
        if (found) {
            poqewan_report r = poqewan_colussi(*pattern, text, n, course->report.count, list, list_len);
            CHECK(is_like(r, course->report));
            CHECK(same_entries(list, course->list, r.written));
        }
    }
    free(text);
    free(list);
    return found;
}

/* How many journals are accepted: all, those that no text could have given, and those with each ending. */
struct accepted {
    size_t all, without_text, endings[POQEWAN_FULL + 1];
};

/* From a journal on that the rules accept, all that they accept: both answers to each comparison that is due. Each other entry is
   refused there, and so is every entry after the end. The journal has room for all. */
static void check_every_answer(const poqewan_pattern *pattern, size_t n, size_t list_len, uint32_t *journal, size_t len,
                               struct accepted *accepted)
{
    struct course course = follow(pattern, NULL, journal, n, len, list_len);
    poqewan_report r = course.report;
    size_t due = course.due;
    CHECK(is_like(check_replay(pattern, n, list_len, journal, len), r));
    accepted->all++;
    accepted->without_text += !check_texts(pattern, n, &course, list_len);
    accepted->endings[r.ending]++;
    free_course(course);
    for (size_t number = 0; number < CHOICES(n); number++) {
        journal[len] = choice(n, number);
        if (r.ending == POQEWAN_SPENT && journal[len] / 2 == due)
            check_every_answer(pattern, n, list_len, journal, len + 1, accepted);
        else
            CHECK(check_replay(pattern, n, list_len, journal, len + 1).refusal == POQEWAN_FALSE_JOURNAL);
    }
}

/* For some patterns, and some that have journals without a text. */
static void test_every_answer(bool quick)
{
    static const struct {
        const uint8_t *classes;
        const char *pattern;
        size_t n;
        bool without_text;
    } asked[] = {
        {own, "a", 4, false},      {own, "aba", 5, false},   {joined, "aCb", 5, false}, {own, "abaa", 7, true},
        {own, "aabaa", 7, false},  {own, "abab", 7, false},  {own, "aab", 6, false},    {own, "abaaa", 8, true},
        {joined, "bAcb", 7, true}, {own, "aaaa", 7, false},
    };
    for (size_t i = 0; i < (quick ? 4 : sizeof asked / sizeof *asked); i++) {
        poqewan_pattern pattern = prepared_by(asked[i].classes, asked[i].pattern);
        struct accepted accepted = {0};
        uint32_t journal[24];
        for (size_t list_len = 0; list_len <= (quick ? 1 : 2); list_len++)
            check_every_answer(&pattern, asked[i].n, list_len, journal, 0, &accepted);
        CHECK((accepted.without_text > 0) == asked[i].without_text && accepted.without_text < accepted.all);
        CHECK(accepted.endings[POQEWAN_DONE] > 0 && accepted.endings[POQEWAN_SPENT] > 0 && accepted.endings[POQEWAN_FULL] > 0);
    }
}

/* Patterns of every length by drawn classes, in texts of their pieces: whole, and with a cap, a list and a journal drawn by lot, so
   that all endings are met; and with some entries changed. */
static void test_random_journals(size_t rounds)
{
    size_t endings[3] = {0}, refused = 0;
    for (size_t round = 0; round < rounds; round++) {
        poqewan_pattern pattern = random_power(round);
        size_t n = random_below(3 * pattern.len + 8), most = most_entries(pattern.len, n);
        uint8_t *text = lend_pieces(&pattern, n);
        poqewan_report whole = check_journaled(&pattern, text, n, most, n + 1, most);
        CHECK(whole.ending == POQEWAN_DONE);
        for (int times = 0; times < 4; times++) {
            size_t cap = random_below(2) ? most : random_below((size_t)whole.count + 2), list_len = random_below(whole.written + 2);
            size_t journal_len = random_below(8) > 0 || cap == 0 ? cap + random_below(3) : random_below(cap);
            poqewan_report r = check_journaled(&pattern, text, n, cap, list_len, journal_len);
            refused += r.refusal == POQEWAN_SHORT_JOURNAL;
            CHECK(r.ending <= POQEWAN_FULL);
            endings[r.ending <= POQEWAN_FULL ? r.ending : 0] += r.refusal == 0;
        }
        check_changed_journals(&pattern, text, n, 1 + (size_t)whole.count / 4);
        free(text);
    }
    CHECK(refused > 0 && endings[POQEWAN_DONE] > 0 && endings[POQEWAN_SPENT] > 0 && endings[POQEWAN_FULL] > 0);
}

/* Each value as a pattern of one byte, in a text of all values: it is equal to itself alone, and each position has an entry. */
static void test_journal_of_each_value(void)
{
    uint8_t *text = lend_bytes(own, POQEWAN_CLASSES);
    for (unsigned value = 1; value < POQEWAN_CLASSES; value++) {
        uint8_t byte = (uint8_t)value;
        uint32_t list, journal[POQEWAN_CLASSES];
        poqewan_pattern pattern = prepare(&byte, 1, POQEWAN_SCRATCH, 0).pattern;
        const size_t n = POQEWAN_CLASSES;
        poqewan_report r = poqewan_journaled(pattern, text, n, n, &list, 1, journal, n);
        CHECK(is_report(r, POQEWAN_DONE, 0, (struct counts){n, 0, n}, 1));
        bool right = list == value;
        for (unsigned x = 0; x < n; x++)
            right = right && journal[x] == 2 * x + (x == value);
        CHECK(right);
    }
    free(text);
}

/* Entries, positions and counts past 2^16: aa in a^n has an occurrence in each window, and ab a miss. */
static void test_journals_past_16_bits(void)
{
    static const char *const patterns[] = {"aa", "ab"};
    const size_t n = 65536 + 300;
    uint8_t *text = lend(n);
    memset(text, 'a', n);
    for (size_t i = 0; i < 2; i++) {
        poqewan_pattern pattern = prepared(patterns[i]);
        size_t most = most_entries(2, n), count = i == 0 ? n : n - 1;
        poqewan_report r = check_journaled(&pattern, text, n, most, n, most);
        CHECK(is_report(r, POQEWAN_DONE, 0, (struct counts){count, i == 0 ? 0 : count, i == 0 ? count : 0}, i == 0 ? n - 1 : 0));
        CHECK(check_journaled(&pattern, text, n, count, n - 1, count).ending == POQEWAN_DONE);
        CHECK(check_journaled(&pattern, text, n, count - 1, n - 1, count).ending == POQEWAN_SPENT);
        CHECK(check_journaled(&pattern, text, n, count, n - 2, count).ending == (i == 0 ? POQEWAN_FULL : POQEWAN_DONE));
        /* A journal whose number is right in its lower half alone. */
        CHECK(check_journaled(&pattern, text, n, count, n - 1, count % 65536).refusal == POQEWAN_SHORT_JOURNAL);
    }
    free(text);
}

/* The search with a journal must refuse with this number and leave list, journal and text as they are. The text is a^n. */
static void check_refused_journaled(const poqewan_pattern *pattern, const uint8_t *text, size_t n, uint64_t cap, size_t journal_len,
                                    uint32_t number)
{
    uint32_t *list = lend_guarded(4), *journal = lend_guarded(journal_len);
    CHECK(is_refusal(poqewan_journaled(*pattern, text, n, cap, list, 4, journal, journal_len), number));
    CHECK(unwritten(list, 0, 4) && unwritten(journal, 0, journal_len));
    CHECK(how_often('a', text, n) == n);
    free_guarded(journal, journal_len);
    free_guarded(list, 4);
}

static void check_refused_replay(const poqewan_pattern *pattern, size_t n, const uint32_t *journal, size_t len, uint32_t number)
{
    uint32_t *list = lend_guarded(4), *lent = lend_entries(journal, len);
    CHECK(is_refusal(poqewan_replay(*pattern, n, list, 4, lent, len), number));
    CHECK(unwritten(list, 0, 4) && same_entries(lent, journal, len));
    free(lent);
    free_guarded(list, 4);
}

/* Every choice of the three conditions of either function, with journals that are short by one entry, by all, and by more than any
   has; and with such as have a false first entry, a false last one, and one too many: the first condition, in the order of the
   tests, is what is told. In a^5 each window of ab has a miss at place 1. */
static void test_order_of_journal_tests(void)
{
    enum { IS_FALSE = 1, IS_LONG = 2, NO_JOURNAL = 4, ALL = 7 };
    static const uint32_t of_search[] = {4, 5, 17}, of_replay[] = {4, 5, 18};
    static const struct {
        uint64_t cap;
        size_t len;
    } shorts[] = {{1, 0}, {5, 4}, {4, 0}, {UINT64_MAX, 0}, {UINT64_MAX, 4}, {UINT64_C(1) << 32, 4}};
    static const struct {
        size_t len;
        uint32_t entries[5];
    } wrongs[] = {{1, {4}}, {4, {3, 4, 6, 8}}, {4, {2, 4, 6, 10}}, {5, {2, 4, 6, 8, 9}}, {2, {2, UINT32_MAX}}};
    static const uint32_t right[] = {2, 4, 6, 8};
    poqewan_pattern pattern = prepared("ab"), wrong = pattern;
    wrong.noholes++;
    for (int is_long = 0; is_long <= IS_LONG; is_long += IS_LONG) {
        size_t n = is_long ? POQEWAN_LONGEST_TEXT + 1 : 5;
        uint8_t *text = lend(n);
        memset(text, 'a', n);
        for (int chosen = 1; chosen <= ALL; chosen++) {
            if ((chosen & IS_LONG) != is_long)
                continue;
            const poqewan_pattern *asked = chosen & IS_FALSE ? &wrong : &pattern;
            uint32_t searched = first_chosen(chosen, of_search), replayed = first_chosen(chosen, of_replay);
            if (chosen & NO_JOURNAL) {
                for (size_t i = 0; i < sizeof shorts / sizeof *shorts; i++)
                    check_refused_journaled(asked, text, n, shorts[i].cap, shorts[i].len, searched);
                for (size_t i = 0; i < sizeof wrongs / sizeof *wrongs; i++)
                    check_refused_replay(asked, n, wrongs[i].entries, wrongs[i].len, replayed);
            } else {
                check_refused_journaled(asked, text, n, 4, 4, searched);
                check_refused_replay(asked, n, right, 4, replayed);
            }
        }
        if (!is_long) {
            CHECK(is_report(check_journaled(&pattern, text, n, 4, 4, 4), POQEWAN_DONE, 0, (struct counts){4, 4, 0}, 0));
            CHECK(is_report(check_replay(&pattern, n, 4, right, 4), POQEWAN_DONE, 0, (struct counts){4, 4, 0}, 0));
        }
        free(text);
    }
}

/* In a text of the greatest length: the longest pattern, of one letter, differs at its last place in each window but the last,
   where it occurs, so that a journal of some thousand entries reaches the last position. One byte more, and numbers that no text
   has, are refused by the replay; with one byte less the window of the occurrence is not there, and its entries are too many. */
static void test_journal_of_longest_text(void)
{
    const size_t n = POQEWAN_LONGEST_TEXT, m = POQEWAN_LONGEST_PATTERN, misses = n / m - 1, count = misses + m;
    static const size_t too_long[] = {POQEWAN_LONGEST_TEXT + 1, UINT32_MAX,     (size_t)1 << 32,
                                      SIZE_MAX / 2 + 1,         SIZE_MAX - 255, SIZE_MAX};
    uint8_t *text = lend(n);
    uint32_t *list = lend_list(2), *journal = lend_list(count);
    memset(text, 0, n);
    memset(text + n - m, 'a', m);
    poqewan_pattern pattern = prepare(text + n - m, m, POQEWAN_SCRATCH, 0).pattern;
    CHECK(is_refusal(poqewan_journaled(pattern, text, n, count + 1, list, 2, journal, count), POQEWAN_SHORT_JOURNAL));
    CHECK(is_refusal(poqewan_journaled(pattern, text, n, UINT64_MAX, list, 2, journal, count), POQEWAN_SHORT_JOURNAL));
    CHECK(unwritten(list, 0, 2) && unwritten(journal, 0, count));
    poqewan_report r = poqewan_journaled(pattern, text, n, count, list, 2, journal, count);
    CHECK(is_report(r, POQEWAN_DONE, 0, (struct counts){count, 0, count}, 1));
    CHECK(list[0] == n - m && unwritten(list, 1, 2));
    size_t right = 0;
    while (right < count && journal[right] == (right < misses ? 2 * (m * right + m - 1) : 2 * (n - 1 - (right - misses)) + 1))
        right++;
    CHECK(right == count && journal[misses] == UINT32_C(33554431));

    list[0] = UNWRITTEN;
    CHECK(is_like(poqewan_replay(pattern, n, list, 2, journal, count), r));
    CHECK(list[0] == n - m && unwritten(list, 1, 2));
    list[0] = UNWRITTEN;
    CHECK(is_report(poqewan_replay(pattern, n, list, 2, journal, count - 1), POQEWAN_SPENT, n - m,
                    (struct counts){count - 1, 0, count - 1}, 0));
    CHECK(is_report(poqewan_replay(pattern, n - 1, list, 2, journal, misses), POQEWAN_DONE, 0,
                    (struct counts){misses, 0, misses}, 0));
    CHECK(is_refusal(poqewan_replay(pattern, n - 1, list, 2, journal, count), POQEWAN_FALSE_JOURNAL));
    for (size_t i = 0; i < sizeof too_long / sizeof *too_long; i++)
        for (size_t len = 0; len <= count; len += count) {
            CHECK(is_refusal(poqewan_replay(pattern, too_long[i], list, 2, journal, len), POQEWAN_LONG_TEXT));
            CHECK(is_refusal(poqewan_replay(pattern, too_long[i], NULL, 0, NULL, 0), POQEWAN_LONG_TEXT));
        }
    journal[count - 1] += 2;
    CHECK(is_refusal(poqewan_replay(pattern, n, list, 2, journal, count), POQEWAN_FALSE_JOURNAL));
    CHECK(unwritten(list, 0, 2));
    free(journal);
    free(list);
    free(text);
}

/* Numbers past 2^32: caps, journals, lists and entries in use that are short, empty or few by their lower half alone. They are
   addresses without memory: only the first entries are touched. Where a system grants no such addresses, it says so and goes on. */
static void test_numbers_past_32_bits(void)
{
    const size_t past = (size_t)1 << 32, bytes = (past + 5) * sizeof(uint32_t);
    const struct counts counts = {5, 2, 3};
    static const uint32_t positions[] = {0, 2}, expected[] = {3, 5, 1, 7, 9};
    uint32_t *lent[2];
    for (int i = 0; i < 2; i++) {
        lent[i] = mmap(NULL, bytes, PROT_READ | PROT_WRITE, MAP_PRIVATE | MAP_ANONYMOUS | MAP_NORESERVE, -1, 0);
        if (lent[i] == MAP_FAILED) {
            puts("no addresses for numbers past 2^32, which are not tested");
            if (i == 1)
                munmap(lent[0], bytes);
            return;
        }
    }
    uint8_t *text = lend_bytes("ababa", 5);
    uint32_t *list = lent[0], *journal = lent[1];
    poqewan_pattern pattern = prepared("aba");
    for (size_t cap = 5; cap <= past; cap += past - 5) {
        CHECK(is_report(poqewan_journaled(pattern, text, 5, cap, list, past, journal, past), POQEWAN_DONE, 0, counts, 2));
        CHECK(same_entries(list, positions, 2) && same_entries(journal, expected, 5) && journal[5] == 0);
        memset(list, 0xA5, 2 * sizeof *list);
        memset(journal, 0xA5, 5 * sizeof *journal);
    }
    CHECK(is_refusal(poqewan_journaled(pattern, text, 5, past + 6, list, past, journal, past + 5), POQEWAN_SHORT_JOURNAL));
    CHECK(unwritten(list, 0, 2) && unwritten(journal, 0, 5));
    memcpy(journal, expected, sizeof expected);
    CHECK(is_refusal(poqewan_replay(pattern, 5, list, past, journal, past), POQEWAN_FALSE_JOURNAL));
    CHECK(is_refusal(poqewan_replay(pattern, 5, list, past, journal, past + 5), POQEWAN_FALSE_JOURNAL));
    CHECK(unwritten(list, 0, 2) && list[2] == 0);
    CHECK(is_report(poqewan_replay(pattern, 5, list, past, journal, 5), POQEWAN_DONE, 0, counts, 2));
    CHECK(same_entries(list, positions, 2) && list[2] == 0);
    CHECK(is_update(poqewan_correct(pattern, text, 5, 2, list, past, 2), 0, 2));
    CHECK(is_update(poqewan_correct(pattern, text, 5, 2, list, past, 0), 0, 2));
    CHECK(is_update(poqewan_correct(pattern, text, 5, 2, list, past, past), POQEWAN_FALSE_LIST, 0));
    CHECK(is_update(poqewan_correct(pattern, text, 5, 2, list, past + 5, past + 2), POQEWAN_FALSE_LIST, 0));
    CHECK(is_update(poqewan_correct(pattern, text, 5, 2, list, 5, past + 2), POQEWAN_FALSE_LIST, 0));
    CHECK(same_entries(list, positions, 2) && list[2] == 0);
    free(text);
    for (int i = 0; i < 2; i++)
        munmap(lent[i], bytes);
}

/* What a correction shall leave, by the words of the request: a window that covers the place is listed if the pattern occurs there,
   and any other position if it was. The old list ascends. Gives the number of entries. */
static size_t corrected(const poqewan_pattern *pattern, const uint8_t *text, size_t n, size_t place, const uint32_t *before,
                        size_t used, uint32_t *after)
{
    size_t m = pattern->len, i = 0, written = 0;
    for (size_t b = 0; b < n; b++) {
        bool listed = i < used && before[i] == b;
        i += listed;
        if (b <= place && place < b + m && b + m <= n && place < n ? occurs(pattern, text, n, b) : listed)
            after[written++] = (uint32_t)b;
    }
    while (i < used)
        after[written++] = before[i++];
    return written;
}

static bool ascends(const uint32_t *list, size_t len)
{
    for (size_t i = 1; i < len; i++)
        if (list[i - 1] >= list[i])
            return false;
    return true;
}

/* Corrects a copy of a list, with memory around it that stays, and checks the answer and the whole list. The pattern is true, and
   the text not too long. */
static poqewan_update check_correct(const poqewan_pattern *pattern, const uint8_t *text, size_t n, size_t place,
                                    const uint32_t *before, size_t list_len, size_t used)
{
    uint32_t refusal = POQEWAN_FALSE_LIST, *list = lend_guarded(list_len), *after = lend((n + list_len) * sizeof *after);
    uint8_t *lent = lend_bytes(text, n);
    size_t used_after = 0;
    if (list_len > 0)
        memcpy(list, before, list_len * sizeof *list);
    if (used <= list_len && ascends(before, used)) {
        used_after = corrected(pattern, text, n, place, before, used, after);
        refusal = used_after > list_len ? POQEWAN_SHORT_LIST : 0;
    }
    poqewan_update update = poqewan_correct(*pattern, lent, n, place, list, list_len, used);
    size_t changed = refusal == 0 ? used_after : 0;
    CHECK(is_update(update, refusal, changed));
    CHECK(same_entries(list, after, changed) && same_entries(list + changed, before + changed, list_len - changed));
    CHECK(n == 0 || memcmp(lent, text, n) == 0);
    free(lent);
    free(after);
    free_guarded(list, list_len);
    return update;
}

/* The positions whose bits are in the set, in lists that are short by one entry, as long as must be, and longer by one. */
static void check_list_lengths(const poqewan_pattern *pattern, const uint8_t *text, size_t n, size_t place, size_t set)
{
    uint32_t before[8], after[16];
    size_t used = 0;
    for (size_t b = 0; b <= n; b++)
        if (set >> b & 1)
            before[used++] = (uint32_t)b;
    size_t used_after = corrected(pattern, text, n, place, before, used, after), needed = used > used_after ? used : used_after;
    for (size_t i = used; i < 8; i++)
        before[i] = UNWRITTEN;
    for (size_t list_len = needed > 0 ? needed - 1 : 0; list_len <= needed + 1; list_len++)
        check_correct(pattern, text, n, place, before, list_len, used);
}

/* Worked by hand from the words of the request, with the whole list before and after. Places at both ends of the text, between them
   and past it; entries that move right, move left, and stay; what was in use past the new number; wrong lists; entries that cover
   the place but are no window, and such as are no position of the text; lists that are full, become full, and are short by one;
   entries in use that are too many, or don't ascend, and the same past them; texts shorter than the pattern, and as long; patterns
   of one byte; byte 0 in the text; and by the joined classes. */
static const struct correct_record {
    const uint8_t *classes;
    const char *pattern, *text;
    size_t n, place;
    size_t list_len, used;
    uint32_t before[4];
    uint32_t refusal;
    size_t used_after;
    uint32_t after[4];
} correct_records[] = {
    {own, "aba", TEXT("ababa"), 0, 4, 0, {9, 9, 9, 9}, 0, 1, {0, 9, 9, 9}},
    {own, "aba", TEXT("ababa"), 1, 4, 0, {9, 9, 9, 9}, 0, 1, {0, 9, 9, 9}},
    {own, "aba", TEXT("ababa"), 2, 4, 0, {9, 9, 9, 9}, 0, 2, {0, 2, 9, 9}},
    {own, "aba", TEXT("ababa"), 3, 4, 0, {9, 9, 9, 9}, 0, 1, {2, 9, 9, 9}},
    {own, "aba", TEXT("ababa"), 4, 4, 0, {9, 9, 9, 9}, 0, 1, {2, 9, 9, 9}},
    {own, "aba", TEXT("ababa"), 5, 4, 0, {9, 9, 9, 9}, 0, 0, {9, 9, 9, 9}},
    {own, "aba", TEXT("ababa"), 6, 4, 0, {9, 9, 9, 9}, 0, 0, {9, 9, 9, 9}},
    {own, "aba", TEXT("ababa"), SIZE_MAX, 4, 0, {9, 9, 9, 9}, 0, 0, {9, 9, 9, 9}},
    {own, "aba", TEXT("ababa"), (size_t)1 << 32 | 2, 4, 0, {9, 9, 9, 9}, 0, 0, {9, 9, 9, 9}},
    {own, "aba", TEXT("ababa"), 5, 4, 3, {1, 2, 5, 9}, 0, 3, {1, 2, 5, 9}},
    {own, "aba", TEXT("ababa"), 6, 4, 3, {1, 2, 5, 9}, 0, 3, {1, 2, 5, 9}},
    {own, "aba", TEXT("ababa"), SIZE_MAX, 4, 3, {1, 2, 5, 9}, 0, 3, {1, 2, 5, 9}},
    {own, "aba", TEXT("ababa"), SIZE_MAX - 2, 4, 3, {1, 2, 5, 9}, 0, 3, {1, 2, 5, 9}},
    {own, "aba", TEXT("ababa"), UINT32_MAX, 4, 1, {UINT32_MAX, 9, 9, 9}, 0, 1, {UINT32_MAX, 9, 9, 9}},
    {own, "aba", TEXT("ababa"), 0, 4, 1, {2, 9, 9, 9}, 0, 2, {0, 2, 9, 9}},
    {own, "aba", TEXT("ababa"), 4, 4, 1, {0, 9, 9, 9}, 0, 2, {0, 2, 9, 9}},
    {own, "aba", TEXT("ababa"), 2, 4, 2, {0, 2, 9, 9}, 0, 2, {0, 2, 9, 9}},
    {own, "aba", TEXT("abbba"), 2, 4, 2, {0, 2, 9, 9}, 0, 0, {0, 2, 9, 9}},
    {own, "aba", TEXT("cbaba"), 0, 4, 2, {0, 2, 9, 9}, 0, 1, {2, 2, 9, 9}},
    {own, "aba", TEXT("ababc"), 4, 4, 2, {0, 2, 9, 9}, 0, 1, {0, 2, 9, 9}},
    {own, "aba", TEXT("abcba"), 2, 4, 4, {0, 2, 3, 5}, 0, 2, {3, 5, 3, 5}},
    {own, "aba", TEXT("ababa"), 2, 4, 3, {0, 1, 2, 9}, 0, 2, {0, 2, 2, 9}},
    {own, "aba", TEXT("ababa"), 2, 4, 1, {1, 9, 9, 9}, 0, 2, {0, 2, 9, 9}},
    {own, "aba", TEXT("ababa"), 0, 4, 2, {0, 1, 9, 9}, 0, 2, {0, 1, 9, 9}},
    {own, "aba", TEXT("ababa"), 0, 4, 2, {1, 3, 9, 9}, 0, 3, {0, 1, 3, 9}},
    {own, "aba", TEXT("ababa"), 4, 4, 2, {0, 1, 9, 9}, 0, 3, {0, 1, 2, 9}},
    {own, "aba", TEXT("ababa"), 4, 4, 2, {3, 4, 9, 9}, 0, 3, {2, 3, 4, 9}},
    {own, "aba", TEXT("ababa"), 3, 4, 3, {1, 3, 4, 9}, 0, 3, {2, 3, 4, 9}},
    {own, "aba", TEXT("ababa"), 4, 4, 4, {1, 3, 4, 5}, POQEWAN_SHORT_LIST, 0, {1, 3, 4, 5}},
    {own, "aba", TEXT("ccccc"), 3, 4, 4, {0, 1, 2, 3}, 0, 2, {0, 3, 2, 3}},
    {own, "aba", TEXT("ababa"), 2, 4, 2, {5, UINT32_MAX, 9, 9}, 0, 4, {0, 2, 5, UINT32_MAX}},
    {own, "aba", TEXT("ababa"), 0, 4, 2, {UINT32_C(0x7FFFFFFF), UINT32_C(0x80000000), 9, 9}, 0, 3,
     {0, UINT32_C(0x7FFFFFFF), UINT32_C(0x80000000), 9}},
    {own, "aba", TEXT("ababa"), 4, 4, 2, {UINT32_MAX - 1, UINT32_MAX, 9, 9}, 0, 3, {2, UINT32_MAX - 1, UINT32_MAX, 9}},
    {own, "aba", TEXT("ababa"), 2, 2, 0, {9, 9}, 0, 2, {0, 2}},
    {own, "aba", TEXT("ababa"), 2, 1, 0, {9}, POQEWAN_SHORT_LIST, 0, {9}},
    {own, "aba", TEXT("ababa"), 2, 0, 0, {0}, POQEWAN_SHORT_LIST, 0, {0}},
    {own, "aba", TEXT("abbba"), 2, 0, 0, {0}, 0, 0, {0}},
    {own, "aba", TEXT("ababa"), 5, 0, 0, {0}, 0, 0, {0}},
    {own, "aba", TEXT("ababa"), 4, 3, 2, {0, 7, 9}, 0, 3, {0, 2, 7}},
    {own, "aba", TEXT("ababa"), 4, 2, 2, {0, 7}, POQEWAN_SHORT_LIST, 0, {0, 7}},
    {own, "aba", TEXT("ababa"), 2, 2, 2, {1, 7}, POQEWAN_SHORT_LIST, 0, {1, 7}},
    {own, "aba", TEXT("ababa"), 2, 3, 2, {1, 7, 9}, 0, 3, {0, 2, 7}},
    {own, "aba", TEXT("ababa"), 2, 1, 1, {1}, POQEWAN_SHORT_LIST, 0, {1}},
    {own, "aba", TEXT("ababa"), 2, 2, 2, {1, 2}, 0, 2, {0, 2}},
    {own, "aba", TEXT("ababa"), 2, 2, 2, {0, 1}, 0, 2, {0, 2}},
    {own, "aba", TEXT("abbba"), 2, 2, 2, {0, 2}, 0, 0, {0, 2}},
    {own, "aba", TEXT("ababa"), 5, 2, 2, {7, 8}, 0, 2, {7, 8}},
    {own, "aba", TEXT("ababa"), 2, 2, 3, {0, 2}, POQEWAN_FALSE_LIST, 0, {0, 2}},
    {own, "aba", TEXT("ababa"), 2, 2, SIZE_MAX, {0, 2}, POQEWAN_FALSE_LIST, 0, {0, 2}},
    {own, "aba", TEXT("ababa"), 2, 2, (size_t)1 << 32, {0, 2}, POQEWAN_FALSE_LIST, 0, {0, 2}},
    {own, "aba", TEXT("ababa"), 2, 0, 1, {0}, POQEWAN_FALSE_LIST, 0, {0}},
    {own, "aba", TEXT("ababa"), 5, 0, SIZE_MAX, {0}, POQEWAN_FALSE_LIST, 0, {0}},
    {own, "aba", TEXT("ababa"), 2, 4, 2, {2, 2, 9, 9}, POQEWAN_FALSE_LIST, 0, {2, 2, 9, 9}},
    {own, "aba", TEXT("ababa"), 2, 4, 2, {2, 0, 9, 9}, POQEWAN_FALSE_LIST, 0, {2, 0, 9, 9}},
    {own, "aba", TEXT("ababa"), 2, 4, 3, {0, 0, 2, 9}, POQEWAN_FALSE_LIST, 0, {0, 0, 2, 9}},
    {own, "aba", TEXT("ababa"), 2, 4, 3, {0, 2, 2, 9}, POQEWAN_FALSE_LIST, 0, {0, 2, 2, 9}},
    {own, "aba", TEXT("ababa"), 2, 4, 4, {0, 2, 4, 3}, POQEWAN_FALSE_LIST, 0, {0, 2, 4, 3}},
    {own, "aba", TEXT("ababa"), 2, 4, 4, {5, 6, 8, 8}, POQEWAN_FALSE_LIST, 0, {5, 6, 8, 8}},
    {own, "aba", TEXT("ababa"), 2, 4, 2, {UINT32_MAX, UINT32_MAX, 9, 9}, POQEWAN_FALSE_LIST, 0, {UINT32_MAX, UINT32_MAX, 9, 9}},
    {own, "aba", TEXT("ababa"), 2, 4, 2, {UINT32_MAX, 0, 9, 9}, POQEWAN_FALSE_LIST, 0, {UINT32_MAX, 0, 9, 9}},
    {own, "aba", TEXT("ababa"), 5, 4, 2, {2, 2, 9, 9}, POQEWAN_FALSE_LIST, 0, {2, 2, 9, 9}},
    {own, "aba", TEXT("ababa"), SIZE_MAX, 4, 2, {2, 0, 9, 9}, POQEWAN_FALSE_LIST, 0, {2, 0, 9, 9}},
    {own, "aba", TEXT("ab"), 0, 4, 2, {1, 1, 9, 9}, POQEWAN_FALSE_LIST, 0, {1, 1, 9, 9}},
    {own, "aba", TEXT("ababa"), 2, 4, 2, {0, 2, 2, 0}, 0, 2, {0, 2, 2, 0}},
    {own, "aba", TEXT("ababa"), 4, 4, 1, {0, 0, 0, 0}, 0, 2, {0, 2, 0, 0}},
    {own, "aba", TEXT("ababa"), 2, 4, 0, {2, 1, 0, 0}, 0, 2, {0, 2, 0, 0}},
    {own, "aba", TEXT("ab"), 1, 4, 2, {0, 1, 9, 9}, 0, 2, {0, 1, 9, 9}},
    {own, "aba", TEXT("ab"), 0, 4, 0, {9, 9, 9, 9}, 0, 0, {9, 9, 9, 9}},
    {own, "aba", TEXT(""), 0, 4, 1, {0, 9, 9, 9}, 0, 1, {0, 9, 9, 9}},
    {own, "aba", TEXT(""), 0, 0, 0, {0}, 0, 0, {0}},
    {own, "aba", TEXT("aba"), 0, 4, 0, {9, 9, 9, 9}, 0, 1, {0, 9, 9, 9}},
    {own, "aba", TEXT("aba"), 2, 4, 0, {9, 9, 9, 9}, 0, 1, {0, 9, 9, 9}},
    {own, "aba", TEXT("abc"), 2, 4, 3, {0, 1, 2, 9}, 0, 2, {1, 2, 2, 9}},
    {own, "aba", TEXT("aba"), 3, 4, 0, {9, 9, 9, 9}, 0, 0, {9, 9, 9, 9}},
    {own, "aa", TEXT("aaaa"), 1, 4, 1, {2, 9, 9, 9}, 0, 3, {0, 1, 2, 9}},
    {own, "aa", TEXT("aaaa"), 2, 4, 1, {0, 9, 9, 9}, 0, 3, {0, 1, 2, 9}},
    {own, "aa", TEXT("aaba"), 2, 4, 3, {0, 1, 2, 9}, 0, 1, {0, 1, 2, 9}},
    {own, "aa", TEXT("baaa"), 0, 4, 3, {0, 1, 2, 9}, 0, 2, {1, 2, 2, 9}},
    {own, "a", TEXT("aab"), 0, 4, 0, {9, 9, 9, 9}, 0, 1, {0, 9, 9, 9}},
    {own, "a", TEXT("aab"), 1, 4, 1, {0, 9, 9, 9}, 0, 2, {0, 1, 9, 9}},
    {own, "a", TEXT("aab"), 2, 4, 3, {0, 1, 2, 9}, 0, 2, {0, 1, 2, 9}},
    {own, "a", TEXT("aab"), 3, 4, 1, {3, 9, 9, 9}, 0, 1, {3, 9, 9, 9}},
    {own, "a", TEXT("b"), 0, 1, 1, {0}, 0, 0, {0}},
    {own, "a", TEXT(""), 0, 1, 1, {0}, 0, 1, {0}},
    {own, "aba", TEXT("ab\0ba"), 2, 4, 2, {0, 2, 9, 9}, 0, 0, {0, 2, 9, 9}},
    {own, "aba", TEXT("\0\0aba"), 2, 4, 0, {9, 9, 9, 9}, 0, 1, {2, 9, 9, 9}},
    {joined, "aBa", TEXT("AcAbA"), 2, 4, 0, {9, 9, 9, 9}, 0, 2, {0, 2, 9, 9}},
    {own, "aBa", TEXT("AcAbA"), 2, 4, 2, {0, 2, 9, 9}, 0, 0, {0, 2, 9, 9}},
    {joined, "bca", TEXT("cabBA"), 4, 4, 1, {1, 9, 9, 9}, 0, 2, {1, 2, 9, 9}},
};

static void test_worked_corrections(void)
{
    for (size_t i = 0; i < sizeof correct_records / sizeof *correct_records; i++) {
        const struct correct_record *r = &correct_records[i];
        poqewan_pattern pattern = prepared_by(r->classes, r->pattern);
        uint8_t *text = lend_bytes(r->text, r->n);
        uint32_t *list = lend_entries(r->before, r->list_len);
        CHECK(is_update(poqewan_correct(pattern, text, r->n, r->place, list, r->list_len, r->used), r->refusal, r->used_after));
        CHECK(same_entries(list, r->after, r->list_len));
        CHECK(r->n == 0 || memcmp(text, r->text, r->n) == 0);
        CHECK(is_update(check_correct(&pattern, text, r->n, r->place, r->before, r->list_len, r->used), r->refusal, r->used_after));
        free(list);
        free(text);
    }
}

/* Every pattern in every text over two letters, at every place and one past them, with every list of positions up to the text's
   length. */
static void test_all_corrections(bool quick)
{
    const size_t longest_pattern = quick ? 2 : 3, longest_text = quick ? 3 : 5;
    uint8_t bytes[3];
    for (size_t m = 1; m <= longest_pattern; m++)
        for (size_t word = 0; word < words_of(m, 2); word++) {
            put_word(bytes, m, 2, word);
            poqewan_pattern pattern = prepare(bytes, m, POQEWAN_SCRATCH, 0).pattern;
            for (size_t n = 0; n <= longest_text; n++) {
                uint8_t *text = lend(n);
                for (size_t number = 0; number < words_of(n, 2); number++) {
                    put_word(text, n, 2, number);
                    for (size_t place = 0; place <= n; place++)
                        for (size_t set = 0; set < (size_t)1 << (n + 1); set++)
                            check_list_lengths(&pattern, text, n, place, set);
                }
                free(text);
            }
        }
}

/* The longest pattern, of one letter, in a text of that letter: each place is covered by every window from m - 1 before it, or from
   the first, up to it, or up to the last. An empty list gets all of them, and a list of all windows loses them when the byte is
   another. Texts that are as long as the pattern, shorter by a byte, and longer by one, by some and by many. */
static void test_corrections_of_the_longest(void)
{
    const size_t m = POQEWAN_LONGEST_PATTERN;
    const size_t sizes[] = {AROUND(m), m + 10, 2 * m, 3 * m};
    uint8_t bytes[POQEWAN_LONGEST_PATTERN];
    memset(bytes, 'a', m);
    poqewan_pattern pattern = prepare(bytes, m, POQEWAN_SCRATCH, 0).pattern;
    for (size_t i = 0; i < sizeof sizes / sizeof *sizes; i++) {
        size_t n = sizes[i], windows = n < m ? 0 : n - m + 1;
        size_t places[] = {0, 1, AROUND(m - 1), n / 2, n - m, n - m + 1, n - 2, n - 1, n, n + 1, SIZE_MAX};
        uint8_t *text = lend(n);
        uint32_t *none_listed = lend_list(windows), *all = lend_list(windows);
        for (size_t b = 0; b < windows; b++)
            all[b] = (uint32_t)b;
        for (size_t j = 0; j < sizeof places / sizeof *places; j++) {
            size_t place = places[j], from = place < m ? 0 : place - m + 1, to = place < windows ? place + 1 : windows;
            size_t covering = place < n ? to - from : 0;
            memset(text, 'a', n);
            CHECK(is_update(check_correct(&pattern, text, n, place, all, windows, windows), 0, windows));
            CHECK(is_update(check_correct(&pattern, text, n, place, none_listed, windows, 0), 0, covering));
            CHECK(is_update(check_correct(&pattern, text, n, place, none_listed, covering, 0), 0, covering));
            if (covering > 0)
                CHECK(is_update(check_correct(&pattern, text, n, place, none_listed, covering - 1, 0), POQEWAN_SHORT_LIST, 0));
            if (place < n)
                text[place] = 'b';
            CHECK(is_update(check_correct(&pattern, text, n, place, all, windows, windows), 0, windows - covering));
        }
        free(all);
        free(none_listed);
        free(text);
    }
}

/* Each value as a pattern of one byte, in a text of all values: it is equal to itself alone, so that of the lists with one position
   each, which is the place, its own stays. */
static void test_correction_of_each_value(void)
{
    uint8_t *text = lend_bytes(own, POQEWAN_CLASSES);
    for (unsigned value = 1; value < POQEWAN_CLASSES; value++) {
        uint8_t byte = (uint8_t)value;
        poqewan_pattern pattern = prepare(&byte, 1, POQEWAN_SCRATCH, 0).pattern;
        bool right = true;
        for (size_t place = 0; place < POQEWAN_CLASSES; place++) {
            uint32_t entry = (uint32_t)place;
            right = right && is_update(poqewan_correct(pattern, text, POQEWAN_CLASSES, place, &entry, 1, 1), 0, place == value);
        }
        CHECK(right);
    }
    free(text);
}

/* Positions and entries past 2^16: aa in a^n, which has an occurrence in each window. The first byte, one at 2^16 and the last are
   corrected to b and back, so that all entries, some and none move. */
static void test_corrections_past_16_bits(void)
{
    const size_t n = 65536 + 300, places[] = {0, 1, AROUND(65536), n - 2, n - 1};
    poqewan_pattern pattern = prepared("aa");
    uint8_t *text = lend(n);
    uint32_t *list = lend_list(n - 1), *fewer = lend_list(n - 1);
    memset(text, 'a', n);
    CHECK(poqewan_colussi(pattern, text, n, UINT64_MAX, list, n - 1).written == n - 1);
    for (size_t i = 0; i < sizeof places / sizeof *places; i++) {
        size_t place = places[i], covering = place == 0 || place == n - 1 ? 1 : 2;
        text[place] = 'b';
        CHECK(is_update(check_correct(&pattern, text, n, place, list, n - 1, n - 1), 0, n - 1 - covering));
        CHECK(poqewan_colussi(pattern, text, n, UINT64_MAX, fewer, n - 1).written == n - 1 - covering);
        text[place] = 'a';
        CHECK(is_update(check_correct(&pattern, text, n, place, fewer, n - 1, n - 1 - covering), 0, n - 1));
        CHECK(is_update(check_correct(&pattern, text, n, place, fewer, n - 2, n - 1 - covering), POQEWAN_SHORT_LIST, 0));
        /* Entries in use whose number is right in its lower half alone. */
        CHECK(is_update(check_correct(&pattern, text, n, place, fewer, (n - 1) % 65536, n - 1), POQEWAN_FALSE_LIST, 0));
    }
    free(fewer);
    free(list);
    free(text);
}

/* A byte for the place: any; or half of the time the one that an occurrence needs there in a window that covers it. */
static uint8_t correction(const poqewan_pattern *pattern, size_t place)
{
    size_t p = random_below(pattern->len < place + 1 ? pattern->len : place + 1);
    return random_below(2) ? (uint8_t)random_below(256) : member_of(pattern->classes, pattern->classes[pattern->bytes[p]]);
}

/* One byte after the other of a text is corrected, at its ends and within, and the list with it: it stays what a search of the
   whole text lists, and its number moves by at most m. Gives how often the number moved. */
static size_t check_chain(const poqewan_pattern *pattern, uint8_t *text, size_t n, size_t corrections)
{
    size_t m = pattern->len, moved = 0;
    uint32_t *list = lend_list(n), *searched = lend_list(n);
    size_t used = poqewan_colussi(*pattern, text, n, UINT64_MAX, list, n).written;
    for (size_t i = 0; i < corrections; i++) {
        size_t edges[] = {0, m - 1, n - m, n - 1}, place = i < 4 && edges[i] < n ? edges[i] : random_below(n);
        text[place] = correction(pattern, place);
        check_correct(pattern, text, n, place, list, n, used);
        poqewan_update u = poqewan_correct(*pattern, text, n, place, list, n, used);
        CHECK(u.refusal == 0 && u.used <= used + m && used <= u.used + m);
        moved += u.used != used;
        used = u.used;
        CHECK(poqewan_colussi(*pattern, text, n, UINT64_MAX, searched, n).written == used);
        CHECK(same_entries(list, searched, used));
    }
    free(searched);
    free(list);
    return moved;
}

/* An ascending list of positions, which may be any; a few are past the text's end, and the last may be the greatest number. Every
   eighth one is spoilt by two entries that are equal or change places. Gives how many entries it has. */
static size_t random_list(uint32_t *list, size_t n)
{
    size_t used = 0, step = 1 + random_below(8);
    for (size_t b = random_below(step); b < n + 8; b += 1 + random_below(step))
        list[used++] = (uint32_t)b;
    if (random_below(4) == 0)
        list[used++] = UINT32_MAX;
    if (used > 1 && random_below(8) == 0) {
        size_t at = random_below(used - 1);
        uint32_t entry = list[at];
        list[at] = list[at + 1];
        list[at + 1] = random_below(2) ? entry : list[at];
    }
    return used;
}

/* Patterns of every length by drawn classes, in texts of their pieces: chains of corrections of a right list; and wrong lists, with
   lengths drawn by lot, so that all refusals are met. */
static void test_random_corrections(size_t rounds)
{
    size_t told[POQEWAN_SHORT_LIST + 1] = {0}, moved = 0;
    for (size_t round = 0; round < rounds; round++) {
        poqewan_pattern pattern = random_power(round);
        size_t n = 1 + random_below(3 * pattern.len + 8);
        uint8_t *text = lend_pieces(&pattern, n);
        moved += check_chain(&pattern, text, n, 8);
        for (int times = 0; times < 8; times++) {
            uint32_t *list = lend_list(n + 12);
            size_t used = random_list(list, n), list_len = used + random_below(3);
            used += random_below(16) == 0 ? 1 + random_below(3) : 0;
            uint32_t refusal = check_correct(&pattern, text, n, random_below(n + 2), list, list_len, used).refusal;
            CHECK(refusal <= POQEWAN_SHORT_LIST);
            told[refusal <= POQEWAN_SHORT_LIST ? refusal : 0]++;
            free(list);
        }
        free(text);
    }
    CHECK(moved > 0 && told[0] > 0 && told[POQEWAN_FALSE_LIST] > 0 && told[POQEWAN_SHORT_LIST] > 0);
}

/* Every choice of the four conditions, with lists that are false in each way, and short by one entry and by all: the first
   condition, in the order of the tests, is what is told. The windows of aa in a^n that cover place 1 are 0 and 1. */
static void test_order_of_correction_tests(void)
{
    enum { IS_FALSE = 1, IS_LONG = 2, FALSE_LIST = 4, SHORT_LIST = 8 };
    static const uint32_t refusals[] = {4, 5, 19, 20};
    static const struct {
        int is;
        size_t list_len, used, used_after;
        uint32_t entries[4];
    } cases[] = {
        {0, 4, 2, 4, {7, 8, 9, 9}},
        {0, 2, 2, 2, {0, 1}},
        {0, 3, 1, 2, {0, 9, 9}},
        {FALSE_LIST, 4, 2, 0, {8, 8, 9, 9}},
        {FALSE_LIST, 4, 2, 0, {8, 7, 9, 9}},
        {FALSE_LIST, 4, 3, 0, {0, 1, 1, 9}},
        {SHORT_LIST, 3, 2, 0, {7, 8, 9}},
        {SHORT_LIST, 2, 2, 0, {0, 8}},
        {SHORT_LIST, 1, 0, 0, {9}},
        {SHORT_LIST, 0, 0, 0, {0}},
        {FALSE_LIST | SHORT_LIST, 3, 2, 0, {8, 8, 9}},
        {FALSE_LIST | SHORT_LIST, 3, 3, 0, {9, 8, 7}},
        {FALSE_LIST | SHORT_LIST, 2, 3, 0, {7, 8}},
        {FALSE_LIST | SHORT_LIST, 2, SIZE_MAX, 0, {7, 8}},
        {FALSE_LIST | SHORT_LIST, 0, 1, 0, {0}},
    };
    poqewan_pattern pattern = prepared("aa"), wrong = pattern;
    wrong.noholes++;
    for (int is_long = 0; is_long <= IS_LONG; is_long += IS_LONG) {
        size_t n = is_long ? POQEWAN_LONGEST_TEXT + 1 : 5;
        uint8_t *text = lend(n);
        memset(text, 'a', n);
        for (int is_false = 0; is_false <= IS_FALSE; is_false++)
            for (size_t i = 0; i < sizeof cases / sizeof *cases; i++) {
                uint32_t refusal = first_chosen(is_false | is_long | cases[i].is, refusals);
                size_t list_len = cases[i].list_len;
                uint32_t *list = lend_guarded(list_len);
                memcpy(list, cases[i].entries, list_len * sizeof *list);
                poqewan_update u = poqewan_correct(is_false ? wrong : pattern, text, n, 1, list, list_len, cases[i].used);
                CHECK(is_update(u, refusal, refusal == 0 ? cases[i].used_after : 0));
                CHECK(refusal == 0 ? list[0] == 0 && list[1] == 1 : same_entries(list, cases[i].entries, list_len));
                free_guarded(list, list_len);
            }
        CHECK(how_often('a', text, n) == n);
        free(text);
    }
}

/* In a text of the greatest length: ab at its end, and the longest pattern, of one letter, at its start, at its end and within. One
   byte more is refused, wherever the place is, and leaves the list as it is. */
static void test_corrections_of_longest_text(void)
{
    const size_t n = POQEWAN_LONGEST_TEXT, m = POQEWAN_LONGEST_PATTERN, middle = n / 2;
    static const uint32_t entries[] = {5, 9, UINT32_MAX};
    uint8_t *text = lend(n + 1);
    memset(text, 'a', n + 1);
    text[n - 1] = 'b';
    poqewan_pattern pattern = prepared("ab");
    uint32_t *list = lend_list(2);
    list[0] = 5;
    CHECK(is_update(poqewan_correct(pattern, text, n, n, list, 2, 1), 0, 1));
    CHECK(is_update(poqewan_correct(pattern, text, n, n - 2, list, 2, 1), 0, 2));
    CHECK(list[0] == 5 && list[1] == n - 2);
    text[n - 1] = 'a';
    CHECK(is_update(poqewan_correct(pattern, text, n, n - 1, list, 2, 2), 0, 1));
    CHECK(list[0] == 5 && list[1] == n - 2);
    free(list);

    pattern = prepare(text, m, POQEWAN_SCRATCH, 0).pattern;
    const struct {
        size_t place, from, to; /* the windows that cover it: from the one, and below the other */
    } rows[] = {{0, 0, 1}, {m - 1, 0, m}, {m, 1, m + 1}, {middle, middle - m + 1, middle + 1},
                {n - m, n - 2 * m + 1, n - m + 1}, {n - m + 1, n - 2 * m + 2, n - m + 1}, {n - 1, n - m, n - m + 1}};
    list = lend_list(m);
    for (size_t i = 0; i < sizeof rows / sizeof *rows; i++) {
        size_t covering = rows[i].to - rows[i].from, right = 0;
        CHECK(is_update(poqewan_correct(pattern, text, n, rows[i].place, list, covering - 1, 0), POQEWAN_SHORT_LIST, 0));
        CHECK(unwritten(list, 0, m));
        CHECK(is_update(poqewan_correct(pattern, text, n, rows[i].place, list, m, 0), 0, covering));
        while (right < covering && list[right] == rows[i].from + right)
            list[right++] = UNWRITTEN;
        CHECK(right == covering && unwritten(list, 0, m));
    }
    free(list);

    list = lend_entries(entries, 3);
    for (size_t place = n - 1; place <= n + 1; place++) {
        CHECK(is_update(poqewan_correct(pattern, text, n + 1, place, list, 3, 3), POQEWAN_LONG_TEXT, 0));
        CHECK(is_update(poqewan_correct(pattern, text, n + 1, place, list, 3, 0), POQEWAN_LONG_TEXT, 0));
    }
    CHECK(is_update(poqewan_correct(pattern, text, n + 1, SIZE_MAX, list, 3, 4), POQEWAN_LONG_TEXT, 0));
    CHECK(same_entries(list, entries, 3));
    free(list);
    free(text);
}

/* The searches of one record of an archive, in the order of those above. */
typedef poqewan_report record_function(poqewan_pattern, const uint8_t *, size_t, uint64_t, uint64_t, uint32_t *, size_t);
static record_function *const record_searches[] = {poqewan_colussi_record, poqewan_kmp_record};

/* What stands behind the records: an entry for each, and the trailer, which ends with the closing bytes. */
#define ENTRY 8
#define TRAILER 12
static const uint8_t closing[4] = {0x52, 0x45, 0x45, 0x4C};

static void put_number(uint8_t *bytes, uint32_t number)
{
    for (int i = 0; i < 4; i++) {
        bytes[i] = (uint8_t)(number % 256);
        number /= 256;
    }
}

static uint64_t number_at(const uint8_t *bytes)
{
    return bytes[0] + UINT64_C(256) * bytes[1] + UINT64_C(65536) * bytes[2] + UINT64_C(16777216) * bytes[3];
}

struct archive {
    uint8_t *bytes;
    size_t len;
};

struct entry {
    uint32_t start, len;
};

/* Lends an archive with these bytes of records, these entries, and these numbers in its trailer. They may be wrong. */
static struct archive lend_archive(const void *bytes, size_t bytes_len, const struct entry *entries, size_t entries_len,
                                   uint32_t start, uint32_t records)
{
    struct archive a = {NULL, bytes_len + ENTRY * entries_len + TRAILER};
    a.bytes = lend(a.len);
    if (bytes_len > 0)
        memcpy(a.bytes, bytes, bytes_len);
    uint8_t *at = a.bytes + bytes_len;
    for (size_t r = 0; r < entries_len; r++) {
        put_number(at, entries[r].start);
        put_number(at + 4, entries[r].len);
        at += ENTRY;
    }
    put_number(at, start);
    put_number(at + 4, records);
    memcpy(at + 8, closing, sizeof closing);
    return a;
}

static struct archive lend_copy(const void *bytes, size_t len)
{
    return (struct archive){lend_bytes(bytes, len), len};
}

/* Lends the archive of records of these lengths, that lie in these bytes one after the other. */
static struct archive pack(const void *bytes, const uint32_t *lengths, size_t records)
{
    struct entry *entries = lend(records * sizeof *entries);
    uint32_t end = 0;
    for (size_t r = 0; r < records; r++) {
        entries[r] = (struct entry){end, lengths[r]};
        end += lengths[r];
    }
    struct archive a = lend_archive(bytes, end, entries, records, end, (uint32_t)records);
    free(entries);
    return a;
}

/* An archive read again, by the words of the request. The sums have 64 bits, and none of them wraps. */
struct reading {
    uint32_t refusal;
    uint64_t records, start;
};

static uint64_t start_of(const uint8_t *archive, uint64_t directory, uint64_t record)
{
    return number_at(archive + directory + ENTRY * record);
}

static uint64_t end_of(const uint8_t *archive, uint64_t directory, uint64_t record)
{
    return start_of(archive, directory, record) + number_at(archive + directory + ENTRY * record + 4);
}

static struct reading read_again(const uint8_t *archive, size_t len)
{
    if (len > POQEWAN_LONGEST_TEXT)
        return (struct reading){POQEWAN_LONG_TEXT, 0, 0};
    if (len < TRAILER || memcmp(archive + len - sizeof closing, closing, sizeof closing) != 0)
        return (struct reading){POQEWAN_NO_TRAILER, 0, 0};
    uint64_t start = number_at(archive + len - 12), records = number_at(archive + len - 8);
    if (records > POQEWAN_MOST_RECORDS || start + ENTRY * records != len - TRAILER)
        return (struct reading){POQEWAN_FALSE_DIRECTORY, 0, 0};
    for (uint64_t r = 0; r < records; r++)
        if (start_of(archive, start, r) != (r == 0 ? 0 : end_of(archive, start, r - 1)))
            return (struct reading){POQEWAN_RECORDS_APART, 0, 0};
    if (start != (records == 0 ? 0 : end_of(archive, start, records - 1)))
        return (struct reading){POQEWAN_RECORDS_APART, 0, 0};
    return (struct reading){0, records, start};
}

static bool is_directory(poqewan_directory directory, uint32_t refusal, uint64_t records, uint64_t start)
{
    return directory.refusal == refusal && directory.records == records && directory.start == start;
}

static bool is_bounds(poqewan_bounds bounds, uint32_t refusal, uint32_t found, uint64_t start, uint64_t end)
{
    return bounds.refusal == refusal && bounds.found == found && bounds.start == start && bounds.end == end;
}

/* Both searches of a record must answer with this refusal and this ending, with 0 in all else, and leave the list as it is,
   whatever the cap is and with or without a list. */
static void check_not_searched(const poqewan_pattern *pattern, struct archive a, uint64_t record, uint32_t refusal,
                               uint32_t ending)
{
    uint32_t *list = lend_list(4);
    for (int s = 0; s < SEARCHES; s++)
        for (size_t list_len = 0; list_len <= 4; list_len += 4) {
            uint64_t cap = list_len == 0 ? 0 : UINT64_MAX;
            poqewan_report r = record_searches[s](*pattern, a.bytes, a.len, record, cap, list, list_len);
            CHECK(r.refusal == refusal && r.ending == ending && r.window == 0 && r.count == 0 && r.at_noholes == 0 &&
                  r.at_holes == 0 && r.written == 0);
            CHECK(unwritten(list, 0, 4));
        }
    free(list);
}

/* Searches a record that is there. The report and the list must be those by the rules on the record's bytes, and those of the
   search of these bytes by themselves. */
static poqewan_report check_part(int search, const poqewan_pattern *pattern, struct archive a, uint64_t record, size_t start,
                                 size_t end, uint64_t cap, size_t list_len)
{
    size_t n = end - start;
    uint8_t *part = lend_bytes(a.bytes + start, n);
    uint32_t *list = lend_list(list_len), *alone = lend_list(list_len);
    poqewan_report r = record_searches[search](*pattern, a.bytes, a.len, record, cap, list, list_len);
    poqewan_report rules = by_rules(search, pattern, part, n, cap, list_len);
    poqewan_report same = searches[search](*pattern, part, n, cap, alone, list_len);

    CHECK(is_report(r, rules.ending, rules.window, counts_of(rules), rules.written));
    CHECK(is_report(r, same.ending, same.window, counts_of(same), same.written));
    CHECK(r.written <= list_len && unwritten(list, r.written, list_len));
    CHECK(lists_occurrences(list, r.written, pattern, part, n, r.ending == POQEWAN_DONE ? n : r.window));
    CHECK(list_len == 0 || memcmp(list, alone, list_len * sizeof *list) == 0);
    CHECK(under_ceiling(search, r, pattern->len, n));
    free(alone);
    free(list);
    free(part);
    return r;
}

/* Asks for an archive's directory, for one record, and for a pattern in it, by that pattern and by a false one, and checks all
   answers against the archive read again. Gives what is to be told of the record by a search: a refusal, or 0 if it is there,
   or NOT_THERE. */
#define NOT_THERE 100

static uint32_t check_archive(const poqewan_pattern *pattern, struct archive a, uint64_t record, uint64_t cap,
                              size_t list_len)
{
    struct reading reading = read_again(a.bytes, a.len);
    bool found = reading.refusal == 0 && record < reading.records;
    uint64_t start = found ? start_of(a.bytes, reading.start, record) : 0;
    uint64_t end = found ? end_of(a.bytes, reading.start, record) : 0;
    CHECK(is_directory(poqewan_read_directory(a.bytes, a.len), reading.refusal, reading.records, reading.start));
    CHECK(is_bounds(poqewan_find_record(a.bytes, a.len, record), reading.refusal, found, start, end));
    CHECK(start <= end && end <= a.len);

    poqewan_pattern wrong = *pattern;
    wrong.noholes++;
    check_not_searched(&wrong, a, record, POQEWAN_FALSE_PATTERN, 0);
    if (reading.refusal != 0) {
        check_not_searched(pattern, a, record, reading.refusal, 0);
        return reading.refusal;
    }
    if (!found) {
        check_not_searched(pattern, a, record, 0, POQEWAN_NO_SUCH_RECORD);
        return NOT_THERE;
    }
    for (int s = 0; s < SEARCHES; s++)
        check_part(s, pattern, a, record, start, end, cap, list_len);
    return 0;
}

/* The archive must be refused with this number by all, whatever record is asked for; a false pattern is told before. */
static void check_refused_archive(struct archive a, uint32_t number)
{
    static const uint64_t asked[] = {0, 1, POQEWAN_MOST_RECORDS, UINT64_MAX};
    poqewan_pattern pattern = prepared("aba");
    CHECK(is_directory(poqewan_read_directory(a.bytes, a.len), number, 0, 0));
    for (size_t i = 0; i < sizeof asked / sizeof *asked; i++)
        CHECK(check_archive(&pattern, a, asked[i], UINT64_MAX, 4) == number);
}

/* Three records, aba, an empty one and ba, byte by byte as the request has it. */
static const uint8_t worked_archive[] = {
    'a', 'b', 'a', 'b', 'a',
    0, 0, 0, 0, 3, 0, 0, 0,
    3, 0, 0, 0, 0, 0, 0, 0,
    3, 0, 0, 0, 2, 0, 0, 0,
    5, 0, 0, 0, 3, 0, 0, 0, 0x52, 0x45, 0x45, 0x4C,
};
static const uint32_t worked_lengths[] = {3, 0, 2};

/* Worked by hand from document 01's rules. In the five bytes together there are ab at 2, aba at 2, and bab at 1, each of them
   across the border of two records. */
static const struct part {
    const char *pattern;
    uint64_t record;
    size_t written;
    uint32_t positions[2];
    struct counts counts[SEARCHES];
} parts[] = {
    {"a", 0, 2, {0, 2}, {{3, 0, 3}, {3, 0, 3}}},
    {"a", 1, 0, {0}, {{0, 0, 0}, {0, 0, 0}}},
    {"a", 2, 1, {1}, {{2, 0, 2}, {2, 0, 2}}},
    {"ba", 0, 1, {1}, {{3, 2, 1}, {3, 1, 2}}},
    {"ba", 1, 0, {0}, {{0, 0, 0}, {0, 0, 0}}},
    {"ba", 2, 1, {0}, {{2, 1, 1}, {2, 1, 1}}},
    {"ab", 0, 1, {0}, {{2, 1, 1}, {2, 1, 1}}},
    {"ab", 1, 0, {0}, {{0, 0, 0}, {0, 0, 0}}},
    {"ab", 2, 0, {0}, {{1, 1, 0}, {1, 0, 1}}},
    {"bab", 0, 0, {0}, {{1, 1, 0}, {1, 0, 1}}},
    {"bab", 1, 0, {0}, {{0, 0, 0}, {0, 0, 0}}},
    {"bab", 2, 0, {0}, {{0, 0, 0}, {0, 0, 0}}},
    {"aba", 0, 1, {0}, {{3, 1, 2}, {3, 1, 2}}},
    {"aba", 1, 0, {0}, {{0, 0, 0}, {0, 0, 0}}},
    {"aba", 2, 0, {0}, {{0, 0, 0}, {0, 0, 0}}},
};

static void test_worked_archive(void)
{
    struct archive a = lend_copy(worked_archive, sizeof worked_archive), packed = pack("ababa", worked_lengths, 3);
    CHECK(packed.len == sizeof worked_archive && memcmp(packed.bytes, worked_archive, packed.len) == 0);
    CHECK(is_directory(poqewan_read_directory(a.bytes, a.len), 0, 3, 5));
    CHECK(is_bounds(poqewan_find_record(a.bytes, a.len, 0), 0, 1, 0, 3));
    CHECK(is_bounds(poqewan_find_record(a.bytes, a.len, 1), 0, 1, 3, 3));
    CHECK(is_bounds(poqewan_find_record(a.bytes, a.len, 2), 0, 1, 3, 5));
    CHECK(is_bounds(poqewan_find_record(a.bytes, a.len, 3), 0, 0, 0, 0));
    for (size_t i = 0; i < sizeof parts / sizeof *parts; i++)
        for (int s = 0; s < SEARCHES; s++) {
            const struct part *part = &parts[i];
            uint32_t *list = lend_list(LONG_LIST);
            poqewan_pattern pattern = prepared(part->pattern);
            poqewan_report r = record_searches[s](pattern, a.bytes, a.len, part->record, UINT64_MAX, list, LONG_LIST);
            CHECK(is_report(r, POQEWAN_DONE, 0, part->counts[s], part->written));
            CHECK(memcmp(list, part->positions, part->written * sizeof *list) == 0);
            CHECK(unwritten(list, part->written, LONG_LIST));
            check_not_searched(&pattern, a, 3, 0, POQEWAN_NO_SUCH_RECORD);
            free(list);
        }
    CHECK(memcmp(a.bytes, worked_archive, a.len) == 0);
    free(packed.bytes);
    free(a.bytes);
}

/* The text of a worked record, with its literal answer, as the only record of an archive; and between others that hold the
   pattern, with an empty one before it and another after. */
static void check_record_in_archives(const struct record *w, const uint8_t *classes)
{
    poqewan_pattern pattern = prepared_by(classes, w->pattern);
    size_t m = strlen(w->pattern), n = strlen(w->text);
    uint32_t lengths[] = {(uint32_t)m, 0, (uint32_t)n, 0, (uint32_t)m};
    uint8_t *bytes = lend(m + n + m);
    memcpy(bytes, w->pattern, m);
    memcpy(bytes + m, w->text, n);
    memcpy(bytes + m + n, w->pattern, m);
    struct archive only = pack(w->text, &lengths[2], 1), between = pack(bytes, lengths, 5);
    for (int s = 0; s < SEARCHES; s++)
        for (int i = 0; i < 2; i++) {
            struct archive a = i == 0 ? only : between;
            uint32_t *list = lend_list(w->list_len);
            poqewan_report r = record_searches[s](pattern, a.bytes, a.len, i == 0 ? 0 : 2, w->cap, list, w->list_len);
            CHECK(is_report(r, w->ending, w->window, w->counts[s], w->written));
            CHECK(memcmp(list, w->positions, w->written * sizeof *list) == 0);
            CHECK(unwritten(list, w->written, w->list_len));
            free(list);
        }
    free(between.bytes);
    free(only.bytes);
    free(bytes);
}

static void test_worked_records_in_archives(void)
{
    for (size_t i = 0; i < sizeof records / sizeof *records; i++)
        check_record_in_archives(&records[i], own);
    for (size_t i = 0; i < sizeof more_records / sizeof *more_records; i++)
        check_record_in_archives(&more_records[i], own);
    for (size_t i = 0; i < sizeof joined_records / sizeof *joined_records; i++)
        check_record_in_archives(&joined_records[i], joined);
}

/* Archives by their parts, and what is told of each. */
static const struct layout {
    const char *bytes;
    size_t entries_len;
    struct entry entries[3];
    uint32_t start, records, refusal;
} layouts[] = {
    /* No records; the directory starts at 0, and elsewhere. */
    {"", 0, {{0, 0}}, 0, 0, 0},
    {"a", 0, {{0, 0}}, 1, 0, POQEWAN_RECORDS_APART},
    {"a", 0, {{0, 0}}, 0, 0, POQEWAN_FALSE_DIRECTORY},
    {"", 0, {{0, 0}}, 1, 0, POQEWAN_FALSE_DIRECTORY},
    {"abababab", 0, {{0, 0}}, 8, 0, POQEWAN_RECORDS_APART},
    /* Empty records: one, all, the first, the last. */
    {"", 1, {{0, 0}}, 0, 1, 0},
    {"", 3, {{0, 0}, {0, 0}, {0, 0}}, 0, 3, 0},
    {"ab", 2, {{0, 0}, {0, 2}}, 2, 2, 0},
    {"ab", 2, {{0, 2}, {2, 0}}, 2, 2, 0},
    {"ab", 3, {{0, 0}, {0, 2}, {2, 0}}, 2, 3, 0},
    /* An empty record that lies elsewhere. */
    {"ab", 2, {{1, 0}, {0, 2}}, 2, 2, POQEWAN_RECORDS_APART},
    {"ab", 2, {{0, 2}, {1, 0}}, 2, 2, POQEWAN_RECORDS_APART},
    {"ab", 2, {{0, 2}, {0, 0}}, 2, 2, POQEWAN_RECORDS_APART},
    {"", 1, {{1, 0}}, 0, 1, POQEWAN_RECORDS_APART},
    /* The first record starts one byte late. */
    {"abcd", 1, {{1, 3}}, 4, 1, POQEWAN_RECORDS_APART},
    {"abcd", 2, {{1, 1}, {2, 2}}, 4, 2, POQEWAN_RECORDS_APART},
    /* The last record ends at the directory's start, one byte before, and one after. */
    {"abcd", 1, {{0, 4}}, 4, 1, 0},
    {"abcd", 1, {{0, 3}}, 4, 1, POQEWAN_RECORDS_APART},
    {"abcd", 1, {{0, 5}}, 4, 1, POQEWAN_RECORDS_APART},
    {"abcd", 2, {{0, 2}, {2, 2}}, 4, 2, 0},
    {"abcd", 2, {{0, 2}, {2, 1}}, 4, 2, POQEWAN_RECORDS_APART},
    {"abcd", 2, {{0, 2}, {2, 3}}, 4, 2, POQEWAN_RECORDS_APART},
    {"", 1, {{0, 1}}, 0, 1, POQEWAN_RECORDS_APART},
    /* A gap and an overlap; the same where the lengths still add up; and records in another order. */
    {"abcd", 2, {{0, 1}, {2, 2}}, 4, 2, POQEWAN_RECORDS_APART},
    {"abcd", 2, {{0, 3}, {2, 2}}, 4, 2, POQEWAN_RECORDS_APART},
    {"abcd", 2, {{0, 2}, {3, 2}}, 4, 2, POQEWAN_RECORDS_APART},
    {"abcd", 2, {{0, 2}, {1, 2}}, 4, 2, POQEWAN_RECORDS_APART},
    {"abcd", 3, {{0, 1}, {2, 1}, {2, 2}}, 4, 3, POQEWAN_RECORDS_APART},
    {"abcd", 2, {{2, 2}, {0, 2}}, 4, 2, POQEWAN_RECORDS_APART},
    {"abcd", 3, {{0, 1}, {2, 2}, {1, 1}}, 4, 3, POQEWAN_RECORDS_APART},
    /* The directory's start and the number of records do not meet: by one record, by one byte, either way. */
    {"abcd", 1, {{0, 4}}, 4, 0, POQEWAN_FALSE_DIRECTORY},
    {"abcd", 1, {{0, 4}}, 4, 2, POQEWAN_FALSE_DIRECTORY},
    {"abcd", 1, {{0, 4}}, 3, 1, POQEWAN_FALSE_DIRECTORY},
    {"abcd", 1, {{0, 4}}, 5, 1, POQEWAN_FALSE_DIRECTORY},
    {"abcd", 1, {{0, 4}}, 12, 1, POQEWAN_FALSE_DIRECTORY},
    {"abcd", 1, {{0, 4}}, 12, 0, POQEWAN_RECORDS_APART},
    /* The greatest numbers. */
    {"abcd", 1, {{0, 4}}, UINT32_MAX, 1, POQEWAN_FALSE_DIRECTORY},
    {"abcd", 1, {{0, 4}}, 4, UINT32_MAX, POQEWAN_FALSE_DIRECTORY},
    {"abcd", 1, {{0, 4}}, UINT32_MAX, UINT32_MAX, POQEWAN_FALSE_DIRECTORY},
    {"", 0, {{0, 0}}, UINT32_MAX, 0, POQEWAN_FALSE_DIRECTORY},
    {"", 0, {{0, 0}}, 0, UINT32_MAX, POQEWAN_FALSE_DIRECTORY},
    {"abcd", 1, {{UINT32_MAX, 4}}, 4, 1, POQEWAN_RECORDS_APART},
    {"abcd", 1, {{0, UINT32_MAX}}, 4, 1, POQEWAN_RECORDS_APART},
    {"abcd", 1, {{UINT32_MAX, 5}}, 4, 1, POQEWAN_RECORDS_APART},
    /* Sums that would be right modulo 2^32: of the directory's start and size, of its size alone, and of the lengths. */
    {"", 0, {{0, 0}}, UINT32_MAX - 7, 1, POQEWAN_FALSE_DIRECTORY},
    {"abcdefg", 0, {{0, 0}}, UINT32_MAX, 1, POQEWAN_FALSE_DIRECTORY},
    {"", 1, {{0, 0}}, UINT32_MAX - 7, 2, POQEWAN_FALSE_DIRECTORY},
    {"", 0, {{0, 0}}, UINT32_MAX - 4096 * 8 + 1, 4096, POQEWAN_FALSE_DIRECTORY},
    {"", 0, {{0, 0}}, 0, UINT32_C(1) << 29, POQEWAN_FALSE_DIRECTORY},
    {"abcd", 1, {{0, 4}}, 4, (UINT32_C(1) << 29) + 1, POQEWAN_FALSE_DIRECTORY},
    {"abcd", 1, {{0, 4}}, 4, (UINT32_C(1) << 31) + 1, POQEWAN_FALSE_DIRECTORY},
    {"abcd", 2, {{0, UINT32_MAX}, {UINT32_MAX, 5}}, 4, 2, POQEWAN_RECORDS_APART},
    {"abcd", 3, {{0, UINT32_MAX}, {UINT32_MAX, 1}, {0, 4}}, 4, 3, POQEWAN_RECORDS_APART},
    {"abcd", 3, {{0, 2}, {2, UINT32_MAX}, {1, 3}}, 4, 3, POQEWAN_RECORDS_APART},
    {"abcd", 3, {{0, UINT32_C(1) << 31}, {UINT32_C(1) << 31, UINT32_C(1) << 31}, {0, 4}}, 4, 3, POQEWAN_RECORDS_APART},
    /* Records that lie in the directory, or past the archive, and come back. */
    {"abcd", 2, {{0, 20}, {20, 0}}, 4, 2, POQEWAN_RECORDS_APART},
    {"abcd", 2, {{0, 1000}, {1000, 0}}, 4, 2, POQEWAN_RECORDS_APART},
};

static void test_layouts(void)
{
    poqewan_pattern pattern = prepared("ab");
    for (size_t i = 0; i < sizeof layouts / sizeof *layouts; i++) {
        const struct layout *l = &layouts[i];
        struct archive a = lend_archive(l->bytes, strlen(l->bytes), l->entries, l->entries_len, l->start, l->records);
        if (l->refusal != 0) {
            check_refused_archive(a, l->refusal);
        } else {
            CHECK(is_directory(poqewan_read_directory(a.bytes, a.len), 0, l->records, l->start));
            for (uint64_t record = 0; record < l->records; record++) {
                struct entry e = l->entries[record];
                CHECK(is_bounds(poqewan_find_record(a.bytes, a.len, record), 0, 1, e.start, e.start + e.len));
                CHECK(check_archive(&pattern, a, record, UINT64_MAX, 4) == 0);
            }
            CHECK(check_archive(&pattern, a, l->records, UINT64_MAX, 4) == NOT_THERE);
        }
        free(a.bytes);
    }
}

/* Of the archive without records, 12 bytes, each end that is shorter; and with bytes before it. */
static void test_short_archives(void)
{
    static const uint8_t empty[TRAILER] = {0, 0, 0, 0, 0, 0, 0, 0, 0x52, 0x45, 0x45, 0x4C};
    static const uint8_t longer[TRAILER + 1] = {'a', 1, 0, 0, 0, 0, 0, 0, 0, 0x52, 0x45, 0x45, 0x4C};
    for (size_t len = 0; len < TRAILER; len++) {
        struct archive a = lend_copy(empty + TRAILER - len, len);
        check_refused_archive(a, POQEWAN_NO_TRAILER);
        free(a.bytes);
    }
    struct archive a = lend_copy(empty, sizeof empty);
    poqewan_pattern pattern = prepared("a");
    CHECK(is_directory(poqewan_read_directory(a.bytes, a.len), 0, 0, 0));
    CHECK(check_archive(&pattern, a, 0, UINT64_MAX, 4) == NOT_THERE);
    CHECK(check_archive(&pattern, a, UINT64_MAX, UINT64_MAX, 4) == NOT_THERE);
    free(a.bytes);
    a = lend_copy(longer, sizeof longer);
    check_refused_archive(a, POQEWAN_RECORDS_APART);
    a.bytes[1] = 0;
    check_refused_archive(a, POQEWAN_FALSE_DIRECTORY);
    free(a.bytes);
}

/* Each closing byte with each other value; two of them exchanged; all from the last to the first; and small letters. */
static void test_closing_bytes(void)
{
    struct archive a = lend_copy(worked_archive, sizeof worked_archive);
    uint8_t *end = a.bytes + a.len - sizeof closing;
    for (size_t i = 0; i < sizeof closing; i++)
        for (unsigned change = 1; change < 256; change++) {
            end[i] = (uint8_t)(closing[i] ^ change);
            CHECK(is_directory(poqewan_read_directory(a.bytes, a.len), POQEWAN_NO_TRAILER, 0, 0));
            if ((change & (change - 1)) == 0)
                check_refused_archive(a, POQEWAN_NO_TRAILER);
            end[i] = closing[i];
        }
    memcpy(end, "\x45\x52\x45\x4C", 4);
    check_refused_archive(a, POQEWAN_NO_TRAILER);
    memcpy(end, "\x4C\x45\x45\x52", 4);
    check_refused_archive(a, POQEWAN_NO_TRAILER);
    memcpy(end, "reel", 4);
    check_refused_archive(a, POQEWAN_NO_TRAILER);
    free(a.bytes);
}

/* Record numbers that are not there, such as would be if they lost their upper half, or if eight times the number did. */
static void test_record_numbers(void)
{
    static const uint64_t numbers[] = {3, 4, 255, 256, 4095, 4096, 65536, UINT32_MAX, UINT64_C(1) << 32,
                                       (UINT64_C(1) << 32) + 2, UINT64_C(1) << 61, (UINT64_C(1) << 61) + 2,
                                       UINT64_C(1) << 63, UINT64_MAX - 1, UINT64_MAX};
    struct archive a = lend_copy(worked_archive, sizeof worked_archive);
    poqewan_pattern pattern = prepared("a");
    for (size_t i = 0; i < sizeof numbers / sizeof *numbers; i++) {
        CHECK(is_bounds(poqewan_find_record(a.bytes, a.len, numbers[i]), 0, 0, 0, 0));
        check_not_searched(&pattern, a, numbers[i], 0, POQEWAN_NO_SUCH_RECORD);
        CHECK(check_archive(&pattern, a, numbers[i], UINT64_MAX, 4) == NOT_THERE);
    }
    free(a.bytes);
}

/* With a number of 0 the pointer is not followed: neither of the archive nor of the list. */
static void test_null_archive(void)
{
    struct archive null = {NULL, 0}, a = lend_copy(worked_archive, sizeof worked_archive);
    poqewan_pattern pattern = prepared("a"), wrong = pattern;
    wrong.noholes++;
    CHECK(is_directory(poqewan_read_directory(NULL, 0), POQEWAN_NO_TRAILER, 0, 0));
    CHECK(is_bounds(poqewan_find_record(NULL, 0, 0), POQEWAN_NO_TRAILER, 0, 0, 0));
    check_not_searched(&pattern, null, 0, POQEWAN_NO_TRAILER, 0);
    check_not_searched(&wrong, null, 0, POQEWAN_FALSE_PATTERN, 0);
    for (int s = 0; s < SEARCHES; s++) {
        record_function *search = record_searches[s];
        CHECK(is_refusal(search(pattern, NULL, 0, 0, 0, NULL, 0), POQEWAN_NO_TRAILER));
        CHECK(is_refusal(search(wrong, a.bytes, a.len, 3, 0, NULL, 0), POQEWAN_FALSE_PATTERN));
        CHECK(is_report(search(pattern, a.bytes, a.len, 3, 0, NULL, 0), POQEWAN_NO_SUCH_RECORD, 0, none, 0));
        CHECK(is_report(search(pattern, a.bytes, a.len, 1, 0, NULL, 0), POQEWAN_DONE, 0, none, 0));
        CHECK(is_report(search(pattern, a.bytes, a.len, 0, 0, NULL, 0), POQEWAN_SPENT, 0, none, 0));
        CHECK(is_report(search(pattern, a.bytes, a.len, 0, 1, NULL, 0), POQEWAN_FULL, 0, (struct counts){1, 0, 1}, 0));
    }
    free(a.bytes);
}

/* Every choice of the six conditions: the first of them, in the order of the tests, is what is told. */
static void test_order_of_archive_tests(void)
{
    enum { IS_FALSE = 1, IS_LONG = 2, NOT_CLOSED = 4, ONE_MORE = 8, APART = 16, PAST = 32, ALL = 63 };
    static const uint32_t refusals[] = {4, 5, 7, 8, 9};
    poqewan_pattern pattern = prepared("ab"), wrong = pattern;
    wrong.noholes++;
    for (int is_long = 0; is_long <= IS_LONG; is_long += IS_LONG) {
        size_t len = is_long ? POQEWAN_LONGEST_TEXT + 1 : 100, directory = len - TRAILER - 2 * ENTRY;
        struct archive a = {lend(len), len};
        memset(a.bytes, 'a', directory);
        for (int chosen = is_long; chosen <= ALL; chosen++) {
            if ((chosen & IS_LONG) != is_long)
                continue;
            put_number(a.bytes + directory, 0);
            put_number(a.bytes + directory + 4, 2);
            put_number(a.bytes + directory + 8, chosen & APART ? 3 : 2);
            put_number(a.bytes + directory + 12, (uint32_t)directory - 2);
            put_number(a.bytes + len - 12, (uint32_t)directory);
            put_number(a.bytes + len - 8, chosen & ONE_MORE ? 3 : 2);
            memcpy(a.bytes + len - 4, chosen & NOT_CLOSED ? "reel" : "REEL", 4);
            uint64_t record = chosen & PAST ? 2 : 1;
            uint32_t of_search = 0, of_archive = 0;
            for (int i = 4; i >= 0; i--)
                if (chosen & 1 << i) {
                    of_search = refusals[i];
                    of_archive = i > 0 ? refusals[i] : of_archive;
                }
            bool read = of_archive == 0, found = read && record < 2;
            CHECK(is_directory(poqewan_read_directory(a.bytes, len), of_archive, read ? 2 : 0, read ? directory : 0));
            CHECK(is_bounds(poqewan_find_record(a.bytes, len, record), of_archive, found, found ? 2 : 0,
                            found ? directory : 0));
            const poqewan_pattern *asked = chosen & IS_FALSE ? &wrong : &pattern;
            if (of_search != 0 || !found)
                check_not_searched(asked, a, record, of_search, of_search == 0 ? POQEWAN_NO_SUCH_RECORD : 0);
            else
                CHECK(check_archive(asked, a, record, UINT64_MAX, 4) == 0);
        }
        free(a.bytes);
    }
}

/* Three records of five bytes, with the borders anywhere, in a quick run for one pattern; and what is left of the worked archive
   if its start or its end is missing, or a byte more is there. */
static void test_cuts(bool quick)
{
    static const char *const patterns[] = {"ab", "a", "ba", "aba", "bab"};
    static const uint64_t caps[] = {0, 1, 2, 3, 4, 5, UINT64_C(1) << 32}; /* the last is 0 in its lower half */
    for (size_t i = 0; i < (quick ? 1 : sizeof patterns / sizeof *patterns); i++) {
        poqewan_pattern pattern = prepared(patterns[i]);
        for (uint32_t one = 0; one <= 5; one++)
            for (uint32_t two = 0; one + two <= 5; two++) {
                uint32_t lengths[] = {one, two, 5 - one - two};
                struct archive a = pack("ababa", lengths, 3);
                for (uint64_t record = 0; record <= 3; record++)
                    for (size_t list_len = 0; list_len <= 3; list_len++)
                        for (size_t c = 0; c < sizeof caps / sizeof *caps; c++)
                            CHECK(check_archive(&pattern, a, record, caps[c], list_len) == (record < 3 ? 0 : NOT_THERE));
                free(a.bytes);
            }
    }
    uint8_t more[sizeof worked_archive + 2];
    memset(more, 0, sizeof more);
    memcpy(more + 1, worked_archive, sizeof worked_archive);
    poqewan_pattern pattern = prepared("ba");
    for (size_t from = 0; from <= sizeof more; from++)
        for (size_t to = from; to <= sizeof more; to++) {
            struct archive a = lend_copy(more + from, to - from);
            uint32_t told = check_archive(&pattern, a, 2, UINT64_MAX, 4);
            CHECK(from == 1 && to == sizeof more - 1 ? told == 0 : told != 0 && told != NOT_THERE);
            free(a.bytes);
        }
}

/* Each byte of small archives with each other value, or in a quick run with one bit changed. */
static void test_damaged_archives(bool quick)
{
    static const struct {
        const char *bytes;
        size_t records;
        uint32_t lengths[3];
    } whole[] = {{"ababa", 3, {3, 0, 2}}, {"aab", 1, {3}}, {"", 2, {0, 0}}, {"", 0, {0}}};
    poqewan_pattern pattern = prepared("ba");
    size_t told[NOT_THERE + 1] = {0};
    for (size_t i = 0; i < sizeof whole / sizeof *whole; i++) {
        struct archive a = pack(whole[i].bytes, whole[i].lengths, whole[i].records);
        for (size_t at = 0; at < a.len; at++)
            for (unsigned change = 1; change < 256; change++) {
                if (quick && (change & (change - 1)) != 0)
                    continue;
                a.bytes[at] ^= (uint8_t)change;
                for (uint64_t record = 0; record <= whole[i].records; record++)
                    told[check_archive(&pattern, a, record, UINT64_MAX, 4)]++;
                a.bytes[at] ^= (uint8_t)change;
            }
        free(a.bytes);
    }
    CHECK(told[POQEWAN_NO_TRAILER] > 0 && told[POQEWAN_FALSE_DIRECTORY] > 0 && told[POQEWAN_RECORDS_APART] > 0);
    CHECK(told[0] > 0 && told[NOT_THERE] > 0);
}

/* The lengths 0, 1 and 2 in turn, so that record 3 * i starts at 3 * i. */
static void fill_lengths(uint32_t *lengths, size_t records)
{
    for (size_t r = 0; r < records; r++)
        lengths[r] = (uint32_t)(r % 3);
}

/* 4,096 records are accepted and 4,097 are not. Each is found, and a start or a length that is one off is found in each, or in
   a quick run in some. */
static void test_most_records(bool quick)
{
    enum { MOST = 4096, BYTES = 4095 };
    static uint32_t lengths[MOST + 1], no_lengths[MOST + 1];
    static uint8_t bytes[BYTES + 2];
    random_letters(bytes, sizeof bytes, 2);
    fill_lengths(lengths, MOST + 1);
    poqewan_pattern pattern = prepared("ab");

    struct archive a = pack(bytes, lengths, MOST);
    CHECK(is_directory(poqewan_read_directory(a.bytes, a.len), 0, MOST, BYTES));
    CHECK(is_bounds(poqewan_find_record(a.bytes, a.len, MOST), 0, 0, 0, 0));
    CHECK(check_archive(&pattern, a, MOST, UINT64_MAX, 4) == NOT_THERE);
    for (size_t r = 0; r < MOST; r += quick ? 315 : 1) {
        size_t start = r / 3 * 3 + (r % 3 == 2);
        uint8_t *entry = a.bytes + BYTES + ENTRY * r;
        CHECK(is_bounds(poqewan_find_record(a.bytes, a.len, r), 0, 1, start, start + r % 3));
        if (r % 63 == 0)
            CHECK(check_archive(&pattern, a, r, UINT64_MAX, 4) == 0);
        put_number(entry, (uint32_t)start + 1);
        CHECK(is_directory(poqewan_read_directory(a.bytes, a.len), POQEWAN_RECORDS_APART, 0, 0));
        put_number(entry, (uint32_t)start);
        put_number(entry + 4, (uint32_t)(r % 3 + 1));
        CHECK(is_directory(poqewan_read_directory(a.bytes, a.len), POQEWAN_RECORDS_APART, 0, 0));
        put_number(entry + 4, (uint32_t)(r % 3));
    }
    /* The trailer has one record more than the directory, and one less. */
    put_number(a.bytes + a.len - 8, MOST + 1);
    check_refused_archive(a, POQEWAN_FALSE_DIRECTORY);
    put_number(a.bytes + a.len - 8, MOST - 1);
    check_refused_archive(a, POQEWAN_FALSE_DIRECTORY);
    free(a.bytes);

    a = pack(bytes, lengths, MOST + 1);
    check_refused_archive(a, POQEWAN_FALSE_DIRECTORY);
    a.bytes[BYTES + lengths[MOST]] ^= 1; /* of the first start */
    check_refused_archive(a, POQEWAN_FALSE_DIRECTORY);
    free(a.bytes);

    a = pack(NULL, no_lengths, MOST);
    CHECK(is_directory(poqewan_read_directory(a.bytes, a.len), 0, MOST, 0));
    CHECK(check_archive(&pattern, a, 0, 0, 4) == 0 && check_archive(&pattern, a, MOST - 1, 0, 4) == 0);
    CHECK(check_archive(&pattern, a, MOST, 0, 4) == NOT_THERE);
    free(a.bytes);
    a = pack(NULL, no_lengths, MOST + 1);
    check_refused_archive(a, POQEWAN_FALSE_DIRECTORY);
    free(a.bytes);
}

/* A byte of the directory or the trailer drawn anew; one of their numbers one off; a byte more or less before the directory, which
   may be known to its start; or one record more and a start that meets it, perhaps only modulo 2^32. */
static struct archive damage(struct archive a, size_t directory)
{
    size_t numbers = (a.len - directory - sizeof closing) / 4;
    uint8_t *number = a.bytes + directory + 4 * random_below(numbers);
    switch (random_below(4)) {
    case 0:
        a.bytes[directory + random_below(a.len - directory)] = (uint8_t)random_number();
        return a;
    case 1:
        put_number(number, (uint32_t)(number_at(number) + (random_below(2) ? 1 : UINT32_MAX)));
        return a;
    case 2: {
        struct archive other = {NULL, random_below(2) || directory == 0 ? a.len + 1 : a.len - 1};
        other.bytes = lend(other.len);
        memset(other.bytes, 'a', directory + 1);
        size_t rest = a.len - directory;
        memcpy(other.bytes + other.len - rest, a.bytes + directory, rest);
        if (random_below(2))
            put_number(other.bytes + other.len - 12, (uint32_t)(other.len - rest));
        free(a.bytes);
        return other;
    }
    default:
        put_number(a.bytes + a.len - 12, (uint32_t)(directory - ENTRY));
        put_number(a.bytes + a.len - 8, (uint32_t)(number_at(a.bytes + a.len - 8) + 1));
        return a;
    }
}

/* Archives of a few records, with a pattern, a record, a cap and a list drawn by lot; every second one is damaged. */
static void test_random_archives(size_t rounds)
{
    size_t told[NOT_THERE + 1] = {0};
    for (size_t round = 0; round < rounds; round++) {
        uint32_t lengths[6];
        uint8_t bytes[6 * 12], word[6];
        size_t records = random_below(7), total = 0, letters = 1 + random_below(2), m = 1 + random_below(4);
        for (size_t r = 0; r < records; r++) {
            lengths[r] = (uint32_t)(random_below(3) == 0 ? 0 : random_below(13));
            total += lengths[r];
        }
        random_letters(bytes, total, letters);
        random_letters(word, m, letters);
        poqewan_pattern pattern = prepare(word, m, POQEWAN_SCRATCH, 0).pattern;
        struct archive a = pack(bytes, lengths, records);
        if (round % 2 == 1)
            a = damage(a, total);
        uint64_t cap = random_below(3) == 0 ? random_below(12) : UINT64_MAX;
        told[check_archive(&pattern, a, random_below(records + 2), cap, random_below(8))]++;
        free(a.bytes);
    }
    CHECK(told[POQEWAN_NO_TRAILER] > 0 && told[POQEWAN_FALSE_DIRECTORY] > 0 && told[POQEWAN_RECORDS_APART] > 0);
    CHECK(told[0] > 0 && told[NOT_THERE] > 0);
}

/* An archive of the greatest length is accepted, and one of a byte more is not. Three records: the second has nearly all bytes,
   and an occurrence in its last window; its search is left out in a quick run. In the third, ab in aab: place 1, a miss at the
   only nohole, then places 1 and 0; and by Knuth, Morris and Pratt place 0, the miss at place 1, then both again. */
static void test_longest_archive(bool quick)
{
    static const struct counts last[SEARCHES] = {{3, 2, 1}, {4, 2, 2}};
    for (size_t len = POQEWAN_LONGEST_TEXT - 1; len <= POQEWAN_LONGEST_TEXT + 1; len++) {
        size_t directory = len - TRAILER - 3 * ENTRY, n = directory - 5;
        struct entry entries[] = {{0, 2}, {2, (uint32_t)n}, {2 + (uint32_t)n, 3}};
        uint8_t *bytes = lend(directory);
        memset(bytes, 'a', directory);
        bytes[n + 1] = bytes[directory - 1] = 'b';
        struct archive a = lend_archive(bytes, directory, entries, 3, (uint32_t)directory, 3);
        free(bytes);
        if (len > POQEWAN_LONGEST_TEXT) {
            check_refused_archive(a, POQEWAN_LONG_TEXT);
            free(a.bytes);
            continue;
        }
        CHECK(is_directory(poqewan_read_directory(a.bytes, len), 0, 3, directory));
        CHECK(is_bounds(poqewan_find_record(a.bytes, len, 0), 0, 1, 0, 2));
        CHECK(is_bounds(poqewan_find_record(a.bytes, len, 1), 0, 1, 2, directory - 3));
        CHECK(is_bounds(poqewan_find_record(a.bytes, len, 2), 0, 1, directory - 3, directory));
        poqewan_pattern pattern = prepared("ab");
        check_not_searched(&pattern, a, 3, 0, POQEWAN_NO_SUCH_RECORD);
        for (int s = 0; s < SEARCHES; s++) {
            uint32_t *list = lend_list(2);
            poqewan_report r = record_searches[s](pattern, a.bytes, len, 2, UINT64_MAX, list, 2);
            CHECK(is_report(r, POQEWAN_DONE, 0, last[s], 1));
            CHECK(list[0] == 1 && unwritten(list, 1, 2));
            if (!quick) {
                r = record_searches[s](pattern, a.bytes, len, 1, UINT64_MAX, list, 2);
                struct counts counts = {s == COLUSSI ? n : 2 * n - 2, n - 1, s == COLUSSI ? 1 : n - 1};
                CHECK(is_report(r, POQEWAN_DONE, 0, counts, 1));
                CHECK(list[0] == n - 2 && unwritten(list, 1, 2));
            }
            free(list);
        }
        free(a.bytes);
    }
}

int main(int argc, char **argv)
{
    bool quick = argc > 1 && strcmp(argv[1], "quick") == 0;
    fill_classes();
    test_worked_records();
    test_worked_first_positions();
    test_worked_tables();
    test_worked_costs();
    test_costs_of_the_longest();
    test_random_costs(quick ? 512 : 10240);
    test_charge();
    test_preparation();
    test_zero_in_pattern();
    test_zero_in_a_value();
    test_identity();
    test_refused_classes();
    test_class_of_zero();
    test_null();
    test_changed_patterns();
    test_false_lengths();
    test_junk(quick ? 100 : 1000);
    test_limits();
    test_column_of_each_place();
    if (!quick)
        test_large_columns();
    test_misses();
    test_zero_in_text();
    test_changed_classes();
    test_random_searches(quick ? 200 : 2000);
    test_random_classes(quick ? 200 : 2000);
    test_longest_text();
    if (!quick)
        test_longest_list();
    test_long_text();
    test_worked_lengths();
    test_zero_in_text_of_lengths();
    test_lengths_of_each_value();
    test_equal_texts();
    test_longest_pattern_in_itself();
    test_all_words(quick);
    test_random_lengths(quick ? 128 : 4096);
    test_order_of_lengths_tests();
    test_lengths_past_16_bits();
    if (!quick)
        test_lengths_of_longest_text();
    test_worked_orders();
    test_limits_of_orders(quick);
    test_zero_in_text_of_orders();
    test_orders_of_each_value();
    test_all_orders(quick);
    test_column_of_each_place_in_orders(quick);
    test_random_orders(quick ? 128 : 1024);
    test_every_sequence(quick);
    test_false_orders();
    test_order_of_ordered_tests();
    test_orders_past_16_bits();
    test_orders_of_longest_text(quick);
    test_worked_journals();
    test_worked_replays();
    test_all_journals(quick);
    test_every_journal(quick);
    test_every_answer(quick);
    test_random_journals(quick ? 64 : 1024);
    test_journal_of_each_value();
    test_journals_past_16_bits();
    test_order_of_journal_tests();
    test_journal_of_longest_text();
    test_numbers_past_32_bits();
    test_worked_corrections();
    test_all_corrections(quick);
    test_corrections_of_the_longest();
    test_correction_of_each_value();
    test_corrections_past_16_bits();
    test_random_corrections(quick ? 64 : 2048);
    test_order_of_correction_tests();
    test_corrections_of_longest_text();
    test_worked_archive();
    test_worked_records_in_archives();
    test_layouts();
    test_short_archives();
    test_closing_bytes();
    test_record_numbers();
    test_null_archive();
    test_order_of_archive_tests();
    test_cuts(quick);
    test_damaged_archives(quick);
    test_most_records(quick);
    test_random_archives(quick ? 400 : 20000);
    test_longest_archive(quick);
    printf("%lu checks, %lu failed\n", checks, failed);
    return failed == 0 ? EXIT_SUCCESS : EXIT_FAILURE;
}
