/* Colussi's order and Knuth, Morris and Pratt in plain C, by the library's rules and with its report; and the prefix lengths with
   their count; and custom orders, with shifts that were made before; and Colussi's order with a journal, and the replay of one; and
   the correction of a list. Neither the pattern nor an order is checked, nor whether a journal is long enough for the cap. One loop
   for each, as the rules are written, and nothing more clever: the optimizer is left to do the rest. The prefix lengths are there a
   second time, tuned by hand. */
#include "subject.h"

#include <poqewan.h>

/* One column is kept beside the count, and the other is the rest. */
static struct report report_of(uint32_t ending, size_t window, uint64_t count, uint64_t at_noholes, size_t written)
{
    return (struct report){.ending = ending,
                           .window = window,
                           .count = count,
                           .at_noholes = at_noholes,
                           .at_holes = count - at_noholes,
                           .written = written};
}

/* The classes of the pattern's bytes, by place. Those of the text are looked up as they are compared. */
static void letters_by_place(const struct tables *pattern, uint8_t letters[LONGEST_PATTERN])
{
    for (size_t p = 0; p < pattern->len; p++)
        letters[p] = pattern->classes[pattern->bytes[p]];
}

/* 1 at a nohole and 0 at a hole, from the marks: what a comparison at a place adds to the column. By rank the test i < d would do,
   but then gcc keeps the column in memory, and the loop is slower. */
static void noholes_by_place(const struct tables *pattern, uint8_t noholes[LONGEST_PATTERN])
{
    for (size_t p = 0; p < pattern->len; p++)
        noholes[p] = (uint8_t)(pattern->marks[p / 64] >> p % 64 & 1);
}

static struct report search_colussi(const struct tables *pattern, const uint8_t *text, size_t n, uint64_t cap, uint32_t *positions,
                                    size_t room)
{
    const size_t m = pattern->len, d = pattern->noholes;
    size_t b = 0, i = 0, e = 0, written = 0;
    uint64_t c = 0, at_noholes = 0;
    uint8_t letters[LONGEST_PATTERN], noholes[LONGEST_PATTERN];
    letters_by_place(pattern, letters);
    noholes_by_place(pattern, noholes);

    while (b + m <= n) {
        size_t rank;
        if (i == m || b + pattern->order[i] < e) {
            if (written == room)
                return report_of(POQEWAN_FULL, b, c, at_noholes, written);
            positions[written++] = (uint32_t)b;
            rank = m;
        } else {
            if (c == cap)
                return report_of(POQEWAN_SPENT, b, c, at_noholes, written);
            c++;
            size_t place = pattern->order[i];
            at_noholes += noholes[place];
            if (letters[place] == pattern->classes[text[b + place]]) {
                i++;
                continue;
            }
            rank = i;
        }
        if (rank >= d)
            e = b + m;
        b += pattern->shift[rank];
        i = pattern->next[rank];
    }
    return report_of(POQEWAN_DONE, 0, c, at_noholes, written);
}

/* The same with a journal. */
static struct report search_journaled(const struct tables *pattern, const uint8_t *text, size_t n, uint64_t cap, uint32_t *positions,
                                      size_t room, uint32_t *journal)
{
    const size_t m = pattern->len, d = pattern->noholes;
    size_t b = 0, i = 0, e = 0, written = 0;
    uint64_t c = 0, at_noholes = 0;
    uint8_t letters[LONGEST_PATTERN], noholes[LONGEST_PATTERN];
    letters_by_place(pattern, letters);
    noholes_by_place(pattern, noholes);

    while (b + m <= n) {
        size_t rank;
        if (i == m || b + pattern->order[i] < e) {
            if (written == room)
                return report_of(POQEWAN_FULL, b, c, at_noholes, written);
            positions[written++] = (uint32_t)b;
            rank = m;
        } else {
            if (c == cap)
                return report_of(POQEWAN_SPENT, b, c, at_noholes, written);
            size_t place = pattern->order[i];
            bool equal = letters[place] == pattern->classes[text[b + place]];
            journal[c++] = (uint32_t)(2 * (b + place) + equal);
            at_noholes += noholes[place];
            if (equal) {
                i++;
                continue;
            }
            rank = i;
        }
        if (rank >= d)
            e = b + m;
        b += pattern->shift[rank];
        i = pattern->next[rank];
    }
    return report_of(POQEWAN_DONE, 0, c, at_noholes, written);
}

/* The same by a journal, which is refused if it is false. Without a list nothing is written. */
static inline struct report follow_journal(const struct tables *pattern, size_t n, const uint32_t *journal, size_t len,
                                           uint32_t *positions, size_t room)
{
    const size_t m = pattern->len, d = pattern->noholes;
    const struct report refused = {.refusal = POQEWAN_FALSE_JOURNAL};
    size_t b = 0, i = 0, e = 0, c = 0, written = 0;
    uint64_t at_noholes = 0;
    uint8_t noholes[LONGEST_PATTERN];
    noholes_by_place(pattern, noholes);

    while (b + m <= n) {
        size_t rank;
        if (i == m || b + pattern->order[i] < e) {
            if (written == room)
                return c == len ? report_of(POQEWAN_FULL, b, c, at_noholes, written) : refused;
            if (positions != NULL)
                positions[written] = (uint32_t)b;
            written++;
            rank = m;
        } else {
            if (c == len)
                return report_of(POQEWAN_SPENT, b, c, at_noholes, written);
            size_t place = pattern->order[i];
            uint32_t entry = journal[c++];
            if (entry / 2 != b + place)
                return refused;
            at_noholes += noholes[place];
            if (entry % 2 == 1) {
                i++;
                continue;
            }
            rank = i;
        }
        if (rank >= d)
            e = b + m;
        b += pattern->shift[rank];
        i = pattern->next[rank];
    }
    return c == len ? report_of(POQEWAN_DONE, 0, c, at_noholes, written) : refused;
}

/* Twice, since a list may only be written if the whole journal is true. */
static struct report replay_journal(const struct tables *pattern, size_t n, const uint32_t *journal, size_t len, uint32_t *positions,
                                    size_t room)
{
    const struct report report = follow_journal(pattern, n, journal, len, NULL, room);
    return report.refusal != 0 ? report : follow_journal(pattern, n, journal, len, positions, room);
}

/* The same up to the first occurrence, without cap, list and columns. */
static struct first find_first(const struct tables *pattern, const uint8_t *text, size_t n)
{
    const size_t m = pattern->len, d = pattern->noholes;
    size_t b = 0, i = 0, e = 0;
    uint64_t c = 0;
    uint8_t letters[LONGEST_PATTERN];
    letters_by_place(pattern, letters);

    while (b + m <= n) {
        if (i == m || b + pattern->order[i] < e)
            return (struct first){.found = 1, .position = b, .count = c};
        c++;
        size_t place = pattern->order[i];
        if (letters[place] == pattern->classes[text[b + place]]) {
            i++;
            continue;
        }
        if (i >= d)
            e = b + m;
        b += pattern->shift[i];
        i = pattern->next[i];
    }
    return (struct first){.count = c};
}

/* The shift at each matched length: kmin at a nohole, which the pattern has by rank; p + 1 at a hole p; rmin(0) at m. */
static void shifts_by_length(const struct tables *pattern, uint16_t shifts[LONGEST_PATTERN + 1])
{
    for (size_t p = 0; p < pattern->len; p++)
        shifts[p] = (uint16_t)(p + 1);
    for (size_t i = 0; i < pattern->noholes; i++)
        shifts[pattern->order[i]] = pattern->shift[i];
    shifts[pattern->len] = pattern->shift[pattern->len];
}

static struct report search_kmp(const struct tables *pattern, const uint8_t *text, size_t n, uint64_t cap, uint32_t *positions,
                                size_t room)
{
    const size_t m = pattern->len;
    size_t b = 0, i = 0, written = 0;
    uint64_t c = 0, at_noholes = 0;
    uint8_t letters[LONGEST_PATTERN], noholes[LONGEST_PATTERN];
    uint16_t shifts[LONGEST_PATTERN + 1];
    letters_by_place(pattern, letters);
    noholes_by_place(pattern, noholes);
    shifts_by_length(pattern, shifts);

    while (b + m <= n) {
        if (i == m) {
            if (written == room)
                return report_of(POQEWAN_FULL, b, c, at_noholes, written);
            positions[written++] = (uint32_t)b;
        } else {
            if (c == cap)
                return report_of(POQEWAN_SPENT, b, c, at_noholes, written);
            c++;
            at_noholes += noholes[i];
            if (letters[i] == pattern->classes[text[b + i]]) {
                i++;
                continue;
            }
        }
        size_t s = shifts[i];
        b += s;
        i = i > s ? i - s : 0;
    }
    return report_of(POQEWAN_DONE, 0, c, at_noholes, written);
}

/* Whether a window that differs at that rank, or at rank m occurs, can't be followed by one so far on: a place that agreed would meet
   another letter, or the one that differed would meet the same. */
static bool ruled_out(const uint8_t *letters, const uint8_t *places, size_t m, size_t rank, size_t distance)
{
    if (rank < m && distance <= places[rank] && letters[places[rank]] == letters[places[rank] - distance])
        return true;
    for (size_t i = 0; i < rank; i++)
        if (distance <= places[i] && letters[places[i]] != letters[places[i] - distance])
            return true;
    return false;
}

/* The least distance at each rank, by trying one after the other. */
static void shifts_by_rank(const struct tables *pattern, const uint8_t *places, uint16_t shifts[LONGEST_PATTERN + 1])
{
    uint8_t letters[LONGEST_PATTERN];
    letters_by_place(pattern, letters);
    for (size_t rank = 0; rank <= pattern->len; rank++) {
        size_t distance = 1;
        while (ruled_out(letters, places, pattern->len, rank, distance))
            distance++;
        shifts[rank] = (uint16_t)distance;
    }
}

static struct report search_ordered(const struct tables *pattern, const struct order *order, const uint8_t *text, size_t n,
                                    uint64_t cap, uint32_t *positions, size_t room)
{
    const size_t m = pattern->len;
    size_t b = 0, i = 0, written = 0;
    uint64_t c = 0, at_noholes = 0;
    uint8_t letters[LONGEST_PATTERN], noholes[LONGEST_PATTERN];
    letters_by_place(pattern, letters);
    noholes_by_place(pattern, noholes);

    while (b + m <= n) {
        if (i == m) {
            if (written == room)
                return report_of(POQEWAN_FULL, b, c, at_noholes, written);
            positions[written++] = (uint32_t)b;
        } else {
            if (c == cap)
                return report_of(POQEWAN_SPENT, b, c, at_noholes, written);
            c++;
            size_t place = order->places[i];
            at_noholes += noholes[place];
            if (letters[place] == pattern->classes[text[b + place]]) {
                i++;
                continue;
            }
        }
        b += order->shifts[i];
        i = 0;
    }
    return report_of(POQEWAN_DONE, 0, c, at_noholes, written);
}

/* hmax(k) - k for each k up to m: how much of the pattern stands in itself from place k on. By the Z algorithm, from the part that
   reaches farthest. */
static void lengths_in_itself(const uint16_t *letters, size_t m, uint16_t lengths[LONGEST_PATTERN + 1])
{
    size_t at = 0, end = 0;
    lengths[0] = (uint16_t)m;
    lengths[m] = 0;
    for (size_t k = 1; k < m; k++) {
        if (k < end && lengths[k - at] < end - k) {
            lengths[k] = lengths[k - at];
            continue;
        }
        size_t length = k < end ? end - k : 0;
        while (letters[length] == letters[k + length]) /* the letter at m is no other's */
            length++;
        lengths[k] = (uint16_t)length;
        at = k;
        end = k + length;
    }
}

/* With i bytes matched in a window: how much of the pattern begins k positions further on, unless the next byte tells more. */
static uint16_t length_after(const uint16_t *in_itself, size_t i, size_t k)
{
    return (uint16_t)(in_itself[k] < i - k ? in_itself[k] : i - k);
}

/* In window b with i bytes matched, as long as b + i is below n. The lengths at the positions that a window leaves follow from the
   pattern, and the shift is found as they are written. */
static struct prefix_lengths lengths_by_rules(const struct tables *pattern, const uint8_t *text, size_t n, uint16_t *lengths)
{
    const size_t m = pattern->len;
    size_t b = 0, i = 0;
    uint64_t c = 0;
    uint16_t letters[LONGEST_PATTERN + 1], in_itself[LONGEST_PATTERN + 1];
    for (size_t p = 0; p < m; p++)
        letters[p] = pattern->classes[pattern->bytes[p]];
    letters[m] = CLASSES; /* no class */
    lengths_in_itself(letters, m, in_itself);

    while (b + i < n) {
        if (i < m) {
            c++;
            if (letters[i] == pattern->classes[text[b + i]]) {
                i++;
                continue;
            }
        }
        size_t k = 1;
        lengths[b] = (uint16_t)i;
        for (; k <= i && in_itself[k] != i - k; k++)
            lengths[b + k] = length_after(in_itself, i, k);
        b += k;
        i = k <= i ? i - k : 0;
    }
    for (size_t k = 0; k < i; k++)
        lengths[b + k] = length_after(in_itself, i, k);
    return (struct prefix_lengths){.count = c};
}

/* The same by the text byte at b + i, which is read once: no step goes back. Windows that miss at place 0 have a loop of their own. A
   comparison that is equal, or that moves the window past the byte, takes the search on by a byte. So the count is n and the
   mismatches that stay at their byte, those at noholes: nothing is added up at the others. Of eight forms this is the fastest, over
   all kinds of texts, with gcc 12. */
static struct prefix_lengths lengths_by_bytes(const struct tables *pattern, const uint8_t *text, size_t n, uint16_t *lengths)
{
    const size_t m = pattern->len;
    size_t i = 0;
    uint64_t c = n;
    uint16_t letters[LONGEST_PATTERN + 1], in_itself[LONGEST_PATTERN + 1];
    for (size_t p = 0; p < m; p++)
        letters[p] = pattern->classes[pattern->bytes[p]];
    letters[m] = CLASSES; /* no class, so that a whole occurrence is left like a mismatch */
    lengths_in_itself(letters, m, in_itself);

    for (size_t end = 0; end < n; end++) {
        uint16_t letter = pattern->classes[text[end]];
        if (i == 0)
            while (letter != letters[0]) {
                lengths[end++] = 0;
                if (end == n)
                    return (struct prefix_lengths){.count = c};
                letter = pattern->classes[text[end]];
            }
        while (letters[i] != letter) {
            uint16_t *at = lengths + (end - i);
            size_t k = 1;
            at[0] = (uint16_t)i;
            for (; k <= i && in_itself[k] != i - k; k++)
                at[k] = length_after(in_itself, i, k);
            if (k > i) {
                i = 0;
                goto next;
            }
            c += i < m;
            i -= k;
        }
        i++;
    next:;
    }
    for (size_t k = 0; k < i; k++)
        lengths[n - i + k] = length_after(in_itself, i, k);
    return (struct prefix_lengths){.count = c};
}

/* The first entry in use that is not below a position, by bisection. */
static size_t first_from(const uint32_t *positions, size_t used, size_t position)
{
    size_t low = 0, high = used;
    while (low < high) {
        const size_t middle = low + (high - low) / 2;
        if (positions[middle] < position)
            low = middle + 1;
        else
            high = middle;
    }
    return low;
}

/* The entries in use are read once, to see whether they ascend. The part of the text that has the windows which cover the place is
   searched into a list of its own. The entries past those windows move by plain loops, not by memmove. */
static struct update correct_list(const struct tables *pattern, const uint8_t *text, size_t n, size_t place, uint32_t *positions,
                                  size_t room, size_t used)
{
    const size_t m = pattern->len;
    uint32_t found[LONGEST_PATTERN];
    if (used > room)
        return (struct update){.refusal = POQEWAN_FALSE_LIST};
    for (size_t i = 1; i < used; i++)
        if (positions[i - 1] >= positions[i])
            return (struct update){.refusal = POQEWAN_FALSE_LIST};
    if (place >= n || n < m)
        return (struct update){.used = used};

    const size_t from = place < m ? 0 : place - m + 1, past = place < n - m ? place + 1 : n - m + 1;
    const size_t count = search_colussi(pattern, text + from, past - from + m - 1, UINT64_MAX, found, LONGEST_PATTERN).written;
    const size_t at = first_from(positions, used, from), end = first_from(positions, used, past), rest = used - end;
    if (at + count + rest > room)
        return (struct update){.refusal = POQEWAN_SHORT_LIST};
    if (at + count < end)
        for (size_t i = 0; i < rest; i++)
            positions[at + count + i] = positions[end + i];
    if (at + count > end)
        for (size_t i = rest; i > 0; i--)
            positions[at + count + i - 1] = positions[end + i - 1];
    for (size_t i = 0; i < count; i++)
        positions[at + i] = (uint32_t)from + found[i];
    return (struct update){.used = at + count + rest};
}

static void colussi(const void *prepared, const struct subject *subject, uint64_t cap, uint32_t *positions, size_t room,
                    struct report *report)
{
    give(report, search_colussi(prepared, subject->text, subject->n, cap, positions, room));
}

static void kmp(const void *prepared, const struct subject *subject, uint64_t cap, uint32_t *positions, size_t room,
                struct report *report)
{
    give(report, search_kmp(prepared, subject->text, subject->n, cap, positions, room));
}

static void first(const void *prepared, const struct subject *subject, struct first *first)
{
    const struct first answer = find_first(prepared, subject->text, subject->n);
    if (first != NULL)
        *first = answer;
}

/* The room is enough. */
static struct prefix_lengths prefix_lengths(const void *prepared, const struct subject *subject, uint16_t *lengths, size_t room)
{
    (void)room;
    return lengths_by_rules(prepared, subject->text, subject->n, lengths);
}

static struct prefix_lengths tuned_lengths(const void *prepared, const struct subject *subject, uint16_t *lengths, size_t room)
{
    (void)room;
    return lengths_by_bytes(prepared, subject->text, subject->n, lengths);
}

static void ordered(const void *prepared, const struct subject *subject, uint64_t cap, uint32_t *positions, size_t room,
                    struct report *report)
{
    give(report, search_ordered(prepared, subject->order, subject->text, subject->n, cap, positions, room));
}

static void journaled(const void *prepared, const struct subject *subject, uint64_t cap, uint32_t *positions, size_t room,
                      struct report *report)
{
    const struct journal *journal = subject->journal;
    give(report, search_journaled(prepared, subject->text, subject->n, cap_of(journal, cap), positions, room, journal->entries));
}

static void replay(const void *prepared, const struct subject *subject, uint64_t cap, uint32_t *positions, size_t room,
                   struct report *report)
{
    const struct journal *journal = subject->journal;
    (void)cap;
    give(report, replay_journal(prepared, subject->n, journal->entries, journal->len, positions, room));
}

static struct update correct(const void *prepared, const struct subject *subject, size_t place, uint32_t *positions, size_t room,
                             size_t used)
{
    return correct_list(prepared, subject->text, subject->n, place, positions, room, used);
}

static void fill_shifts(const void *prepared, struct order *order)
{
    shifts_by_rank(prepared, order->places, order->shifts);
}

const struct version version = {.colussi = colussi,
                                .kmp = kmp,
                                .first = first,
                                .prefix_lengths = prefix_lengths,
                                .tuned_lengths = tuned_lengths,
                                .ordered = ordered,
                                .fill_shifts = fill_shifts,
                                .journaled = journaled,
                                .replay = replay,
                                .correct = correct,
                                .size = sizeof(struct tables),
                                .has_classes = true,
                                .has_columns = true};
