/*
 * Exact search for every occurrence of a byte pattern in a text, with the comparisons of a pattern byte with a text byte
 * counted. Two bytes are equal when their classes are. Link libpoqewan.a; for archives libpoqewan_archives.a as well, and for
 * corrections libpoqewan_corrections.a. They are for x86-64. Example, with each value a class of its own:
 *
 *     uint8_t classes[POQEWAN_CLASSES];
 *     uint16_t scratch[POQEWAN_SCRATCH];
 *     uint32_t positions[8192];
 *     poqewan_identity(classes, POQEWAN_CLASSES);
 *     poqewan_preparation p = poqewan_prepare(bytes, m, classes, POQEWAN_CLASSES, scratch, POQEWAN_SCRATCH);
 *     if (p.refusal == 0) {
 *         poqewan_report r = poqewan_colussi(p.pattern, text, n, UINT64_MAX, positions, 8192);
 *         if (r.refusal == 0 && r.ending == POQEWAN_DONE)
 *             printf("%zu occurrences, charge %" PRIu64 "\n", r.written, poqewan_charge(r.count));
 *     }
 *
 * Every function answers whatever it is given: what it answers, and what the lent memory then holds, is fixed by the
 * arguments alone and proved. A caller owes what C asks of pointers: each is followed by the number of elements that it
 * leads to. And one thing more, which C would not ask: memory that a function writes overlaps nothing else that the call
 * is given. With a number of 0 the pointer is not followed. No function keeps a pointer, allocates, or changes anything
 * but what is said below.
 */
#ifndef POQEWAN_H
#define POQEWAN_H

#include <stddef.h>
#include <stdint.h>

#ifdef __cplusplus
extern "C" {
#endif

/* The longest pattern and the longest text or archive that are accepted, the number of classes, the least scratch, and the most
   records of an archive. */
#define POQEWAN_LONGEST_PATTERN 256
#define POQEWAN_LONGEST_TEXT 16777216
#define POQEWAN_CLASSES 256
#define POQEWAN_SCRATCH 514
#define POQEWAN_MOST_RECORDS 4096

/* Refusals, by their numbers. Where more than one applies, the first in the function's order of tests is given. */
#define POQEWAN_NO_PATTERN 1
#define POQEWAN_LONG_PATTERN 2
#define POQEWAN_SHORT_SCRATCH 3
#define POQEWAN_FALSE_PATTERN 4
#define POQEWAN_LONG_TEXT 5
#define POQEWAN_NO_TRAILER 7
#define POQEWAN_FALSE_DIRECTORY 8
#define POQEWAN_RECORDS_APART 9
#define POQEWAN_ZERO_IN_PATTERN 10
#define POQEWAN_SHORT_LENGTHS 11
#define POQEWAN_CLASSES_NOT_256 14
#define POQEWAN_ZERO_CLASS_SHARED 15
#define POQEWAN_FALSE_ORDER 16
#define POQEWAN_SHORT_JOURNAL 17
#define POQEWAN_FALSE_JOURNAL 18
#define POQEWAN_FALSE_LIST 19
#define POQEWAN_SHORT_LIST 20

/* How a search ended: run to its end; or cut off at a window, where a comparison was due and the cap was spent, or where the
   pattern occurred and the list had no free entry. Or nothing was searched, since the archive has no such record. */
#define POQEWAN_DONE 0
#define POQEWAN_SPENT 1
#define POQEWAN_FULL 2
#define POQEWAN_NO_SUCH_RECORD 3

/* A pattern prepared for search: m bytes, none of them 0, the classes by which bytes are compared, and the tables of these
   bytes by these classes. The entries past those defined are 0. A search refuses any value that preparation does not give,
   so a copy from a file or a wire needs no check of its own. */
typedef struct poqewan_pattern {
    size_t len;     /* m, from 1 to POQEWAN_LONGEST_PATTERN */
    size_t noholes; /* the number of noholes */
    uint8_t bytes[POQEWAN_LONGEST_PATTERN];      /* m bytes, as they were lent */
    uint8_t classes[POQEWAN_CLASSES];            /* the class of each byte value */
    uint8_t order[POQEWAN_LONGEST_PATTERN];      /* the place that each rank compares: m entries */
    uint16_t shift[POQEWAN_LONGEST_PATTERN + 1]; /* how far the window moves, for each rank and for rank m: m + 1 entries */
    uint16_t next[POQEWAN_LONGEST_PATTERN + 1];  /* the rank to go on at: m + 1 entries */
    uint64_t marks[4]; /* the noholes: place p at bit p mod 64 of word p div 64 */
} poqewan_pattern;

/* The number of a refusal, and then all else is 0; or 0, the cost of preparation and the pattern. */
typedef struct poqewan_preparation {
    uint32_t refusal;
    uint32_t compared; /* the comparisons of two pattern bytes in building hmax */
    poqewan_pattern pattern;
} poqewan_preparation;

/* The number of a refusal, and then all else is 0; or 0 and the report of a search. Of a search of one record the ending may be
   POQEWAN_NO_SUCH_RECORD, and then all else is 0. */
typedef struct poqewan_report {
    uint32_t refusal;
    uint32_t ending;     /* POQEWAN_DONE, POQEWAN_SPENT, POQEWAN_FULL or POQEWAN_NO_SUCH_RECORD */
    size_t window;       /* the window at which the search was cut off, or 0 */
    uint64_t count;      /* the comparisons of a pattern byte with a text byte */
    uint64_t at_noholes; /* those of them that were made at noholes of the pattern */
    uint64_t at_holes;   /* those that were made at its holes */
    size_t written;      /* the positions written into the list */
} poqewan_report;

/* The number of a refusal, and then all else is 0; or 0 and whether the pattern occurs. */
typedef struct poqewan_first {
    uint32_t refusal;
    uint32_t found;  /* 1 if the pattern occurs, or 0 */
    size_t position; /* where it occurs first, or 0 */
    uint64_t count;  /* the comparisons of a pattern byte with a text byte */
} poqewan_first;

/* The number of a refusal, and then all else is 0; or 0 and the count. */
typedef struct poqewan_lengths {
    uint32_t refusal;
    uint64_t count; /* the comparisons of a pattern byte with a text byte */
} poqewan_lengths;

/* The number of a refusal, and then all else is 0; or 0 and how much of a list is in use. */
typedef struct poqewan_update {
    uint32_t refusal;
    size_t used; /* the entries in use, from the list's start */
} poqewan_update;

/* The number of a refusal, and then all else is 0; or 0 and the directory of an archive. */
typedef struct poqewan_directory {
    uint32_t refusal;
    uint32_t records; /* the number of records, at most POQEWAN_MOST_RECORDS */
    size_t start;     /* where the directory starts, and the last record ends */
} poqewan_directory;

/* The number of a refusal, and then all else is 0; or 0 and where a record of an archive lies. */
typedef struct poqewan_bounds {
    uint32_t refusal;
    uint32_t found; /* 1 if there is such a record; or 0, and then all else is 0 */
    size_t start;   /* the record's bytes are those of the archive from here on */
    size_t end;     /* and below here */
} poqewan_bounds;

/* Fills entry v with v mod 256. So POQEWAN_CLASSES entries give each byte value a class of its own: itself. */
void poqewan_identity(uint8_t *classes, size_t classes_len);

/*
 * Prepares a pattern for search. Entry v of the classes is the class of byte value v. Two bytes are equal when their
 * classes are: here, and in every search for the pattern. Refused, in this order: no byte (1), more than
 * POQEWAN_LONGEST_PATTERN bytes (2), a byte 0 among them (10), a number of classes other than POQEWAN_CLASSES (14), a value
 * other than 0 with the class of 0 (15), a scratch of fewer than POQEWAN_SCRATCH numbers (3). After success the first
 * POQEWAN_SCRATCH numbers of the scratch are 0 and the rest unchanged; after a refusal it is unchanged.
 *
 * `compared` counts the comparisons of two pattern bytes that Colussi's fast method (1991, Algorithm 7) makes in
 * building the table hmax. Its look at the closing sentinel is not counted. With m pattern bytes the number is 0 if
 * m = 1, at most 2 * m - 3 if m >= 2, and so at most 2 * m - 2.
 *
 * A byte 0 closes a seat's reflections in a text, which may hold any byte. No pattern holds it and no other value shares
 * its class, so no occurrence joins two seats.
 */
poqewan_preparation poqewan_prepare(const uint8_t *bytes, size_t bytes_len, const uint8_t *classes, size_t classes_len,
                                    uint16_t *scratch, size_t scratch_len);

/*
 * Searches a text in Colussi's order, with at most `cap` comparisons, and fills the list from its start with the positions
 * where the pattern occurs, overlaps included. The entries after them are unchanged. Refused, in this order, with the list
 * unchanged: a pattern that is not what preparation gives for its own length, bytes and classes (4), a text of more than
 * POQEWAN_LONGEST_TEXT bytes (5).
 *
 * The pattern occurs where each of its bytes equals the text's by the pattern's own classes. The positions are exactly the
 * occurrences, ascending, each once; of a search cut off at window b, exactly those below b. None of them covers a byte 0
 * of the text. The search is spent only with `count` equal to `cap` and a comparison due, and full only with every entry of
 * the list written and an occurrence at the window. With n text bytes and m pattern bytes, 2 * count <= 3 * n - m at the end
 * if n >= m, and count = 0 if n < m; cut off at window b, 2 * count <= 3 * b + 2 * m.
 *
 * Each comparison is made at a place of the pattern: at a nohole, where the pattern's marks have the place, or else at a
 * hole. So count = at_noholes + at_holes, however the search ended.
 */
poqewan_report poqewan_colussi(poqewan_pattern pattern, const uint8_t *text, size_t text_len, uint64_t cap,
                               uint32_t *positions, size_t positions_len);

/*
 * Searches a text by Knuth, Morris and Pratt, with the same report, endings, refusals and list. Run to its end it lists the
 * same positions. Its count is at most 2 * n - m at the end if n >= m, and 0 if n < m; cut off at window b, at most
 * 2 * b + m. It compares the places from left to right, and count = at_noholes + at_holes as above.
 */
poqewan_report poqewan_kmp(poqewan_pattern pattern, const uint8_t *text, size_t text_len, uint64_t cap,
                           uint32_t *positions, size_t positions_len);

/*
 * Searches a text in an order of the caller's own: entry i of `order` is the place of the pattern that rank i compares. Cap, list
 * and report are those of the other searches. Refused, in this order, with the list unchanged: a pattern that is not what
 * preparation gives for its own length, bytes and classes (4), an order that is not m different places, each below m (16), a
 * text of more than POQEWAN_LONGEST_TEXT bytes (5).
 *
 * Each window is compared afresh, rank by rank from rank 0. After a mismatch it moves on by the least distance that neither this
 * mismatch nor an earlier match of the window rules out; after an occurrence, by the least from 1 that no place rules out. The
 * positions are exactly those of poqewan_colussi run to its end; of a search cut off at window b, exactly those below b. The
 * count depends on the order and has no ceiling here. Noholes and holes go by the pattern's own marks, and
 * count = at_noholes + at_holes as above.
 */
poqewan_report poqewan_ordered(poqewan_pattern pattern, const uint8_t *order, size_t order_len, const uint8_t *text,
                               size_t text_len, uint64_t cap, uint32_t *positions, size_t positions_len);

/*
 * Searches a text in Colussi's order, with at most `cap` comparisons and with the report and the list of poqewan_colussi, and
 * writes a journal of them: entry i becomes twice the position in the text of comparison i, plus 1 if the bytes there were
 * equal. Comparisons count from 0, as they are made. The first `count` entries are written, and those past them are unchanged.
 * Refused, in this order, with list and journal unchanged: a pattern that is not what preparation gives for its own length,
 * bytes and classes (4), a text of more than POQEWAN_LONGEST_TEXT bytes (5), a journal with fewer entries than `cap` (17).
 *
 * With n text bytes and m pattern bytes, a cap of (3 * n - m) / 2 is never spent if n >= m, and a cap of 0 if n < m. So a
 * journal of as many entries is long enough.
 */
poqewan_report poqewan_journaled(poqewan_pattern pattern, const uint8_t *text, size_t text_len, uint64_t cap,
                                 uint32_t *positions, size_t positions_len, uint32_t *journal, size_t journal_len);

/*
 * Follows a search in Colussi's order by its journal, without the text. The rules are the same, and entry i of the journal
 * answers comparison i: an odd one says equal. Report and list are those that poqewan_colussi, with `journal_len` for its cap,
 * gives with that list on any text of `text_len` bytes that answers those comparisons so. If the journal runs out while a
 * comparison is due, the ending is POQEWAN_SPENT. Refused, in this order, with the list unchanged: a pattern that is not what
 * preparation gives for its own length, bytes and classes (4), a `text_len` of more than POQEWAN_LONGEST_TEXT (5), a journal with
 * an entry whose half, rounded down, is not the position that the rules compare next, or with entries that remain after the
 * search is done or full (18).
 *
 * So what poqewan_journaled writes, its first `count` entries, is replayed to the same report and list, with a list of as many
 * entries. The answer to a journal that no text could have given is the rules' answer to it. With n = `text_len`, and for any
 * journal, `count` is its length and under the ceiling of poqewan_colussi.
 */
poqewan_report poqewan_replay(poqewan_pattern pattern, size_t text_len, uint32_t *positions, size_t positions_len,
                              const uint32_t *journal, size_t journal_len);

/*
 * Searches a text in Colussi's order, without a cap, for the first position where the pattern occurs, and stops there.
 * Refused, in this order: a pattern that is not what preparation gives for its own length, bytes and classes (4), a text of
 * more than POQEWAN_LONGEST_TEXT bytes (5).
 *
 * The answer is that of poqewan_colussi run to its end. `position` is the first entry of its list, and `found` is 0 exactly
 * where that list is empty. `count` is its count at that moment, or at its end where the list is empty: its comparisons
 * begin with exactly these. The occurrence covers no byte 0 of the text. With n text bytes and m pattern bytes,
 * 2 * count <= 3 * b + 2 * m where the pattern occurs first at position b. Where it does not occur, 2 * count <= 3 * n - m
 * if n >= m, and count = 0 if n < m.
 */
poqewan_first poqewan_find_first(poqewan_pattern pattern, const uint8_t *text, size_t text_len);

/*
 * How much of the pattern begins at each position of a text: entry x of the list becomes the length of the longest prefix of the
 * pattern whose bytes equal, by the pattern's own classes, those of the text from position x on. The first `text_len` entries
 * are written, and those past them are unchanged. Refused, in this order, with the list unchanged: a pattern that is not what
 * preparation gives for its own length, bytes and classes (4), a text of more than POQEWAN_LONGEST_TEXT bytes (5), a list with
 * fewer entries than the text has bytes (11).
 *
 * The comparisons are those of Knuth, Morris and Pratt, carried on until the window and the length matched in it reach the
 * text's end, also where the text is shorter than the pattern. Lengths that follow from the pattern's own periods cost nothing.
 * In the windows that lie within the text the comparisons are those of poqewan_kmp run to its end, one for one. With n text
 * bytes the count is 0 if n = 0, at most 2 * n - 1 if n >= 1, and so at most 2 * n. With m pattern bytes, entry x is m exactly
 * where the pattern occurs at x.
 */
poqewan_lengths poqewan_prefix_lengths(poqewan_pattern pattern, const uint8_t *text, size_t text_len, uint16_t *lengths,
                                       size_t lengths_len);

/*
 * An archive is many texts in one run of bytes. Its records lie back to back from byte 0, in order and with no gaps; empty ones
 * are allowed. Behind them stands the directory: for each record its start and its length. The last 12 bytes are the trailer:
 * where the directory starts, the number of records, and the bytes 52 45 45 4C (hexadecimal). Each number has 4 bytes,
 * little-endian, and starts count from the archive's first byte. The four functions on archives are in libpoqewan_archives.a.
 *
 * Reads the directory of an archive. Refused, in this order: more than POQEWAN_LONGEST_TEXT bytes (5); fewer than 12 bytes, or
 * other closing bytes (7); more than POQEWAN_MOST_RECORDS records, or a directory that is not exactly the bytes from its start
 * to the trailer (8); a record whose start is not the end of the one before, 0 for the first, or a last one that does not end
 * where the directory starts, or no records and a directory that does not start at 0 (9).
 */
poqewan_directory poqewan_read_directory(const uint8_t *archive, size_t archive_len);

/* Where a record of an archive lies. Records count from 0. Refused as by poqewan_read_directory, and a record that is not there
   is told after that. A record that is found lies within the archive: start <= end <= archive_len. */
poqewan_bounds poqewan_find_record(const uint8_t *archive, size_t archive_len, uint64_t record);

/*
 * Searches one record of an archive in Colussi's order. The report and the list are those of poqewan_colussi on the record's
 * bytes: positions count from the record's own first byte, and n is the record's length. Refused, in this order, with the list
 * unchanged: a pattern that is not what preparation gives for its own length, bytes and classes (4), and what
 * poqewan_read_directory refuses (5, 7, 8, 9). After that, if the archive has no such record, the ending is
 * POQEWAN_NO_SUCH_RECORD and the list is unchanged.
 */
poqewan_report poqewan_colussi_record(poqewan_pattern pattern, const uint8_t *archive, size_t archive_len, uint64_t record,
                                      uint64_t cap, uint32_t *positions, size_t positions_len);

/* The same by Knuth, Morris and Pratt: the report and the list are those of poqewan_kmp on the record's bytes. */
poqewan_report poqewan_kmp_record(poqewan_pattern pattern, const uint8_t *archive, size_t archive_len, uint64_t record,
                                  uint64_t cap, uint32_t *positions, size_t positions_len);

/*
 * Brings a list of positions up to date after one byte of a text was corrected. `text` is the corrected text, `place` is the
 * position of that byte, and the first `used` entries of the list are in use. Only windows that cover the place are looked at:
 * with n text bytes and m pattern bytes, the positions b with b <= place < b + m and b + m <= n. Of these the list then has
 * exactly those where the pattern occurs. Every other entry is kept, right or wrong. The entries in use ascend, as before, and
 * those past their new number hold what they held before. A place at or past n changes nothing. Refused, in this order, with
 * the list unchanged: a pattern that is not what preparation gives for its own length, bytes and classes (4), a text of more than
 * POQEWAN_LONGEST_TEXT bytes (5), entries in use that are not strictly ascending or are more than the list has (19), more
 * entries to be in use then than the list has (20).
 *
 * The old text is not asked for. If the entries in use were all positions of the pattern in a text that differs from this one at
 * most at the place, they are then all positions in this one: what poqewan_colussi lists, run to its end. Their number moves by
 * at most m, whatever the list held. The function is in libpoqewan_corrections.a.
 */
poqewan_update poqewan_correct(poqewan_pattern pattern, const uint8_t *text, size_t text_len, size_t place,
                               uint32_t *positions, size_t positions_len, size_t used);

/* The charge of a count of comparisons: its started thousands. */
uint64_t poqewan_charge(uint64_t count);

#ifdef __cplusplus
}
#endif

#endif
