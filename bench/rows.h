/* What is measured: the two sides that are compared, the rows that they are compared on, and the table of their ratios. */
#ifndef ROWS_H
#define ROWS_H

#include "agreement.h"
#include "inputs.h"
#include "turns.h"

extern const struct version *const versions[SIDES][COPIES];

/* What is searched: a pattern in a text; or many patterns in turn, and no text. For the first occurrence: a pattern in a text
   without any; or many patterns in turn, each in a text that is the pattern itself. For archives: a pattern in a record. For prefix
   lengths, for journals and for corrections: a pattern in a text. For custom orders: a pattern in a text, or one pattern and no
   text. */
struct input {
    const struct kind *kind; /* with the size of the text; or none, and then */
    const struct size *size;
    const struct family *family;
    size_t m;
    uint64_t number; /* that the generator starts with, if there is a kind, or custom orders */
    bool first;      /* whether it is for the first occurrence */
    bool lengths;    /* whether it is for prefix lengths */
    bool journal;    /* whether it is for journals */
    size_t orders;   /* how many of the custom orders it is for, or 0 */
    const struct correction *correction; /* or NULL */
    const struct archive *archive; /* or NULL; its records have texts of the kind, and all have that size */
    uint64_t record;               /* if it is not there, the size is 0 */
};

/* Of rows for corrections: what else is made of a text and its lists; whether the sides agree in it; and the calls of a run. */
struct correction {
    void (*ready)(const struct input *input);
    bool (*agree)(void);
    size_t calls;
};

/* Memory that was written once, so that no measurement pays for the first touch of a page. */
void *touched(size_t bytes);

/* Makes an input, and lets both sides prepare it. Its patterns, or its only one, are then in `subjects`, the lists have an entry for
   each byte, and the journals are never too short. */
void make(const struct input *input);
extern struct subject subjects[IN_TURN];
extern size_t subjects_made;
extern struct lists lists;
extern uint8_t *text_made; /* that of the first subject, if the input has a kind and no archive: a correction changes it */

/* The custom orders of the first subject, if the input is for them, with the shifts by the C if there is a text. Texts have the
   first four. */
enum { ASCENDING, DESCENDING, OF_COLUSSI, DRAWN, ORDERS_OF_TEXTS, INTERLEAVED = ORDERS_OF_TEXTS, DRAWN_2, DRAWN_3, ORDERS };
extern struct order orders[ORDERS];

/* What a search of ours counts in the text of the first subject. */
uint64_t count_by(search_function *search);

/* The trials of every text and of all patterns. What a program adds comes after. */
enum { COLUSSI, KMP, ADDED, MOST_TRIALS = ORDERS };
enum { PREPARATION, CHECK };

struct row {
    struct input input;
    int trials; /* 0 in a row that is left out */
    struct trial trial[MOST_TRIALS];
};

/* The rows: short texts; longer ones, each with one length of pattern; patterns; and those for the first occurrence, for archives,
   for prefix lengths, for journals, for corrections and for custom orders, which are left out unless a program sets them. */
#define LENGTH_IN_LONG_TEXTS 16
#define SHORT_TEXTS (COUNT_OF(kinds) * COUNT_OF(lengths))
#define TEXTS (SHORT_TEXTS + COUNT_OF(kinds) * (COUNT_OF(sizes) - 1))
#define PATTERNS (COUNT_OF(families) * COUNT_OF(lengths_of_patterns))
#define SCANS (SHORT_TEXTS + COUNT_OF(kinds)) /* of the short texts, and of the shortest of the longer ones */
#define FIRSTS (SCANS + PATTERNS)
#define IN_ARCHIVES 16
#define FOR_LENGTHS (TEXTS + 6) /* all texts, and further lengths of patterns in some */
#define FOR_JOURNALS (TEXTS + COUNT_OF(kinds)) /* all texts; and replays, one of each kind */
#define FOR_CORRECTIONS 50
#define ORDERED_TEXTS ((COUNT_OF(kinds) + 3) * COUNT_OF(lengths)) /* of the kinds, and of three more */
#define FOR_ORDERS (ORDERED_TEXTS + COUNT_OF(ordered_families))
#define ROWS (TEXTS + PATTERNS + FIRSTS + IN_ARCHIVES + FOR_LENGTHS + FOR_JOURNALS + FOR_CORRECTIONS + FOR_ORDERS)
extern struct row rows[ROWS];
extern struct row *const first_rows, *const archive_rows, *const length_rows, *const journal_rows, *const correct_rows;
extern struct row *const ordered_rows;
extern struct row *const longest_texts; /* one of each kind */

/* Sets the rows: both searches by both sides in texts; preparation and the check of patterns by the sides that have them. Kinds
   with classes are left out if a side has none. */
void set_rows(void);
void add_trial(struct row *row, const struct work *work, int variants, struct share share);

/* Reads what a side has prepared, before its run: the other side has its own, and the cache may be too small for both. */
void read_prepared(int side);

/* Whether that is so of every subject of every row, but for those left out; of rows for prefix lengths, for journals and for
   corrections, whether the sides agree in these, and of rows for custom orders, in each order; and whether a text that shall be
   without occurrences is so. A row of which it isn't is printed. */
bool agree_on_rows(bool (*agree)(const struct subject *subject));
bool sides_agree(const struct subject *subject);

void measure_rows(void);

const char *name_of(const struct row *row);
const char *size_name_of(const struct row *row);
double nanoseconds_of(const struct row *row, double seconds); /* a byte of the text, or a call */

/* The table of the first two trials of rows: its head, with the names of both sides; and lines with the least times in
   nanoseconds, a byte or a call, and the ratios, with geometric means at the end: of one trial alone, of rows, and of the texts of
   each size, where the plain kinds have a mean of their own and those with classes have another. */
void print_head_of_ratios(const char *other, const char *ours);
void print_row(const struct row *row, const struct trial *trial); /* without the end of the line */
void print_trial(const char *mean, const char *size, const struct row *from, size_t count, int trial);
void print_ratios(const char *mean, const struct row *from, size_t count);
void print_text_ratios(void);

#endif
