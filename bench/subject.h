/* What a search is given, and what is measured: versions of the searches. None of the library's own types is in here, for those
   differ from build to build: a version keeps what it prepares in a store of its own, and answers in plain numbers. */
#ifndef SUBJECT_H
#define SUBJECT_H

#include <stdbool.h>
#include <stddef.h>
#include <stdint.h>

#define LONGEST_PATTERN 256
#define CLASSES 256

/* The two that are compared. */
enum side { OURS, OTHER, SIDES };

/* Many texts in one run of bytes, with a directory behind them. */
struct archive {
    uint8_t *bytes;
    size_t len;
    uint64_t records;
    size_t directory; /* where it starts */
};

/* An order of comparison other than the pattern's own: the places by rank. The shifts are for the C, which makes them beforehand; a
   build makes its own in each call. */
struct order {
    uint8_t places[LONGEST_PATTERN];
    uint16_t shifts[LONGEST_PATTERN + 1];
};

/* A journal: a search in Colussi's order writes it, and a replay follows it. */
struct journal {
    uint32_t *entries;
    size_t len;
};

/* A pattern with its classes, and the text to look for it in. Each side has prepared it before, into a store of its own. The text
   may be a record of an archive; with a number of a record that is not there, it is empty. */
struct subject {
    const uint8_t *bytes;
    size_t m;
    const uint8_t *classes; /* one for each value of a byte */
    const uint8_t *text;
    size_t n;
    void *prepared[SIDES];
    const struct archive *archive; /* or NULL */
    uint64_t record;
    const struct order *order;     /* or NULL */
    const struct journal *journal; /* or NULL */
};

/* The library's report. The columns of a build that reports none are 0. */
struct report {
    uint32_t refusal, ending;
    size_t window;
    uint64_t count, at_noholes, at_holes;
    size_t written;
};

/* A search, whatever it is, under one call: with what its side has prepared, and with a place for the report, or NULL. A run that
   is measured asks for no report, so that it doesn't pay for turning the library's into this one. */
typedef void search_function(const void *prepared, const struct subject *subject, uint64_t cap, uint32_t *positions, size_t room,
                             struct report *report);

/* The library's answer to where the pattern occurs first; and the search for it, with a place for the answer, or NULL. */
struct first {
    uint32_t refusal, found;
    size_t position;
    uint64_t count;
};
typedef void first_function(const void *prepared, const struct subject *subject, struct first *first);

/* The library's answer to how much of the pattern begins at each position, but for the list; and the call for it. */
struct prefix_lengths {
    uint32_t refusal;
    uint64_t count;
};
typedef struct prefix_lengths lengths_function(const void *prepared, const struct subject *subject, uint16_t *lengths, size_t room);

/* The library's answer to a correction, but for the list; and the call for it, with the place and the entries in use. */
struct update {
    uint32_t refusal;
    size_t used;
};
typedef struct update correct_function(const void *prepared, const struct subject *subject, size_t place, uint32_t *positions,
                                       size_t room, size_t used);

/* What a correction puts in the place of a byte. */
static inline uint8_t other_than(uint8_t byte)
{
    return byte == 'a' ? 'b' : 'a';
}

/* A journal that is never too short. */
static inline size_t most_entries(const struct subject *subject)
{
    return subject->n < subject->m ? 0 : (3 * subject->n - subject->m) / 2;
}

/* The cap of a search with a journal, which is refused if the journal is shorter. */
static inline uint64_t cap_of(const struct journal *journal, uint64_t cap)
{
    return cap < journal->len ? cap : journal->len;
}

static inline void give(struct report *place, struct report report)
{
    if (place != NULL)
        *place = report;
}

/* What the prepared patterns of all builds have. The classes of a build that knows none are the identity. */
struct tables {
    size_t len, noholes;
    uint8_t bytes[LONGEST_PATTERN], classes[CLASSES], order[LONGEST_PATTERN];
    uint16_t shift[LONGEST_PATTERN + 1], next[LONGEST_PATTERN + 1];
    uint64_t marks[4];
};

/* A build of the library; or plain C by the same rules, which has the searches and nothing more: its store holds the tables that
   the library has prepared. */
struct version {
    search_function *colussi, *kmp;
    first_function *first; /* NULL in a build that has none */
    lengths_function *prefix_lengths; /* the same */
    lengths_function *tuned_lengths;  /* of the C, tuned by hand; NULL in a build */
    search_function *ordered;         /* in the subject's order; NULL in a build that has none */
    void (*fill_shifts)(const void *prepared, struct order *order); /* of the C; NULL in a build */
    /* Into the subject's journal, with a cap that is no more than its length; and by that journal, whatever the cap and the text are.
       Both NULL in a build that has none. */
    search_function *journaled, *replay;
    correct_function *correct; /* NULL in a build that has none, or isn't linked with it */
    /* Of the record in its archive, and of the directory, with the number of the refusal; all NULL in a build without archives. */
    search_function *colussi_record, *kmp_record;
    uint32_t (*read_directory)(const struct archive *archive);
    size_t size;           /* of a store */
    bool has_classes;      /* or else it can only be asked where they are the identity */
    bool has_columns;      /* or else it reports the count alone */
    /* Prepares the pattern of a subject, into a store or NULL, and gives the number of the refusal. */
    uint32_t (*prepare)(const struct subject *subject, uint16_t *scratch, size_t scratch_len, void *prepared);
    void (*copy_tables)(const void *prepared, struct tables *tables);
    uint64_t (*charge)(uint64_t count);
};

/* The scratch that is lent to preparation, in numbers: what builds from before C-18 ask for. Later ones leave its end alone. */
#define LENT_SCRATCH 771

/* The one of library.c or of reference.c. A copy of it, linked by `run`, has a name of its own. */
extern const struct version version;

#endif
