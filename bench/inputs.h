/* The patterns and texts that are measured. They come from a generator with a fixed seed, so that every run has the same. */
#ifndef INPUTS_H
#define INPUTS_H

#include <poqewan.h>

/* Families of patterns: each writes m bytes. */
typedef void pattern_maker(uint8_t *bytes, size_t m);
pattern_maker random_255; /* random letters out of 256, but none is 0: a pattern that holds it is refused */
pattern_maker random_4;
pattern_maker random_2;
pattern_maker one_letter;     /* a^m */
pattern_maker last_differs;   /* a^(m-1) b */
pattern_maker second_differs; /* a b a^(m-2) */
pattern_maker middle_differs; /* a^k b a^k, or a^k b a^(k+1) if m is even */
pattern_maker period_3;       /* aab, repeated */
pattern_maker halves;         /* a^k b^k, or a^k b^(k+1) if m is odd */
pattern_maker fibonacci;      /* the start of abaababaabaab... */
pattern_maker flutter;        /* a cycle of four reflections, repeated */

/* Orders of comparison: each writes the m places, by rank, for a pattern with that order of its own. */
typedef void order_maker(const uint8_t *own, size_t m, uint8_t *places);
order_maker ascending_order;
order_maker descending_order;
order_maker own_order;
order_maker interleaved_order; /* the places of even number, then the others */
order_maker random_order;

/* Texts for a pattern: each writes n bytes. */
typedef void text_maker(const uint8_t *bytes, size_t m, uint8_t *text, size_t n);
text_maker text_of_256; /* random letters out of 256, with a copy of the pattern now and then */
text_maker text_of_4;
text_maker text_of_2;
text_maker equal_text;     /* a^n */
text_maker period_3_text;  /* aab, repeated */
text_maker fibonacci_text; /* the same word, longer */
text_maker pieces_text;    /* random pieces of the pattern */
text_maker repeated_text;  /* the pattern again and again */
text_maker record_text;    /* reflections of a hall, with flutters */

/* Classes of bytes: each writes one for every value of a byte. */
typedef void classes_maker(uint8_t classes[POQEWAN_CLASSES]);
classes_maker identity;  /* every value has a class to itself */
classes_maker random_16; /* random classes of 16 values: 0 has one to itself, and the other values share 15 */
classes_maker levels_16; /* levels of a reflection, in classes of 16 values */

/* What is measured: texts with their patterns, at these sizes and lengths; and patterns without a text. */
struct kind {
    const char *name;
    pattern_maker *pattern;
    text_maker *text;
    classes_maker *classes;
};

struct family {
    const char *name;
    pattern_maker *make;
};

struct size {
    const char *name;
    size_t n;
};

extern const struct kind kinds[9]; /* the plain ones, which have the identity; then those with classes of 16 values */
#define PLAIN_KINDS 7
extern const struct size sizes[3];
extern const size_t lengths[4];
extern const struct family families[7];
extern const size_t lengths_of_patterns[5];

extern const struct family ordered_families[15]; /* those that custom orders are measured with, at the greatest length */

#define COUNT_OF(array) (sizeof(array) / sizeof *(array))

/* Writes the classes, a pattern of a kind and its text, by the generator started afresh with that number. */
void make_input(const struct kind *kind, uint8_t classes[POQEWAN_CLASSES], uint8_t *bytes, size_t m, uint8_t *text, size_t n,
                uint64_t number);

/* Puts a byte 0 at a random place of each occurrence, given by ascending positions, so that none is left: no pattern holds a 0, and
   nothing else is equal to it. What comes near to an occurrence stays. */
void break_occurrences(uint8_t *text, const uint32_t *positions, size_t count, size_t m);

/* A cost is the mean over many patterns in turn, all different if the family is random: one pattern, or a few, the branch
   predictor would learn. */
#define IN_TURN 256
void make_in_turn(const struct family *family, uint8_t bytes[IN_TURN][POQEWAN_LONGEST_PATTERN], size_t m);

/* Writes one pattern of a family, by the generator started afresh with that number. */
void make_pattern(const struct family *family, uint8_t *bytes, size_t m, uint64_t number);

#endif
