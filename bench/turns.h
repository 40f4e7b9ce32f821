/*
 * Trials, in which what is compared takes turns: one short run each on the same memory, with either first in turn; and a trial
 * has its turns in many rounds, spread over the whole time. For the machine has slow spells, which hit whatever runs in them: the
 * runs of a turn meet the same one, and some rounds meet none.
 */
#ifndef TURNS_H
#define TURNS_H

#include <stdbool.h>
#include <stddef.h>

/* What is measured is linked in so many copies, each shifted by 16 bytes against the last: where a loop lies in the lines of the
   cache can double its time, and nothing shall gain by that. A round runs one copy. */
#define COPIES 8

/* The same goes for the stack: for each copy it lies lower than for the last by an eighth of a page and 16 bytes, so that the
   copies meet every place in a line, and places all over a page. */
#define LOWER_STACK 528

/* A call that takes a tenth of a microsecond, and copies some thousands of bytes on the stack meanwhile, is decided by its place to
   some per cent: two that differ only in the size of their frames are apart by as much, one way in one run of the program and the
   other way in the next, for the system places the stack anew. So trials of such calls may ask for more places a copy, these bytes
   apart, one for each turn in turn. */
#define STACK_STEP 16

/* What is done by the variants that take turns; and what comes before each run, out of the time, if anything does. */
struct work {
    const char *name;
    void (*run)(int variant, int copy);
    void (*before)(int variant);
};

/* Every so many rounds, so many turns of one of so many copies. Few turns: those of a round meet the same slow spell or quiet
   moment, so that many rounds tell more than many turns. Short runs go by the clock on the wall; a long one is hardly ever left
   alone, and goes by what the thread has run. */
struct share {
    int every, turns, copies;
    double (*clock)(void);
    size_t more_stacks; /* places of the stack beside the copy's own */
};

#define ROUNDS 256    /* a power of two, as all of a share but the turns, so that every copy has as many */
#define MOST_TURNS 64 /* of a copy */
#define MOST_VARIANTS 3

double wall_time(void);   /* seconds; none comes out too short */
double thread_time(void); /* the same without what other programs take; on a virtual machine some microseconds off */

/* The time of a variant to that of the first: by the least times; by the means of the fastest tenth, which one lucky run hardly
   moves; and the median over the turns, which counts the slow spells in. Each is the geometric mean over the copies. */
enum ratio { LEAST, TENTH, PAIRS, RATIOS };

struct times {
    double least, tenth; /* seconds, again as means over the copies */
    double ratios[RATIOS];
};

struct trial {
    const struct work *work;
    int variants;
    struct share share;
    bool less_last;       /* whether the least time of the last variant is taken off those of the first, copy by copy */
    size_t turns[COPIES]; /* so far */
    double seconds[MOST_VARIANTS][COPIES][MOST_TURNS]; /* sorted in the end */
    struct times times[MOST_VARIANTS];                 /* in the end */
};

bool has_round(const struct trial *trial, int round);
void take_turns(struct trial *trial, int round);
void summarise(struct trial *trial);

/* Multiplies a geometric mean by its part of one number out of so many. */
void into_mean(double *mean, double number, size_t of);

#endif
