/*
 * Prints the data of the picture, a line for each kind and length, with tabs between: kind, m, n, count, ceiling, and the count
 * and ceiling of KMP. It exits with 1 if two searches differ in an answer.
 */
#include "rows.h"
#include "uncounted.h"

#include <inttypes.h>
#include <stdio.h>
#include <stdlib.h>

/* The last comes nearest to the ceiling: `worst` finds no greater count for any short pattern of two letters in any text. */
static const struct kind counted_kinds[] = {
    {"random, 256 letters", random_255, text_of_256, identity},
    {"random, 4 letters", random_4, text_of_4, identity},
    {"random, 2 letters", random_2, text_of_2, identity},
    {"a^m, in a^n", one_letter, equal_text, identity},
    {"a^(m-1)b, in a^n", last_differs, equal_text, identity},
    {"aba^(m-2), in a^n", second_differs, equal_text, identity},
    {"Fibonacci word, in a longer one", fibonacci, fibonacci_text, identity},
    {"a^kba^k, repeated", middle_differs, repeated_text, identity},
};

struct tally {
    uint64_t count, kmp_count;
};

static uint64_t greater(uint64_t a, uint64_t b)
{
    return a > b ? a : b;
}

/* The greatest counts of a few draws, which differ where the kind is random. */
static struct tally greatest_counts(struct input input)
{
    struct tally tally = {0, 0};
    for (input.number = 0; input.number < 8; input.number++) {
        make(&input);
        if (!sides_agree(&subjects[0]) || !uncounted_agree(versions[OURS][0]->colussi, &subjects[0], lists)) {
            fprintf(stderr, "counts: %s, m = %zu: DIFFERS\n", input.kind->name, input.m);
            exit(1);
        }
        tally.count = greater(tally.count, count_by(versions[OURS][0]->colussi));
        tally.kmp_count = greater(tally.kmp_count, count_by(versions[OURS][0]->kmp));
    }
    return tally;
}

int main(void)
{
    const size_t n = sizes[0].n;
    for (size_t k = 0; k < COUNT_OF(counted_kinds); k++)
        for (size_t m = 4; m <= POQEWAN_LONGEST_PATTERN; m *= 2) {
            const struct tally tally = greatest_counts((struct input){.kind = &counted_kinds[k], .size = &sizes[0], .m = m});
            printf("%s\t%zu\t%zu\t%" PRIu64 "\t%zu\t%" PRIu64 "\t%zu\n", counted_kinds[k].name, m, n, tally.count,
                   (3 * n - m) / 2, tally.kmp_count, 2 * n - m);
        }
    return 0;
}
