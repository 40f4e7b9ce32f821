/*
 * Measures a build of the library against an earlier one and prints, in Markdown, the least times of both, how many times
 * faster the later one is, and whether the searches are as fast as was asked. It exits with 1 if the two differ in an answer, and
 * then measures nothing. A missed target is printed and no more.
 */
#include "verdicts.h"

#include <stdio.h>

/* The target, on every row of each search: time before to time after. Preparation and the check have no target here. */
#define LEAST_RATIO 0.95

int main(void)
{
    setvbuf(stdout, NULL, _IOLBF, 0);
    set_rows();
    if (!agree_on_rows(sides_agree))
        return 1;
    measure_rows();
    puts("The least times of both builds in nanoseconds: a byte of text; or a call, of preparation and of the check, which is the\n"
         "search of an empty text. Then ratios, before to after, so that above 1 the later build is the faster: of the least\n"
         "times; of the means of the fastest tenth, by which the searches are judged; and the median over the pairs of runs. All are\n"
         "geometric means over the copies.\n");
    print_head_of_ratios("before", "after");
    print_text_ratios();
    print_ratios("mean", rows + TEXTS, PATTERNS);
    if (!versions[OTHER][0]->has_classes)
        puts("\nThe earlier build knows no classes of bytes: the rows with 16 classes are left out.");
    if (!versions[OTHER][0]->has_columns)
        puts("\nThe earlier build reports no columns: those of the later one are not compared.");
    if (versions[OTHER][0]->first == NULL)
        puts("\nThe earlier build has no search for the first occurrence: that of the later one is not compared.");
    if (versions[OTHER][0]->prefix_lengths == NULL)
        puts("\nThe earlier build has no prefix lengths: those of the later one are not compared.");
    if (versions[OTHER][0]->ordered == NULL)
        puts("\nThe earlier build has no custom orders: those of the later one are not compared.");
    if (versions[OTHER][0]->journaled == NULL)
        puts("\nThe earlier build has no journals: those of the later one are not compared.");
    putchar('\n');
    judge_ratio("before", "Colussi's order at 0.95 of the search before or better", 0, COUNT_OF(kinds), COLUSSI, LEAST_RATIO);
    judge_ratio("before", "KMP at 0.95 of the search before or better", 0, COUNT_OF(kinds), KMP, LEAST_RATIO);
    return 0;
}
