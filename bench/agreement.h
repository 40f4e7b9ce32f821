/* Whether searches answer alike. */
#ifndef AGREEMENT_H
#define AGREEMENT_H

#include "subject.h"

/* Two lists to be lent, and two for prefix lengths, with an entry for each byte of the text; and two for journals, with as many as
   one may need. */
struct lists {
    uint32_t *one, *other;
    uint16_t *lengths, *other_lengths;
    uint32_t *journal, *other_journal;
};

/* Whether our version and the other report and list the same, by each search; also with half the comparisons, with half the list
   and with an empty one, where both are cut off. Columns are compared if both report them. If the other prepares patterns, it must
   do that like ours, and give the same charge. A version that looks for the first occurrence must find the one at which its own
   search in Colussi's order is full with an empty list, with the same count, and with which a whole list begins. If the text is a
   record of an archive, our version must search it there like the other searches the text; one that is not there it must not
   search. And they must agree in the prefix lengths; and builds, in texts up to some length, in the places' descending order and in
   journals. */
bool versions_agree(const struct version *a, const struct version *b, const struct subject *subject, struct lists lists);

/* Whether they give the same prefix lengths and the same count, with m exactly where our version lists the pattern; or one of them
   gives none. */
bool lengths_agree(const struct version *a, const struct version *b, const struct subject *subject, struct lists lists);

/* Whether they answer alike in the order of the subject, as above, and list what our search in Colussi's order does; or one of them
   has no custom orders. */
bool orders_agree(const struct version *a, const struct version *b, const struct subject *subject, struct lists lists);

/* Whether their searches with a journal answer as their searches without, and write the same journals; and whether their replays of
   that journal answer alike, as the search did, and with a list that is too short refuse it alike; or one of them has no journals. */
bool journals_agree(const struct version *a, const struct version *b, const struct subject *subject, struct lists lists);

/* Whether they bring a list up to date alike when another byte stands at a place of the text, which is the subject's, and when the
   first one is back, and leave alike what is past the entries in use; whether a list that was right stays so, by our search in
   Colussi's order; and whether they refuse alike a list that is short, does not ascend, or has more in use than it holds; or one of
   them has no corrections. The first list has so many entries in use, two or more, which must be the same in the end. */
bool corrections_agree(const struct version *a, const struct version *b, const struct subject *subject, uint8_t *text, size_t place,
                       uint8_t byte, size_t used, struct lists lists);

/* Whether two searches of the whole text list the same: one of ours; and one of the other side, or that needs nothing prepared. */
bool list_alike(search_function *a, search_function *b, const struct subject *subject, struct lists lists);

#endif
