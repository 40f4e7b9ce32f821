/* Searches in C that count nothing. They are there for orientation. */
#ifndef UNCOUNTED_H
#define UNCOUNTED_H

#include "agreement.h"

/* Every occurrence: byte by byte at every window, and by memmem from one past each occurrence on, which knows no classes. They
   take no notice of the cap and the room, so that the list must have an entry for each, and report only the positions written.
   Nothing need be prepared. */
search_function naive_search, memmem_search;

/* Whether both list the same as a search of ours; memmem only where the classes are the identity. */
bool uncounted_agree(search_function *search, const struct subject *subject, struct lists lists);

/* The first place of a byte in a text, or n. */
size_t find_byte(const uint8_t *text, size_t n, uint8_t byte);

#endif
