#define _GNU_SOURCE /* memmem */
#include "uncounted.h"

#include <string.h>

void naive_search(const void *prepared, const struct subject *subject, uint64_t cap, uint32_t *positions, size_t room,
                  struct report *report)
{
    const uint8_t *bytes = subject->bytes, *classes = subject->classes, *text = subject->text;
    const size_t m = subject->m, n = subject->n;
    size_t written = 0;
    (void)prepared, (void)cap, (void)room;
    for (size_t b = 0; b + m <= n; b++) {
        size_t i = 0;
        while (i < m && classes[bytes[i]] == classes[text[b + i]])
            i++;
        if (i == m)
            positions[written++] = (uint32_t)b;
    }
    give(report, (struct report){.written = written});
}

void memmem_search(const void *prepared, const struct subject *subject, uint64_t cap, uint32_t *positions, size_t room,
                   struct report *report)
{
    const uint8_t *from = subject->text, *end = from + subject->n, *found;
    size_t written = 0;
    (void)prepared, (void)cap, (void)room;
    while ((found = memmem(from, (size_t)(end - from), subject->bytes, subject->m)) != NULL) {
        positions[written++] = (uint32_t)(found - subject->text);
        from = found + 1;
    }
    give(report, (struct report){.written = written});
}

static bool is_identity(const uint8_t *classes)
{
    size_t value = 0;
    while (value < CLASSES && classes[value] == value)
        value++;
    return value == CLASSES;
}

bool uncounted_agree(search_function *search, const struct subject *subject, struct lists lists)
{
    return list_alike(search, naive_search, subject, lists)
        && (!is_identity(subject->classes) || list_alike(search, memmem_search, subject, lists));
}

size_t find_byte(const uint8_t *text, size_t n, uint8_t byte)
{
    size_t p = 0;
    while (p < n && text[p] != byte)
        p++;
    return p;
}
