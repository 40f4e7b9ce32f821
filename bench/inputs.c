#include "inputs.h"

#include <string.h>

/* Marsaglia's xorshift by 13, 7 and 17. */
static uint64_t state = 1;

static uint64_t draw(void)
{
    state ^= state << 13;
    state ^= state >> 7;
    state ^= state << 17;
    return state;
}

/* Starts the generator afresh. */
static void seed(uint64_t number)
{
    state = number + 88172645463325252u;
    for (int i = 0; i < 16; i++) /* near seeds begin with near numbers */
        draw();
}

/* A number less than `bound`, which is small: the unevenness of scaling 32 bits down is of no account. */
static size_t below(size_t bound)
{
    return (size_t)((draw() >> 32) * bound >> 32);
}

static void random_letters(uint8_t *bytes, size_t len, unsigned letters, uint8_t first)
{
    for (size_t i = 0; i < len; i++)
        bytes[i] = (uint8_t)(first + below(letters));
}

void random_255(uint8_t *bytes, size_t m)
{
    random_letters(bytes, m, 255, 1);
}

void random_4(uint8_t *bytes, size_t m)
{
    random_letters(bytes, m, 4, 'a');
}

void random_2(uint8_t *bytes, size_t m)
{
    random_letters(bytes, m, 2, 'a');
}

void one_letter(uint8_t *bytes, size_t m)
{
    memset(bytes, 'a', m);
}

static void one_differs(uint8_t *bytes, size_t m, size_t place)
{
    memset(bytes, 'a', m);
    bytes[place] = 'b';
}

void last_differs(uint8_t *bytes, size_t m)
{
    one_differs(bytes, m, m - 1);
}

void second_differs(uint8_t *bytes, size_t m)
{
    one_differs(bytes, m, m > 1 ? 1 : 0);
}

void middle_differs(uint8_t *bytes, size_t m)
{
    one_differs(bytes, m, (m - 1) / 2);
}

static void repeat(const uint8_t *cycle, size_t len, uint8_t *to, size_t n)
{
    for (size_t i = 0, p = 0; i < n; i++) {
        to[i] = cycle[p];
        p = p + 1 < len ? p + 1 : 0;
    }
}

void period_3(uint8_t *bytes, size_t m)
{
    repeat((const uint8_t *)"aab", 3, bytes, m);
}

void halves(uint8_t *bytes, size_t m)
{
    memset(bytes, 'a', m / 2);
    memset(bytes + m / 2, 'b', m - m / 2);
}

static void first_differs(uint8_t *bytes, size_t m)
{
    one_differs(bytes, m, 0);
}

static void period_2(uint8_t *bytes, size_t m)
{
    repeat((const uint8_t *)"ab", 2, bytes, m);
}

/* A random word of that length over 4 letters, repeated. */
static void repeat_random(uint8_t *bytes, size_t m, size_t len)
{
    uint8_t word[POQEWAN_LONGEST_PATTERN];
    random_letters(word, len, 4, 'a');
    repeat(word, len, bytes, m);
}

static void period_16(uint8_t *bytes, size_t m)
{
    repeat_random(bytes, m, 16);
}

static void period_85(uint8_t *bytes, size_t m)
{
    repeat_random(bytes, m, 85);
}

static void random_3(uint8_t *bytes, size_t m)
{
    random_letters(bytes, m, 3, 'a');
}

/* 1, 2, up to 255, and from 1 again. */
static void all_values(uint8_t *bytes, size_t m)
{
    for (size_t p = 0; p < m; p++)
        bytes[p] = (uint8_t)(1 + p % 255);
}

void ascending_order(const uint8_t *own, size_t m, uint8_t *places)
{
    (void)own;
    for (size_t i = 0; i < m; i++)
        places[i] = (uint8_t)i;
}

void descending_order(const uint8_t *own, size_t m, uint8_t *places)
{
    (void)own;
    for (size_t i = 0; i < m; i++)
        places[i] = (uint8_t)(m - 1 - i);
}

void own_order(const uint8_t *own, size_t m, uint8_t *places)
{
    memcpy(places, own, m);
}

void interleaved_order(const uint8_t *own, size_t m, uint8_t *places)
{
    (void)own;
    const size_t even = (m + 1) / 2;
    for (size_t i = 0; i < m; i++)
        places[i] = (uint8_t)(i < even ? 2 * i : 2 * (i - even) + 1);
}

void random_order(const uint8_t *own, size_t m, uint8_t *places)
{
    ascending_order(own, m, places);
    for (size_t i = m - 1; i > 0; i--) {
        const size_t other = below(i + 1);
        const uint8_t place = places[i];
        places[i] = places[other];
        places[other] = place;
    }
}

/* Each Fibonacci word is the last followed by the one before: after the first two letters, what is written so far is copied
   from its own start, one shorter word at a time. */
static void fibonacci_word(uint8_t *to, size_t n)
{
    size_t len = 1, last = 1;
    to[0] = 'a';
    if (n > 1) {
        to[1] = 'b';
        len = 2;
    }
    while (len < n) {
        size_t piece = last < n - len ? last : n - len;
        memcpy(to + len, to, piece);
        last = len;
        len += piece;
    }
}

void fibonacci(uint8_t *bytes, size_t m)
{
    fibonacci_word(bytes, m);
}

/* The levels of four reflections that two parallel walls throw back and forth. */
static const uint8_t cycle[4] = {142, 37, 96, 37};

void flutter(uint8_t *bytes, size_t m)
{
    repeat(cycle, sizeof cycle, bytes, m);
}

/* A copy of the pattern in every block, so that there is something to find. */
static void planted_text(const uint8_t *bytes, size_t m, uint8_t *text, size_t n, unsigned letters, uint8_t first)
{
    const size_t block = 4096;
    random_letters(text, n, letters, first);
    for (size_t at = 0; at + block <= n; at += block)
        memcpy(text + at + below(block - m), bytes, m);
}

void text_of_256(const uint8_t *bytes, size_t m, uint8_t *text, size_t n)
{
    planted_text(bytes, m, text, n, 256, 0);
}

void text_of_4(const uint8_t *bytes, size_t m, uint8_t *text, size_t n)
{
    planted_text(bytes, m, text, n, 4, 'a');
}

void text_of_2(const uint8_t *bytes, size_t m, uint8_t *text, size_t n)
{
    planted_text(bytes, m, text, n, 2, 'a');
}

void equal_text(const uint8_t *bytes, size_t m, uint8_t *text, size_t n)
{
    (void)bytes, (void)m;
    memset(text, 'a', n);
}

void period_3_text(const uint8_t *bytes, size_t m, uint8_t *text, size_t n)
{
    (void)bytes, (void)m;
    period_3(text, n);
}

void fibonacci_text(const uint8_t *bytes, size_t m, uint8_t *text, size_t n)
{
    (void)bytes, (void)m;
    fibonacci_word(text, n);
}

void pieces_text(const uint8_t *bytes, size_t m, uint8_t *text, size_t n)
{
    for (size_t at = 0; at < n;) {
        size_t from = below(m), len = 1 + below(m - from);
        if (len > n - at)
            len = n - at;
        memcpy(text + at, bytes + from, len);
        at += len;
    }
}

void repeated_text(const uint8_t *bytes, size_t m, uint8_t *text, size_t n)
{
    repeat(bytes, m, text, n);
}

/* The rest of a text that is being written. */
struct rest {
    uint8_t *at, *end;
};

static void put(struct rest *rest, size_t level)
{
    if (rest->at < rest->end)
        *rest->at++ = (uint8_t)level;
}

/* Seat after seat: reflections that fall off with some scatter; a flutter of up to about two patterns, in which now and then
   a reflection is lost; noise; and a byte 0, which closes the seat. Losses are rarer for longer patterns, or those would never
   occur. */
void record_text(const uint8_t *bytes, size_t m, uint8_t *text, size_t n)
{
    (void)bytes;
    struct rest rest = {text, text + n};
    while (rest.at < rest.end) {
        size_t level = 230;
        for (int i = 0; i < 30; i++) {
            put(&rest, level + below(19) - 9);
            level = level * 93 / 100;
        }
        for (size_t cycles = below(m / 2 + 12); cycles > 0; cycles--) {
            size_t lost = below(m) == 0 ? below(4) : 4;
            for (size_t i = 0; i < 4; i++)
                put(&rest, i == lost ? 1 : cycle[i]);
        }
        for (size_t quiet = 5 + below(21); quiet > 0; quiet--)
            put(&rest, 1 + below(20));
        put(&rest, 0);
    }
}

void identity(uint8_t classes[POQEWAN_CLASSES])
{
    for (size_t value = 0; value < POQEWAN_CLASSES; value++)
        classes[value] = (uint8_t)value;
}

void random_16(uint8_t classes[POQEWAN_CLASSES])
{
    classes[0] = (uint8_t)below(16);
    for (size_t value = 1; value < POQEWAN_CLASSES; value++)
        classes[value] = (uint8_t)((classes[0] + 1u + below(15)) % 16);
}

/* By the high nibble. That of the levels from 1 to 15 is that of 0, which must be alone, so they go with those from 16 to 31. */
void levels_16(uint8_t classes[POQEWAN_CLASSES])
{
    classes[0] = 0;
    for (size_t level = 1; level < POQEWAN_CLASSES; level++)
        classes[level] = (uint8_t)(level < 16 ? 1 : level / 16);
}

/* Puts a random byte of the same class in the place of each, so that what occurs is of the pattern's classes and hardly ever of
   its bytes. A random text is as random as before, and the levels of a record have some more scatter. */
static void exchange_in_classes(const uint8_t classes[POQEWAN_CLASSES], uint8_t *text, size_t n)
{
    uint8_t members[POQEWAN_CLASSES][POQEWAN_CLASSES];
    size_t counts[POQEWAN_CLASSES] = {0};
    for (size_t value = 0; value < POQEWAN_CLASSES; value++)
        members[classes[value]][counts[classes[value]]++] = (uint8_t)value;
    for (size_t i = 0; i < n; i++) {
        const uint8_t class = classes[text[i]];
        text[i] = members[class][below(counts[class])];
    }
}

const struct kind kinds[9] = {
    {"random, 256 letters", random_255, text_of_256, identity},
    {"random, 4 letters", random_4, text_of_4, identity},
    {"random, 2 letters", random_2, text_of_2, identity},
    {"a^n, a^(m-1)b", last_differs, equal_text, identity},
    {"a^n, a^m", one_letter, equal_text, identity},
    {"pieces of the pattern", random_4, pieces_text, identity},
    {"record with flutters", flutter, record_text, identity},
    {"random, 16 classes", random_255, text_of_256, random_16},
    {"record, 16 classes", flutter, record_text, levels_16},
};

const struct size sizes[3] = {{"64 KiB", 65536}, {"1 MiB", 1048576}, {"16 MiB", POQEWAN_LONGEST_TEXT}};

const size_t lengths[4] = {4, 16, 64, 256};

const struct family families[7] = {
    {"random, 255 letters", random_255}, {"random, 4 letters", random_4}, {"random, 2 letters", random_2},
    {"one letter", one_letter},          {"a^(m-1)b", last_differs},      {"period 3", period_3},
    {"Fibonacci word", fibonacci},
};

const size_t lengths_of_patterns[5] = {1, 8, 16, 64, 256};

const struct family ordered_families[15] = {
    {"one letter", one_letter},      {"a^(m-1)b", last_differs},          {"ba^(m-1)", first_differs},
    {"a^kb^k", halves},              {"a^kba^(k+1)", middle_differs},     {"(ab)^k", period_2},
    {"period 3", period_3},          {"period 16", period_16},            {"period 85", period_85},
    {"Fibonacci word", fibonacci},   {"random, 2 letters", random_2},     {"random, 3 letters", random_3},
    {"random, 4 letters", random_4}, {"random, 255 letters", random_255}, {"all values", all_values},
};

void make_input(const struct kind *kind, uint8_t classes[POQEWAN_CLASSES], uint8_t *bytes, size_t m, uint8_t *text, size_t n,
                uint64_t number)
{
    seed(number);
    kind->classes(classes);
    kind->pattern(bytes, m);
    kind->text(bytes, m, text, n);
    if (kind->classes != identity)
        exchange_in_classes(classes, text, n);
}

void break_occurrences(uint8_t *text, const uint32_t *positions, size_t count, size_t m)
{
    size_t free = 0; /* from where on nothing is broken yet */
    for (size_t i = 0; i < count; i++)
        if (positions[i] >= free) {
            free = positions[i] + below(m);
            text[free++] = 0;
        }
}

void make_in_turn(const struct family *family, uint8_t bytes[IN_TURN][POQEWAN_LONGEST_PATTERN], size_t m)
{
    seed(m);
    for (size_t i = 0; i < IN_TURN; i++)
        family->make(bytes[i], m);
}

void make_pattern(const struct family *family, uint8_t *bytes, size_t m, uint64_t number)
{
    seed(number);
    family->make(bytes, m);
}
