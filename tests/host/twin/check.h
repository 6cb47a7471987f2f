/* What the C twins of check, build and the other two families have in common, for the benchmark. */
#ifndef TWIN_CHECK_H
#define TWIN_CHECK_H

#include "sum.h"

#include <stdbool.h>
#include <stddef.h>
#include <stdint.h>
#include <string.h>

/* A kind of structure; where it has its strings, and how long each may be. */
struct kind {
    uint8_t id, length, named_flags, texts;
    struct {
        uint8_t at, longest;
    } text[5];
};

extern const struct kind c_initiator, c_nic, c_target;

/* Kind and Index of the structures that have a named word. */
enum { NAMED = 5, ALL_SLOTS = 17, ALL_ENTRIES = 49, EXTRAS_OF_A_KIND = 6 };
extern const struct named {
    const struct kind *kind;
    uint8_t index;
} c_named[NAMED];

/* A word of a table, and a refusal with its place. */
static inline uint32_t word(const uint8_t *bytes)
{
    uint16_t word;

    memcpy(&word, bytes, sizeof word);
    return word;
}

static inline uint64_t refused(uint32_t number, uint32_t place)
{
    return number | place << 8;
}

/* 6 of a table of so many bytes, with the checksum byte that would be right; 0 where their sum is 0. */
static inline uint64_t c_check_sum(const uint8_t *table, size_t length)
{
    uint8_t sum = c_sum(table, length);

    return sum == 0 ? 0 : 6 | 9 << 8 | (uint64_t)(uint8_t)(table[9] - sum) << 32;
}

/* Are all bytes zero after the first that is? */
bool c_has_zero_tail(const uint8_t *field, size_t size);

bool c_is_host_name(const uint8_t *name, uint32_t size);

#endif
