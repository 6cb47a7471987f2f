/* How a call's stack is measured: stack/peak.c has the painted stack. */
#ifndef STACK_PEAK_H
#define STACK_PEAK_H

#include <stddef.h>
#include <stdint.h>

/* Under 2 KiB for every call but the rebuild and those of an aBFT and an sBFT, which have limits of their own. */
enum { CALL_LIMIT = 2047 };

/* Extras of each kind, where there are any, and NICs and targets with them; the greatest Length without
 * extras and with them. */
enum { EXTRAS = 6, ALL_NICS = 8, ALL_TARGETS = 8, BASE_LARGEST = 3702, LARGEST = 13710 };

struct call {
    void (*run)(struct call *call);
    const uint8_t *bytes;
    size_t size;
    uint64_t address;
    uint8_t number; /* of what a reading reads */
    uint64_t answer;
    const uint8_t *stack_pointer; /* just before the call */
};

#define STACK_POINTER(into) __asm__ volatile("mov %%rsp, %0" : "=r"(into))

/* Measures the call; its answer shows that it ran as meant. Ends the program above the limit. */
void measure(const char *what, struct call call, uint64_t answer, size_t limit);

/* Answers: a refusal with its place, and a table that was found. */
static inline uint64_t refused(uint64_t number, uint64_t place)
{
    return number | place << 8;
}

static inline uint64_t found(uint64_t address, uint64_t length)
{
    return address << 8 | length << 32;
}

/* Makes the sum of a table's bytes 0. */
static inline void mend(uint8_t *table, size_t length)
{
    uint8_t sum = 0;

    table[9] = 0;
    for (size_t i = 0; i < length; i++)
        sum = (uint8_t)(sum + table[i]);
    table[9] = (uint8_t)-sum;
}

/* Lays the largest table with so many extras of each kind, and says its Length; where it is laid. */
size_t lay_largest_table(size_t extras);
const uint8_t *table_bytes(void);
/* What a check answers a table of so many bytes whose sum is wrong. */
uint64_t refused_for_sum(const uint8_t *table, size_t length);
void expect_length(size_t length, size_t expected);

void measure_builds(void);
void measure_rebuilds(void);
void measure_compares(void);
void measure_readings(void);
void measure_families(void);

#endif
