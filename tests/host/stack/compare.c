/*
 * The peak stack of the comparison of two tables, as host_test_exports has it: nothing lent,
 * the largest tables without extras and with twelve, the same and different, and refusals
 * of either side. stack/peak.c measures.
 */
#include "peak.h"

#include <bootfw.h>

#include <stdio.h>
#include <string.h>

uint64_t test_compare(const uint8_t *left, size_t left_size, const uint8_t *right, size_t right_size);
uint64_t test_difference(const uint8_t *left, size_t left_size, const uint8_t *right, size_t right_size,
                         uint16_t k, uint8_t *out, size_t out_size);
size_t test_difference_view(const uint8_t *left, size_t left_size, const uint8_t *right, size_t right_size,
                            uint16_t k, uint8_t *out, size_t out_size);

/* The deepest is a difference between tables with extras: two sets of starts and Indexes by slot, and six slices in each of a
 * few calls. */
enum { COMPARE_LIMIT = 2560 };

enum { OUT_SIZE = 512, SIDE_RIGHT_BIT = 40, COUNT_BIT = 48 };

static uint8_t left[LARGEST], right[LARGEST], out[OUT_SIZE];
static size_t right_size;
static uint16_t asked;

/* The left table is what the call is lent; the right one and the number are above. */
static void run_compare(struct call *call)
{
    STACK_POINTER(call->stack_pointer);
    call->answer = test_compare(call->bytes, call->size, right, right_size);
}

static void run_difference(struct call *call)
{
    STACK_POINTER(call->stack_pointer);
    call->answer = test_difference(call->bytes, call->size, right, right_size, asked, out, OUT_SIZE);
}

static void run_difference_view(struct call *call)
{
    STACK_POINTER(call->stack_pointer);
    call->answer = test_difference_view(call->bytes, call->size, right, right_size, asked, out, OUT_SIZE);
}

static void measure_compare(const char *what, size_t left_size, uint64_t answer)
{
    struct call call = { .run = run_compare, .bytes = left, .size = left_size };

    measure(what, call, answer, COMPARE_LIMIT);
}

/* Difference k and its view, of so many bytes. */
static void measure_difference(const char *what, size_t left_size, uint16_t k, uint64_t answer, uint64_t shown)
{
    struct call call = { .run = run_difference, .bytes = left, .size = left_size };
    char name[128];

    asked = k;
    snprintf(name, sizeof name, "difference %u, %s", (unsigned)k, what);
    measure(name, call, answer, COMPARE_LIMIT);
    call.run = run_difference_view;
    snprintf(name, sizeof name, "difference %u's view, %s", (unsigned)k, what);
    measure(name, call, shown, COMPARE_LIMIT);
}

/* The largest table on both sides. */
static size_t lay_both(size_t extras)
{
    size_t length = lay_largest_table(extras);

    memcpy(left, table_bytes(), length);
    memcpy(right, table_bytes(), length);
    right_size = length;
    return length;
}

static size_t word_at(const uint8_t *table, size_t at)
{
    return table[at] | (size_t)table[at + 1] << 8;
}

/* Another value in each flag and field of a structure, and another first byte of each string: how many
 * differences that makes. */
static unsigned change_structure(size_t start, const uint8_t *fields, size_t field_count, size_t first_string,
                                 size_t strings)
{
    for (size_t i = 0; i < field_count; i++)
        right[start + fields[i]] ^= 1;
    for (size_t i = 0; i < strings; i++)
        right[word_at(right, start + first_string + 4 * i + 2)] = 'b';
    return (unsigned)(field_count + strings);
}

/* Everything that there is in the right table is another one; how many differences that makes. */
static unsigned change_all(size_t length)
{
    static const uint8_t initiator[] = { 5, 6, 22, 38, 54 };
    static const uint8_t nic[] = { 5, 6, 22, 23, 24, 40, 56, 72, 88, 90, 96 };
    static const uint8_t target[] = { 5, 6, 22, 24, 32, 33 };
    size_t control_end = 48 + word_at(right, 50);
    unsigned count = 3;

    right[10] ^= 1;
    right[16] ^= 1;
    right[53] ^= 1;
    for (size_t word = 56; word < control_end; word += 2) {
        size_t start = word_at(right, word);

        if (right[start] == 2)
            count += change_structure(start, initiator, sizeof initiator, 70, 1);
        else if (right[start] == 3)
            count += change_structure(start, nic, sizeof nic, 98, 1);
        else
            count += change_structure(start, target, sizeof target, 34, 5);
    }
    mend(right, length);
    return count;
}

static void measure_compares_of(const char *which, size_t extras, unsigned most)
{
    size_t length = lay_both(extras);
    unsigned count;
    char name[96];

#define NAMED(what) (snprintf(name, sizeof name, "%s, %s", which, what), name)
    measure_compare(NAMED("compare, the same"), length, 0);
    measure_difference(NAMED("the same"), length, 0, 0, 0);
    count = change_all(length);
    if (count != most) {
        printf("peak stack: %s: %u differences and not %u\n", which, count, most);
        expect_length(count, most);
    }
    measure_compare(NAMED("compare, all different"), length, (uint64_t)count << COUNT_BIT);
    measure_difference(NAMED("all different"), length, 0, 0, 0);
    measure_difference(NAMED("all different"), length, (uint16_t)(count - 1), 0, IBFT_LONGEST_STRING);
    measure_difference(NAMED("all different"), length, (uint16_t)count, 0, 0);
    measure_difference(NAMED("all different"), length, UINT16_MAX, 0, 0);
    right[9]++;
    measure_compare(NAMED("compare, the right sum wrong"), length,
                    refused_for_sum(right, length) | (uint64_t)1 << SIDE_RIGHT_BIT);
    measure_difference(NAMED("the right sum wrong"), length, 0,
                       refused_for_sum(right, length) | (uint64_t)1 << SIDE_RIGHT_BIT, 0);
    left[9]++;
    measure_compare(NAMED("compare, both sums wrong"), length, refused_for_sum(left, length));
#undef NAMED
}

void measure_compares(void)
{
    right_size = 0;
    measure_compare("compare, nothing lent", 0, IBFT_REFUSED_FEW_BYTES);
    measure_compares_of("largest table without extras", 0, 55);
    measure_compares_of("largest table, twelve extras", EXTRAS, 193);
}
