/* The sum and the checksum byte as one would write them in C, for the benchmark. Compiled by -O3,
 * which makes a vector loop of the sum. */
#include "sum.h"

uint8_t c_sum(const uint8_t *bytes, size_t size)
{
    uint8_t sum = 0;

    for (size_t i = 0; i < size; i++)
        sum = (uint8_t)(sum + bytes[i]);
    return sum;
}

uint8_t c_checksum(const uint8_t *bytes, size_t size, size_t at)
{
    uint8_t there = at < size ? bytes[at] : 0;

    return (uint8_t)(there - c_sum(bytes, size));
}
