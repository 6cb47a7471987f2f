/* The scan as one would write it in C, for the benchmark. */
#include "sum.h"

#include <string.h>

uint64_t c_scan(const uint8_t *memory, size_t memory_size, uint64_t address);

enum { HEADER = 48, WINDOW_START = 0x80000, WINDOW_END = 0x100000 };

/* The Length of the sound table at `place`, or 0; `left` is at least 48. */
static uint32_t sound_length(const uint8_t *place, size_t left)
{
    uint32_t length;

    if (memcmp(place, "iBFT", 4) != 0)
        return 0;
    memcpy(&length, place + 4, sizeof length);
    if (length < HEADER || length > left || c_sum(place, length) != 0)
        return 0;
    return length;
}

uint64_t c_scan(const uint8_t *memory, size_t memory_size, uint64_t address)
{
    size_t k;

    if (address > WINDOW_END || memory_size > WINDOW_END - address)
        return 1;
    k = address < WINDOW_START ? WINDOW_START - address : -address % 16;
    for (; k + HEADER <= memory_size; k += 16) {
        uint32_t length = sound_length(memory + k, memory_size - k);
        if (length != 0)
            return (address + k) << 8 | (uint64_t)length << 32;
    }
    return 2;
}
