/* The C twins of the summing, for the benchmark. */
#ifndef TWIN_SUM_H
#define TWIN_SUM_H

#include <stddef.h>
#include <stdint.h>

/* The bytes' sum modulo 256. */
uint8_t c_sum(const uint8_t *bytes, size_t size);

/* The byte that must stand at `at` for the bytes to sum to 0 modulo 256. */
uint8_t c_checksum(const uint8_t *bytes, size_t size, size_t at);

#endif
