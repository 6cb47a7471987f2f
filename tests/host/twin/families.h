/* The C twins of check and write of an aBFT and an sBFT, for the benchmark. */
#ifndef TWIN_FAMILIES_H
#define TWIN_FAMILIES_H

#include <stddef.h>
#include <stdint.h>

uint64_t c_abft_check(const uint8_t *table, size_t table_size);
uint64_t c_sbft_check(const uint8_t *table, size_t table_size);
uint64_t c_abft_write(const uint8_t *image, size_t image_size, uint8_t *room, size_t room_size);
uint64_t c_sbft_write(const uint8_t *image, size_t image_size, uint8_t *room, size_t room_size);

#endif
