/* Check and write of an aBFT and an sBFT as one would write them in C, for the benchmark. */
#include "families.h"
#include "check.h"
#include "sum.h"

#include <string.h>

enum { ABFT_SIZE = 46, SBFT_START = 48, SBFT_SIZE = 136, SBFT_WITHOUT_IB = 88, PARTS = 3, IB = 2 };

/* The parts of an sBFT: where the offset stands, and the size. */
static const struct part {
    uint8_t word, size;
} parts[PARTS] = { { 36, 8 }, { 38, 32 }, { 40, 48 } };

static uint64_t check_oem(const uint8_t *table)
{
    if (!c_has_zero_tail(table + 10, 6))
        return refused(8, 10);
    if (!c_has_zero_tail(table + 16, 8))
        return refused(8, 16);
    return 0;
}

/* 3 to 8. */
static uint64_t check_header(const uint8_t *table, size_t size, const char *signature, uint32_t least,
                             uint32_t *length)
{
    uint64_t answer;

    if (size < least)
        return refused(3, 0);
    if (memcmp(table, signature, 4) != 0)
        return refused(4, 0);
    memcpy(length, table + 4, sizeof *length);
    if (*length < least || *length > size)
        return refused(5, 4);
    answer = c_check_sum(table, *length);
    if (answer != 0)
        return answer;
    if (table[8] != 1)
        return refused(7, 8);
    return check_oem(table);
}

/* 30, of the bytes from `first` up to `end`. */
static uint64_t check_reserved(const uint8_t *table, uint32_t first, uint32_t end)
{
    for (uint32_t i = first; i < end; i++)
        if (table[i] != 0)
            return refused(30, i);
    return 0;
}

uint64_t c_abft_check(const uint8_t *table, size_t table_size)
{
    uint32_t length;
    uint64_t answer = check_header(table, table_size, "aBFT", ABFT_SIZE, &length);

    if (answer == 0)
        answer = check_reserved(table, 24, 36);
    if (answer == 0)
        answer = check_reserved(table, 39, 40);
    return answer;
}

/* 31 and 32, then 30 of the IB part. */
static uint64_t check_parts(const uint8_t *table, uint32_t length)
{
    uint32_t starts[PARTS];

    for (int i = 0; i < PARTS; i++) {
        starts[i] = word(table + parts[i].word);
        if (i == IB && starts[i] == 0)
            continue;
        if (starts[i] < SBFT_START || starts[i] + parts[i].size > length)
            return refused(31, parts[i].word);
    }
    for (int i = 1; i < PARTS; i++)
        for (int k = 0; k < i; k++)
            if (starts[i] != 0 && starts[i] < starts[k] + parts[k].size
                && starts[k] < starts[i] + parts[i].size)
                return refused(32, parts[i].word);
    return starts[IB] == 0 ? 0 : check_reserved(table, starts[IB] + 42, starts[IB] + 48);
}

uint64_t c_sbft_check(const uint8_t *table, size_t table_size)
{
    uint32_t length;
    uint64_t answer = check_header(table, table_size, "sBFT", SBFT_START, &length);

    if (answer == 0)
        answer = check_reserved(table, 24, 36);
    if (answer == 0)
        answer = check_reserved(table, 42, 48);
    return answer == 0 ? check_parts(table, length) : answer;
}

/* So many bytes of the image; those that are not lent are zero. */
static void fill(uint8_t *table, size_t size, const uint8_t *image, size_t image_size)
{
    memset(table, 0, size);
    if (image_size != 0)
        memcpy(table, image, image_size < size ? image_size : size);
}

/* Lays the header and the checksum round what stands in the table, and puts it into the room. */
static uint64_t seal(uint8_t *table, uint32_t length, const char *signature, uint8_t *room, size_t room_size)
{
    if (length > room_size)
        return refused(21, 0);
    memcpy(table, signature, 4);
    memcpy(table + 4, &length, sizeof length);
    table[8] = 1;
    table[9] = 0;
    table[9] = (uint8_t)-c_sum(table, length);
    memcpy(room, table, length);
    return (uint64_t)length << 32;
}

uint64_t c_abft_write(const uint8_t *image, size_t image_size, uint8_t *room, size_t room_size)
{
    uint8_t table[ABFT_SIZE];
    uint64_t answer;

    fill(table, sizeof table, image, image_size);
    answer = check_oem(table);
    if (answer != 0)
        return answer;
    memset(table + 24, 0, 12);
    table[39] = 0;
    return seal(table, sizeof table, "aBFT", room, room_size);
}

uint64_t c_sbft_write(const uint8_t *image, size_t image_size, uint8_t *room, size_t room_size)
{
    uint8_t table[SBFT_SIZE];
    uint64_t answer;
    uint32_t length;

    fill(table, sizeof table, image, image_size);
    answer = check_oem(table);
    if (answer != 0)
        return answer;
    length = word(table + 40) == 0 ? SBFT_WITHOUT_IB : SBFT_SIZE;
    memset(table + 24, 0, 12);
    memcpy(table + 36, "\x30\0\x38\0\0\0\0\0\0\0\0", 12);
    if (length == SBFT_SIZE)
        table[40] = SBFT_WITHOUT_IB;
    memset(table + 130, 0, 6);
    return seal(table, length, "sBFT", room, room_size);
}
