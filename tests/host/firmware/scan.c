/*
 * The scan as firmware calls it: a table is laid in a stretch of memory, found,
 * and read through the structures of bootfw.h; then each refusal is met.
 */
#include <bootfw.h>

#include <stdbool.h>
#include <stdio.h>
#include <stdlib.h>
#include <string.h>

/* example: docs/C-INTERFACE.md shows this function */
/* The lowest sound table in the lent bytes and its Length; NULL where there is none. */
static const uint8_t *find_ibft(const uint8_t *memory, size_t memory_size,
                                uint64_t address, uint32_t *length)
{
    uint64_t answer = ibft_scan(memory, memory_size, address);

    if (ibft_answer_number(answer) != IBFT_ACCEPTED)
        return NULL;
    *length = ibft_answer_length(answer);
    return memory + (ibft_answer_address(answer) - address);
}
/* end of example */

/* A table with an initiator alone, named iqn.a: header, Control, the structure
 * at 72, the name and its zero byte behind it. */
enum {
    CONTROL = 48,
    INITIATOR_WORD = 56,
    INITIATOR = 72,
    NAME = INITIATOR + sizeof(struct ibft_initiator),
    TABLE_LENGTH = NAME + sizeof "iqn.a",
};

/* Low memory from eight bytes below the window on, so that its first byte is
 * at no multiple of 16. */
enum { MEMORY_ADDRESS = 0x7FFF8, MEMORY_SIZE = 1024 };
static uint8_t memory[MEMORY_SIZE];

static void expect(bool holds, const char *what)
{
    if (!holds) {
        printf("firmware_scan: wrong: %s\n", what);
        exit(1);
    }
}

static void write_checksum(uint8_t *table)
{
    uint8_t sum = 0;

    table[9] = 0;
    for (size_t i = 0; i < TABLE_LENGTH; i++)
        sum = (uint8_t)(sum + table[i]);
    table[9] = (uint8_t)-sum;
}

static void write_initiator(uint8_t *table)
{
    struct ibft_initiator initiator = {
        .header = {
            .id = 2,
            .version = 1,
            .length = sizeof initiator,
            .flags = IBFT_INITIATOR_VALID,
        },
        .name = { .length = sizeof "iqn.a" - 1, .offset = NAME },
    };

    memcpy(table + INITIATOR, &initiator, sizeof initiator);
    memcpy(table + NAME, "iqn.a", sizeof "iqn.a");
}

/* Clears the memory and lays the table at the given address. */
static uint8_t *lay_table(uint64_t address)
{
    static const uint8_t control[] = { 1, 1, 18, 0, 0, 0 };
    uint8_t *table = memory + (address - MEMORY_ADDRESS);

    memset(memory, 0, sizeof memory);
    memcpy(table, "iBFT", 4);
    table[4] = TABLE_LENGTH;
    table[8] = 1;
    memcpy(table + CONTROL, control, sizeof control);
    table[INITIATOR_WORD] = INITIATOR;
    write_initiator(table);
    write_checksum(table);
    return table;
}

static void expect_refused(const char *what, uint64_t answer, enum ibft_refusal number)
{
    printf("firmware_scan: %s: refused %u\n", what, (unsigned)ibft_answer_number(answer));
    expect(ibft_answer_number(answer) == number, what);
    expect(ibft_answer_address(answer) == 0, "a refused scan has address 0");
    expect(ibft_answer_length(answer) == 0, "a refused scan has Length 0");
    expect(answer == number, "a refused scan has nothing but its number");
}

static void finds_the_table(void)
{
    const uint8_t *laid = lay_table(IBFT_WINDOW_START);
    uint64_t answer = ibft_scan(memory, sizeof memory, MEMORY_ADDRESS);

    printf("firmware_scan: table at 0x%x, Length %u\n",
           (unsigned)ibft_answer_address(answer), (unsigned)ibft_answer_length(answer));
    expect(ibft_answer_number(answer) == IBFT_ACCEPTED, "a sound table is found");
    expect(ibft_answer_address(answer) == IBFT_WINDOW_START, "its address");
    expect(ibft_answer_length(answer) == TABLE_LENGTH, "its Length");

    uint32_t length = 0;
    const uint8_t *table = find_ibft(memory, sizeof memory, MEMORY_ADDRESS, &length);
    expect(table == laid, "it is the table laid");
    expect(length == TABLE_LENGTH, "with its Length");
}

static void reads_the_name(void)
{
    uint32_t length = 0;
    struct ibft_initiator initiator;

    lay_table(IBFT_WINDOW_START);
    const uint8_t *table = find_ibft(memory, sizeof memory, MEMORY_ADDRESS, &length);
    expect(table != NULL, "a sound table is found");
    memcpy(&initiator, table + INITIATOR, sizeof initiator);
    printf("firmware_scan: initiator %.*s\n",
           (int)initiator.name.length, (const char *)table + initiator.name.offset);
    expect(initiator.name.length == 5, "the name's length");
    expect(memcmp(table + initiator.name.offset, "iqn.a", 5) == 0, "the name's bytes");
}

static void meets_each_refusal(void)
{
    uint8_t *table = lay_table(IBFT_WINDOW_START);
    size_t cut = (size_t)(table - memory) + TABLE_LENGTH - 1;

    expect_refused("one byte past the window",
                   ibft_scan(memory, sizeof memory, IBFT_WINDOW_END - sizeof memory + 1),
                   IBFT_REFUSED_PAST_WINDOW);
    expect_refused("address + size past 2^64",
                   ibft_scan(memory, sizeof memory, UINT64_MAX), IBFT_REFUSED_PAST_WINDOW);
    expect_refused("table cut by the end of the bytes",
                   ibft_scan(memory, cut, MEMORY_ADDRESS), IBFT_REFUSED_NO_TABLE);
    expect_refused("nothing lent",
                   ibft_scan(NULL, 0, IBFT_WINDOW_START), IBFT_REFUSED_NO_TABLE);
    table[TABLE_LENGTH - 1]++;
    expect_refused("wrong sum",
                   ibft_scan(memory, sizeof memory, MEMORY_ADDRESS), IBFT_REFUSED_NO_TABLE);
    lay_table(IBFT_WINDOW_START + 8);
    expect_refused("table at 0x80008",
                   ibft_scan(memory, sizeof memory, MEMORY_ADDRESS), IBFT_REFUSED_NO_TABLE);
}

int main(void)
{
    finds_the_table();
    reads_the_name();
    meets_each_refusal();
    return 0;
}
