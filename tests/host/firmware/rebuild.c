/*
 * The rebuild as firmware calls it: tables that other firmware left are rebuilt
 * into as many bytes as they then take and into one less; so are two that get
 * longer and one with extras; then refusals are met, each with its place.
 *
 *   firmware_rebuild FOLDER    FOLDER has the tables: samples/ of this repository
 */
#include <bootfw.h>

#include <stdbool.h>
#include <stdio.h>
#include <stdlib.h>
#include <string.h>

/* example: docs/C-INTERFACE.md shows this function */
/* Rebuilds a table that other firmware left, as short as it can be; its new Length, or 0. */
static uint32_t rebuild_ibft(const uint8_t *table, size_t table_size, uint8_t *room,
                             size_t room_size)
{
    uint64_t answer = ibft_rebuild(table, table_size, room, room_size);
    struct ibft_table_header before;

    if (ibft_answer_number(answer) != IBFT_ACCEPTED) {
        printf("iBFT not rebuilt: refused %u %u: %s\n", (unsigned)ibft_answer_number(answer),
               (unsigned)ibft_answer_place(answer),
               ibft_refusal_text(ibft_answer_number(answer)));
        return 0;
    }
    memcpy(&before, table, sizeof before);
    printf("iBFT rebuilt: %u bytes where %u were\n", (unsigned)ibft_answer_length(answer),
           (unsigned)before.length);
    return ibft_answer_length(answer);
}
/* end of example */

enum { TABLE_SIZE = 4096, GUARD = 16, PATTERN = 0xA5, CHECKSUM = 9 };
static uint8_t table[TABLE_SIZE], table_before[TABLE_SIZE];
static uint8_t memory[GUARD + TABLE_SIZE + GUARD];
static uint8_t *const room = memory + GUARD;

static void expect(bool holds, const char *what)
{
    if (!holds) {
        printf("firmware_rebuild: wrong: %s\n", what);
        exit(1);
    }
}

static bool is_pattern(const uint8_t *bytes, size_t size)
{
    for (size_t i = 0; i < size; i++)
        if (bytes[i] != PATTERN)
            return false;
    return true;
}

static void mend_sum(size_t length)
{
    uint8_t sum = 0;

    table[CHECKSUM] = 0;
    for (size_t i = 0; i < length; i++)
        sum = (uint8_t)(sum + table[i]);
    table[CHECKSUM] = (uint8_t)-sum;
}

/* Reads a table of samples/ and says how many bytes it has. */
static size_t load(const char *folder, const char *name)
{
    char path[4096];
    FILE *file;
    size_t size;

    snprintf(path, sizeof path, "%s/%s.ibft", folder, name);
    file = fopen(path, "rb");
    expect(file != NULL, "the table's file");
    size = fread(table, 1, sizeof table, file);
    fclose(file);
    return size;
}

/* A call with guards round the room; neither they nor the table may change. */
static uint32_t rebuild(size_t table_size, size_t room_size)
{
    uint32_t length;

    memset(memory, PATTERN, sizeof memory);
    memcpy(table_before, table, sizeof table);
    length = rebuild_ibft(table, table_size, room, room_size);
    expect(memcmp(table, table_before, sizeof table) == 0, "the table is only read");
    expect(is_pattern(memory, GUARD), "bytes before the room");
    expect(is_pattern(room + length, sizeof memory - GUARD - length), "bytes from Length on");
    return length;
}

/* The table has `before` bytes and takes `after`: in a room that is larger, just enough, and
 * too small. What was rebuilt once stays as it is. */
static void rebuilds(size_t before, uint32_t after)
{
    static uint8_t first[TABLE_SIZE];

    expect(rebuild(before, TABLE_SIZE) == after, "the Length in a large room");
    expect(rebuild(sizeof table, after) == after, "the Length, with more bytes lent");
    expect(ibft_check(room, after) == 0, "the check accepts it");
    memcpy(first, room, after);
    expect(rebuild(before, after - 1) == 0, "a byte less is too few");
    memcpy(table, first, after);
    expect(rebuild(after, after) == after, "the Length once more");
    expect(memcmp(room, first, after) == 0, "the same bytes once more");
}

/* What iPXE and TianoCore wrote. */
static void rebuilds_samples(const char *folder)
{
    static const struct {
        const char *name;
        size_t before;
        uint32_t after;
    } samples[] = {
        { "ipxe-one-target", 597, 395 },
        { "ipxe-mutual-chap", 611, 402 },
        { "ipxe-two-targets", 607, 551 },
        { "ovmf-one-target", 2048, 364 },
    };

    for (size_t i = 0; i < sizeof samples / sizeof samples[0]; i++) {
        expect(load(folder, samples[i].name) == samples[i].before, "the sample's bytes");
        rebuilds(samples[i].before, samples[i].after);
        printf("firmware_rebuild: %s: %u bytes saved\n", samples[i].name,
               (unsigned)(samples[i].before - samples[i].after));
    }
}

/* A header and a Control with so many extra words, nothing else. */
static void lay_control(uint32_t length, unsigned extra_words)
{
    const uint8_t control[] = { IBFT_ID_CONTROL, IBFT_STRUCTURE_VERSION,
                                (uint8_t)(18 + 2 * extra_words), 0, 0, 0 };

    memset(table, 0, sizeof table);
    memcpy(table, IBFT_SIGNATURE, 4);
    memcpy(table + 4, &length, sizeof length);
    table[8] = IBFT_REVISION;
    memcpy(table + IBFT_CONTROL_OFFSET, control, sizeof control);
}

/* A structure without strings, and the word that leads to it. */
static void lay_structure(unsigned word, uint16_t start, enum ibft_structure_id id, size_t size,
                          uint8_t index)
{
    struct ibft_structure_header header = { 0 };

    header.id = (uint8_t)id;
    header.version = IBFT_STRUCTURE_VERSION;
    header.length = (uint16_t)size;
    header.index = index;
    memcpy(table + IBFT_WORD_OFFSET(word), &start, sizeof start);
    memcpy(table + start, &header, sizeof header);
}

/* The initiator behind NIC 0 costs no padding, in front of it four bytes. */
static void rebuilds_longer(void)
{
    lay_control(250, 0);
    lay_structure(IBFT_SLOT_NIC0, 72, IBFT_ID_NIC, sizeof(struct ibft_nic), 0);
    lay_structure(IBFT_SLOT_INITIATOR, 176, IBFT_ID_INITIATOR, sizeof(struct ibft_initiator), 0);
    mend_sum(250);
    rebuilds(250, 254);
    printf("firmware_rebuild: the initiator last: 4 bytes longer\n");
}

/* Target 0, whose name and CHAP secret are the same bytes. Rebuilt the secret has bytes of its
 * own, behind the name. */
static void rebuilds_shared_secret(void)
{
    enum { TARGET = 72, HEAP = 126, SIZE = sizeof "depot7", LENGTH = HEAP + SIZE };
    const struct ibft_entry words = { .length = SIZE - 1, .offset = HEAP };
    struct ibft_target target;

    lay_control(LENGTH, 0);
    lay_structure(IBFT_SLOT_TARGET0, TARGET, IBFT_ID_TARGET, sizeof target, 0);
    memcpy(table + TARGET + offsetof(struct ibft_target, name), &words, sizeof words);
    memcpy(table + TARGET + offsetof(struct ibft_target, chap_secret), &words, sizeof words);
    memcpy(table + HEAP, "depot7", SIZE);
    mend_sum(LENGTH);
    expect(ibft_check(table, LENGTH) == 0, "the check accepts a secret that shares bytes");
    rebuilds(LENGTH, LENGTH + SIZE);
    memcpy(&target, room + TARGET, sizeof target);
    expect(target.name.offset == HEAP, "where the name stands");
    expect(target.chap_secret.offset == HEAP + SIZE, "where the secret stands");
    expect(memcmp(room + HEAP, "depot7\0depot7", SIZE + SIZE) == 0, "the heap");
    printf("firmware_rebuild: a secret that shared 7 bytes: 7 bytes longer\n");
}

/* Twelve extra words, three of them used: by Target 9, NIC 5 and NIC 2, whose structures stand
 * in another order. Rebuilt it is NIC 2 at 72, NIC 5 at 176 and Target 9 at 280, in words 5, 6
 * and 7. */
static void rebuilds_extras(void)
{
    enum { LENGTH = 600, TARGET_9 = 96, NIC_2 = 160, NIC_5 = 400, AFTER = 334 };
    static const uint8_t control[] = { 1, 1, 24, 0, 0, 0, 0, 0, 0, 0, 0, 0, 0, 0, 0, 0, 0, 0,
                                       72, 0, 176, 0, 280 % 256, 1 };
    static const struct { unsigned start; uint8_t bytes[5]; } structures[] = {
        { 72, { 3, 1, 102, 0, 2 } },
        { 176, { 3, 1, 102, 0, 5 } },
        { 280, { 4, 1, 54, 0, 9 } },
    };

    lay_control(LENGTH, IBFT_MOST_EXTRA_WORDS);
    lay_structure(6, TARGET_9, IBFT_ID_TARGET, sizeof(struct ibft_target), 9);
    lay_structure(9, NIC_5, IBFT_ID_NIC, sizeof(struct ibft_nic), 5);
    lay_structure(16, NIC_2, IBFT_ID_NIC, sizeof(struct ibft_nic), 2);
    mend_sum(LENGTH);
    rebuilds(LENGTH, AFTER);
    expect(memcmp(room + IBFT_CONTROL_OFFSET, control, sizeof control) == 0, "Control's words");
    for (size_t i = 0; i < sizeof structures / sizeof structures[0]; i++)
        expect(memcmp(room + structures[i].start, structures[i].bytes, 5) == 0, "a structure");
    printf("firmware_rebuild: NICs 2 and 5 and Target 9 by Index\n");
}

/* A refused rebuild; says what stands from bit 32 on of the answer. */
static uint64_t refused(const char *what, size_t table_size, size_t room_size,
                        enum ibft_refusal number, uint32_t place)
{
    uint64_t answer;

    memset(memory, PATTERN, sizeof memory);
    answer = ibft_rebuild(table, table_size, room, room_size);
    printf("firmware_rebuild: %s: refused %u %u\n", what,
           (unsigned)ibft_answer_number(answer), (unsigned)ibft_answer_place(answer));
    expect(ibft_answer_number(answer) == number, "the number");
    expect(ibft_answer_place(answer) == place, "the place");
    expect(ibft_answer_length(answer) == 0, "a refused rebuild has Length 0");
    expect(answer >> 32 == ibft_answer_checksum(answer), "a checksum byte at most");
    expect(is_pattern(memory, sizeof memory), "a refused rebuild leaves the room untouched");
    return answer >> 32;
}

static void expect_refused(const char *what, size_t table_size, size_t room_size,
                           enum ibft_refusal number, uint32_t place)
{
    expect(refused(what, table_size, room_size, number, place) == 0, "bits 32-63 are 0");
}

/* A wrong sum comes with the byte that would be right, whatever is lent and whatever the room. */
static void expect_wrong_sum(size_t table_size, uint8_t checksum)
{
    const enum ibft_refusal number = IBFT_REFUSED_SUM;

    expect(refused("a wrong sum", table_size, TABLE_SIZE, number, CHECKSUM) == checksum, "the byte");
    expect(refused("that, no room", table_size, 0, number, CHECKSUM) == checksum, "the byte");
    table[table_size] = 7;
    expect(refused("that, more lent", sizeof table, 0, number, CHECKSUM) == checksum, "the byte");
}

/* One thing is wrong after another; what the check refuses comes first, then 20, then 21. */
static void refuses(const char *folder)
{
    size_t size = load(folder, "ipxe-mutual-chap");
    struct ibft_target target;
    uint16_t start;

    expect_refused("one byte of room too few", size, 401, IBFT_REFUSED_ROOM, 0);
    memcpy(&start, table + IBFT_WORD_OFFSET(IBFT_SLOT_TARGET0), sizeof start);
    memcpy(&target, table + start, sizeof target);
    table[target.chap_secret.offset] = 0;
    mend_sum(size);
    expect(ibft_check(table, size) == 0, "the check accepts a zero byte in a string");
    expect_refused("a zero byte in a string", size, TABLE_SIZE, IBFT_REFUSED_ENTRY_ZERO,
                   IBFT_ENTRY_TARGET0_CHAP_SECRET);
    expect_refused("a zero byte, and no room", size, 0, IBFT_REFUSED_ENTRY_ZERO,
                   IBFT_ENTRY_TARGET0_CHAP_SECRET);
    table[start + offsetof(struct ibft_target, chap_type)] = IBFT_CHAP_TYPE_MUTUAL + 1;
    mend_sum(size);
    expect_refused("CHAP type 3", size, TABLE_SIZE, IBFT_REFUSED_CHAP_TYPE, start + 32u);
    table[CHECKSUM]++;
    expect_wrong_sum(size, (uint8_t)(table[CHECKSUM] - 1));
    expect_refused("a table that is cut", size - 1, TABLE_SIZE, IBFT_REFUSED_LENGTH, 4);
    expect_refused("nothing lent", 0, TABLE_SIZE, IBFT_REFUSED_FEW_BYTES, 0);
}

int main(int argc, char **argv)
{
    expect(argc == 2, "the folder of the tables is to be named");
    rebuilds_samples(argv[1]);
    rebuilds_longer();
    rebuilds_shared_secret();
    rebuilds_extras();
    refuses(argv[1]);
    return 0;
}
