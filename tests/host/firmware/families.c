/*
 * The tables for AoE and SRP as firmware uses them: each is written from an image,
 * found in low memory, checked and read through the structures of bootfw.h; then
 * refusals are met, each with its place. C from C99 on and C++ from C++98 on:
 * tests/host/run compiles it as each.
 */
#include <bootfw.h>

#include <stdio.h>
#include <stdlib.h>
#include <string.h>

/* example: docs/C-INTERFACE.md shows this function */
/* Writes the table of an AoE disk and of the network card to reach it by; its Length, or 0. */
static uint32_t write_abft(uint16_t shelf, uint8_t slot, const uint8_t mac_address[6],
                           uint8_t *room, size_t room_size)
{
    struct abft image;

    memset(&image, 0, sizeof image);
    memcpy(image.oem_id, "DEPOT", sizeof "DEPOT");
    image.shelf = shelf;
    image.slot = slot;
    memcpy(image.mac_address, mac_address, sizeof image.mac_address);
    return ibft_answer_length(abft_write((const uint8_t *)&image, sizeof image,
                                         room, room_size));
}
/* end of example */

/* example: docs/C-INTERFACE.md shows this function */
/* The InfiniBand part of the lowest sBFT in the lent bytes; 0 where there is none to be used. */
static int find_ib(const uint8_t *memory, size_t memory_size, uint64_t address,
                   struct sbft_ib *ib)
{
    uint64_t found = sbft_scan(memory, memory_size, address);
    const uint8_t *table;
    uint16_t start;

    if (ibft_answer_number(found) != IBFT_ACCEPTED)
        return 0;
    table = memory + (ibft_answer_address(found) - address);
    if (ibft_answer_number(sbft_check(table, ibft_answer_length(found))) != IBFT_ACCEPTED)
        return 0;
    memcpy(&start, table + offsetof(struct sbft, ib_offset), sizeof start);
    if (start == 0)
        return 0;
    memcpy(ib, table + start, sizeof *ib);
    return 1;
}
/* end of example */

enum { MEMORY_SIZE = 512 };
static uint8_t memory[MEMORY_SIZE];
static const uint8_t mac_address[6] = { 0x52, 0x54, 0x00, 0x12, 0x34, 0x56 };

static void expect(int holds, const char *what)
{
    if (!holds) {
        printf("firmware_families: wrong: %s\n", what);
        exit(1);
    }
}

static void expect_answer(const char *what, uint64_t answer, enum ibft_refusal number,
                          uint64_t place)
{
    if (ibft_answer_number(answer) != number || ibft_answer_place(answer) != place
        || answer >> 32 != 0) {
        printf("firmware_families: %s: 0x%lx is not %u %u\n", what, (unsigned long)answer,
               (unsigned)number, (unsigned)place);
        exit(1);
    }
}

/* Of a wrong sum, with the byte that would be right at 9. */
static void expect_wrong_sum(const char *what, uint64_t answer, uint8_t checksum)
{
    expect(ibft_answer_checksum(answer) == checksum, what);
    expect(ibft_answer_length(answer) == 0, "a byte is no Length");
    expect(answer >> 40 == 0, "bits 40-63 of a wrong sum");
    expect_answer(what, answer & UINT32_MAX, IBFT_REFUSED_SUM, 9);
}

/* Sets the checksum byte of the table at the start of the memory. */
static void mend(size_t length)
{
    uint8_t sum = 0;
    size_t i;

    memory[9] = 0;
    for (i = 0; i < length; i++)
        sum = (uint8_t)(sum + memory[i]);
    memory[9] = (uint8_t)(0x100 - sum);
}

/* ---- The aBFT ------------------------------------------------------------------- */

static void lay_abft(void)
{
    memset(memory, 0, sizeof memory);
    expect(write_abft(0x1234, 3, mac_address, memory, sizeof memory) == ABFT_LENGTH,
           "an aBFT is written");
}

static void writes_and_reads_abft(void)
{
    struct abft table;
    uint64_t found;

    lay_abft();
    /* A table at address 0: the number tells that it was found. */
    found = abft_scan(memory, sizeof memory, ABFT_WINDOW_START);
    expect(ibft_answer_number(found) == IBFT_ACCEPTED, "an aBFT is found");
    expect(ibft_answer_address(found) == 0, "at address 0");
    expect(ibft_answer_length(found) == ABFT_LENGTH, "its Length");
    expect_answer("an aBFT", abft_check(memory, ABFT_LENGTH), IBFT_ACCEPTED, 0);
    expect_answer("more lent", abft_check(memory, sizeof memory), IBFT_ACCEPTED, 0);
    memcpy(&table, memory, sizeof table);
    expect(memcmp(table.signature, ABFT_SIGNATURE, sizeof table.signature) == 0, "its signature");
    expect(table.length == ABFT_LENGTH && table.revision == IBFT_REVISION, "Length, Revision");
    expect(memcmp(table.oem_id, "DEPOT", sizeof "DEPOT") == 0, "the OEMID");
    expect(table.shelf == 0x1234 && memory[36] == 0x34, "the shelf, little endian");
    expect(table.slot == 3, "the slot");
    expect(memcmp(table.mac_address, mac_address, sizeof mac_address) == 0, "the MAC address");
    expect(memory[ABFT_LENGTH] == 0, "the room past Length");
}

/* Lays the aBFT with one byte set and its sum mended, and checks it. */
static uint64_t check_abft_with(size_t at, uint8_t byte)
{
    lay_abft();
    memory[at] = byte;
    mend(ABFT_LENGTH);
    return abft_check(memory, ABFT_LENGTH);
}

static void refuses_abft(void)
{
    struct abft image;
    size_t i;

    expect_answer("nothing lent", abft_check(NULL, 0), IBFT_REFUSED_FEW_BYTES, 0);
    expect_answer("signature", check_abft_with(0, 's'), IBFT_REFUSED_SIGNATURE, 0);
    expect_answer("Length 45", check_abft_with(4, 45), IBFT_REFUSED_LENGTH, 4);
    expect_answer("Revision", check_abft_with(8, 2), IBFT_REFUSED_REVISION, 8);
    expect_answer("OEM Table ID", check_abft_with(17, 1), IBFT_REFUSED_OEM_TAIL, 16);
    for (i = 24; i < 36; i++)
        expect_answer("reserved", check_abft_with(i, 1), IBFT_REFUSED_RESERVED, i);
    expect_answer("reserved", check_abft_with(offsetof(struct abft, reserved_39), 1),
                  IBFT_REFUSED_RESERVED, 39);
    lay_abft();
    memory[9]++;
    expect_wrong_sum("sum", abft_check(memory, ABFT_LENGTH), (uint8_t)(memory[9] - 1));
    memory[ABFT_LENGTH] = 7;
    expect_wrong_sum("sum, more lent", abft_check(memory, sizeof memory), (uint8_t)(memory[9] - 1));
    memset(&image, 0, sizeof image);
    expect_answer("a byte of room too few", abft_write((const uint8_t *)&image, sizeof image,
                                                       memory, ABFT_LENGTH - 1),
                  IBFT_REFUSED_ROOM, 0);
    image.oem_id[1] = 1;
    expect_answer("OEMID", abft_write((const uint8_t *)&image, sizeof image, memory, 0),
                  IBFT_REFUSED_OEM_TAIL, 10);
}

/* ---- The sBFT ------------------------------------------------------------------- */

/* An image with something in every field; the IB part is present where asked for. */
static struct sbft sbft_image(int with_ib)
{
    struct sbft image;

    memset(&image, 0, sizeof image);
    memcpy(image.oem_table_id, "CABINET", sizeof "CABINET");
    memset(image.scsi.lun, 0x11, sizeof image.scsi.lun);
    memset(image.srp.initiator_port, 0x22, sizeof image.srp.initiator_port);
    memset(image.srp.target_port, 0x33, sizeof image.srp.target_port);
    memset(image.ib.source_gid, 0x44, sizeof image.ib.source_gid);
    memset(image.ib.destination_gid, 0x55, sizeof image.ib.destination_gid);
    memset(image.ib.service, 0x66, sizeof image.ib.service);
    image.ib.partition_key = 0x7788;
    image.ib_offset = (uint16_t)(with_ib ? 1 : 0);
    return image;
}

static void lay_sbft(int with_ib)
{
    const uint32_t length = with_ib ? SBFT_LENGTH : SBFT_LENGTH_WITHOUT_IB;
    struct sbft image = sbft_image(with_ib);
    uint64_t answer;

    memset(memory, 0, sizeof memory);
    answer = sbft_write((const uint8_t *)&image, sizeof image, memory, sizeof memory);
    expect(ibft_answer_number(answer) == IBFT_ACCEPTED, "an sBFT is written");
    expect(ibft_answer_length(answer) == length, "its Length");
}

static void writes_and_reads_sbft(void)
{
    const struct sbft image = sbft_image(1);
    struct sbft table;
    struct sbft_ib ib;

    lay_sbft(1);
    expect_answer("an sBFT", sbft_check(memory, SBFT_LENGTH), IBFT_ACCEPTED, 0);
    memcpy(&table, memory, sizeof table);
    expect(memcmp(table.signature, SBFT_SIGNATURE, sizeof table.signature) == 0, "its signature");
    expect(table.length == SBFT_LENGTH && table.revision == IBFT_REVISION, "Length, Revision");
    expect(table.scsi_offset == offsetof(struct sbft, scsi), "where the SCSI part starts");
    expect(table.srp_offset == offsetof(struct sbft, srp), "where the SRP part starts");
    expect(table.ib_offset == offsetof(struct sbft, ib), "where the IB part starts");
    expect(memcmp(&table.scsi, &image.scsi, sizeof image.scsi) == 0, "the SCSI part");
    expect(memcmp(&table.srp, &image.srp, sizeof image.srp) == 0, "the SRP part");
    expect(memcmp(&table.ib, &image.ib, sizeof image.ib) == 0, "the IB part");
    expect(memory[128] == 0x88 && memory[129] == 0x77, "the partition key, little endian");
    expect(find_ib(memory, sizeof memory, SBFT_WINDOW_END - sizeof memory, &ib), "it is found");
    expect(ib.partition_key == 0x7788, "the part that is found");
    expect(!find_ib(memory, sizeof memory, SBFT_WINDOW_END - sizeof memory + 1, &ib),
           "past the window");
    lay_sbft(0);
    memcpy(&table, memory, sizeof table);
    expect(table.ib_offset == 0, "an IB part that is absent");
    expect_answer("an sBFT without IB part", sbft_check(memory, SBFT_LENGTH_WITHOUT_IB),
                  IBFT_ACCEPTED, 0);
    expect(!find_ib(memory, sizeof memory, 0, &ib), "there is no part to be found");
}

/* Lays the sBFT with one byte set and its sum mended, and checks it. */
static uint64_t check_sbft_with(size_t at, uint8_t byte)
{
    lay_sbft(1);
    memory[at] = byte;
    mend(SBFT_LENGTH);
    return sbft_check(memory, SBFT_LENGTH);
}

static void refuses_sbft(void)
{
    const size_t words[] = { offsetof(struct sbft, scsi_offset), offsetof(struct sbft, srp_offset),
                             offsetof(struct sbft, ib_offset) };
    const size_t ib_reserved = offsetof(struct sbft, ib) + offsetof(struct sbft_ib, reserved);
    struct sbft image = sbft_image(1);
    size_t i;

    expect_answer("signature", check_sbft_with(0, 'a'), IBFT_REFUSED_SIGNATURE, 0);
    expect_answer("Length 47", check_sbft_with(4, 47), IBFT_REFUSED_LENGTH, 4);
    lay_sbft(1);
    memory[SBFT_LENGTH - 20]++;
    expect_wrong_sum("sum", sbft_check(memory, SBFT_LENGTH), (uint8_t)(memory[9] - 1));
    memory[SBFT_LENGTH] = 7;
    expect_wrong_sum("sum, more lent", sbft_check(memory, sizeof memory), (uint8_t)(memory[9] - 1));
    for (i = 24; i < 36; i++)
        expect_answer("reserved", check_sbft_with(i, 1), IBFT_REFUSED_RESERVED, i);
    for (i = 42; i < SBFT_LEAST_LENGTH; i++)
        expect_answer("reserved", check_sbft_with(i, 1), IBFT_REFUSED_RESERVED, i);
    for (i = 0; i < 3; i++) {
        expect_answer("a part at 47", check_sbft_with(words[i], SBFT_LEAST_LENGTH - 1),
                      IBFT_REFUSED_PART_PLACE, words[i]);
        expect_answer("a part past Length", check_sbft_with(words[i], SBFT_LENGTH - 7),
                      IBFT_REFUSED_PART_PLACE, words[i]);
    }
    expect_answer("SCSI on SRP", check_sbft_with(words[0], 56), IBFT_REFUSED_PART_OVERLAP, words[1]);
    expect_answer("IB on SRP", check_sbft_with(words[2], 87), IBFT_REFUSED_PART_OVERLAP, words[2]);
    expect_answer("no SRP part", check_sbft_with(words[1], 0), IBFT_REFUSED_PART_PLACE, words[1]);
    for (i = ib_reserved; i < SBFT_LENGTH; i++)
        expect_answer("reserved of IB", check_sbft_with(i, 1), IBFT_REFUSED_RESERVED, i);
    expect_answer("a byte of room too few", sbft_write((const uint8_t *)&image, sizeof image,
                                                       memory, SBFT_LENGTH - 1),
                  IBFT_REFUSED_ROOM, 0);
    image.oem_table_id[7] = 1;
    image.oem_table_id[0] = 0;
    expect_answer("OEM Table ID", sbft_write((const uint8_t *)&image, sizeof image, memory, 0),
                  IBFT_REFUSED_OEM_TAIL, 16);
}

int main(void)
{
    writes_and_reads_abft();
    refuses_abft();
    writes_and_reads_sbft();
    refuses_sbft();
    printf("firmware_families: an aBFT and an sBFT written, found, checked and read\n");
    return 0;
}
