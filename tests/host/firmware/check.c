/*
 * The check as firmware calls it: a table is laid in low memory, found by the
 * scan, checked, and read through the structures of bootfw.h; then refusals are
 * met, each with its place, and that of a wrong sum with the byte that would be right.
 */
#include <bootfw.h>

#include <stdbool.h>
#include <stdio.h>
#include <stdlib.h>
#include <string.h>

/* example: docs/C-INTERFACE.md shows this function */
/* Whether the table may be used; where it may not, says why and where. */
static bool accept_ibft(const uint8_t *table, size_t table_size)
{
    uint64_t answer = ibft_check(table, table_size);

    if (ibft_answer_number(answer) == IBFT_ACCEPTED)
        return true;
    printf("iBFT refused %u %u: %s\n", (unsigned)ibft_answer_number(answer),
           (unsigned)ibft_answer_place(answer), ibft_refusal_text(ibft_answer_number(answer)));
    if (ibft_answer_number(answer) == IBFT_REFUSED_SUM)
        printf("the checksum is %u, and %u would be right\n",
               (unsigned)table[ibft_answer_place(answer)], (unsigned)ibft_answer_checksum(answer));
    return false;
}
/* end of example */

/* example: docs/C-INTERFACE.md shows this function */
/* Where the structure of this kind and Index starts in an accepted table; 0 if it has none. */
static uint16_t find_structure(const uint8_t *table, enum ibft_structure_id id, uint8_t index)
{
    struct ibft_control control;

    memcpy(&control, table + IBFT_CONTROL_OFFSET, sizeof control);
    for (unsigned w = 0; w < ibft_control_words(&control); w++) {
        struct ibft_structure_header header;
        uint16_t start;

        memcpy(&start, table + IBFT_WORD_OFFSET(w), sizeof start);
        memcpy(&header, table + start, sizeof header);
        if (start != 0 && header.id == id && header.index == index)
            return start;
    }
    return 0;
}
/* end of example */

/* A table with NIC 0 and Target 0, a host name and a target name. */
enum {
    CONTROL = 48,
    NIC_WORD = CONTROL + 10,
    TARGET_WORD = CONTROL + 12,
    EXTRA_WORD = CONTROL + 18,
    NIC = 72,
    TARGET = 176,
    HEAP = TARGET + sizeof(struct ibft_target),
    HOST_NAME = HEAP,
    TARGET_NAME = HOST_NAME + sizeof "cabinet7.depot",
    TABLE_LENGTH = TARGET_NAME + sizeof "iqn.a",
};

enum { TABLE_ADDRESS = 0x9F000, MEMORY_ADDRESS = 0x9EF00, MEMORY_SIZE = 1024 };
static uint8_t memory[MEMORY_SIZE];
static uint8_t *const table = memory + (TABLE_ADDRESS - MEMORY_ADDRESS);

static void expect(bool holds, const char *what)
{
    if (!holds) {
        printf("firmware_check: wrong: %s\n", what);
        exit(1);
    }
}

static void write_checksum(void)
{
    uint8_t sum = 0;

    table[9] = 0;
    for (size_t i = 0; i < TABLE_LENGTH; i++)
        sum = (uint8_t)(sum + table[i]);
    table[9] = (uint8_t)-sum;
}

static void write_structures(void)
{
    struct ibft_nic nic = {
        .header = { .id = 3, .version = 1, .length = sizeof nic, .flags = IBFT_NIC_VALID },
        .pci_bus_dev_func = 0x0019,
        .host_name = { .length = sizeof "cabinet7.depot" - 1, .offset = HOST_NAME },
    };
    struct ibft_target target = {
        .header = { .id = 4, .version = 1, .length = sizeof target, .flags = IBFT_TARGET_VALID },
        .ip_socket = 3260,
        .chap_type = 1,
        .name = { .length = sizeof "iqn.a" - 1, .offset = TARGET_NAME },
    };

    memcpy(table + NIC, &nic, sizeof nic);
    memcpy(table + TARGET, &target, sizeof target);
    memcpy(table + HOST_NAME, "cabinet7.depot", sizeof "cabinet7.depot");
    memcpy(table + TARGET_NAME, "iqn.a", sizeof "iqn.a");
}

/* Clears the memory and lays the table. */
static void lay_table(void)
{
    static const uint8_t control[] = { 1, 1, 18, 0, 0, 0 };

    memset(memory, 0, sizeof memory);
    memcpy(table, "iBFT", 4);
    table[4] = (uint8_t)TABLE_LENGTH;
    table[5] = (uint8_t)(TABLE_LENGTH >> 8);
    table[8] = 1;
    memcpy(table + CONTROL, control, sizeof control);
    table[NIC_WORD] = NIC;
    table[TARGET_WORD] = TARGET;
    write_structures();
    write_checksum();
}

/* Lays the table with one byte changed and its sum mended, and checks it. */
static void expect_refused(const char *what, size_t at, uint8_t byte,
                           enum ibft_refusal number, uint32_t place)
{
    uint64_t answer;

    lay_table();
    table[at] = byte;
    write_checksum();
    answer = ibft_check(table, TABLE_LENGTH);
    printf("firmware_check: %s: refused %u %u\n", what,
           (unsigned)ibft_answer_number(answer), (unsigned)ibft_answer_place(answer));
    expect(ibft_answer_number(answer) == number, "the number");
    expect(ibft_answer_place(answer) == place, "the place");
    expect(answer >> 32 == 0, "bits 32-63 are 0");
    expect(ibft_answer_checksum(answer) == 0, "no checksum byte");
    expect(ibft_answer_length(answer) == 0, "no Length");
}

/* The table as it stands, whose sum is wrong: the byte that would be right at 9. With more bytes
 * lent it is the same. */
static void expect_wrong_sum(const char *what, uint8_t checksum)
{
    uint64_t answer = ibft_check(table, TABLE_LENGTH);

    printf("firmware_check: %s: refused %u %u %u\n", what, (unsigned)ibft_answer_number(answer),
           (unsigned)ibft_answer_place(answer), (unsigned)ibft_answer_checksum(answer));
    expect(ibft_answer_number(answer) == IBFT_REFUSED_SUM, "the number");
    expect(ibft_answer_place(answer) == 9, "the place");
    expect(ibft_answer_checksum(answer) == checksum, "the checksum byte");
    expect(ibft_answer_length(answer) == 0, "a byte is no Length");
    expect(answer >> 40 == 0, "bits 40-63 are 0");
    table[TABLE_LENGTH] = 7;
    expect(ibft_check(table, TABLE_LENGTH + 1) == answer, "a byte behind the table");
}

static void finds_and_accepts(void)
{
    uint64_t found;
    const uint8_t *there;
    uint32_t length;

    lay_table();
    found = ibft_scan(memory, sizeof memory, MEMORY_ADDRESS);
    expect(ibft_answer_number(found) == IBFT_ACCEPTED, "the table is found");
    there = memory + (ibft_answer_address(found) - MEMORY_ADDRESS);
    length = ibft_answer_length(found);
    expect(there == table && length == TABLE_LENGTH, "it is the table laid");
    expect(accept_ibft(there, length), "the check accepts it");
    expect(accept_ibft(there, length + 100), "more may be lent than its Length");
    expect(ibft_check(there, length) == 0, "an accepted table's answer is 0");
    printf("firmware_check: table of %u bytes accepted\n", (unsigned)length);
}

/* In an accepted table every offset may be followed without another test. */
static void reads_the_target(void)
{
    struct ibft_target target;
    uint16_t start;

    lay_table();
    expect(accept_ibft(table, TABLE_LENGTH), "the check accepts it");
    memcpy(&start, table + TARGET_WORD, sizeof start);
    memcpy(&target, table + start, sizeof target);
    printf("firmware_check: target %s\n", (const char *)table + target.name.offset);
    expect(target.ip_socket == 3260, "the socket");
    expect(strcmp((const char *)table + target.name.offset, "iqn.a") == 0, "the name");
}

/* Lays the table with Target 7, an extra, in place of Target 0. */
static void lay_extra(void)
{
    lay_table();
    table[CONTROL + 2] = 20;
    table[TARGET_WORD] = 0;
    table[EXTRA_WORD] = TARGET;
    table[TARGET + 4] = 7;
    write_checksum();
}

static void finds_structures(void)
{
    lay_table();
    expect(find_structure(table, IBFT_ID_NIC, 0) == NIC, "NIC 0");
    expect(find_structure(table, IBFT_ID_TARGET, 0) == TARGET, "Target 0");
    expect(find_structure(table, IBFT_ID_TARGET, 7) == 0, "Target 7 is not there");
    lay_extra();
    expect(accept_ibft(table, TABLE_LENGTH), "the check accepts a table with an extra");
    expect(find_structure(table, IBFT_ID_TARGET, 7) == TARGET, "Target 7");
    expect(find_structure(table, IBFT_ID_TARGET, 0) == 0, "Target 0 is not there");
    expect(find_structure(table, IBFT_ID_NIC, 0) == NIC, "NIC 0 beside an extra");
    printf("firmware_check: Target 7 found\n");
}

static void meets_refusals(void)
{
    expect(ibft_check(NULL, 0) == IBFT_REFUSED_FEW_BYTES, "nothing lent");
    expect_refused("signature", 0, 'I', IBFT_REFUSED_SIGNATURE, 0);
    expect_refused("Length above the bytes lent", 5, 2, IBFT_REFUSED_LENGTH, 4);
    expect_refused("Revision 2", 8, 2, IBFT_REFUSED_REVISION, 8);
    expect_refused("OEM Table ID with a hole", 17, 'x', IBFT_REFUSED_OEM_TAIL, 16);
    expect_refused("Control of 17 bytes", 50, 17, IBFT_REFUSED_CONTROL, CONTROL);
    expect_refused("Control of 44 bytes", 50, 44, IBFT_REFUSED_CONTROL, CONTROL);
    expect_refused("NIC in Control", 50, 26, IBFT_REFUSED_START, NIC_WORD);
    expect_refused("reserved flag of the NIC", NIC + 5, 8, IBFT_REFUSED_FLAGS, NIC + 5);
    expect_refused("Extensions", 54, 72, IBFT_REFUSED_EXTENSIONS, 54);
    expect_refused("target at 177", TARGET_WORD, 177, IBFT_REFUSED_START, TARGET_WORD);
    expect_refused("target at the NIC", TARGET_WORD, NIC, IBFT_REFUSED_STRUCTURE, NIC);
    expect_refused("CHAP type 3", TARGET + 32, 3, IBFT_REFUSED_CHAP_TYPE, TARGET + 32);
    expect_refused("name below the heap", TARGET + 36, 66, IBFT_REFUSED_ENTRY_PLACE, TARGET + 34);
    expect_refused("no zero behind a name", TARGET + 34, 4, IBFT_REFUSED_ENTRY_END, TARGET + 34);
    expect_refused("host name with a hole", HOST_NAME + 3, ' ', IBFT_REFUSED_HOST_NAME, NIC + 98);
}

/* Another byte at 9; another byte elsewhere; and one that makes the right byte 0. */
static void meets_wrong_sums(void)
{
    uint8_t right;

    lay_table();
    right = table[9];
    table[9]++;
    expect_wrong_sum("a wrong checksum byte", right);
    expect(!accept_ibft(table, TABLE_LENGTH), "a wrong sum is refused");
    table[9] = right;
    expect(accept_ibft(table, TABLE_LENGTH), "the right byte is accepted");
    table[TARGET_NAME]++;
    expect_wrong_sum("a letter changed", (uint8_t)(right - 1));
    table[TARGET_NAME]--;
    table[24] = right;
    expect_wrong_sum("a reserved byte changed", 0);
    table[8] = 2;
    expect_wrong_sum("Revision 2 beside it", UINT8_MAX);
}

int main(void)
{
    finds_and_accepts();
    reads_the_target();
    finds_structures();
    meets_refusals();
    meets_wrong_sums();
    return 0;
}
