/*
 * The build as firmware calls it: a record is filled in, built into as many
 * bytes as it takes and into one less, checked, and read back; so is one with
 * extras; secrets are wiped, and what stands beside them is read; then refusals
 * are met, each with its place.
 */
#include <bootfw.h>

#include <stdbool.h>
#include <stdio.h>
#include <stdlib.h>
#include <string.h>

/* example: docs/C-INTERFACE.md shows this function */
/* Builds the table of a target with a CHAP name and a reverse CHAP name; its Length, or 0. */
static uint32_t build_ibft(const char *name, const char *reverse_name, uint8_t *room,
                           size_t room_size)
{
    struct ibft_record record = { 0 };
    uint8_t strings[2 * IBFT_LONGEST_STRING];
    size_t size = strlen(name), reverse_size = strlen(reverse_name);
    uint64_t answer;

    if (size > IBFT_LONGEST_STRING || reverse_size > IBFT_LONGEST_STRING)
        return 0;
    memcpy(strings, name, size);
    memcpy(strings + size, reverse_name, reverse_size);
    record.slot_present[IBFT_SLOT_TARGET0] = IBFT_PRESENT;
    record.target0.header.flags = IBFT_TARGET_VALID;
    record.entry_present[IBFT_ENTRY_TARGET0_CHAP_NAME] = IBFT_PRESENT;
    record.target0.chap_name.length = (uint16_t)size;
    record.target0.chap_name.offset = 0;
    record.entry_present[IBFT_ENTRY_TARGET0_REVERSE_CHAP_NAME] = IBFT_PRESENT;
    record.target0.reverse_chap_name.length = (uint16_t)reverse_size;
    record.target0.reverse_chap_name.offset = (uint16_t)size;
    answer = ibft_build((const uint8_t *)&record, sizeof record, strings, size + reverse_size,
                        room, room_size);
    if (ibft_answer_number(answer) != IBFT_ACCEPTED)
        printf("iBFT not built: refused %u %u: %s\n", (unsigned)ibft_answer_number(answer),
               (unsigned)ibft_answer_place(answer),
               ibft_refusal_text(ibft_answer_number(answer)));
    return ibft_answer_length(answer);
}
/* end of example */

/* example: docs/C-INTERFACE.md shows this function */
/* Builds the table of NIC 5 and of Target 9, which has a name; its Length, or 0. */
static uint32_t build_extras(const char *name, uint8_t *room, size_t room_size)
{
    struct {
        struct ibft_expanded_record start;
        struct ibft_extra_nic nics[1];
        struct ibft_extra_target targets[1];
    } record = { 0 };
    struct ibft_nic *nic = &record.nics[0].nic;
    struct ibft_target *target = &record.targets[0].target;
    size_t size = strlen(name);
    uint64_t answer;

    if (size > IBFT_LONGEST_NAME)
        return 0;
    record.start.extra_nics = 1;
    nic->header.index = 5;
    nic->header.flags = IBFT_NIC_VALID;
    record.start.extra_targets = 1;
    target->header.index = 9;
    target->header.flags = IBFT_TARGET_VALID;
    target->nic_association = 5;
    record.targets[0].string_present[IBFT_TARGET_STRING_NAME] = IBFT_PRESENT;
    target->name.length = (uint16_t)size;
    target->name.offset = 0;
    answer = ibft_build((const uint8_t *)&record, sizeof record, (const uint8_t *)name, size,
                        room, room_size);
    if (ibft_answer_number(answer) != IBFT_ACCEPTED)
        printf("iBFT not built: refused %u %u: %s\n", (unsigned)ibft_answer_number(answer),
               (unsigned)ibft_answer_place(answer),
               ibft_refusal_text(ibft_answer_number(answer)));
    return ibft_answer_length(answer);
}
/* end of example */

/* Case 5 of docs/RULES.md: CHAP name depot7, reverse CHAP name 7. */
enum { CASE_5_LENGTH = 133, CHECKSUM = 9, TARGET = 72, HEAP = 126 };

static const uint8_t case_5[CASE_5_LENGTH] = {
    [0] = 'i', 'B', 'F', 'T', CASE_5_LENGTH, 0, 0, 0, 1,
    [CHECKSUM] = 0x42,
    [48] = 1, 1, 18, 0, 0, 0,
    [60] = TARGET, 0,
    [TARGET] = 4, 1, 54, 0, 0, IBFT_TARGET_VALID,
    [TARGET + 38] = 6, 0, HEAP, 0,
    [TARGET + 46] = 1, 0, HEAP + 5, 0,
    [HEAP] = 'd', 'e', 'p', 'o', 't', '7', 0,
};

enum { GUARD = 16, PATTERN = 0xA5 };
static uint8_t memory[GUARD + CASE_5_LENGTH + GUARD];
static uint8_t *const room = memory + GUARD;

static void expect(bool holds, const char *what)
{
    if (!holds) {
        printf("firmware_build: wrong: %s\n", what);
        exit(1);
    }
}

static bool is_pattern(const uint8_t *bytes, size_t size)
{
    for (size_t i = 0; i < size; i++)
        if (bytes[i] != PATTERN)
            return false;
    return true;
}

static void builds_case_5(void)
{
    uint32_t length;

    memset(memory, PATTERN, sizeof memory);
    length = build_ibft("depot7", "7", room, CASE_5_LENGTH);
    expect(length == CASE_5_LENGTH, "the Length is 133");
    expect(memcmp(room, case_5, sizeof case_5) == 0, "the bytes are case 5's");
    expect(is_pattern(memory, GUARD), "bytes before the room");
    expect(is_pattern(room + CASE_5_LENGTH, GUARD), "bytes behind the room");
    expect(ibft_check(room, length) == 0, "the check accepts it");
    printf("firmware_build: case 5 built into %u bytes\n", (unsigned)length);
}

static void keeps_the_rest_of_the_room(void)
{
    memset(memory, PATTERN, sizeof memory);
    expect(build_ibft("depot7", "7", room, CASE_5_LENGTH + GUARD) == CASE_5_LENGTH, "the Length");
    expect(memcmp(room, case_5, sizeof case_5) == 0, "the bytes are case 5's");
    expect(is_pattern(room + CASE_5_LENGTH, GUARD), "room past Length keeps its bytes");
    expect(ibft_check(room, CASE_5_LENGTH + GUARD) == 0, "the check accepts all of the room");
}

static void wants_133_bytes(void)
{
    memset(memory, PATTERN, sizeof memory);
    expect(build_ibft("depot7", "7", room, CASE_5_LENGTH - 1) == 0, "132 bytes are too few");
    expect(is_pattern(memory, sizeof memory), "a refused build leaves the room untouched");
}

/* The string is where the table's words say, with its zero byte. */
static void reads_back(void)
{
    struct ibft_target target;

    expect(build_ibft("depot7", "7", room, CASE_5_LENGTH) == CASE_5_LENGTH, "the Length");
    memcpy(&target, room + TARGET, sizeof target);
    expect(strcmp((char *)room + target.chap_name.offset, "depot7") == 0, "the CHAP name");
    expect(strcmp((char *)room + target.reverse_chap_name.offset, "7") == 0, "the reverse name");
    expect(target.name.offset == 0 && target.name.length == 0, "the name is missing");
}

/* Control takes 22 bytes and ends at 70, so NIC 5 starts at 72 and Target 9 at 176;
 * the name stands at 230. */
static void builds_extras(void)
{
    enum { NIC = 72, TARGET_9 = 176, NAME = 230, LENGTH = NAME + sizeof "iqn.a" };
    static const uint8_t control[] = { 1, 1, 22, 0, 0, 0, 0, 0, 0, 0, 0, 0, 0, 0, 0, 0, 0, 0,
                                       NIC, 0, TARGET_9, 0, 0, 0 };
    static const uint8_t nic[] = { 3, 1, 102, 0, 5, IBFT_NIC_VALID };
    static const uint8_t target[] = { 4, 1, 54, 0, 9, IBFT_TARGET_VALID };
    static const uint8_t name[] = { 5, 0, NAME, 0 };
    static uint8_t wide[LENGTH];

    expect(build_extras("iqn.a", wide, LENGTH - 1) == 0, "235 bytes are too few");
    expect(build_extras("iqn.a", wide, LENGTH) == LENGTH, "the Length is 236");
    expect(memcmp(wide + 48, control, sizeof control) == 0, "Control and its extra words");
    expect(memcmp(wide + NIC, nic, sizeof nic) == 0, "NIC 5");
    expect(memcmp(wide + TARGET_9, target, sizeof target) == 0, "Target 9");
    expect(wide[TARGET_9 + 33] == 5, "Target 9 is reached by NIC 5");
    expect(memcmp(wide + TARGET_9 + 34, name, sizeof name) == 0, "the name's words");
    expect(memcmp(wide + NAME, "iqn.a", sizeof "iqn.a") == 0, "the name");
    expect(ibft_check(wide, LENGTH) == 0, "the check accepts it");
    printf("firmware_build: NIC 5 and Target 9 built into %u bytes\n", (unsigned)LENGTH);
}

/* As a driver does after login: the bytes of a secret and its zero byte. */
static void wipe(uint8_t *table, struct ibft_entry secret)
{
    memset(table + secret.offset, 0xFF, secret.length + 1u);
}

/* Target 0 whose CHAP secret is the same string as its name, and whose reverse CHAP secret is
 * empty. Each of the two has bytes of its own, and a zero byte of its own. */
static void keeps_secrets_apart(void)
{
    enum { SIZE = sizeof "depot7", LENGTH = HEAP + SIZE + SIZE + 1 };
    static const uint8_t strings[] = "depot7";
    struct ibft_record record = { 0 };
    static uint8_t wide[LENGTH];
    struct ibft_target target;
    uint64_t answer;

    record.slot_present[IBFT_SLOT_TARGET0] = IBFT_PRESENT;
    record.entry_present[IBFT_ENTRY_TARGET0_NAME] = IBFT_PRESENT;
    record.target0.name.length = SIZE - 1;
    record.entry_present[IBFT_ENTRY_TARGET0_CHAP_SECRET] = IBFT_PRESENT;
    record.target0.chap_secret.length = SIZE - 1;
    record.entry_present[IBFT_ENTRY_TARGET0_REVERSE_CHAP_SECRET] = IBFT_PRESENT;
    answer = ibft_build((const uint8_t *)&record, sizeof record, strings, sizeof strings - 1,
                        wide, LENGTH - 1);
    expect(answer == IBFT_REFUSED_ROOM, "140 bytes are too few");
    answer = ibft_build((const uint8_t *)&record, sizeof record, strings, sizeof strings - 1,
                        wide, LENGTH);
    expect(answer == (uint64_t)LENGTH << 32, "the Length is 141");
    memcpy(&target, wide + TARGET, sizeof target);
    expect(target.name.offset == HEAP, "where the name stands");
    expect(target.chap_secret.offset == HEAP + SIZE, "where the secret stands");
    expect(target.reverse_chap_secret.offset == HEAP + SIZE + SIZE, "where the reverse one stands");
    expect(strcmp((char *)wide + target.chap_secret.offset, "depot7") == 0, "the secret");
    wipe(wide, target.chap_secret);
    expect(strcmp((char *)wide + target.name.offset, "depot7") == 0, "the name stays");
    expect(wide[target.reverse_chap_secret.offset] == 0, "the reverse secret stays");
    wipe(wide, target.reverse_chap_secret);
    expect(strcmp((char *)wide + target.name.offset, "depot7") == 0, "the name stays then too");
    printf("firmware_build: secrets wiped, and nothing else\n");
}

static void expect_refused(const char *what, const struct ibft_record *record, size_t record_size,
                           enum ibft_refusal number, uint32_t place)
{
    static const uint8_t strings[] = "a.b.\0depot7";
    uint64_t answer;

    memset(memory, PATTERN, sizeof memory);
    answer = ibft_build((const uint8_t *)record, record_size, strings, sizeof strings - 1,
                        room, CASE_5_LENGTH);
    printf("firmware_build: %s: refused %u %u\n", what,
           (unsigned)ibft_answer_number(answer), (unsigned)ibft_answer_place(answer));
    expect(ibft_answer_number(answer) == number, "the number");
    expect(ibft_answer_place(answer) == place, "the place");
    expect(ibft_answer_length(answer) == 0, "a refused build has Length 0");
    expect(answer >> 32 == 0, "bits 32-63 are 0");
    expect(is_pattern(memory, sizeof memory), "a refused build leaves the room untouched");
}

/* Target 0 with flags 1 and a CHAP name in the strings above. */
static struct ibft_record target_record(uint16_t start, uint16_t length)
{
    struct ibft_record record = { 0 };

    record.slot_present[2] = 1;
    record.target0.header.flags = IBFT_TARGET_VALID;
    record.entry_present[3] = 1;
    record.target0.chap_name.length = length;
    record.target0.chap_name.offset = start;
    return record;
}

static void refuses_contents(void)
{
    struct ibft_record record = target_record(5, 6);

    expect_refused("record of 418 bytes", &record, sizeof record - 1, IBFT_REFUSED_RECORD, 0);
    record.entry_present[12] = 2;
    expect_refused("mark of 2", &record, sizeof record, IBFT_REFUSED_RECORD, 0);
    record = target_record(5, 6);
    record.oem_table_id[7] = 'x';
    expect_refused("OEM Table ID with a hole", &record, sizeof record, IBFT_REFUSED_OEM_TAIL, 16);
    record = target_record(5, 6);
    record.control_flags = 2;
    expect_refused("Control's flags", &record, sizeof record, IBFT_REFUSED_FLAGS, 255);
    record = target_record(5, 6);
    record.target0.header.flags = 16;
    expect_refused("target's flags", &record, sizeof record, IBFT_REFUSED_FLAGS, 2);
    record = target_record(5, 6);
    record.target0.chap_type = 3;
    expect_refused("CHAP type 3", &record, sizeof record, IBFT_REFUSED_CHAP_TYPE, 2);
}

static void refuses_strings(void)
{
    struct ibft_record record = target_record(5, 7);

    expect_refused("string past the range", &record, sizeof record, IBFT_REFUSED_ENTRY_OUTSIDE, 3);
    record = target_record(4, 7);
    expect_refused("zero byte in a string", &record, sizeof record, IBFT_REFUSED_ENTRY_ZERO, 3);
    record = target_record(5, 6);
    record.slot_present[1] = 1;
    record.entry_present[1] = 1;
    record.nic0.host_name.length = 4;
    expect_refused("host name a.b.", &record, sizeof record, IBFT_REFUSED_HOST_NAME, 1);
}

/* An image of an absent structure and the words of a missing string are not looked at. */
static void passes_by_what_is_no_part(void)
{
    struct ibft_record record = target_record(0, 0);
    uint64_t answer;

    memset(&record.target1, 0xFF, sizeof record.target1);
    record.target0.name.length = 0xFFFF;
    record.target0.header.id = 0xFF;
    answer = ibft_build((const uint8_t *)&record, sizeof record, NULL, 0, room, CASE_5_LENGTH);
    expect(answer == (uint64_t)(HEAP + 1) << 32, "an empty string and its zero byte");
    expect(ibft_check(room, HEAP + 1) == 0, "the check accepts it");
}

int main(void)
{
    builds_case_5();
    keeps_the_rest_of_the_room();
    wants_133_bytes();
    reads_back();
    builds_extras();
    keeps_secrets_apart();
    refuses_contents();
    refuses_strings();
    passes_by_what_is_no_part();
    return 0;
}
