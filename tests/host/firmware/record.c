/*
 * A record that is filled in by the names of bootfw.h, and its table: see
 * firmware/names.h.
 */
#include "names.h"

#include <stdio.h>
#include <stdlib.h>
#include <string.h>

enum {
    INITIATOR_FLAGS = IBFT_INITIATOR_VALID | IBFT_INITIATOR_SELECTED,
    NIC_FLAGS = IBFT_NIC_VALID | IBFT_NIC_SELECTED | IBFT_NIC_GLOBAL,
    TARGET_FLAGS = IBFT_TARGET_VALID | IBFT_TARGET_SELECTED | IBFT_TARGET_RADIUS_CHAP
        | IBFT_TARGET_RADIUS_RCHAP
};

const struct named_slot slots[IBFT_SLOTS] = {
    { IBFT_SLOT_INITIATOR, IBFT_ID_INITIATOR, 0, INITIATOR_FLAGS, sizeof(struct ibft_initiator),
      offsetof(struct ibft_record, initiator) },
    { IBFT_SLOT_NIC0, IBFT_ID_NIC, 0, NIC_FLAGS, sizeof(struct ibft_nic),
      offsetof(struct ibft_record, nic0) },
    { IBFT_SLOT_TARGET0, IBFT_ID_TARGET, 0, TARGET_FLAGS, sizeof(struct ibft_target),
      offsetof(struct ibft_record, target0) },
    { IBFT_SLOT_NIC1, IBFT_ID_NIC, 1, NIC_FLAGS, sizeof(struct ibft_nic),
      offsetof(struct ibft_record, nic1) },
    { IBFT_SLOT_TARGET1, IBFT_ID_TARGET, 1, TARGET_FLAGS, sizeof(struct ibft_target),
      offsetof(struct ibft_record, target1) }
};

#define INITIATOR_NAME(number, slot) \
    { number, slot, offsetof(struct ibft_initiator, name), IBFT_LONGEST_NAME }
#define HOST_NAME(number, slot) \
    { number, slot, offsetof(struct ibft_nic, host_name), IBFT_LONGEST_STRING }
#define TARGET_NAME(number, slot) \
    { number, slot, offsetof(struct ibft_target, name), IBFT_LONGEST_NAME }
#define TARGET_STRING(number, slot, field) \
    { number, slot, offsetof(struct ibft_target, field), IBFT_LONGEST_STRING }

const struct named_entry entries[IBFT_ENTRIES] = {
    INITIATOR_NAME(IBFT_ENTRY_INITIATOR_NAME, IBFT_SLOT_INITIATOR),
    HOST_NAME(IBFT_ENTRY_NIC0_HOST_NAME, IBFT_SLOT_NIC0),
    TARGET_NAME(IBFT_ENTRY_TARGET0_NAME, IBFT_SLOT_TARGET0),
    TARGET_STRING(IBFT_ENTRY_TARGET0_CHAP_NAME, IBFT_SLOT_TARGET0, chap_name),
    TARGET_STRING(IBFT_ENTRY_TARGET0_CHAP_SECRET, IBFT_SLOT_TARGET0, chap_secret),
    TARGET_STRING(IBFT_ENTRY_TARGET0_REVERSE_CHAP_NAME, IBFT_SLOT_TARGET0, reverse_chap_name),
    TARGET_STRING(IBFT_ENTRY_TARGET0_REVERSE_CHAP_SECRET, IBFT_SLOT_TARGET0, reverse_chap_secret),
    HOST_NAME(IBFT_ENTRY_NIC1_HOST_NAME, IBFT_SLOT_NIC1),
    TARGET_NAME(IBFT_ENTRY_TARGET1_NAME, IBFT_SLOT_TARGET1),
    TARGET_STRING(IBFT_ENTRY_TARGET1_CHAP_NAME, IBFT_SLOT_TARGET1, chap_name),
    TARGET_STRING(IBFT_ENTRY_TARGET1_CHAP_SECRET, IBFT_SLOT_TARGET1, chap_secret),
    TARGET_STRING(IBFT_ENTRY_TARGET1_REVERSE_CHAP_NAME, IBFT_SLOT_TARGET1, reverse_chap_name),
    TARGET_STRING(IBFT_ENTRY_TARGET1_REVERSE_CHAP_SECRET, IBFT_SLOT_TARGET1, reverse_chap_secret)
};

struct ibft_record record;
uint8_t strings[IBFT_MOST_ENTRIES * STRETCH];
uint8_t room[IBFT_LARGEST_LENGTH_WITH_EXTRAS];
const char *about;

void expect(int holds, const char *what)
{
    if (!holds) {
        printf("firmware_names: %s: wrong: %s\n", about, what);
        exit(1);
    }
}

void expect_answer(uint64_t answer, enum ibft_refusal number, uint64_t place)
{
    if (ibft_answer_number(answer) != number || ibft_answer_place(answer) != place) {
        printf("firmware_names: %s: %u %u is not %u %u\n", about,
               (unsigned)ibft_answer_number(answer), (unsigned)ibft_answer_place(answer),
               (unsigned)number, (unsigned)place);
        exit(1);
    }
    expect(number == IBFT_ACCEPTED || answer >> 32 == 0, "a refusal has nothing from bit 32 on");
    expect(ibft_answer_checksum(answer) == 0, "there is no checksum byte");
}

void expect_wrong_sum(uint64_t answer, uint8_t checksum)
{
    expect(ibft_answer_number(answer) == IBFT_REFUSED_SUM, "a wrong sum");
    expect(ibft_answer_place(answer) == offsetof(struct ibft_table_header, checksum),
           "the place of a wrong sum");
    expect(ibft_answer_checksum(answer) == checksum, "the byte that would be right");
    expect(ibft_answer_length(answer) == 0, "a wrong sum has no Length");
    expect(answer >> 40 == 0, "a wrong sum has nothing from bit 40 on");
}

void clear_record(void)
{
    size_t i;

    memset(&record, 0, sizeof record);
    memset(record.slot_present, IBFT_ABSENT, sizeof record.slot_present);
    memset(record.entry_present, IBFT_ABSENT, sizeof record.entry_present);
    for (i = 0; i < sizeof strings; i++)
        strings[i] = i % STRETCH % 2 == 0 ? 'a' : '.';
}

void give_slot(const struct named_slot *named)
{
    record.slot_present[named->slot] = IBFT_PRESENT;
}

void give_flags(const struct named_slot *named, uint8_t flags)
{
    uint8_t *image = (uint8_t *)&record + named->image;

    image[offsetof(struct ibft_structure_header, flags)] = flags;
}

void give_entry(const struct named_entry *named, uint16_t length)
{
    struct ibft_entry entry;

    entry.length = length;
    entry.offset = (uint16_t)(named->number * STRETCH);
    give_slot(&slots[named->slot]);
    record.entry_present[named->number] = IBFT_PRESENT;
    memcpy((uint8_t *)&record + slots[named->slot].image + named->field, &entry, sizeof entry);
}

void give_own_letter(unsigned number)
{
    static const char letters[] = "bcdefghijklmnopqrstuvwxyzABCDEFGHIJKLMNOPQRSTUVWXYZ";

    expect(number < sizeof letters - 1, "there is a letter for every entry");
    strings[number * STRETCH] = (uint8_t)letters[number];
}

void give_largest_record(void)
{
    unsigned i;

    clear_record();
    for (i = 0; i < IBFT_ENTRIES; i++) {
        give_own_letter(entries[i].number);
        give_entry(&entries[i], entries[i].longest);
    }
}

uint64_t build(void)
{
    return ibft_build((const uint8_t *)&record, sizeof record, strings, sizeof strings,
                      room, sizeof room);
}

void expect_built(uint64_t length)
{
    uint64_t answer = build();

    expect_answer(answer, IBFT_ACCEPTED, 0);
    expect(ibft_answer_length(answer) == length, "the Length");
    expect(ibft_check(room, length) == IBFT_ACCEPTED, "the check accepts it");
}

struct ibft_table_header table_header(void)
{
    struct ibft_table_header header;

    memcpy(&header, room, sizeof header);
    return header;
}

struct ibft_control table_control(void)
{
    struct ibft_control control;

    memcpy(&control, room + IBFT_CONTROL_OFFSET, sizeof control);
    return control;
}

size_t start_of(enum ibft_slot slot)
{
    struct ibft_control control = table_control();

    return control.slot_offset[slot];
}

size_t field_of(const struct named_entry *named)
{
    return start_of(named->slot) + named->field;
}

struct ibft_entry table_entry(const struct named_entry *named)
{
    struct ibft_entry entry;

    memcpy(&entry, room + field_of(named), sizeof entry);
    return entry;
}

uint64_t check_mended(void)
{
    struct ibft_table_header header = table_header();
    uint8_t sum = 0;
    size_t i;

    for (i = 0; i < header.length && i < sizeof room; i++)
        sum = (uint8_t)(sum + room[i]);
    header.checksum = (uint8_t)(header.checksum - sum);
    memcpy(room, &header, sizeof header);
    return ibft_check(room, sizeof room);
}

uint64_t check_with(size_t at, uint8_t byte)
{
    room[at] = byte;
    return check_mended();
}
