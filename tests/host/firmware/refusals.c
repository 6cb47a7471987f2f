/*
 * The refusals by their names in bootfw.h: each that a call for C can give is met
 * with its place, and each has words.
 */
#include "names.h"

#include <limits.h>
#include <stdio.h>
#include <string.h>

/* ---- The check ---------------------------------------------------------------- */

/* The largest table without extras, both OEM fields filled. */
static void lay_table(void)
{
    give_largest_record();
    memcpy(record.oem_id, "DEPOT", sizeof "DEPOT");
    memcpy(record.oem_table_id, "CABINET", sizeof "CABINET");
    expect_built(IBFT_LARGEST_LENGTH);
}

static void refuses_header(void)
{
    const size_t length = offsetof(struct ibft_table_header, length);
    const size_t revision = offsetof(struct ibft_table_header, revision);
    const size_t checksum = offsetof(struct ibft_table_header, checksum);
    const size_t oem_id = offsetof(struct ibft_table_header, oem_id);
    const size_t oem_table_id = offsetof(struct ibft_table_header, oem_table_id);
    const size_t reserved = offsetof(struct ibft_table_header, reserved);
    const size_t size = sizeof(struct ibft_table_header);

    about = "refusals of the header";
    lay_table();
    expect_answer(ibft_check(room, size - 1), IBFT_REFUSED_FEW_BYTES, 0);
    expect_answer(ibft_check(room, size), IBFT_REFUSED_LENGTH, length);
    room[checksum]++;
    expect_wrong_sum(ibft_check(room, sizeof room), (uint8_t)(room[checksum] - 1));
    expect_answer(check_with(reserved, 1), IBFT_ACCEPTED, 0);
    expect_answer(check_with(oem_table_id, 0), IBFT_REFUSED_OEM_TAIL, oem_table_id);
    expect_answer(check_with(oem_id, 0), IBFT_REFUSED_OEM_TAIL, oem_id);
    expect_answer(check_with(revision, IBFT_REVISION + 1), IBFT_REFUSED_REVISION, revision);
    expect_answer(check_with(0, 'I'), IBFT_REFUSED_SIGNATURE, 0);
}

static void refuses_control(void)
{
    const size_t control = IBFT_CONTROL_OFFSET;
    const size_t flags = control + offsetof(struct ibft_structure_header, flags);
    const size_t extensions = control + offsetof(struct ibft_control, extensions);

    about = "refusals of Control";
    lay_table();
    expect_answer(check_with(extensions, 1), IBFT_REFUSED_EXTENSIONS, extensions);
    expect_answer(check_with(flags, IBFT_CONTROL_SINGLE_LOGIN << 1), IBFT_REFUSED_FLAGS, flags);
    expect_answer(check_with(control, IBFT_ID_INITIATOR), IBFT_REFUSED_CONTROL, control);
}

/* Of each slot: its start, its flags, its ID. */
static void refuses_structures(void)
{
    const size_t words = IBFT_CONTROL_OFFSET + offsetof(struct ibft_control, slot_offset);
    unsigned i;

    about = "refusals of structures";
    for (i = 0; i < IBFT_SLOTS; i++) {
        const size_t word = words + slots[i].slot * sizeof(uint16_t);
        size_t start, flags;

        lay_table();
        start = start_of(slots[i].slot);
        flags = start + offsetof(struct ibft_structure_header, flags);
        expect_answer(check_with(flags, UINT8_MAX), IBFT_REFUSED_FLAGS, flags);
        expect_answer(check_with(start, IBFT_ID_CONTROL), IBFT_REFUSED_STRUCTURE, start);
        expect_answer(check_with(word, IBFT_START_ALIGNMENT + 1), IBFT_REFUSED_START, word);
    }
}

static void refuses_chap_type(void)
{
    size_t type;

    about = "CHAP type";
    lay_table();
    type = start_of(IBFT_SLOT_TARGET1) + offsetof(struct ibft_target, chap_type);
    expect_answer(check_with(type, IBFT_CHAP_TYPE_MUTUAL + 1), IBFT_REFUSED_CHAP_TYPE, type);
}

/* A target whose six-byte start is made of the last six bytes of a NIC. */
static void refuses_overlap(void)
{
    const size_t start = IBFT_FIRST_START + offsetof(struct ibft_nic, pci_bus_dev_func);
    const size_t target_word = IBFT_CONTROL_OFFSET + offsetof(struct ibft_control, slot_offset)
        + IBFT_SLOT_TARGET0 * sizeof(uint16_t);
    struct ibft_structure_header header;

    about = "two structures share a byte";
    clear_record();
    give_slot(&slots[IBFT_SLOT_NIC0]);
    give_slot(&slots[IBFT_SLOT_TARGET0]);
    expect_answer(build(), IBFT_ACCEPTED, 0);
    memcpy(&header, room + start_of(IBFT_SLOT_TARGET0), sizeof header);
    memcpy(room + start, &header, sizeof header);
    expect_answer(check_with(target_word, (uint8_t)start), IBFT_REFUSED_OVERLAP, target_word);
}

/* Gives the words of one entry of the largest table, and checks it. */
static void expect_words(const struct named_entry *named, unsigned length, unsigned offset,
                         enum ibft_refusal number)
{
    struct ibft_entry entry;

    lay_table();
    entry.length = (uint16_t)length;
    entry.offset = (uint16_t)offset;
    memcpy(room + field_of(named), &entry, sizeof entry);
    expect_answer(check_mended(), number, field_of(named));
}

/* Of each entry: below the heap; no zero byte behind it; one byte too long, as the
 * zero byte before it is taken to it, which the first string does not have; and an
 * empty host name. */
static void refuses_entries(void)
{
    unsigned i;

    about = "refusals of entries";
    for (i = 0; i < IBFT_ENTRIES; i++) {
        const struct named_entry *named = &entries[i];
        struct ibft_entry entry;

        lay_table();
        entry = table_entry(named);
        expect_words(named, entry.length, IBFT_FIRST_START, IBFT_REFUSED_ENTRY_PLACE);
        expect_words(named, entry.length - 1u, entry.offset, IBFT_REFUSED_ENTRY_END);
        if (named->number != IBFT_ENTRY_INITIATOR_NAME)
            expect_words(named, entry.length + 1u, entry.offset - 1u, IBFT_REFUSED_ENTRY_LONG);
        if (slots[named->slot].id == IBFT_ID_NIC)
            expect_words(named, 0, (unsigned)entry.offset + entry.length, IBFT_REFUSED_HOST_NAME);
    }
}

/* ---- The build ------------------------------------------------------------------ */

static void refuses_record(void)
{
    const uint8_t *range = (const uint8_t *)&record;

    about = "refusals of a record";
    give_largest_record();
    expect_answer(ibft_build(range, sizeof record, strings, sizeof strings, room,
                             IBFT_LARGEST_LENGTH - 1),
                  IBFT_REFUSED_ROOM, 0);
    expect_answer(ibft_build(range, sizeof record - 1, strings, sizeof strings, room, sizeof room),
                  IBFT_REFUSED_RECORD, 0);
    record.entry_present[IBFT_ENTRY_NIC1_HOST_NAME] = IBFT_PRESENT + 1;
    expect_answer(build(), IBFT_REFUSED_RECORD, 0);
}

/* Of each entry: too long, a zero byte in it, past the strings, and host names
 * that begin with a dot. */
static void refuses_strings(void)
{
    unsigned i;

    about = "refusals of strings";
    for (i = 0; i < IBFT_ENTRIES; i++) {
        const struct named_entry *named = &entries[i];
        uint8_t *first = strings + named->number * STRETCH;

        clear_record();
        give_entry(named, (uint16_t)(named->longest + 1));
        expect_answer(build(), IBFT_REFUSED_ENTRY_LONG, named->number);
        give_entry(named, 1);
        expect_answer(ibft_build((const uint8_t *)&record, sizeof record, strings,
                                 named->number * STRETCH, room, sizeof room),
                      IBFT_REFUSED_ENTRY_OUTSIDE, named->number);
        *first = '.';
        if (slots[named->slot].id == IBFT_ID_NIC)
            expect_answer(build(), IBFT_REFUSED_HOST_NAME, named->number);
        *first = 0;
        expect_answer(build(), IBFT_REFUSED_ENTRY_ZERO, named->number);
    }
}

/* ---- The rebuild ---------------------------------------------------------------- */

/* The table in the room, rebuilt into so many bytes. */
static uint64_t rebuild_into(size_t size)
{
    static uint8_t again[IBFT_LARGEST_LENGTH];

    return ibft_rebuild(room, sizeof room, again, size);
}

/* A byte of room too few; a zero byte in each string that is no host name; what the
 * check refuses. */
static void refuses_rebuild(void)
{
    const size_t checksum = offsetof(struct ibft_table_header, checksum);
    unsigned i;

    about = "refusals of a rebuild";
    lay_table();
    expect_answer(rebuild_into(IBFT_LARGEST_LENGTH), IBFT_ACCEPTED, 0);
    expect_answer(rebuild_into(IBFT_LARGEST_LENGTH - 1), IBFT_REFUSED_ROOM, 0);
    for (i = 0; i < IBFT_ENTRIES; i++) {
        const struct named_entry *named = &entries[i];

        if (slots[named->slot].id == IBFT_ID_NIC)
            continue;
        lay_table();
        expect_answer(check_with(table_entry(named).offset, 0), IBFT_ACCEPTED, 0);
        expect_answer(rebuild_into(IBFT_LARGEST_LENGTH), IBFT_REFUSED_ENTRY_ZERO, named->number);
    }
    room[checksum]++;
    expect_wrong_sum(rebuild_into(IBFT_LARGEST_LENGTH), (uint8_t)(room[checksum] - 1));
}

/* ---- In words --------------------------------------------------------------------- */

/* What the text of each number has to say and no text before it says. */
static const struct {
    unsigned number;
    const char *words;
} said[] = {
    { 0, "accepted" }, { 1, "window's end" }, { 2, "no sound table" }, { 3, "whole header" },
    { 4, "signature" }, { 5, "Length is" }, { 6, "sum" }, { 7, "Revision" }, { 8, "OEM" },
    { 9, "Control" }, { 10, "flag bit" }, { 11, "Extensions" }, { 12, "misaligned" },
    { 13, "structure's ID" }, { 14, "share" }, { 15, "heap" }, { 16, "follows a string" },
    { 17, "too long" }, { 18, "host name" }, { 19, "CHAP type" }, { 20, "holds a zero byte" },
    { 21, "exceeds the room" }, { 22, "is missing" }, { 23, "no such slot" },
    { 24, "range lent for strings" }, { 25, "presence mark" }, { 30, "reserved byte" },
    { 31, "below 48" }, { 32, "overlaps" }, { 33, "is taken" }, { 34, "a seventh" }
};

enum { NUMBERS = sizeof said / sizeof said[0] };

static int is_said(unsigned number)
{
    unsigned i;

    for (i = 0; i < NUMBERS; i++)
        if (said[i].number == number)
            return 1;
    return 0;
}

static int has_own_text(unsigned number)
{
    return strcmp(ibft_refusal_text(number), ibft_refusal_text(UINT_MAX)) != 0;
}

static void words_each_refusal(void)
{
    unsigned number, i, other;

    about = "refusals in words";
    for (number = 0; number <= UINT8_MAX; number++) {
        const char *text = ibft_refusal_text(number);

        expect(text[0] != '\0' && strchr(text, '\n') == NULL, "a text is one line");
        expect(has_own_text(number) == is_said(number),
               "0 to 25 and 30 to 34 have a text, no other number");
    }
    for (i = 0; i < NUMBERS; i++)
        for (other = 0; other <= i; other++)
            expect((strstr(ibft_refusal_text(said[other].number), said[i].words) != NULL)
                       == (other == i),
                   said[i].words);
    expect(!has_own_text(UINT8_MAX + 1 + IBFT_REFUSED_NO_TABLE), "nothing is cut to eight bits");
    expect(IBFT_REFUSED_MISSING == 22 && IBFT_REFUSED_NO_SUCH == 23, "the two that no call gives");
}

void print_refusals(void)
{
    unsigned number;

    for (number = 0; number <= UINT8_MAX; number++)
        if (number != IBFT_ACCEPTED && has_own_text(number))
            printf("%u %s\n", number, ibft_refusal_text(number));
}

void compare_refusals(void)
{
    refuses_header();
    refuses_control();
    refuses_structures();
    refuses_chap_type();
    refuses_overlap();
    refuses_entries();
    refuses_record();
    refuses_strings();
    refuses_rebuild();
    words_each_refusal();
}
