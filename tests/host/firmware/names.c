/*
 * Slots, entries, kinds, flags, limits, the header, Control and the window, each
 * by its name in bootfw.h, beside what the library answers. Extras and refusals are
 * in files of their own.
 *
 *   firmware_names             compares; exits 1 at the first difference
 *   firmware_names refusals    prints the numbers that have words of their own
 */
#include "names.h"

#include <string.h>

/* The version can be tested before compiling. */
#if BOOTFW_VERSION != (BOOTFW_VERSION_MAJOR << 16 | BOOTFW_VERSION_MINOR)
#error "BOOTFW_VERSION is MAJOR in its upper bits and MINOR in the lower 16"
#endif

/* With one structure present its Control word alone is not 0. */
static void expect_structure_alone(const struct named_slot *named)
{
    struct ibft_structure_header header;
    unsigned i;

    for (i = 0; i < IBFT_SLOTS; i++)
        expect(start_of(slots[i].slot) == (slots[i].slot == named->slot ? IBFT_FIRST_START : 0),
               "a word of Control");
    memcpy(&header, room + IBFT_FIRST_START, sizeof header);
    expect(header.id == named->id, "the ID");
    expect(header.version == IBFT_STRUCTURE_VERSION, "the version");
    expect(header.length == named->size, "the length");
    expect(header.index == named->index, "the Index");
    expect(header.flags == named->flags, "the flags");
}

static void names_slots(void)
{
    unsigned i, bit;

    about = "slots";
    for (i = 0; i < IBFT_SLOTS; i++) {
        const struct named_slot *named = &slots[i];

        clear_record();
        give_slot(named);
        give_flags(named, named->flags);
        expect_built(IBFT_FIRST_START + named->size);
        expect_structure_alone(named);
        for (bit = 1; bit <= UINT8_MAX; bit <<= 1) {
            give_flags(named, (uint8_t)bit);
            if ((named->flags & bit) != 0)
                expect_answer(build(), IBFT_ACCEPTED, 0);
            else
                expect_answer(build(), IBFT_REFUSED_FLAGS, named->slot);
        }
    }
}

/* The library tells named bits from reserved ones; which is which is said here. */
static void names_flags(void)
{
    about = "flags";
    expect(IBFT_CONTROL_SINGLE_LOGIN == 1u << 0, "Control's bit 0");
    expect(IBFT_INITIATOR_VALID == 1u << 0, "an initiator's bit 0");
    expect(IBFT_INITIATOR_SELECTED == 1u << 1, "an initiator's bit 1");
    expect(IBFT_NIC_VALID == 1u << 0, "a NIC's bit 0");
    expect(IBFT_NIC_SELECTED == 1u << 1, "a NIC's bit 1");
    expect(IBFT_NIC_GLOBAL == 1u << 2, "a NIC's bit 2");
    expect(IBFT_TARGET_VALID == 1u << 0, "a target's bit 0");
    expect(IBFT_TARGET_SELECTED == 1u << 1, "a target's bit 1");
    expect(IBFT_TARGET_RADIUS_CHAP == 1u << 2, "a target's bit 2");
    expect(IBFT_TARGET_RADIUS_RCHAP == 1u << 3, "a target's bit 3");
}

static void names_control(void)
{
    struct ibft_control control;
    unsigned bit;

    about = "Control";
    clear_record();
    record.control_flags = IBFT_CONTROL_SINGLE_LOGIN;
    expect_built(IBFT_LEAST_LENGTH);
    control = table_control();
    expect(control.header.id == IBFT_ID_CONTROL, "the ID");
    expect(control.header.version == IBFT_STRUCTURE_VERSION, "the version");
    expect(control.header.length == sizeof control, "the length");
    expect(ibft_control_words(&control) == IBFT_SLOTS, "a word for each named slot");
    expect(control.header.index == 0, "the Index");
    expect(control.header.flags == IBFT_CONTROL_SINGLE_LOGIN, "the flags");
    expect(control.extensions == 0, "the Extensions word");
    for (bit = 1; bit <= UINT8_MAX; bit <<= 1) {
        record.control_flags = (uint8_t)bit;
        if (bit != IBFT_CONTROL_SINGLE_LOGIN)
            expect_answer(build(), IBFT_REFUSED_FLAGS, IBFT_PLACE_CONTROL);
    }
}

static void names_chap_types(void)
{
    static const enum ibft_chap_type types[] = { IBFT_CHAP_TYPE_NONE, IBFT_CHAP_TYPE_CHAP,
                                                 IBFT_CHAP_TYPE_MUTUAL };
    unsigned i;

    about = "CHAP types";
    clear_record();
    give_slot(&slots[IBFT_SLOT_TARGET1]);
    for (i = 0; i < sizeof types / sizeof types[0]; i++) {
        expect(types[i] == i, "they go from 0 to 2");
        record.target1.chap_type = (uint8_t)types[i];
        expect_answer(build(), IBFT_ACCEPTED, 0);
    }
    record.target1.chap_type = IBFT_CHAP_TYPE_MUTUAL + 1;
    expect_answer(build(), IBFT_REFUSED_CHAP_TYPE, IBFT_SLOT_TARGET1);
}

/* Of the strings that the structure may have, the named one alone is there. */
static void expect_entry_alone(const struct named_entry *named)
{
    struct ibft_entry entry = table_entry(named);
    unsigned i;

    expect(entry.length == 1, "the string's length");
    expect(entry.offset == IBFT_FIRST_START + slots[named->slot].size, "the string's offset");
    for (i = 0; i < IBFT_ENTRIES; i++) {
        if (entries[i].slot != named->slot || entries[i].number == named->number)
            continue;
        entry = table_entry(&entries[i]);
        expect(entry.length == 0 && entry.offset == 0, "another string is missing");
    }
}

static void names_entries(void)
{
    unsigned i;

    about = "entries";
    for (i = 0; i < IBFT_ENTRIES; i++) {
        const struct named_entry *named = &entries[i];
        size_t heap = IBFT_FIRST_START + slots[named->slot].size;

        clear_record();
        give_entry(named, 1);
        expect_built(heap + 1 + 1);
        expect_entry_alone(named);
        give_entry(named, named->longest);
        expect_built(heap + named->longest + 1);
    }
}

static void names_largest_table(void)
{
    unsigned i;

    about = "the largest table without extras";
    give_largest_record();
    expect_built(IBFT_LARGEST_LENGTH);
    for (i = 0; i < IBFT_SLOTS; i++)
        expect(start_of(slots[i].slot) % IBFT_START_ALIGNMENT == 0, "where a structure starts");
}

static void names_header(void)
{
    struct ibft_table_header header;

    about = "the table's header";
    clear_record();
    memcpy(record.oem_id, "DEPOT", sizeof "DEPOT");
    memcpy(record.oem_table_id, "CABINET", sizeof "CABINET");
    expect_built(IBFT_LEAST_LENGTH);
    header = table_header();
    expect(memcmp(header.signature, IBFT_SIGNATURE, sizeof header.signature) == 0, "signature");
    expect(sizeof IBFT_SIGNATURE == sizeof header.signature + 1, "the signature's size");
    expect(header.length == IBFT_LEAST_LENGTH, "Length");
    expect(header.revision == IBFT_REVISION, "Revision");
    expect(memcmp(header.oem_id, "DEPOT", sizeof "DEPOT") == 0, "OEMID");
    expect(memcmp(header.oem_table_id, "CABINET", sizeof "CABINET") == 0, "OEM Table ID");
    header.checksum++;
    memcpy(room, &header, sizeof header);
    expect_wrong_sum(ibft_check(room, IBFT_LEAST_LENGTH), (uint8_t)(header.checksum - 1));
}

/* A table at the address, lent alone. */
static uint64_t scan_at(uint64_t address)
{
    return ibft_scan(room, IBFT_LEAST_LENGTH, address);
}

static void names_window(void)
{
    uint64_t answer;

    about = "the window";
    clear_record();
    expect_built(IBFT_LEAST_LENGTH);
    answer = scan_at(IBFT_WINDOW_START);
    expect(ibft_answer_number(answer) == IBFT_ACCEPTED, "a table at its start");
    expect(ibft_answer_address(answer) == IBFT_WINDOW_START, "the address");
    expect(ibft_answer_length(answer) == IBFT_LEAST_LENGTH, "the Length");
    answer = scan_at(IBFT_WINDOW_START + IBFT_TABLE_ALIGNMENT);
    expect(ibft_answer_number(answer) == IBFT_ACCEPTED, "a table at the next place");
    expect(scan_at(IBFT_WINDOW_START - IBFT_TABLE_ALIGNMENT) == IBFT_REFUSED_NO_TABLE, "below");
    expect(scan_at(IBFT_WINDOW_START + IBFT_TABLE_ALIGNMENT / 2) == IBFT_REFUSED_NO_TABLE,
           "a table at no multiple of 16");
    expect(scan_at(IBFT_WINDOW_END - IBFT_LEAST_LENGTH) == IBFT_REFUSED_NO_TABLE, "its end");
    expect(scan_at(IBFT_WINDOW_END - IBFT_LEAST_LENGTH + 1) == IBFT_REFUSED_PAST_WINDOW,
           "one byte past its end");
}

/* What stands from bit 32 on is the Length where the number is 0, a checksum byte where it is 6,
 * and with any other number nothing. */
static void names_parts_of_an_answer(void)
{
    unsigned number;

    about = "an answer's parts";
    for (number = 0; number <= UINT8_MAX; number++) {
        const uint64_t answer = 0x0123456789ABCD00ul + number;

        expect(ibft_answer_number(answer) == number, "the number");
        expect(ibft_answer_place(answer) == 0x89ABCD, "the place");
        expect(ibft_answer_address(answer) == 0x89ABCD, "the address");
        expect(ibft_answer_length(answer) == (number == IBFT_ACCEPTED ? 0x01234567u : 0u),
               "the Length");
        expect(ibft_answer_checksum(answer) == (number == IBFT_REFUSED_SUM ? 0x67u : 0u),
               "the checksum byte");
    }
}

/* RULES.md: 192.168.70.50 ends in 0x32; PCI word 0x0019 is bus 0, device 3,
 * function 1. */
static void names_addresses(void)
{
    static const ibft_ip_address address = IBFT_IPV4(192, 168, 70, 50);
    static const uint8_t mapped[] = { 0, 0, 0, 0, 0, 0, 0, 0, 0, 0, 0xFF, 0xFF,
                                      0xC0, 0xA8, 0x46, 0x32 };

    about = "addresses";
    expect(sizeof address == sizeof mapped, "16 bytes");
    expect(memcmp(address, mapped, sizeof mapped) == 0, "IPv4-mapped");
    expect(memcmp(address + IBFT_IPV4_OFFSET, mapped + sizeof mapped - 4, 4) == 0, "the four");
    expect(sizeof address - IBFT_IPV4_OFFSET == 4, "the last four");
    expect(IBFT_PCI(0, 3, 1) == 0x0019, "the PCI word");
    expect(IBFT_PCI(255, 31, 7) == 0xFFFF, "the largest PCI word");
    expect(IBFT_ISCSI_PORT == 3260, "the port");
}

int main(int count, char **words)
{
    if (count == 2 && strcmp(words[1], "refusals") == 0) {
        print_refusals();
        return 0;
    }
    names_slots();
    names_flags();
    names_control();
    names_chap_types();
    names_entries();
    names_largest_table();
    names_header();
    names_window();
    names_parts_of_an_answer();
    names_addresses();
    compare_refusals();
    compare_extras();
    return 0;
}
