/*
 * A boot program that has no C library, no heap and 4 KiB of stack. It finds the
 * iBFT in low memory, or builds one from the record that it is handed; checks it;
 * and takes from it what a login to the first target needs.
 */
#include "boot.h"

/* From start.c: there is no string.h here. */
void *memset(void *to, int byte, size_t size);
void *memcpy(void *restrict to, const void *restrict from, size_t size);

/* ---- Finding, building and checking ---------------------------------------- */

/* Conventional memory ends here: 640 KiB. */
enum { CONVENTIONAL_END = 0xA0000 };

static uint8_t *bytes_at(const struct boot_machine *machine, uint64_t address)
{
    return machine->memory + (address - machine->memory_address);
}

/* Keeps what the library said, beside the status. */
static enum boot_status refused(struct boot_report *report, uint64_t answer,
                                enum boot_status status)
{
    report->number = ibft_answer_number(answer);
    report->place = ibft_answer_place(answer);
    return status;
}

static enum boot_status find_table(struct boot_machine *machine)
{
    struct boot_report *report = &machine->report;
    uint64_t answer =
        ibft_scan(machine->memory, machine->memory_size, machine->memory_address);

    if (ibft_answer_number(answer) == IBFT_REFUSED_NO_TABLE)
        return BOOT_NO_TABLE;
    if (ibft_answer_number(answer) != IBFT_ACCEPTED)
        return refused(report, answer, BOOT_MEMORY_REFUSED);
    report->table_address = ibft_answer_address(answer);
    report->table_length = ibft_answer_length(answer);
    return BOOT_READY;
}

/* Whether the room is part of the memory, and a table in it can be found: from
 * 512 to 640 KiB, at a multiple of 16. No sum here can pass 2^64. */
static bool room_is_usable(const struct boot_machine *machine)
{
    uint64_t room = machine->room_address, memory = machine->memory_address;

    return room % IBFT_TABLE_ALIGNMENT == 0
        && room >= IBFT_WINDOW_START && room <= CONVENTIONAL_END
        && machine->room_size <= CONVENTIONAL_END - room
        && room >= memory && room - memory <= machine->memory_size
        && machine->room_size <= machine->memory_size - (room - memory);
}

/* Builds the table of the record and scans for it. A damaged table below the room
 * may reach into it, and its bytes may sum to 0 now that some of them were written:
 * then a scan finds that place first. */
static enum boot_status build_table(struct boot_machine *machine)
{
    const struct boot_record *record = machine->record;
    struct boot_report *report = &machine->report;
    enum boot_status status;
    uint64_t answer;

    if (!room_is_usable(machine))
        return BOOT_ROOM_REFUSED;
    answer = ibft_build(record->range, record->range_size, record->strings, record->strings_size,
                        bytes_at(machine, machine->room_address), machine->room_size);
    if (ibft_answer_number(answer) != IBFT_ACCEPTED)
        return refused(report, answer, BOOT_BUILD_REFUSED);
    report->built = true;
    status = find_table(machine);
    if (status == BOOT_READY && report->table_address != machine->room_address)
        return BOOT_BUILT_NOT_LOWEST;
    return status;
}

static enum boot_status check_table(struct boot_machine *machine)
{
    struct boot_report *report = &machine->report;
    uint64_t answer =
        ibft_check(bytes_at(machine, report->table_address), report->table_length);

    if (ibft_answer_number(answer) != IBFT_ACCEPTED)
        return refused(report, answer, BOOT_TABLE_REFUSED);
    return BOOT_READY;
}

/* ---- Reading a table that the check accepted -------------------------------- */

static struct ibft_control control_of(const uint8_t *table)
{
    struct ibft_control control;

    memcpy(&control, table + IBFT_CONTROL_OFFSET, sizeof control);
    return control;
}

/* Control's word w, an extra one too: where its structure starts, 0 if it has none. */
static uint16_t start_at(const uint8_t *table, unsigned w)
{
    uint16_t start;

    memcpy(&start, table + IBFT_WORD_OFFSET(w), sizeof start);
    return start;
}

/* Whether a structure of this kind starts there, with all of these flags. */
static bool has_flags(const uint8_t *table, uint16_t start, enum ibft_structure_id id,
                      uint8_t flags)
{
    struct ibft_structure_header header;

    memcpy(&header, table + start, sizeof header);
    return start != 0 && header.id == id && (header.flags & flags) == flags;
}

static uint8_t index_of(const uint8_t *table, uint16_t start)
{
    return table[start + offsetof(struct ibft_structure_header, index)];
}

/* Where the target with all of these flags and the lowest Index starts; 0 if none
 * has them. Extra words stand in any order. */
static uint16_t target_with(const uint8_t *table, const struct ibft_control *control,
                            uint8_t flags)
{
    uint16_t lowest = 0;

    for (unsigned w = 0; w < ibft_control_words(control); w++) {
        uint16_t start = start_at(table, w);

        if (!has_flags(table, start, IBFT_ID_TARGET, flags))
            continue;
        if (lowest == 0 || index_of(table, start) < index_of(table, lowest))
            lowest = start;
    }
    return lowest;
}

/* The target to log in to first: the lowest Index that is valid; where Control asks
 * for a single login, the lowest that is selected too, if there is one. */
static uint16_t first_target(const uint8_t *table, const struct ibft_control *control)
{
    uint16_t start = 0;

    if (control->header.flags & IBFT_CONTROL_SINGLE_LOGIN)
        start = target_with(table, control, IBFT_TARGET_VALID | IBFT_TARGET_SELECTED);
    return start != 0 ? start : target_with(table, control, IBFT_TARGET_VALID);
}

/* An accepted table has no string with a length and no offset. */
static struct boot_text text_of(const uint8_t *table, struct ibft_entry entry)
{
    struct boot_text missing = { NULL, 0 };
    struct boot_text text = { table + entry.offset, entry.length };

    return entry.offset == 0 ? missing : text;
}

static void take_target(const uint8_t *table, uint16_t start, struct boot_login *login)
{
    struct ibft_target target;

    memcpy(&target, table + start, sizeof target);
    login->target = target.header.index;
    login->nic = target.nic_association;
    memcpy(login->ip_address, target.ip_address, sizeof login->ip_address);
    login->port = target.ip_socket;
    memcpy(login->lun, table + start + offsetof(struct ibft_target, boot_lun), sizeof login->lun);
    login->chap_type = target.chap_type;
    login->target_name = text_of(table, target.name);
    login->chap_name = text_of(table, target.chap_name);
    login->chap_secret = text_of(table, target.chap_secret);
    login->reverse_chap_name = text_of(table, target.reverse_chap_name);
    login->reverse_chap_secret = text_of(table, target.reverse_chap_secret);
}

static void take_initiator(const uint8_t *table, uint16_t start, struct boot_login *login)
{
    struct ibft_initiator initiator;

    if (!has_flags(table, start, IBFT_ID_INITIATOR, IBFT_INITIATOR_VALID))
        return;
    memcpy(&initiator, table + start, sizeof initiator);
    login->initiator_name = text_of(table, initiator.name);
}

static enum boot_status take_login(const uint8_t *table, struct boot_login *login)
{
    struct ibft_control control = control_of(table);
    uint16_t start = first_target(table, &control);

    if (start == 0)
        return BOOT_NO_TARGET;
    take_target(table, start, login);
    take_initiator(table, control.slot_offset[IBFT_SLOT_INITIATOR], login);
    if (login->target_name.length == 0 || login->initiator_name.length == 0)
        return BOOT_NO_NAME;
    return BOOT_READY;
}

void boot(struct boot_machine *machine)
{
    struct boot_report *report = &machine->report;

    memset(report, 0, sizeof *report);
    report->status = find_table(machine);
    if (report->status == BOOT_NO_TABLE && machine->room_size != 0)
        report->status = build_table(machine);
    if (report->status == BOOT_READY)
        report->status = check_table(machine);
    if (report->status == BOOT_READY)
        report->status = take_login(bytes_at(machine, report->table_address), &report->login);
}
