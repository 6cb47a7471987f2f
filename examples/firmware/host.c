/*
 * A machine to try the boot program on: 640 KiB of low memory, with what
 * firmware before it left there. Runs the program, prints what it reports and
 * looks at memory and stack afterwards; exits 1 where anything is not as
 * expected.
 *
 *   firmware SAMPLES      SAMPLES is the folder of the sample tables
 */
#include "boot.h"

#include <stdio.h>
#include <stdlib.h>
#include <string.h>

enum {
    MEMORY_SIZE = 640 * 1024,
    TABLE = 0x90000,   /* where the sample tables are put */
    TARGET0 = 384,     /* where Target 0 starts in iPXE's sample tables */
    DAMAGED = 0x9EF00, /* a damaged table below the room */
    ROOM = 0x9F000,    /* the last 4 KiB below 640 KiB */
    ROOM_SIZE = 4096,
    CABINET_LENGTH = 384, /* the tables of the two records */
    DEPOT_LENGTH = 868
};

_Static_assert(ROOM_SIZE >= IBFT_LARGEST_LENGTH, "the room is enough without extras");

/* The Control word of the depot's second extra NIC. */
enum { LAST_NIC_WORD = IBFT_WORD_OFFSET(IBFT_SLOT_EXTRA_NIC(1)) };

/* Memory and stack hold these before a run. */
enum { MEMORY_BYTE = 0xA5, PAINT = 0x5A };

enum { STACK_LIMIT = 2048 };

static const char *samples;
static const char *title;
static uint8_t memory[MEMORY_SIZE];
static uint8_t memory_before[MEMORY_SIZE];
static size_t stack_used;

static void expect(bool holds, const char *what)
{
    if (!holds) {
        printf("wrong in \"%s\": %s\n", title, what);
        exit(1);
    }
}

/* ---- What firmware before the boot program left in memory ------------------- */

static void load(const char *sample, size_t address)
{
    char path[4096];
    FILE *file;

    snprintf(path, sizeof path, "%s/%s", samples, sample);
    file = fopen(path, "rb");
    expect(file != NULL, path);
    expect(fread(memory + address, 1, MEMORY_SIZE - address, file) > 0, path);
    fclose(file);
}

/* Makes the bytes of a table sum to 0. */
static void mend_sum(uint8_t *table)
{
    struct ibft_table_header header;
    uint8_t sum = 0;

    memcpy(&header, table, sizeof header);
    for (size_t i = 0; i < header.length; i++)
        sum = (uint8_t)(sum + table[i]);
    header.checksum = (uint8_t)(header.checksum - sum);
    memcpy(table, &header, sizeof header);
}

/* Sets a byte of the sample table. */
static void change(size_t offset, uint8_t byte)
{
    memory[TABLE + offset] = byte;
    mend_sum(memory + TABLE);
}

/* Sets a byte of its Target 0, by its offset in the structure. */
static void change_target(size_t offset, uint8_t byte)
{
    struct ibft_control control;

    memcpy(&control, memory + TABLE + IBFT_CONTROL_OFFSET, sizeof control);
    change(control.slot_offset[IBFT_SLOT_TARGET0] + offset, byte);
}

static void leave_nothing(void)
{
}

static void leave_dump(void)
{
    load("low-memory-0x9f000.bin", 0x9F000);
}

static void leave_mutual_chap(void)
{
    load("ipxe-mutual-chap.ibft", TABLE);
}

static void leave_second_selected(void)
{
    load("ipxe-two-targets.ibft", TABLE);
    change_target(offsetof(struct ibft_target, header.flags), IBFT_TARGET_VALID);
}

static void leave_single_login(void)
{
    leave_second_selected();
    change(IBFT_CONTROL_OFFSET + offsetof(struct ibft_control, header.flags),
           IBFT_CONTROL_SINGLE_LOGIN);
}

static void leave_chap_type_3(void)
{
    leave_mutual_chap();
    change_target(offsetof(struct ibft_target, chap_type), IBFT_CHAP_TYPE_MUTUAL + 1);
}

static void leave_wrong_sum(void)
{
    leave_mutual_chap();
    memory[TABLE + offsetof(struct ibft_table_header, checksum)]++;
}

static void leave_invalid_target(void)
{
    leave_mutual_chap();
    change_target(offsetof(struct ibft_target, header.flags), IBFT_TARGET_SELECTED);
}

static void leave_no_names(void)
{
    load("case-5.ibft", TABLE);
}

/* The depot's table, as the boot program built it before. */
static void leave_depot(void)
{
    struct boot_machine machine = {
        .memory = memory,
        .memory_size = MEMORY_SIZE,
        .room_address = TABLE,
        .room_size = ROOM_SIZE,
        .record = &boot_depot,
    };

    boot(&machine);
    expect(machine.report.status == BOOT_READY && machine.report.built, "the depot's table");
}

static void leave_depot_multi_login(void)
{
    leave_depot();
    change(IBFT_CONTROL_OFFSET + offsetof(struct ibft_control, header.flags), 0);
}

/* The last extra NIC says that it is NIC 4, as the one before it. */
static void leave_equal_indexes(void)
{
    uint16_t start;

    leave_depot();
    memcpy(&start, memory + TABLE + LAST_NIC_WORD, sizeof start);
    change(start + offsetof(struct ibft_nic, header.index), 4);
}

/* A table below the room that reaches to the end of memory: its bytes sum to 0
 * once a table of CABINET_LENGTH bytes, which sum to 0, stands in the room. */
static void leave_damage_below_room(void)
{
    uint8_t *table = memory + DAMAGED;
    struct ibft_table_header header = { .length = MEMORY_SIZE - DAMAGED };

    memcpy(header.signature, IBFT_SIGNATURE, sizeof header.signature);
    memcpy(table, &header, sizeof header);
    memset(memory + ROOM, 0, CABINET_LENGTH);
    mend_sum(table);
    memory[ROOM] = 1;
}

/* ---- What is tried ----------------------------------------------------------- */

struct boot_case {
    const char *title;
    void (*leave)(void);
    uint64_t memory_address;
    size_t memory_size;
    uint64_t room_address;
    size_t room_size;
    const char *target_name;     /* NULL where there is no login */
    struct boot_report expected; /* of the login: target and NIC */
};

/* All memory is lent, from address 0 on, and the whole room. */
#define ALL 0, MEMORY_SIZE, ROOM, ROOM_SIZE

#define FOUND(at, bytes) .table_address = (at), .table_length = (bytes)
#define REFUSED(by, at) .number = (by), .place = (at)

static const char depot1[] = "iqn.2026-11.example:depot1";
static const char depot2[] = "iqn.2026-11.example:depot2";
static const char depot7[] = "iqn.2026-11.example:depot7";

/* With the cabinet's record to build from. */
static const struct boot_case cabinet_cases[] = {
    { "a table, below it a damaged copy and a stray signature", leave_dump, ALL, depot1,
      { .status = BOOT_READY, FOUND(0x9F830, 597) } },
    { "a table with mutual CHAP", leave_mutual_chap, ALL, depot1,
      { .status = BOOT_READY, FOUND(TABLE, 611) } },
    { "two targets, the second selected", leave_second_selected, ALL, depot1,
      { .status = BOOT_READY, FOUND(TABLE, 607) } },
    { "two targets, the second selected, a single login", leave_single_login, ALL, depot2,
      { .status = BOOT_READY, FOUND(TABLE, 607), .login = { .target = 1, .nic = 1 } } },
    { "no table", leave_nothing, ALL, depot1,
      { .status = BOOT_READY, .built = true, FOUND(ROOM, CABINET_LENGTH) } },
    { "a table with a wrong sum, room just large enough", leave_wrong_sum,
      0, MEMORY_SIZE, ROOM, CABINET_LENGTH, depot1,
      { .status = BOOT_READY, .built = true, FOUND(ROOM, CABINET_LENGTH) } },
    { "a table with CHAP type 3", leave_chap_type_3, ALL, NULL,
      { .status = BOOT_TABLE_REFUSED, FOUND(TABLE, 611),
        REFUSED(IBFT_REFUSED_CHAP_TYPE, TARGET0 + offsetof(struct ibft_target, chap_type)) } },
    { "a table whose target is not valid", leave_invalid_target, ALL, NULL,
      { .status = BOOT_NO_TARGET, FOUND(TABLE, 611) } },
    { "a table without names", leave_no_names, ALL, NULL,
      { .status = BOOT_NO_NAME, FOUND(TABLE, 133) } },
    { "memory past 0x100000", leave_dump,
      IBFT_WINDOW_END - MEMORY_SIZE + 1, MEMORY_SIZE, ROOM, ROOM_SIZE, NULL,
      { .status = BOOT_MEMORY_REFUSED, REFUSED(IBFT_REFUSED_PAST_WINDOW, 0) } },
    { "no table, no room", leave_nothing, 0, MEMORY_SIZE, 0, 0, NULL,
      { .status = BOOT_NO_TABLE } },
    { "no table, room one byte too small", leave_nothing,
      0, MEMORY_SIZE, ROOM, CABINET_LENGTH - 1, NULL,
      { .status = BOOT_BUILD_REFUSED, REFUSED(IBFT_REFUSED_ROOM, 0) } },
    { "no table, room at no multiple of 16", leave_nothing,
      0, MEMORY_SIZE, ROOM + IBFT_TABLE_ALIGNMENT / 2, CABINET_LENGTH, NULL,
      { .status = BOOT_ROOM_REFUSED } },
    { "no table, room below 512 KiB", leave_nothing,
      0, MEMORY_SIZE, IBFT_WINDOW_START - IBFT_TABLE_ALIGNMENT, ROOM_SIZE, NULL,
      { .status = BOOT_ROOM_REFUSED } },
    { "no table, room past 640 KiB", leave_nothing,
      0x10000, MEMORY_SIZE, ROOM + IBFT_TABLE_ALIGNMENT, ROOM_SIZE, NULL,
      { .status = BOOT_ROOM_REFUSED } },
    { "no table, room that ends past the memory", leave_nothing,
      0, ROOM + IBFT_TABLE_ALIGNMENT, ROOM, ROOM_SIZE, NULL, { .status = BOOT_ROOM_REFUSED } },
    { "no table, room that starts past the memory", leave_nothing,
      0, TABLE, ROOM, ROOM_SIZE, NULL, { .status = BOOT_ROOM_REFUSED } },
    { "no table, room below the memory", leave_nothing,
      ROOM, ROOM_SIZE, TABLE, CABINET_LENGTH, NULL, { .status = BOOT_ROOM_REFUSED } },
    { "a damaged table that reaches into the room", leave_damage_below_room, ALL, NULL,
      { .status = BOOT_BUILT_NOT_LOWEST, .built = true, FOUND(DAMAGED, MEMORY_SIZE - DAMAGED) } },
};

/* With the depot's. */
static const struct boot_case depot_cases[] = {
    { "no table, four NICs and three targets to build", leave_nothing, ALL, depot7,
      { .status = BOOT_READY, .built = true, FOUND(ROOM, DEPOT_LENGTH),
        .login = { .target = 7, .nic = 9 } } },
    { "the same, room just large enough", leave_nothing,
      0, MEMORY_SIZE, ROOM, DEPOT_LENGTH, depot7,
      { .status = BOOT_READY, .built = true, FOUND(ROOM, DEPOT_LENGTH),
        .login = { .target = 7, .nic = 9 } } },
    { "the same, room one byte too small", leave_nothing,
      0, MEMORY_SIZE, ROOM, DEPOT_LENGTH - 1, NULL,
      { .status = BOOT_BUILD_REFUSED, REFUSED(IBFT_REFUSED_ROOM, 0) } },
    { "a table with four NICs and three targets", leave_depot, ALL, depot7,
      { .status = BOOT_READY, FOUND(TABLE, DEPOT_LENGTH), .login = { .target = 7, .nic = 9 } } },
    { "the same, logins to all targets", leave_depot_multi_login, ALL, depot1,
      { .status = BOOT_READY, FOUND(TABLE, DEPOT_LENGTH) } },
    { "the same, two NICs with Index 4", leave_equal_indexes, ALL, NULL,
      { .status = BOOT_TABLE_REFUSED, FOUND(TABLE, DEPOT_LENGTH),
        REFUSED(IBFT_REFUSED_SAME_INDEX, LAST_NIC_WORD) } },
};

/* ---- What the boot program reports ------------------------------------------- */

static const char *const status_words[] = {
    [BOOT_READY] = "ready to log in",
    [BOOT_MEMORY_REFUSED] = "the scan refuses the memory",
    [BOOT_NO_TABLE] = "there is no table",
    [BOOT_ROOM_REFUSED] = "the room is no place for a table",
    [BOOT_BUILD_REFUSED] = "the build refuses the record or the room",
    [BOOT_BUILT_NOT_LOWEST] = "a scan finds another table before the one built",
    [BOOT_TABLE_REFUSED] = "the check refuses the table",
    [BOOT_NO_TARGET] = "no target is valid",
    [BOOT_NO_NAME] = "the initiator or the target has no name",
};

static void print_text(const char *what, struct boot_text text)
{
    if (text.bytes != NULL)
        printf("  %s %.*s\n", what, (int)text.length, (const char *)text.bytes);
}

/* A secret is not shown. */
static void print_secret(const char *what, struct boot_text text)
{
    if (text.bytes != NULL)
        printf("  %s of %u bytes\n", what, (unsigned)text.length);
}

static void print_address(const uint8_t *address)
{
    static const ibft_ip_address ipv4 = IBFT_IPV4(0, 0, 0, 0);
    const uint8_t *four = address + IBFT_IPV4_OFFSET;

    if (memcmp(address, ipv4, IBFT_IPV4_OFFSET) == 0) {
        printf("%u.%u.%u.%u", four[0], four[1], four[2], four[3]);
        return;
    }
    for (size_t i = 0; i < sizeof(ibft_ip_address); i += 2)
        printf("%s%x", i == 0 ? "" : ":", (unsigned)(address[i] << 8 | address[i + 1]));
}

static void print_login(const struct boot_login *login)
{
    print_text("initiator", login->initiator_name);
    printf("  target %u, by NIC %u, at ", login->target, login->nic);
    print_address(login->ip_address);
    printf(" port %u, LUN", login->port);
    for (size_t i = 0; i < sizeof login->lun; i++)
        printf(" %02x", login->lun[i]);
    printf("\n");
    print_text("target's name", login->target_name);
    printf("  CHAP type %u\n", login->chap_type);
    print_text("CHAP name", login->chap_name);
    print_secret("CHAP secret", login->chap_secret);
    print_text("reverse CHAP name", login->reverse_chap_name);
    print_secret("reverse CHAP secret", login->reverse_chap_secret);
}

/* The Indexes of a kind of structure, as Control's words go. */
static void print_indexes(const uint8_t *table, unsigned words, enum ibft_structure_id id)
{
    for (unsigned w = 0; w < words; w++) {
        struct ibft_structure_header header;
        uint16_t start;

        memcpy(&start, table + IBFT_WORD_OFFSET(w), sizeof start);
        memcpy(&header, table + start, sizeof header);
        if (start != 0 && header.id == id)
            printf(" %u", header.index);
    }
}

/* Which NICs and targets a table with extras has. */
static void print_extras(const uint8_t *table)
{
    struct ibft_control control;
    unsigned words;

    memcpy(&control, table + IBFT_CONTROL_OFFSET, sizeof control);
    words = ibft_control_words(&control);
    if (words == IBFT_SLOTS)
        return;
    printf("  NICs");
    print_indexes(table, words, IBFT_ID_NIC);
    printf(", targets");
    print_indexes(table, words, IBFT_ID_TARGET);
    printf("\n");
}

static void print_report(const struct boot_report *report)
{
    printf("%s\n", title);
    if (report->built)
        printf("  a table was built\n");
    if (report->table_length != 0)
        printf("  table at 0x%x, %u bytes\n", (unsigned)report->table_address,
               (unsigned)report->table_length);
    if (report->status == BOOT_READY)
        print_extras(memory + report->table_address);
    if (report->number != IBFT_ACCEPTED)
        printf("  refused %u %u: %s\n", report->number, (unsigned)report->place,
               ibft_refusal_text(report->number));
    printf("  status %u: %s\n", (unsigned)report->status, status_words[report->status]);
    if (report->status == BOOT_READY)
        print_login(&report->login);
}

/* ---- Running it and looking -------------------------------------------------- */

static bool guard_is_whole(void)
{
    for (size_t i = 0; i < sizeof boot_stack.guard; i++)
        if (boot_stack.guard[i] != PAINT)
            return false;
    return true;
}

/* Runs a program on the painted stack; how much of the stack was written. */
static size_t run_painted(void (*program)(struct boot_machine *), struct boot_machine *machine)
{
    size_t unused = 0;

    memset(&boot_stack, PAINT, sizeof boot_stack);
    boot_on_stack(program, machine);
    while (unused < sizeof boot_stack.bytes && boot_stack.bytes[unused] == PAINT)
        unused++;
    return sizeof boot_stack.bytes - unused;
}

static void expect_report(const struct boot_report *report, const struct boot_case *tried)
{
    const struct boot_report *expected = &tried->expected;
    struct boot_text name = report->login.target_name;

    expect(report->status == expected->status, "the status");
    expect(report->number == expected->number, "the number of a refusal");
    expect(report->place == expected->place, "the place of a refusal");
    expect(report->built == expected->built, "whether a table was built");
    expect(report->table_address == expected->table_address, "the table's address");
    expect(report->table_length == expected->table_length, "the table's Length");
    if (tried->target_name != NULL) {
        expect(report->login.target == expected->login.target, "the target's Index");
        expect(report->login.nic == expected->login.nic, "the NIC's Index");
        expect(report->login.port == IBFT_ISCSI_PORT, "the port");
        expect(name.length == strlen(tried->target_name), "the length of the target's name");
        expect(memcmp(name.bytes, tried->target_name, name.length + 1u) == 0, "the target's name");
    }
}

/* All memory is as it was, but for the table that was built. */
static void expect_memory(bool built, const struct boot_record *record)
{
    if (built)
        memcpy(memory_before + ROOM, memory + ROOM,
               record == &boot_depot ? DEPOT_LENGTH : CABINET_LENGTH);
    expect(memcmp(memory, memory_before, MEMORY_SIZE) == 0, "memory outside the table");
}

static void run_case(const struct boot_case *tried, const struct boot_record *record)
{
    struct boot_machine machine = {
        .memory = memory,
        .memory_size = tried->memory_size,
        .memory_address = tried->memory_address,
        .room_address = tried->room_address,
        .room_size = tried->room_size,
        .record = record,
    };
    size_t used;

    title = tried->title;
    memset(memory, MEMORY_BYTE, MEMORY_SIZE);
    tried->leave();
    memcpy(memory_before, memory, MEMORY_SIZE);
    used = run_painted(boot, &machine);
    stack_used = used > stack_used ? used : stack_used;
    print_report(&machine.report);
    expect(guard_is_whole(), "the guard below the stack");
    expect_report(&machine.report, tried);
    expect_memory(tried->expected.built, record);
}

/* Writes more bytes than the stack has. */
__attribute__((noinline, no_sanitize("address"))) static void overrun(struct boot_machine *machine)
{
    volatile uint8_t deep[BOOT_STACK_SIZE];

    (void)machine;
    for (size_t i = 0; i < sizeof deep; i++)
        deep[i] = 0;
}

static void show_stack(void)
{
    title = "stack";
    expect(stack_used > 0 && stack_used < STACK_LIMIT, "how much of the stack was used");
    printf("stack: less than %u of %u bytes used\n", (unsigned)STACK_LIMIT,
           (unsigned)BOOT_STACK_SIZE);
    fprintf(stderr, "stack: %zu bytes used, as this compiler has it\n", stack_used);
    run_painted(overrun, NULL);
    expect(!guard_is_whole(), "a program that writes too many bytes is not seen");
    printf("stack: a program that uses more than %u is seen\n", (unsigned)BOOT_STACK_SIZE);
}

int main(int count, char **words)
{
    if (count != 2) {
        fprintf(stderr, "usage: firmware SAMPLES\n");
        return 2;
    }
    samples = words[1];
    for (size_t i = 0; i < sizeof cabinet_cases / sizeof cabinet_cases[0]; i++)
        run_case(&cabinet_cases[i], &boot_cabinet);
    for (size_t i = 0; i < sizeof depot_cases / sizeof depot_cases[0]; i++)
        run_case(&depot_cases[i], &boot_depot);
    show_stack();
    printf("all as expected\n");
    return 0;
}
