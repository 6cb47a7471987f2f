/*
 * The peak stack of scan, check and write of an aBFT and an sBFT, and of their readings as
 * host_test_exports has them: tables as they are written, one with its parts as far up as can be,
 * and refusals early and late. stack/peak.c measures.
 */
#include "peak.h"

#include <bootfw.h>

#include <stdio.h>
#include <string.h>

uint64_t test_abft(const uint8_t *table, size_t size, uint8_t *out, size_t out_size);
uint64_t test_sbft_start(const uint8_t *table, size_t size, uint8_t *out, size_t out_size);
uint64_t test_sbft_scsi(const uint8_t *table, size_t size, uint8_t *out, size_t out_size);
uint64_t test_sbft_srp(const uint8_t *table, size_t size, uint8_t *out, size_t out_size);
uint64_t test_sbft_ib(const uint8_t *table, size_t size, uint8_t *out, size_t out_size);
size_t test_sbft_part_view(const uint8_t *table, size_t size, uint8_t part, uint8_t *out, size_t out_size);

/* Under 1 KiB. */
enum { FAMILY_LIMIT = 1023 };

/* The greatest offset of a part; a table with its IB part there. */
enum { LAST_OFFSET = 0xFFFF, FAR_LENGTH = LAST_OFFSET + sizeof(struct sbft_ib) };

/* The last reserved byte of an IB part. */
enum { LAST_RESERVED = sizeof(struct sbft_ib) - 1 };


static uint8_t memory[SBFT_WINDOW_END];
static uint8_t room[SBFT_LENGTH + 1];
static uint8_t out[64];
static size_t room_size;

#define SCAN_CHECK_WRITE(family) \
    static void run_##family##_scan(struct call *call) \
    { \
        STACK_POINTER(call->stack_pointer); \
        call->answer = family##_scan(call->bytes, call->size, call->address); \
    } \
    static void run_##family##_check(struct call *call) \
    { \
        STACK_POINTER(call->stack_pointer); \
        call->answer = family##_check(call->bytes, call->size); \
    } \
    static void run_##family##_write(struct call *call) \
    { \
        STACK_POINTER(call->stack_pointer); \
        call->answer = family##_write(call->bytes, call->size, room, room_size); \
    }

SCAN_CHECK_WRITE(abft)
SCAN_CHECK_WRITE(sbft)

#define READING(name) \
    static void run_##name(struct call *call) \
    { \
        STACK_POINTER(call->stack_pointer); \
        call->answer = test_##name(call->bytes, call->size, out, sizeof out); \
    }

READING(abft)
READING(sbft_start)
READING(sbft_scsi)
READING(sbft_srp)
READING(sbft_ib)

/* The view of the IB part. */
static void run_sbft_view(struct call *call)
{
    STACK_POINTER(call->stack_pointer);
    call->answer = test_sbft_part_view(call->bytes, call->size, 2, out, sizeof out);
}

static void run(const char *what, void (*run)(struct call *call), size_t size, uint64_t answer)
{
    struct call call = { .run = run, .bytes = memory, .size = size };

    measure(what, call, answer, FAMILY_LIMIT);
}

/* A sound table of the family at an address of the memory, and nothing else. */
static void lay_sound(size_t at, const char *signature, uint32_t length)
{
    memset(memory, 0, sizeof memory);
    memcpy(memory + at, signature, 4);
    memcpy(memory + at + 4, &length, sizeof length);
    memory[at + 8] = 1;
    mend(memory + at, length);
}

static void measure_scans(const char *name, void (*scan)(struct call *call), const char *signature, uint32_t least)
{
    const size_t all = sizeof memory;
    char what[80];

#define MEASURE(which, size, answer) \
    (snprintf(what, sizeof what, "%s, %s", name, which), run(what, scan, size, answer))
    memset(memory, 0, sizeof memory);
    MEASURE("nothing lent", 0, IBFT_REFUSED_NO_TABLE);
    MEASURE("nothing there", all, IBFT_REFUSED_NO_TABLE);
    for (size_t at = 0; at < all; at += 16) {
        memcpy(memory + at, signature, 4);
        memcpy(memory + at + 4, &least, sizeof least);
    }
    MEASURE("bad sums everywhere", all, IBFT_REFUSED_NO_TABLE);
    lay_sound(all - 48, signature, least);
    MEASURE("table at the very end", all, found(all - 48, least));
    lay_sound(0, signature, SBFT_WINDOW_END);
    MEASURE("table fills the window", all, found(0, SBFT_WINDOW_END));
#undef MEASURE
}

static void measure_abft(void)
{
    lay_sound(0, ABFT_SIGNATURE, ABFT_LENGTH);
    run("aBFT check, nothing lent", run_abft_check, 0, IBFT_REFUSED_FEW_BYTES);
    run("aBFT check", run_abft_check, ABFT_LENGTH, 0);
    run("aBFT check, more bytes lent", run_abft_check, sizeof memory, 0);
    run("aBFT reading", run_abft, ABFT_LENGTH, 0);
    memory[39] = 1;
    run("aBFT check, wrong sum", run_abft_check, ABFT_LENGTH, refused_for_sum(memory, ABFT_LENGTH));
    run("aBFT reading, wrong sum", run_abft, ABFT_LENGTH, refused_for_sum(memory, ABFT_LENGTH));
    mend(memory, ABFT_LENGTH);
    run("aBFT check, refused at byte 39", run_abft_check, ABFT_LENGTH, refused(IBFT_REFUSED_RESERVED, 39));
    run("aBFT reading, refused", run_abft, ABFT_LENGTH, refused(IBFT_REFUSED_RESERVED, 39));
    room_size = sizeof room;
    run("aBFT write", run_abft_write, ABFT_LENGTH, found(0, ABFT_LENGTH));
    run("aBFT write, nothing lent", run_abft_write, 0, found(0, ABFT_LENGTH));
    memory[23] = 1;
    run("aBFT write, refused 8", run_abft_write, ABFT_LENGTH, refused(IBFT_REFUSED_OEM_TAIL, 16));
    memory[23] = 0;
    room_size = ABFT_LENGTH - 1;
    run("aBFT write, refused 21", run_abft_write, ABFT_LENGTH, IBFT_REFUSED_ROOM);
}

/* Parts behind the start, the IB part at `ib`, which is not 0. */
static void lay_sbft(uint16_t ib, uint32_t length)
{
    lay_sound(0, SBFT_SIGNATURE, length);
    memory[36] = 48;
    memory[38] = 56;
    memcpy(memory + 40, &ib, sizeof ib);
    mend(memory, length);
}

static void measure_sbft_checks(const char *which, uint16_t ib, uint32_t length)
{
    char what[80];

#define MEASURE(of, call, answer) \
    (snprintf(what, sizeof what, "sBFT %s, %s", of, which), run(what, call, length, answer))
    lay_sbft(ib, length);
    MEASURE("check", run_sbft_check, 0);
    memory[ib + LAST_RESERVED] = 1;
    MEASURE("check, wrong sum", run_sbft_check, refused_for_sum(memory, length));
    MEASURE("reading of the IB part, wrong sum", run_sbft_ib, refused_for_sum(memory, length));
    mend(memory, length);
    MEASURE("check, refused at the last byte", run_sbft_check,
            refused(IBFT_REFUSED_RESERVED, (uint64_t)ib + LAST_RESERVED));
    memory[38] = 55;
    mend(memory, length);
    MEASURE("check, refused 32", run_sbft_check, refused(IBFT_REFUSED_PART_OVERLAP, 38));
    memory[38] = 47;
    mend(memory, length);
    MEASURE("check, refused 31", run_sbft_check, refused(IBFT_REFUSED_PART_PLACE, 38));
    lay_sbft(ib, length);
    MEASURE("reading of the OEM fields", run_sbft_start, 0);
    MEASURE("reading of the SCSI part", run_sbft_scsi, 0);
    MEASURE("reading of the SRP part", run_sbft_srp, 0);
    MEASURE("reading of the IB part", run_sbft_ib, 0);
    MEASURE("view of the IB part", run_sbft_view, sizeof(struct sbft_ib));
#undef MEASURE
}

static void measure_sbft_writes(void)
{
    room_size = sizeof room;
    lay_sbft(88, SBFT_LENGTH);
    run("sBFT write", run_sbft_write, SBFT_LENGTH, found(0, SBFT_LENGTH));
    memset(memory + 40, 0, 2);
    run("sBFT write without IB part", run_sbft_write, SBFT_LENGTH, found(0, SBFT_LENGTH_WITHOUT_IB));
    run("sBFT write, nothing lent", run_sbft_write, 0, found(0, SBFT_LENGTH_WITHOUT_IB));
    memory[23] = 1;
    run("sBFT write, refused 8", run_sbft_write, SBFT_LENGTH, refused(IBFT_REFUSED_OEM_TAIL, 16));
    memory[23] = 0;
    room_size = SBFT_LENGTH_WITHOUT_IB - 1;
    run("sBFT write, refused 21", run_sbft_write, SBFT_LENGTH, IBFT_REFUSED_ROOM);
}

void measure_families(void)
{
    measure_scans("aBFT scan", run_abft_scan, ABFT_SIGNATURE, ABFT_LENGTH);
    measure_scans("sBFT scan", run_sbft_scan, SBFT_SIGNATURE, SBFT_LEAST_LENGTH);
    measure_abft();
    measure_sbft_checks("as it is written", 88, SBFT_LENGTH);
    measure_sbft_checks("IB part as far up as can be", LAST_OFFSET, FAR_LENGTH);
    measure_sbft_writes();
}
