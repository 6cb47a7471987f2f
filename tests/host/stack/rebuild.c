/*
 * The peak stack of ibft_rebuild: a common table, the largest without extras and with
 * twelve, tables whose strings are all tails, and refusals early and late. A rebuild has
 * the record range of the table on its stack, so its limit is above that of the other
 * calls. stack/peak.c measures.
 */
#include "peak.h"

#include <bootfw.h>

#include <stdio.h>
#include <string.h>

/* Under 3 KiB: the firmware's stack is 4 KiB. */
enum { REBUILD_LIMIT = 3071 };

/* Where the heap starts, without extras and with twelve; a string in it and its zero byte. */
enum { HEAP = 470, HEAP_WITH_EXTRAS = 1454, ONE_STRING = IBFT_LONGEST_STRING + 1 };

enum { LAST_ENTRY = IBFT_MOST_ENTRIES - 1 };

static uint8_t table[LARGEST];
static uint8_t room[LARGEST];
static size_t room_size;

/* The table is what the call is lent; the room is above. */
static void run_rebuild(struct call *call)
{
    STACK_POINTER(call->stack_pointer);
    call->answer = ibft_rebuild(call->bytes, call->size, room, room_size);
}

static void measure_rebuild(const char *what, size_t table_size, uint64_t answer)
{
    struct call call = { .run = run_rebuild, .bytes = table, .size = table_size };

    measure(what, call, answer, REBUILD_LIMIT);
}

static uint64_t rebuilt(uint64_t length)
{
    return length << 32;
}

/* The largest table as it is laid: its strings are all tails of the longest. */
static size_t lay_tails(size_t extras)
{
    size_t length = lay_largest_table(extras);

    memcpy(table, table_bytes(), length);
    room_size = sizeof room;
    return length;
}

/* The same with another first byte in each string, so that none is a tail. */
static size_t lay_worst(size_t extras, size_t heap)
{
    size_t length = lay_tails(extras);
    unsigned n = 0;

    for (size_t i = heap; i < length; i++)
        if (table[i - 1] == 0 || i == heap) {
            table[i] = (uint8_t)(n < 25 ? 'b' + n : 'A' + (n - 25));
            n++;
        }
    mend(table, length);
    return length;
}

/* Initiator, NIC 0 and Target 0, with four strings. */
static size_t lay_common(void)
{
    static const char strings[] = "iqn.2026-11.example.depot:cabinet-0417"
                                  "cabinet-0417.depot.example"
                                  "iqn.2026-11.example.depot:volume-0417"
                                  "login-0417";
    struct ibft_record record = { 0 };
    uint64_t answer;

    record.slot_present[IBFT_SLOT_INITIATOR] = IBFT_PRESENT;
    record.slot_present[IBFT_SLOT_NIC0] = IBFT_PRESENT;
    record.slot_present[IBFT_SLOT_TARGET0] = IBFT_PRESENT;
    memset(record.entry_present, IBFT_PRESENT, IBFT_ENTRY_TARGET0_CHAP_NAME + 1);
    record.initiator.name.length = 38;
    record.nic0.host_name.offset = 38;
    record.nic0.host_name.length = 26;
    record.target0.name.offset = 64;
    record.target0.name.length = 37;
    record.target0.chap_name.offset = 101;
    record.target0.chap_name.length = 10;
    answer = ibft_build((const uint8_t *)&record, sizeof record, (const uint8_t *)strings,
                        sizeof strings - 1, table, sizeof table);
    room_size = sizeof room;
    return ibft_answer_length(answer);
}

static void measure_rebuilds_of(const char *which, size_t extras, size_t heap, size_t largest)
{
    /* Without extra NICs the last string has number 12, with six 48. */
    const size_t last = extras == 0 ? IBFT_ENTRIES - 1 : LAST_ENTRY;
    /* Of tails one is stored, and the two secrets of each target. */
    const size_t stored = 1 + 2 * (2 + extras);
    size_t length;
    char name_of[96];

#define MEASURE(what, size, answer) \
    (snprintf(name_of, sizeof name_of, "rebuild, %s%s", which, what), \
     measure_rebuild(name_of, size, answer))
    length = lay_tails(extras);
    MEASURE(", all strings tails", length, rebuilt(heap + stored * ONE_STRING));
    length = lay_worst(extras, heap);
    expect_length(length, largest);
    MEASURE(", host names with 127 dots", length, rebuilt(largest));
    MEASURE(", more bytes lent", sizeof table, rebuilt(largest));
    room_size = largest - 1;
    MEASURE(", one byte of room too few", length, IBFT_REFUSED_ROOM);
    table[length - 2] = 0;
    mend(table, length);
    MEASURE(", a zero byte in the last string", length, refused(IBFT_REFUSED_ENTRY_ZERO, last));
    table[9]++;
    MEASURE(", wrong sum", length, refused_for_sum(table, length));
#undef MEASURE
}

void measure_rebuilds(void)
{
    size_t length;

    measure_rebuild("rebuild, nothing lent", 0, IBFT_REFUSED_FEW_BYTES);
    length = lay_common();
    measure_rebuild("rebuild, a common table", length, rebuilt(length));
    measure_rebuilds_of("five structures", 0, HEAP, BASE_LARGEST);
    measure_rebuilds_of("five structures, twelve extras", EXTRAS, HEAP_WITH_EXTRAS, LARGEST);
}
