/*
 * The peak stack of the exported calls, of the readings, of the host name check and
 * of the tail test, on a painted stack of their own; on tables and records without
 * extras and with twelve. Exits 1 at 2 KiB, of the rebuild at 3 KiB, of the calls of
 * an aBFT and an sBFT at 1 KiB: the firmware's stack is 4 KiB.
 *
 * What counts is the way from the caller's stack pointer down to the deepest
 * byte written, the call's return address included. A byte written with the
 * paint's own value would be missed, so each call runs on two paints.
 */
#define _GNU_SOURCE
#include "peak.h"

#include <bootfw.h>

#include <stdbool.h>
#include <stdio.h>
#include <stdlib.h>
#include <string.h>
#include <ucontext.h>

bool test_host_name(const uint8_t *name, size_t name_size);
size_t test_common_tail(const uint8_t *a, size_t a_size, const uint8_t *b, size_t b_size);

enum {
    STACK_SIZE = 1 << 20,
    HEADROOM = 4096,
    HOST_NAME_LIMIT = 256,
    TAIL_LIMIT = 256,
    WINDOW_SIZE = IBFT_WINDOW_END - IBFT_WINDOW_START,
    LONG_NAME = 20001,
};

/* Where the structures of the largest table start, without extras or with six of
 * each kind: in the order of a build, each string as long as it may be. */
static size_t initiator_start, nic_starts[ALL_NICS], target_starts[ALL_TARGETS], heap_start;

static uint8_t stack[STACK_SIZE] __attribute__((aligned(4096)));
static uint8_t memory[WINDOW_SIZE];
static uint8_t name[LONG_NAME];
static struct call *current;

static void run_scan(struct call *call)
{
    STACK_POINTER(call->stack_pointer);
    call->answer = ibft_scan(call->bytes, call->size, call->address);
}

static void run_check(struct call *call)
{
    STACK_POINTER(call->stack_pointer);
    call->answer = ibft_check(call->bytes, call->size);
}

static void run_host_name(struct call *call)
{
    STACK_POINTER(call->stack_pointer);
    call->answer = test_host_name(call->bytes, call->size);
}

static void run_tail(struct call *call)
{
    STACK_POINTER(call->stack_pointer);
    call->answer = test_common_tail(call->bytes + 2, call->size - 2, call->bytes, call->size);
}

/* Leaving a context writes to its stack too. The headroom puts the measured
 * call below all of that; the asm keeps it. */
static void on_painted_stack(void)
{
    uint8_t headroom[HEADROOM];

    __asm__ volatile("" : : "r"(headroom) : "memory");
    current->run(current);
    __asm__ volatile("" : : "r"(headroom) : "memory");
}

static size_t peak_on_paint(uint8_t paint, struct call *call)
{
    ucontext_t back, there;
    const uint8_t *deepest = stack;

    memset(stack, paint, sizeof stack);
    if (getcontext(&there) != 0)
        abort();
    there.uc_stack.ss_sp = stack;
    there.uc_stack.ss_size = sizeof stack;
    there.uc_link = &back;
    current = call;
    makecontext(&there, on_painted_stack, 0);
    if (swapcontext(&back, &there) != 0)
        abort();
    while (deepest < call->stack_pointer && *deepest == paint)
        deepest++;
    return (size_t)(call->stack_pointer - deepest);
}

static size_t peak(struct call *call)
{
    size_t first = peak_on_paint(0xA5, call);
    size_t second = peak_on_paint(0x5A, call);

    return first > second ? first : second;
}

void measure(const char *what, struct call call, uint64_t answer, size_t limit)
{
    size_t used = peak(&call);

    printf("peak stack: %s: %zu bytes\n", what, used);
    if (call.answer != answer) {
        printf("peak stack: %s: wrong answer 0x%llx\n", what, (unsigned long long)call.answer);
        exit(1);
    }
    if (used > limit) {
        printf("peak stack: %s: above the limit of %zu bytes\n", what, limit);
        exit(1);
    }
}

void expect_length(size_t length, size_t expected)
{
    if (length != expected) {
        printf("peak stack: the largest table has %zu bytes and not %zu\n", length, expected);
        exit(1);
    }
}

static void measure_scan(const char *what, size_t size, uint64_t address, uint64_t answer)
{
    struct call call = { .run = run_scan, .bytes = memory, .size = size, .address = address };

    measure(what, call, answer, CALL_LIMIT);
}

static void measure_check(const char *what, size_t size, uint64_t answer)
{
    struct call call = { .run = run_check, .bytes = memory, .size = size };

    measure(what, call, answer, CALL_LIMIT);
}

static void measure_host_name(const char *what, size_t size)
{
    struct call call = { .run = run_host_name, .bytes = name, .size = size };

    measure(what, call, true, HOST_NAME_LIMIT);
}

static void measure_tail(const char *what, size_t size)
{
    struct call call = { .run = run_tail, .bytes = name, .size = size };

    measure(what, call, size - 2, TAIL_LIMIT);
}

/* A signature at every place, each claiming `length` bytes. */
static void lay_signatures(uint32_t length)
{
    for (size_t k = 0; k < WINDOW_SIZE; k += 16) {
        memcpy(memory + k, "iBFT", 4);
        memcpy(memory + k + 4, &length, sizeof length);
    }
}

/* A sound table at offset k, and nothing else. */
static void lay_table(size_t k, uint32_t length)
{
    uint8_t sum = 0;

    memset(memory, 0, sizeof memory);
    memcpy(memory + k, "iBFT", 4);
    memcpy(memory + k + 4, &length, sizeof length);
    for (size_t i = 0; i < 8; i++)
        sum = (uint8_t)(sum + memory[k + i]);
    memory[k + 9] = (uint8_t)-sum;
}

static void measure_scans(void)
{
    const uint64_t start = IBFT_WINDOW_START, end = IBFT_WINDOW_END;

    measure_scan("scan, refused 1", WINDOW_SIZE, start + 1, IBFT_REFUSED_PAST_WINDOW);
    measure_scan("scan, nothing lent", 0, start, IBFT_REFUSED_NO_TABLE);
    measure_scan("scan, nothing there", WINDOW_SIZE, start, IBFT_REFUSED_NO_TABLE);
    lay_signatures(427);
    measure_scan("scan, bad sums everywhere", WINDOW_SIZE, start, IBFT_REFUSED_NO_TABLE);
    lay_table(0, WINDOW_SIZE);
    measure_scan("scan, table fills the window", WINDOW_SIZE, start, found(start, WINDOW_SIZE));
    lay_table(WINDOW_SIZE - 48, 48);
    measure_scan("scan, table at the very end", WINDOW_SIZE, start, found(end - 48, 48));
    lay_table(24, 427);
    measure_scan("scan, bytes lent from 0x7FFF8", 1000, start - 8, found(start + 16, 427));
}

/* Puts a structure of so many bytes behind `end`; its start goes into a Control word. */
static size_t place(size_t word, size_t size, size_t *end)
{
    uint16_t start = (uint16_t)((*end + 7) / 8 * 8);

    memcpy(memory + word, &start, sizeof start);
    *end = start + size;
    return start;
}

/* Control, and where structures start: `extras` of each kind beside the named ones. The words of the
 * extra NICs stand before those of the extra targets. */
static void lay_control(size_t extras)
{
    const uint8_t control[] = { 1, 1, (uint8_t)(18 + 4 * extras), 0, 0, 0 };
    size_t end = 66 + 4 * extras;

    memset(memory, 0, sizeof memory);
    memcpy(memory, "iBFT", 4);
    memory[8] = 1;
    memcpy(memory + 48, control, sizeof control);
    initiator_start = place(56, sizeof(struct ibft_initiator), &end);
    for (size_t i = 0; i < 2 + extras; i++)
        nic_starts[i] = place(i < 2 ? 58 + 4 * i : 66 + 2 * (i - 2), sizeof(struct ibft_nic), &end);
    for (size_t i = 0; i < 2 + extras; i++)
        target_starts[i] = place(i < 2 ? 60 + 4 * i : 66 + 2 * (extras + i - 2),
                                 sizeof(struct ibft_target), &end);
    heap_start = end;
}

static void lay_structure(size_t start, uint8_t id, uint16_t length, uint8_t index)
{
    struct ibft_structure_header header = {
        .id = id, .version = 1, .length = length, .index = index, .flags = 1,
    };

    memcpy(memory + start, &header, sizeof header);
}

/* A string of labels of one letter at *offset; *offset moves behind its zero. */
static void lay_entry(size_t field, uint16_t length, uint16_t *offset)
{
    struct ibft_entry entry = { .length = length, .offset = *offset };

    memcpy(memory + field, &entry, sizeof entry);
    memcpy(memory + *offset, name, length);
    *offset = (uint16_t)(*offset + length + 1);
}

static void lay_nic(size_t start, uint8_t index, uint16_t *offset)
{
    lay_structure(start, 3, sizeof(struct ibft_nic), index);
    lay_entry(start + 98, IBFT_LONGEST_STRING, offset);
}

static void lay_target(size_t start, uint8_t index, uint16_t *offset)
{
    lay_structure(start, 4, sizeof(struct ibft_target), index);
    lay_entry(start + 34, IBFT_LONGEST_NAME, offset);
    for (size_t at = 38; at <= 50; at += 4)
        lay_entry(start + at, IBFT_LONGEST_STRING, offset);
}

/* Sets the checksum byte of a table of `length` bytes. */
static void mend_sum(size_t length)
{
    uint8_t sum = 0;

    for (size_t i = 0; i < length; i++)
        sum = (uint8_t)(sum + memory[i]);
    memory[9] = (uint8_t)(memory[9] - sum);
}

/* The largest table; each host name has 127 dots. An extra's Index leaves gaps. */
size_t lay_largest_table(size_t extras)
{
    uint16_t offset;
    uint32_t length;

    lay_control(extras);
    offset = (uint16_t)heap_start;
    lay_structure(initiator_start, 2, sizeof(struct ibft_initiator), 0);
    lay_entry(initiator_start + 70, IBFT_LONGEST_NAME, &offset);
    for (uint8_t i = 0; i < 2 + extras; i++)
        lay_nic(nic_starts[i], i < 2 ? i : (uint8_t)(40 * i), &offset);
    for (uint8_t i = 0; i < 2 + extras; i++)
        lay_target(target_starts[i], i < 2 ? i : (uint8_t)(36 * i), &offset);
    length = offset;
    memcpy(memory + 4, &length, sizeof length);
    mend_sum(length);
    return length;
}

const uint8_t *table_bytes(void)
{
    return memory;
}

uint64_t refused_for_sum(const uint8_t *table, size_t length)
{
    uint8_t right = table[9];

    for (size_t i = 0; i < length; i++)
        right = (uint8_t)(right - table[i]);
    return refused(IBFT_REFUSED_SUM, 9) | (uint64_t)right << 32;
}

/* The checks of the largest table: `what` says of which. */
static void measure_checks_of(const char *what, size_t extras, size_t length)
{
    const size_t last_nic = 1 + extras, last_target = 1 + extras;
    const size_t last_letter = heap_start + IBFT_LONGEST_NAME
        + (last_nic + 1) * (IBFT_LONGEST_STRING + 1) - 1;
    const size_t last_word = extras == 0 ? 64 : 64 + 4 * extras;
    char name_of[96];

#define MEASURE(which, size, answer) \
    (snprintf(name_of, sizeof name_of, "check, %s%s", what, which), \
     measure_check(name_of, size, answer))
    MEASURE(", host names with 127 dots", length, 0);
    MEASURE(", more bytes lent", WINDOW_SIZE, 0);
    memory[last_letter] = ' ';
    MEASURE(", wrong sum", length, refused_for_sum(memory, length));
    mend_sum(length);
    MEASURE(", refused at the last letter of a host name", length,
            refused(IBFT_REFUSED_HOST_NAME, nic_starts[last_nic] + 98));
    lay_largest_table(extras);
    memory[length - 1] = 'a';
    mend_sum(length);
    MEASURE(", refused at the last byte", length,
            refused(IBFT_REFUSED_ENTRY_END, target_starts[last_target] + 50));
    memory[last_word] = (uint8_t)initiator_start;
    memory[last_word + 1] = 0;
    mend_sum(length);
    MEASURE(", refused at the last word", length,
            refused(IBFT_REFUSED_STRUCTURE, initiator_start));
#undef MEASURE
}

static void measure_checks(void)
{
    measure_check("check, nothing lent", 0, IBFT_REFUSED_FEW_BYTES);
    expect_length(lay_largest_table(0), BASE_LARGEST);
    measure_checks_of("largest table without extras", 0, BASE_LARGEST);
    expect_length(lay_largest_table(EXTRAS), LARGEST);
    measure_checks_of("largest table, twelve extras", EXTRAS, LARGEST);
}

int main(void)
{
    for (size_t i = 0; i < sizeof name; i++)
        name[i] = i % 2 == 0 ? 'a' : '.';
    measure_scans();
    measure_checks();
    measure_builds();
    measure_rebuilds();
    measure_compares();
    measure_readings();
    measure_families();
    measure_host_name("host name, 255 bytes with 127 dots", 255);
    measure_host_name("host name, 20001 bytes with 10000 dots", sizeof name);
    measure_tail("tail test, 253 bytes that agree", 255);
    measure_tail("tail test, 19999 bytes that agree", sizeof name);
    return 0;
}
