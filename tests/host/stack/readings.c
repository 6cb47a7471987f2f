/*
 * The peak stack of the readings, as host_test_exports has them: of the largest table
 * without extras and of the one with twelve. stack/peak.c measures.
 */
#include "peak.h"

#include <stdio.h>

uint64_t test_structure(const uint8_t *table, size_t size, uint8_t slot);
uint8_t test_structure_index(const uint8_t *table, size_t size, uint8_t slot);
uint8_t test_structure_checksum(const uint8_t *table, size_t size, uint8_t slot);
uint64_t test_entry(const uint8_t *table, size_t size, uint8_t entry);
uint64_t test_entry_place(const uint8_t *table, size_t size, uint8_t entry);
size_t test_structure_view(const uint8_t *table, size_t size, uint8_t slot, uint8_t *out, size_t out_size);
size_t test_entry_view(const uint8_t *table, size_t size, uint8_t entry, uint8_t *out, size_t out_size);
uint64_t test_login_order(const uint8_t *table, size_t size);
uint64_t test_login_places(const uint8_t *table, size_t size);
uint8_t test_login_checksum(const uint8_t *table, size_t size);
uint64_t test_header(const uint8_t *table, size_t size, uint8_t *out, size_t out_size);
uint64_t test_initiator(const uint8_t *table, size_t size, uint8_t *out, size_t out_size);
uint64_t test_nic(const uint8_t *table, size_t size, uint8_t n, uint8_t *out, size_t out_size);
uint64_t test_target(const uint8_t *table, size_t size, uint8_t n, uint8_t *out, size_t out_size);
uint8_t test_nic_index(const uint8_t *table, size_t size, uint8_t n);
uint8_t test_target_index(const uint8_t *table, size_t size, uint8_t n);

enum { OUT_SIZE = 512 };
static uint8_t out[OUT_SIZE];

/* A reading of the table, by number: what it answers is compared elsewhere (compare/), so the call is
 * made and its answer is let go. */
#define READING(name, ...) \
    static void run_##name(struct call *call) \
    { \
        STACK_POINTER(call->stack_pointer); \
        test_##name(call->bytes, call->size, ##__VA_ARGS__); \
    }

READING(structure, call->number)
READING(structure_index, call->number)
READING(structure_checksum, call->number)
READING(structure_view, call->number, out, OUT_SIZE)
READING(entry, call->number)
READING(entry_place, call->number)
READING(entry_view, call->number, out, OUT_SIZE)
READING(login_order)
READING(login_places)
READING(login_checksum)
READING(header, out, OUT_SIZE)
READING(initiator, out, OUT_SIZE)
READING(nic, call->number, out, OUT_SIZE)
READING(nic_index, call->number)
READING(target, call->number, out, OUT_SIZE)
READING(target_index, call->number)

/* A reading, and the greatest number that it takes without extras and with twelve. */
static const struct {
    const char *name;
    void (*run)(struct call *call);
    uint8_t last, last_with_extras;
} readings[] = {
    { "structure", run_structure, 4, 16 },
    { "structure's Index", run_structure_index, 4, 16 },
    { "structure's checksum", run_structure_checksum, 4, 16 },
    { "structure's view", run_structure_view, 4, 16 },
    { "entry", run_entry, 12, 48 },
    { "entry's place", run_entry_place, 12, 48 },
    { "entry's view", run_entry_view, 12, 48 },
    { "login order", run_login_order, 0, 0 },
    { "login places", run_login_places, 0, 0 },
    { "login's checksum", run_login_checksum, 0, 0 },
    { "header", run_header, 0, 0 },
    { "initiator", run_initiator, 0, 0 },
    { "NIC", run_nic, 1, 7 },
    { "NIC's Index", run_nic_index, 1, 7 },
    { "target", run_target, 1, 7 },
    { "target's Index", run_target_index, 1, 7 },
};

void measure_readings(void)
{
    for (size_t i = 0; i < sizeof readings / sizeof readings[0]; i++)
        for (size_t extras = 0; extras <= EXTRAS; extras += EXTRAS) {
            struct call call = { .run = readings[i].run, .bytes = table_bytes() };
            char what[80];

            call.size = lay_largest_table(extras);
            call.number = extras == 0 ? readings[i].last : readings[i].last_with_extras;
            snprintf(what, sizeof what, "reading, %s %u, %s", readings[i].name,
                     (unsigned)call.number, extras == 0 ? "without extras" : "twelve extras");
            measure(what, call, 0, CALL_LIMIT);
        }
}
