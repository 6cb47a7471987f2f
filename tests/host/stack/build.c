/*
 * The peak stack of ibft_build, without extras and with twelve: the worst record,
 * refusals early and late, and strings that are all tails. stack/peak.c measures.
 */
#include "peak.h"

#include <bootfw.h>

#include <stdbool.h>
#include <stdio.h>
#include <string.h>

/* Entries without extras and with twelve; where the heap starts in each. */
enum {
    ALL_ENTRIES = 49,
    HEAP = 470,
    HEAP_WITH_EXTRAS = 1454,
    LAST_ENTRY = IBFT_ENTRIES - 1,
    RANGE_SIZE = 419 + 2 + EXTRAS * (102 + 1) + EXTRAS * (54 + 5),
};

static uint8_t record[RANGE_SIZE];
static size_t record_size;
static uint8_t strings[ALL_ENTRIES * IBFT_LONGEST_STRING];
static size_t strings_size;
static uint8_t room[LARGEST];
static size_t room_size;

/* The record is what the call is lent; strings and room are above. */
static void run_build(struct call *call)
{
    STACK_POINTER(call->stack_pointer);
    call->answer = ibft_build(call->bytes, call->size, strings, strings_size, room, room_size);
}

static void measure_build(const char *what, uint64_t answer)
{
    struct call call = { .run = run_build, .bytes = record, .size = record_size };

    measure(what, call, answer, CALL_LIMIT);
}

/* An entry: where its words and its mark stand in the range, the longest it may be, and whether it is
 * a secret. */
struct given_entry {
    size_t words, mark;
    uint16_t longest;
    bool secret;
};

/* String n of a target whose image starts at `image`. */
static struct given_entry of_target(size_t image, size_t marks, size_t n)
{
    struct given_entry entry = { image + 34 + 4 * n, marks + n,
                                 n == 0 ? IBFT_LONGEST_NAME : IBFT_LONGEST_STRING,
                                 n == 2 || n == 4 };

    return entry;
}

/* Entries from 13 on are those of six extra NICs, then of six extra targets. */
static struct given_entry entry(size_t number)
{
    const size_t extras = sizeof(struct ibft_record) + 2;
    const size_t nic = sizeof(struct ibft_nic) + 1, target = sizeof(struct ibft_target) + 5;
    const size_t marks = offsetof(struct ibft_record, entry_present);
    struct given_entry found = { 0, marks + number, IBFT_LONGEST_STRING, false };
    size_t image;

    if (number == IBFT_ENTRY_INITIATOR_NAME) {
        found.words = offsetof(struct ibft_record, initiator.name);
        found.longest = IBFT_LONGEST_NAME;
    } else if (number == IBFT_ENTRY_NIC0_HOST_NAME) {
        found.words = offsetof(struct ibft_record, nic0.host_name);
    } else if (number == IBFT_ENTRY_NIC1_HOST_NAME) {
        found.words = offsetof(struct ibft_record, nic1.host_name);
    } else if (number < IBFT_ENTRY_NIC1_HOST_NAME) {
        return of_target(offsetof(struct ibft_record, target0), marks + IBFT_ENTRY_TARGET0_NAME,
                         number - IBFT_ENTRY_TARGET0_NAME);
    } else if (number < IBFT_ENTRIES) {
        return of_target(offsetof(struct ibft_record, target1), marks + IBFT_ENTRY_TARGET1_NAME,
                         number - IBFT_ENTRY_TARGET1_NAME);
    } else if (number < IBFT_ENTRIES + EXTRAS) {
        image = extras + (number - IBFT_ENTRIES) * nic;
        found.words = image + offsetof(struct ibft_nic, host_name);
        found.mark = image + sizeof(struct ibft_nic);
    } else {
        number -= IBFT_ENTRIES + EXTRAS;
        image = extras + EXTRAS * nic + number / 5 * target;
        return of_target(image, image + sizeof(struct ibft_target), number % 5);
    }
    return found;
}

/* All five structures, with six extras of each kind or none; nothing said of strings yet. */
static void give_structures(size_t extras)
{
    const size_t first = sizeof(struct ibft_record) + 2;

    memset(record, 0, sizeof record);
    memset(record + offsetof(struct ibft_record, slot_present), IBFT_PRESENT, IBFT_SLOT_TARGET1 + 1);
    record_size = extras == 0 ? sizeof(struct ibft_record) : sizeof record;
    record[first - 2] = (uint8_t)extras;
    record[first - 1] = (uint8_t)extras;
    for (size_t i = 0; i < extras; i++) {
        record[first + 103 * i + 4] = (uint8_t)(50 * i + 2);
        record[first + 103 * extras + 59 * i + 4] = (uint8_t)(i + 2);
    }
    strings_size = 0;
    room_size = sizeof room;
}

/* Labels of one letter, the first letter as given. */
static void give_entry(size_t number, uint16_t length, uint8_t first)
{
    uint8_t *text = strings + strings_size;
    struct given_entry given = entry(number);
    struct ibft_entry words = { .length = length, .offset = (uint16_t)strings_size };

    for (size_t i = 0; i < length; i++)
        text[i] = i % 2 == 0 ? 'a' : '.';
    text[0] = first;
    record[given.mark] = IBFT_PRESENT;
    memcpy(record + given.words, &words, sizeof words);
    strings_size += length;
}

static size_t count_of(size_t extras)
{
    return extras == 0 ? IBFT_ENTRIES : ALL_ENTRIES;
}

/* Strings as long as they may be, equal from the back but for the first byte; a host name has 127 dots. */
static void give_worst_record(size_t extras)
{
    give_structures(extras);
    for (size_t i = 0; i < count_of(extras); i++)
        give_entry(i, entry(i).longest, (uint8_t)(i < 25 ? 'b' + i : 'A' + (i - 25)));
}

/* Each string is a tail of the one after, so that of those that are no secret only the last is stored.
 * Says how many bytes that and the secrets take. */
static size_t give_tails(size_t extras)
{
    size_t secrets = 0, last = 0;

    give_structures(extras);
    for (size_t i = 0; i < count_of(extras); i++) {
        const size_t length = 2 * i + 1;

        give_entry(i, (uint16_t)length, 'a');
        if (entry(i).secret)
            secrets += length + 1;
        else
            last = length + 1;
    }
    return secrets + last;
}

static uint64_t built(uint64_t length)
{
    return length << 32;
}

static void measure_builds_of(const char *which, size_t extras, size_t heap, uint64_t largest)
{
    const size_t last = count_of(extras) - 1;
    const size_t last_host = extras == 0 ? IBFT_ENTRY_NIC1_HOST_NAME : IBFT_ENTRIES + EXTRAS - 1;
    const size_t chap_type = extras == 0 ? offsetof(struct ibft_record, target1) + 32
                                         : RANGE_SIZE - 59 + 32;
    struct ibft_entry words;
    size_t size;
    char name_of[96];

#define MEASURE(what, answer) \
    (snprintf(name_of, sizeof name_of, "build, %s%s", which, what), measure_build(name_of, answer))
    give_structures(extras);
    MEASURE(", no strings", built(heap));
    size = give_tails(extras);
    MEASURE(", all strings tails", built(heap + size));
    give_worst_record(extras);
    MEASURE(", worst record, host names with 127 dots", built(largest));
    room_size = largest - 1;
    MEASURE(", one byte of room too few", IBFT_REFUSED_ROOM);
    strings_size--;
    MEASURE(", last string past the range", refused(IBFT_REFUSED_ENTRY_OUTSIDE, last));
    give_worst_record(extras);
    memcpy(&words, record + entry(last_host).words, sizeof words);
    strings[words.offset + IBFT_LONGEST_STRING - 1] = ' ';
    MEASURE(", refused at the last letter of a host name", refused(IBFT_REFUSED_HOST_NAME, last_host));
    record[chap_type] = IBFT_CHAP_TYPE_MUTUAL + 1;
    MEASURE(", refused at the last structure",
            refused(IBFT_REFUSED_CHAP_TYPE, extras == 0 ? IBFT_SLOT_TARGET1 : 16));
#undef MEASURE
}

void measure_builds(void)
{
    record_size = 0;
    measure_build("build, nothing lent", IBFT_REFUSED_RECORD);
    measure_builds_of("five structures", 0, HEAP, BASE_LARGEST);
    measure_builds_of("five structures, twelve extras", EXTRAS, HEAP_WITH_EXTRAS, LARGEST);
}
