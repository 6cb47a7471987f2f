/*
 * The build as one would write it in C, for the benchmark: all refusals, then the table. Tails are
 * compared by memcmp, or counted from the back as the library does: two calls that answer the same.
 */
#include "check.h"
#include "sum.h"

#include <string.h>

uint64_t c_build(const uint8_t *record, size_t record_size, const uint8_t *strings,
                 size_t strings_size, uint8_t *room, size_t room_size);
uint64_t c_build_from_back(const uint8_t *record, size_t record_size, const uint8_t *strings,
                           size_t strings_size, uint8_t *room, size_t room_size);

enum { RECORD = 419, EXTRAS = 421, FLAGS = 14, SLOT_MARKS = 15, ENTRY_MARKS = 20, FIRST_IMAGE = 33 };
enum { CONTROL = 48, CONTROL_END = 66 };

/* A slot as it is given: its image, and the marks of its strings; where its structure is to start. */
struct slot {
    const struct kind *kind;
    const uint8_t *image, *marks;
    uint32_t start; /* 0 where absent */
    uint8_t index;
    bool present;
};

/* A string as it is given. */
struct text {
    bool present, secret;
    const uint8_t *bytes;
    uint32_t size;
};

struct plan {
    struct slot slots[ALL_SLOTS];
    struct text texts[ALL_ENTRIES];
    uint32_t offsets[ALL_ENTRIES];
    bool stored[ALL_ENTRIES];
    uint32_t slot_count, entry_count, control_end, heap, length;
};

typedef bool is_tail_of(const struct text *tail, const struct text *text);

static void write_word(uint8_t *bytes, uint32_t number)
{
    uint16_t word = (uint16_t)number;

    memcpy(bytes, &word, sizeof word);
}

static bool has_bad_mark(const uint8_t *marks, uint32_t count)
{
    for (uint32_t i = 0; i < count; i++)
        if (marks[i] > 1)
            return true;
    return false;
}

/* The size and the marks. */
static bool is_range(const uint8_t *record, size_t size, uint32_t nics, uint32_t targets)
{
    const uint8_t *extra = record + EXTRAS;

    if (size != RECORD && size != EXTRAS + 103 * nics + 59 * targets)
        return false;
    if (has_bad_mark(record + SLOT_MARKS, FIRST_IMAGE - SLOT_MARKS))
        return false;
    for (uint32_t i = 0; i < nics; i++, extra += 103)
        if (has_bad_mark(extra + 102, 1))
            return false;
    for (uint32_t i = 0; i < targets; i++, extra += 59)
        if (has_bad_mark(extra + 54, 5))
            return false;
    return true;
}

static void take_named(const uint8_t *record, struct plan *plan)
{
    const uint8_t *image = record + FIRST_IMAGE, *marks = record + ENTRY_MARKS;

    for (uint32_t i = 0; i < NAMED; i++) {
        const struct kind *kind = c_named[i].kind;

        plan->slots[i] = (struct slot){ kind, image, marks, 0, c_named[i].index,
                                        record[SLOT_MARKS + i] == 1 };
        image += kind->length;
        marks += kind->texts;
    }
    plan->slot_count = NAMED;
}

/* So many extras of a kind, each Index above the one before. */
static uint64_t take_extras(const struct kind *kind, uint32_t count, const uint8_t **image,
                            struct plan *plan)
{
    uint32_t last = 1;

    for (uint32_t i = 0; i < count; i++) {
        uint8_t index = (*image)[4];

        if (i == EXTRAS_OF_A_KIND)
            return refused(34, plan->slot_count);
        if (index < 2)
            return refused(13, plan->slot_count);
        if (index <= last)
            return refused(33, plan->slot_count);
        last = index;
        plan->slots[plan->slot_count++] =
            (struct slot){ kind, *image, *image + kind->length, 0, index, true };
        *image += kind->length + kind->texts;
    }
    return 0;
}

static uint64_t check_record(const uint8_t *record, size_t record_size, struct plan *plan)
{
    uint32_t nics = record_size > RECORD ? record[RECORD] : 0;
    uint32_t targets = record_size > RECORD + 1 ? record[RECORD + 1] : 0;
    const uint8_t *image = record + EXTRAS;
    uint64_t answer;

    if (!is_range(record, record_size, nics, targets))
        return refused(25, 0);
    if (!c_has_zero_tail(record, 6))
        return refused(8, 10);
    if (!c_has_zero_tail(record + 6, 8))
        return refused(8, 16);
    take_named(record, plan);
    if ((answer = take_extras(&c_nic, nics, &image, plan)) != 0 ||
        (answer = take_extras(&c_target, targets, &image, plan)) != 0)
        return answer;
    if ((record[FLAGS] & ~1) != 0)
        return refused(10, 255);
    for (uint32_t i = 0; i < plan->slot_count; i++) {
        const struct slot *slot = &plan->slots[i];

        if (!slot->present)
            continue;
        if ((slot->image[5] & ~slot->kind->named_flags) != 0)
            return refused(10, i);
        if (slot->kind == &c_target && slot->image[32] > 2)
            return refused(19, i);
    }
    plan->control_end = CONTROL_END + 2 * (plan->slot_count - NAMED);
    return 0;
}

static uint64_t check_text(const struct slot *slot, uint32_t i, const uint8_t *strings,
                           size_t strings_size, uint32_t n, struct text *text)
{
    const uint8_t *words = slot->image + slot->kind->text[i].at;
    uint32_t size = word(words), start = word(words + 2);

    text->present = false;
    if (!slot->present || slot->marks[i] == 0)
        return 0;
    if (start + size > strings_size)
        return refused(24, n);
    if (size > slot->kind->text[i].longest)
        return refused(17, n);
    if (size != 0 && memchr(strings + start, 0, size) != NULL)
        return refused(20, n);
    if (slot->kind == &c_nic && !c_is_host_name(strings + start, size))
        return refused(18, n);
    *text = (struct text){ true, slot->kind == &c_target && (i == 2 || i == 4), strings + start,
                           size };
    return 0;
}

static uint64_t check_texts(const uint8_t *strings, size_t strings_size, struct plan *plan)
{
    uint32_t n = 0;

    for (uint32_t k = 0; k < plan->slot_count; k++)
        for (uint32_t i = 0; i < plan->slots[k].kind->texts; i++, n++) {
            uint64_t answer =
                check_text(&plan->slots[k], i, strings, strings_size, n, &plan->texts[n]);
            if (answer != 0)
                return answer;
        }
    plan->entry_count = n;
    return 0;
}

static bool is_tail(const struct text *tail, const struct text *text)
{
    return tail->size <= text->size &&
           memcmp(text->bytes + text->size - tail->size, tail->bytes, tail->size) == 0;
}

static bool is_tail_from_back(const struct text *tail, const struct text *text)
{
    uint32_t same = 0;

    while (same < tail->size && same < text->size &&
           tail->bytes[tail->size - 1 - same] == text->bytes[text->size - 1 - same])
        same++;
    return same == tail->size;
}

/* A secret always is, and no other string is looked for in one. */
static inline bool is_stored(const struct text *texts, uint32_t count, uint32_t i,
                             is_tail_of *is_tail_of)
{
    if (texts[i].secret)
        return true;
    for (uint32_t j = 0; j < count; j++)
        if (texts[j].present && !texts[j].secret && j != i &&
            (texts[j].size > texts[i].size || (texts[j].size == texts[i].size && j < i)) &&
            is_tail_of(&texts[i], &texts[j]))
            return false;
    return true;
}

/* The initiator, then the NICs and the targets by Index, which is the order of their slots. */
static void plan_structures(struct plan *plan)
{
    static const struct kind *const kinds[] = { &c_initiator, &c_nic, &c_target };

    plan->heap = plan->control_end;
    for (uint32_t k = 0; k < 3; k++)
        for (uint32_t i = 0; i < plan->slot_count; i++) {
            struct slot *slot = &plan->slots[i];

            if (!slot->present || slot->kind != kinds[k])
                continue;
            slot->start = (plan->heap + 7) / 8 * 8;
            plan->heap = slot->start + slot->kind->length;
        }
}

static inline void plan_heap(struct plan *plan, is_tail_of *is_tail_of)
{
    const struct text *texts = plan->texts;

    plan->length = plan->heap;
    for (uint32_t i = 0; i < plan->entry_count; i++) {
        plan->stored[i] =
            texts[i].present && is_stored(texts, plan->entry_count, i, is_tail_of);
        if (plan->stored[i]) {
            plan->offsets[i] = plan->length;
            plan->length += texts[i].size + 1;
        }
    }
    for (uint32_t i = 0; i < plan->entry_count; i++) {
        uint32_t j = 0;

        if (!texts[i].present || plan->stored[i])
            continue;
        while (!plan->stored[j] || texts[j].secret || !is_tail_of(&texts[i], &texts[j]))
            j++;
        plan->offsets[i] = plan->offsets[j] + texts[j].size - texts[i].size;
    }
}

static void write_text(const struct plan *plan, uint32_t n, uint8_t *words, uint8_t *room)
{
    const struct text *text = &plan->texts[n];

    write_word(words, text->present ? text->size : 0);
    write_word(words + 2, text->present ? plan->offsets[n] : 0);
    if (plan->stored[n]) {
        memcpy(room + plan->offsets[n], text->bytes, text->size);
        room[plan->offsets[n] + text->size] = 0;
    }
}

static void write_structure(const struct slot *slot, uint8_t *at)
{
    memcpy(at, slot->image, slot->kind->length);
    at[0] = slot->kind->id;
    at[1] = 1;
    write_word(at + 2, slot->kind->length);
    at[4] = slot->index;
}

static void write_table(const uint8_t *record, const struct plan *plan, uint8_t *room)
{
    uint32_t n = 0;

    memset(room, 0, plan->heap);
    memcpy(room, "iBFT", 4);
    memcpy(room + 4, &plan->length, sizeof plan->length);
    room[8] = 1;
    memcpy(room + 10, record, 14);
    room[CONTROL] = 1;
    room[CONTROL + 1] = 1;
    write_word(room + CONTROL + 2, plan->control_end - CONTROL);
    room[CONTROL + 5] = record[FLAGS];
    for (uint32_t i = 0; i < plan->slot_count; i++) {
        const struct slot *slot = &plan->slots[i];
        const struct kind *kind = slot->kind;

        write_word(room + CONTROL + 8 + 2 * i, slot->start);
        if (slot->present) {
            write_structure(slot, room + slot->start);
            for (uint32_t k = 0; k < kind->texts; k++)
                write_text(plan, n + k, room + slot->start + kind->text[k].at, room);
        }
        n += kind->texts;
    }
    room[9] = c_checksum(room, plan->length, 9);
}

static inline uint64_t build(const uint8_t *record, size_t record_size, const uint8_t *strings,
                             size_t strings_size, uint8_t *room, size_t room_size,
                             is_tail_of *is_tail_of)
{
    struct plan plan;
    uint64_t answer;

    if ((answer = check_record(record, record_size, &plan)) != 0)
        return answer;
    if ((answer = check_texts(strings, strings_size, &plan)) != 0)
        return answer;
    plan_structures(&plan);
    plan_heap(&plan, is_tail_of);
    if (plan.length > room_size)
        return refused(21, 0);
    write_table(record, &plan, room);
    return (uint64_t)plan.length << 32;
}

uint64_t c_build(const uint8_t *record, size_t record_size, const uint8_t *strings,
                 size_t strings_size, uint8_t *room, size_t room_size)
{
    return build(record, record_size, strings, strings_size, room, room_size, is_tail);
}

uint64_t c_build_from_back(const uint8_t *record, size_t record_size, const uint8_t *strings,
                           size_t strings_size, uint8_t *room, size_t room_size)
{
    return build(record, record_size, strings, strings_size, room, room_size, is_tail_from_back);
}
