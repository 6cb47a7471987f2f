/*
 * Extra NICs and targets by their names in bootfw.h: the numbers of their slots and
 * entries, where they stand in a record and in a table, their limits, and the
 * refusals that only they meet, each with its place.
 */
#include "names.h"

#include <string.h>

/* A seventh of each kind can be given, to be refused. */
enum { GIVEN = IBFT_MOST_EXTRAS + 1 };

/* Ascending and sparse, no Index of a NIC one of a target. What the seventh has does
 * not count. */
static const uint8_t nic_indexes[GIVEN] = { 2, 5, 9, 40, 128, 254, 0 };
static const uint8_t target_indexes[GIVEN] = { 3, 4, 12, 41, 127, 255, 0 };

static struct ibft_extra_nic nics[GIVEN];
static struct ibft_extra_target targets[GIVEN];
static uint8_t range[IBFT_RECORD_SIZE(GIVEN, GIVEN)];

/* ---- A record with extras ---------------------------------------------------- */

/* Nothing named is present; extras have an Index, and nothing else. */
static void clear_extras(void)
{
    unsigned i;

    clear_record();
    memset(nics, 0, sizeof nics);
    memset(targets, 0, sizeof targets);
    for (i = 0; i < GIVEN; i++) {
        nics[i].nic.header.index = nic_indexes[i];
        targets[i].target.header.index = target_indexes[i];
    }
}

/* Lays the range of the record with the first so many extras of each kind; its size. */
static size_t lay_range(unsigned nic_count, unsigned target_count)
{
    const size_t nics_size = nic_count * sizeof nics[0];
    struct ibft_expanded_record start;

    start.named = record;
    start.extra_nics = (uint8_t)nic_count;
    start.extra_targets = (uint8_t)target_count;
    memcpy(range, &start, sizeof start);
    memcpy(range + sizeof start, nics, nics_size);
    memcpy(range + sizeof start + nics_size, targets, target_count * sizeof targets[0]);
    return IBFT_RECORD_SIZE(nic_count, target_count);
}

static uint64_t build_range(size_t size)
{
    return ibft_build(range, size, strings, sizeof strings, room, sizeof room);
}

static uint64_t build_extras(unsigned nic_count, unsigned target_count)
{
    return build_range(lay_range(nic_count, target_count));
}

static void expect_built_extras(unsigned nic_count, unsigned target_count, uint64_t length)
{
    uint64_t answer = build_extras(nic_count, target_count);

    expect_answer(answer, IBFT_ACCEPTED, 0);
    expect(ibft_answer_length(answer) == length, "the Length");
    expect(ibft_check(room, length) == IBFT_ACCEPTED, "the check accepts it");
}

/* The words of a string: so many bytes of its entry's stretch. */
static struct ibft_entry words_of(unsigned number, unsigned length)
{
    struct ibft_entry entry;

    entry.length = (uint16_t)length;
    entry.offset = (uint16_t)(number * STRETCH);
    return entry;
}

static void give_host_name(unsigned i, unsigned length)
{
    nics[i].host_name_present = IBFT_PRESENT;
    nics[i].nic.host_name = words_of(IBFT_ENTRY_EXTRA_NIC(i), length);
}

/* Gives one string of the i-th extra target, where there are so many extra NICs. */
static void give_target_string(unsigned nic_count, unsigned i, unsigned string, unsigned length)
{
    const size_t field = offsetof(struct ibft_target, name) + string * sizeof(struct ibft_entry);
    struct ibft_entry entry = words_of(IBFT_ENTRY_EXTRA_TARGET(nic_count, i) + string, length);

    targets[i].string_present[string] = IBFT_PRESENT;
    memcpy((uint8_t *)&targets[i].target + field, &entry, sizeof entry);
}

/* ---- Its table ------------------------------------------------------------------ */

static size_t word_of(unsigned w)
{
    uint16_t start;

    memcpy(&start, room + IBFT_WORD_OFFSET(w), sizeof start);
    return start;
}

static void set_word(unsigned w, size_t value)
{
    const uint16_t start = (uint16_t)value;

    memcpy(room + IBFT_WORD_OFFSET(w), &start, sizeof start);
}

static size_t next_start(size_t end)
{
    return (end + IBFT_START_ALIGNMENT - 1) / IBFT_START_ALIGNMENT * IBFT_START_ALIGNMENT;
}

/* Word w starts a structure with this ID, Index and size; where it ends. */
static size_t expect_structure(unsigned w, size_t start, enum ibft_structure_id id, uint8_t index,
                               size_t size)
{
    struct ibft_structure_header header;

    expect(word_of(w) == start, "an extra word");
    memcpy(&header, room + start, sizeof header);
    expect(header.id == id, "an extra's ID");
    expect(header.version == IBFT_STRUCTURE_VERSION, "an extra's version");
    expect(header.length == size, "an extra's length");
    expect(header.index == index, "an extra's Index");
    expect(header.flags == 0, "an extra's flags");
    return start + size;
}

/* Extras alone: behind Control the NICs, then the targets, with their words in this
 * order behind the named ones. */
static void expect_table(unsigned nic_count, unsigned target_count)
{
    const unsigned words = IBFT_SLOTS + nic_count + target_count;
    struct ibft_control control;
    size_t end;
    unsigned i;

    expect_answer(build_extras(nic_count, target_count), IBFT_ACCEPTED, 0);
    control = table_control();
    expect(control.header.length == sizeof control + 2 * (nic_count + target_count), "Control");
    expect(ibft_control_words(&control) == words, "how many words");
    end = IBFT_CONTROL_OFFSET + control.header.length;
    expect(IBFT_WORD_OFFSET(words) == end, "where the last word ends");
    for (i = 0; i < nic_count; i++)
        end = expect_structure(IBFT_SLOT_EXTRA_NIC(i), next_start(end), IBFT_ID_NIC,
                               nic_indexes[i], sizeof(struct ibft_nic));
    for (i = 0; i < target_count; i++)
        end = expect_structure(IBFT_SLOT_EXTRA_TARGET(nic_count, i), next_start(end),
                               IBFT_ID_TARGET, target_indexes[i], sizeof(struct ibft_target));
    expect(table_header().length == end, "the Length");
    expect(ibft_check(room, end) == IBFT_ACCEPTED, "the check accepts it");
}

static void names_tables(void)
{
    struct ibft_control control;
    unsigned a, b;

    about = "tables with extras";
    clear_extras();
    for (a = 0; a <= IBFT_MOST_EXTRAS; a++)
        for (b = 0; b <= IBFT_MOST_EXTRAS; b++)
            expect_table(a, b);
    control = table_control();
    expect(control.header.length == IBFT_LONGEST_CONTROL, "the longest Control");
    expect(ibft_control_words(&control) == IBFT_MOST_SLOTS, "a word for each slot");
    expect(IBFT_MOST_EXTRA_WORDS == IBFT_MOST_SLOTS - IBFT_SLOTS, "the extra words");
}

/* ---- Numbers -------------------------------------------------------------------- */

/* The slot's number is the place of a refusal of flags or CHAP type. */
static void expect_slots(unsigned nic_count, unsigned target_count)
{
    unsigned i;

    for (i = 0; i < nic_count; i++) {
        nics[i].nic.header.flags = UINT8_MAX;
        expect_answer(build_extras(nic_count, target_count), IBFT_REFUSED_FLAGS,
                      IBFT_SLOT_EXTRA_NIC(i));
        nics[i].nic.header.flags = 0;
    }
    for (i = 0; i < target_count; i++) {
        targets[i].target.chap_type = IBFT_CHAP_TYPE_MUTUAL + 1;
        expect_answer(build_extras(nic_count, target_count), IBFT_REFUSED_CHAP_TYPE,
                      IBFT_SLOT_EXTRA_TARGET(nic_count, i));
        targets[i].target.chap_type = IBFT_CHAP_TYPE_NONE;
    }
}

/* The entry's number is the place of a refusal of a string. */
static void expect_entries(unsigned nic_count, unsigned target_count)
{
    unsigned i, string;

    for (i = 0; i < nic_count; i++) {
        give_host_name(i, 0);
        expect_answer(build_extras(nic_count, target_count), IBFT_REFUSED_HOST_NAME,
                      IBFT_ENTRY_EXTRA_NIC(i));
        nics[i].host_name_present = IBFT_ABSENT;
    }
    for (i = 0; i < target_count; i++)
        for (string = 0; string < IBFT_TARGET_STRINGS; string++) {
            give_target_string(nic_count, i, string, IBFT_LONGEST_STRING + 1);
            expect_answer(build_extras(nic_count, target_count), IBFT_REFUSED_ENTRY_LONG,
                          IBFT_ENTRY_EXTRA_TARGET(nic_count, i) + string);
            targets[i].string_present[string] = IBFT_ABSENT;
        }
}

static void names_numbers(void)
{
    unsigned a, b;

    about = "numbers of extras";
    clear_extras();
    for (a = 0; a <= IBFT_MOST_EXTRAS; a++)
        for (b = 0; b <= IBFT_MOST_EXTRAS; b++) {
            expect_slots(a, b);
            expect_entries(a, b);
        }
    expect(IBFT_SLOT_EXTRA_TARGET(IBFT_MOST_EXTRAS, IBFT_MOST_EXTRAS - 1) == IBFT_MOST_SLOTS - 1,
           "the last slot");
    expect(IBFT_ENTRY_EXTRA_TARGET(IBFT_MOST_EXTRAS, IBFT_MOST_EXTRAS) == IBFT_MOST_ENTRIES,
           "the last entry");
}

/* Of a target's five strings the named one alone is there. */
static void names_target_strings(void)
{
    static const size_t fields[IBFT_TARGET_STRINGS] = {
        offsetof(struct ibft_target, name),
        offsetof(struct ibft_target, chap_name),
        offsetof(struct ibft_target, chap_secret),
        offsetof(struct ibft_target, reverse_chap_name),
        offsetof(struct ibft_target, reverse_chap_secret)
    };
    const size_t start = IBFT_FIRST_START, heap = start + sizeof(struct ibft_target);
    unsigned string, other;

    about = "strings of an extra target";
    for (string = 0; string < IBFT_TARGET_STRINGS; string++) {
        clear_extras();
        give_target_string(0, 0, string, 1);
        expect_built_extras(0, 1, heap + 1 + 1);
        for (other = 0; other < IBFT_TARGET_STRINGS; other++) {
            struct ibft_entry entry;

            memcpy(&entry, room + start + fields[other], sizeof entry);
            expect(entry.length == (other == string ? 1 : 0), "a string's length");
            expect(entry.offset == (other == string ? heap : 0), "a string's offset");
        }
    }
}

/* Five strings of the same letter: those that are no secret share its byte and its zero
 * byte, each secret has its own. */
static void keeps_secrets_apart(void)
{
    const size_t start = IBFT_FIRST_START, heap = start + sizeof(struct ibft_target);
    struct ibft_target target;
    unsigned string;

    about = "secrets of an extra target";
    clear_extras();
    for (string = 0; string < IBFT_TARGET_STRINGS; string++)
        give_target_string(0, 0, string, 1);
    expect_built_extras(0, 1, heap + 3 * 2);
    memcpy(&target, room + start, sizeof target);
    expect(target.name.offset == heap, "the name");
    expect(target.chap_name.offset == heap, "the CHAP name");
    expect(target.chap_secret.offset == heap + 2, "the CHAP secret");
    expect(target.reverse_chap_name.offset == heap, "the reverse CHAP name");
    expect(target.reverse_chap_secret.offset == heap + 4, "the reverse CHAP secret");
}

static void names_largest(void)
{
    const unsigned most = IBFT_MOST_EXTRAS;
    unsigned i, string;

    about = "the largest table";
    clear_extras();
    give_largest_record();
    for (i = 0; i < most; i++) {
        give_own_letter(IBFT_ENTRY_EXTRA_NIC(i));
        give_host_name(i, IBFT_LONGEST_STRING);
        for (string = 0; string < IBFT_TARGET_STRINGS; string++) {
            give_own_letter(IBFT_ENTRY_EXTRA_TARGET(most, i) + string);
            give_target_string(most, i, string,
                               string == IBFT_TARGET_STRING_NAME ? IBFT_LONGEST_NAME
                                                                 : IBFT_LONGEST_STRING);
        }
    }
    expect(lay_range(most, most) == IBFT_LARGEST_RECORD, "the size of the largest range");
    expect_answer(ibft_build(range, IBFT_LARGEST_RECORD, strings, sizeof strings, room,
                             IBFT_LARGEST_LENGTH_WITH_EXTRAS - 1),
                  IBFT_REFUSED_ROOM, 0);
    expect_built_extras(most, most, IBFT_LARGEST_LENGTH_WITH_EXTRAS);
}

/* ---- What is looked at ------------------------------------------------------------ */

/* A record that ends with its struct ibft_record is one with no extras. */
static void names_no_extras(void)
{
    uint8_t table[IBFT_FIRST_START + sizeof(struct ibft_nic)];

    about = "no extras";
    clear_extras();
    give_slot(&slots[IBFT_SLOT_NIC1]);
    expect_built(sizeof table);
    memcpy(table, room, sizeof table);
    memset(room, 0, sizeof table);
    expect_built_extras(0, 0, sizeof table);
    expect(memcmp(room, table, sizeof table) == 0, "the same table");
}

/* Of an extra's header ID, version and length are not looked at, nor the words of a
 * missing string. A NIC and a target may have the same Index. */
static void passes_by_the_rest(void)
{
    about = "an extra's header";
    clear_extras();
    memset(&nics[0].nic.header, UINT8_MAX, offsetof(struct ibft_structure_header, index));
    memset(&targets[0].target.header, UINT8_MAX, offsetof(struct ibft_structure_header, index));
    nics[0].nic.host_name = words_of(0, UINT16_MAX);
    expect_table(1, 1);
    targets[0].target.header.index = nic_indexes[0];
    expect_answer(build_extras(1, 1), IBFT_ACCEPTED, 0);
}

/* ---- Refusals of the build ---------------------------------------------------------- */

static void refuses_range(void)
{
    unsigned i, string;

    about = "refusals of a range with extras";
    clear_extras();
    lay_range(0, 0);
    expect_answer(build_range(sizeof record + 1), IBFT_REFUSED_RECORD, 0);
    lay_range(2, 1);
    expect_answer(build_range(IBFT_RECORD_SIZE(2, 1) - 1), IBFT_REFUSED_RECORD, 0);
    expect_answer(build_range(IBFT_RECORD_SIZE(2, 1) + 1), IBFT_REFUSED_RECORD, 0);
    expect_answer(build_range(IBFT_RECORD_SIZE(1, 2)), IBFT_REFUSED_RECORD, 0);
    expect_answer(build_range(IBFT_RECORD_SIZE(2, 1)), IBFT_ACCEPTED, 0);
    for (i = 0; i < GIVEN; i++) {
        nics[i].host_name_present = IBFT_PRESENT + 1;
        expect_answer(build_extras(GIVEN, 1), IBFT_REFUSED_RECORD, 0);
        nics[i].host_name_present = IBFT_ABSENT;
        for (string = 0; string < IBFT_TARGET_STRINGS; string++) {
            targets[i].string_present[string] = IBFT_PRESENT + 1;
            expect_answer(build_extras(1, GIVEN), IBFT_REFUSED_RECORD, 0);
            targets[i].string_present[string] = IBFT_ABSENT;
        }
    }
}

/* The i-th extra of each kind has this Index; of the targets with i extra NICs
 * before them. */
static void expect_index(unsigned i, uint8_t index, enum ibft_refusal number)
{
    clear_extras();
    nics[i].nic.header.index = index;
    expect_answer(build_extras(GIVEN, 1), number, IBFT_SLOT_EXTRA_NIC(i));
    clear_extras();
    targets[i].target.header.index = index;
    expect_answer(build_extras(i, GIVEN), number, IBFT_SLOT_EXTRA_TARGET(i, i));
}

/* By slot: an Index below 2, one that is not above the one before. A seventh comes
 * later. */
static void refuses_indexes(void)
{
    unsigned i;

    about = "refusals of an Index";
    for (i = 0; i < IBFT_MOST_EXTRAS; i++) {
        expect_index(i, 0, IBFT_REFUSED_STRUCTURE);
        expect_index(i, IBFT_LEAST_EXTRA_INDEX - 1, IBFT_REFUSED_STRUCTURE);
    }
    for (i = 1; i < IBFT_MOST_EXTRAS; i++) {
        expect_index(i, IBFT_LEAST_EXTRA_INDEX, IBFT_REFUSED_SAME_INDEX);
        clear_extras();
        nics[i].nic.header.index = nic_indexes[i - 1];
        expect_answer(build_extras(GIVEN, 1), IBFT_REFUSED_SAME_INDEX, IBFT_SLOT_EXTRA_NIC(i));
        targets[i].target.header.index = target_indexes[i - 1];
        expect_answer(build_extras(1, GIVEN), IBFT_REFUSED_SAME_INDEX,
                      IBFT_SLOT_EXTRA_TARGET(1, i));
    }
}

static void refuses_a_seventh(void)
{
    about = "a seventh extra";
    clear_extras();
    record.control_flags = UINT8_MAX;
    targets[0].target.header.index = 0;
    expect_answer(build_extras(GIVEN, 1), IBFT_REFUSED_SEVENTH_EXTRA,
                  IBFT_SLOT_EXTRA_NIC(IBFT_MOST_EXTRAS));
    targets[0].target.header.index = target_indexes[0];
    expect_answer(build_extras(3, GIVEN), IBFT_REFUSED_SEVENTH_EXTRA,
                  IBFT_SLOT_EXTRA_TARGET(3, IBFT_MOST_EXTRAS));
    expect_answer(build_extras(3, 3), IBFT_REFUSED_FLAGS, IBFT_PLACE_CONTROL);
    memset(record.oem_id, 'x', sizeof record.oem_id);
    record.oem_id[0] = 0;
    expect_answer(build_extras(GIVEN, 1), IBFT_REFUSED_OEM_TAIL,
                  offsetof(struct ibft_table_header, oem_id));
}

/* ---- Refusals of the check ----------------------------------------------------------- */

/* The table of all extras and no strings. */
static void lay_extras(void)
{
    clear_extras();
    expect_answer(build_extras(IBFT_MOST_EXTRAS, IBFT_MOST_EXTRAS), IBFT_ACCEPTED, 0);
}

static void refuses_control_lengths(void)
{
    const size_t at = IBFT_CONTROL_OFFSET + offsetof(struct ibft_structure_header, length);
    const size_t least = sizeof(struct ibft_control);
    unsigned length;

    about = "Control's Length";
    for (length = 0; length <= UINT8_MAX; length++) {
        const int good = length >= least && length <= IBFT_LONGEST_CONTROL && length % 2 == 0;

        lay_extras();
        expect_answer(check_with(at, (uint8_t)length), good ? IBFT_ACCEPTED : IBFT_REFUSED_CONTROL,
                      good ? 0 : IBFT_CONTROL_OFFSET);
    }
    clear_record();
    expect_built(IBFT_LEAST_LENGTH);
    expect_answer(check_with(at, (uint8_t)(least + 2)), IBFT_REFUSED_CONTROL, IBFT_CONTROL_OFFSET);
}

/* Of each extra word: unused; where its structure starts, what it begins with, where
 * it ends, its flags. */
static void refuses_extra_words(void)
{
    const size_t index = offsetof(struct ibft_structure_header, index);
    const size_t flags = offsetof(struct ibft_structure_header, flags);
    unsigned w;

    about = "refusals of extra words";
    for (w = IBFT_SLOTS; w < IBFT_MOST_SLOTS; w++) {
        const size_t word = IBFT_WORD_OFFSET(w);
        size_t start;

        lay_extras();
        start = word_of(w);
        expect_answer(check_with(start + flags, UINT8_MAX), IBFT_REFUSED_FLAGS, start + flags);
        expect_answer(check_with(start + index, IBFT_LEAST_EXTRA_INDEX - 1),
                      IBFT_REFUSED_STRUCTURE, start);
        expect_answer(check_with(start, IBFT_ID_INITIATOR), IBFT_REFUSED_STRUCTURE, start);
        set_word(w, start + 1);
        expect_answer(check_mended(), IBFT_REFUSED_START, word);
        set_word(w, IBFT_FIRST_START);
        expect_answer(check_mended(), IBFT_REFUSED_START, word);
        set_word(w, next_start(table_header().length));
        expect_answer(check_mended(), IBFT_REFUSED_START, word);
        set_word(w, 0);
        expect_answer(check_mended(), IBFT_ACCEPTED, 0);
    }
}

/* The last structure ends one byte past Length. */
static void refuses_end(void)
{
    struct ibft_table_header header;

    about = "an extra that ends past Length";
    lay_extras();
    header = table_header();
    header.length--;
    memcpy(room, &header, sizeof header);
    expect_answer(check_mended(), IBFT_REFUSED_START, IBFT_WORD_OFFSET(IBFT_MOST_SLOTS - 1));
}

/* Of two extras of a kind with one Index the later word is the place; word order is
 * free otherwise. */
static void refuses_equal_indexes(void)
{
    const unsigned first = IBFT_SLOT_EXTRA_NIC(0), last = IBFT_SLOT_EXTRA_NIC(5);
    const size_t index = offsetof(struct ibft_structure_header, index);
    size_t start;

    about = "two extras with one Index";
    lay_extras();
    start = word_of(first);
    set_word(first, word_of(last));
    set_word(last, start);
    expect_answer(check_mended(), IBFT_ACCEPTED, 0);
    expect_answer(check_with(start + index, nic_indexes[5]), IBFT_REFUSED_SAME_INDEX,
                  IBFT_WORD_OFFSET(last));
    expect_answer(check_with(start + index, target_indexes[0]), IBFT_ACCEPTED, 0);
}

/* The first extra target is made a seventh NIC; that it overlaps comes later. */
static void refuses_seventh_word(void)
{
    const unsigned w = IBFT_SLOT_EXTRA_TARGET(IBFT_MOST_EXTRAS, 0);
    struct ibft_structure_header header;

    about = "a seventh extra word of a kind";
    lay_extras();
    memcpy(&header, room + word_of(w), sizeof header);
    header.id = IBFT_ID_NIC;
    header.length = sizeof(struct ibft_nic);
    memcpy(room + word_of(w), &header, sizeof header);
    expect_answer(check_mended(), IBFT_REFUSED_SEVENTH_EXTRA, IBFT_WORD_OFFSET(w));
    header.index = nic_indexes[3];
    memcpy(room + word_of(w), &header, sizeof header);
    expect_answer(check_mended(), IBFT_REFUSED_SAME_INDEX, IBFT_WORD_OFFSET(w));
}

/* A target's start is laid inside a NIC: the place is the later word, whatever it
 * points at. */
static void refuses_overlap(void)
{
    const unsigned first = IBFT_SLOTS, second = IBFT_SLOTS + 1;
    struct ibft_structure_header header;
    size_t nic, target;

    about = "two extras share a byte";
    clear_extras();
    expect_answer(build_extras(1, 1), IBFT_ACCEPTED, 0);
    nic = word_of(first);
    memcpy(&header, room + word_of(second), sizeof header);
    target = nic + IBFT_START_ALIGNMENT;
    memcpy(room + target, &header, sizeof header);
    set_word(second, target);
    expect_answer(check_mended(), IBFT_REFUSED_OVERLAP, IBFT_WORD_OFFSET(second));
    set_word(first, target);
    set_word(second, nic);
    expect_answer(check_mended(), IBFT_REFUSED_OVERLAP, IBFT_WORD_OFFSET(second));
}

void compare_extras(void)
{
    names_tables();
    names_numbers();
    names_target_strings();
    keeps_secrets_apart();
    names_largest();
    names_no_extras();
    passes_by_the_rest();
    refuses_range();
    refuses_indexes();
    refuses_a_seventh();
    refuses_control_lengths();
    refuses_extra_words();
    refuses_end();
    refuses_equal_indexes();
    refuses_seventh_word();
    refuses_overlap();
}
