/*
 * The names of bootfw.h beside what the library answers: what firmware/names.c,
 * firmware/refusals.c and firmware/extras.c have in common, which is
 * firmware/record.c. All four are C from C99 on and C++ from C++98 on:
 * tests/host/run compiles them as each, by GCC and by Clang.
 */
#ifndef FIRMWARE_NAMES_H
#define FIRMWARE_NAMES_H

#include <bootfw.h>

#include <stddef.h>
#include <stdint.h>

/* A slot, and what the library has to write for it. */
struct named_slot {
    enum ibft_slot slot;
    enum ibft_structure_id id;
    uint8_t index;
    uint8_t flags; /* all that are named */
    size_t size;
    size_t image; /* its offset in a record */
};

/* An entry, and where its words stand in its structure. */
struct named_entry {
    enum ibft_entry_number number;
    enum ibft_slot slot;
    size_t field;
    uint16_t longest;
};

extern const struct named_slot slots[IBFT_SLOTS];
extern const struct named_entry entries[IBFT_ENTRIES];

/* The record, its strings and the room for its table. Of the strings each entry
 * has a stretch of its own. */
enum { STRETCH = IBFT_LONGEST_STRING + 1 };
extern struct ibft_record record;
extern uint8_t strings[IBFT_MOST_ENTRIES * STRETCH];
extern uint8_t room[IBFT_LARGEST_LENGTH_WITH_EXTRAS];

/* What is being compared. */
extern const char *about;

/* These end the program where something is not as it should be. An answer is any but one with
 * IBFT_REFUSED_SUM, which comes with the checksum byte that would be right. */
void expect(int holds, const char *what);
void expect_answer(uint64_t answer, enum ibft_refusal number, uint64_t place);
void expect_wrong_sum(uint64_t answer, uint8_t checksum);

/* Nothing present; each entry's stretch holds labels of one letter with dots
 * between, which of odd length are a host name. The longest lengths are odd. */
void clear_record(void);

void give_slot(const struct named_slot *named);

/* Gives the flags byte of the slot's image. */
void give_flags(const struct named_slot *named, uint8_t flags);

/* Gives so many bytes of the entry's stretch, and the entry's slot. */
void give_entry(const struct named_entry *named, uint16_t length);

/* Gives the entry's stretch a first letter that no other stretch has, so that no
 * longest string is the tail of another. */
void give_own_letter(unsigned number);

/* Gives every named entry, as long as it may be, no one the tail of another. */
void give_largest_record(void);

uint64_t build(void);

/* Builds, and checks what was built. */
void expect_built(uint64_t length);

/* The parts of the table in the room. */
struct ibft_table_header table_header(void);
struct ibft_control table_control(void);
size_t start_of(enum ibft_slot slot);
size_t field_of(const struct named_entry *named);
struct ibft_entry table_entry(const struct named_entry *named);

/* The answer to the table in the room, once its bytes sum to 0; and once, before
 * that, one byte of it is set. */
uint64_t check_mended(void);
uint64_t check_with(size_t at, uint8_t byte);

void compare_refusals(void);
void compare_extras(void);

/* Prints the numbers that have words of their own. */
void print_refusals(void);

#endif
