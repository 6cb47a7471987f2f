/*
 * The boot program of this example: what it is handed and what it answers.
 *
 * boot.c is the program, records.c what it can build a table from, start.c what a
 * machine without a C library has to bring, host.c a machine to try them on.
 */
#ifndef BOOT_H
#define BOOT_H

#include <bootfw.h>

#include <stdbool.h>
#include <stddef.h>
#include <stdint.h>

#if BOOTFW_VERSION_MAJOR != 2
#error "this example is written for version 2 of bootfw.h"
#endif

enum boot_status {
    BOOT_READY = 0,            /* the table is good: `login` is filled in */
    BOOT_MEMORY_REFUSED = 1,   /* the scan refused the memory: `number` */
    BOOT_NO_TABLE = 2,         /* no table, and no room was given to build one */
    BOOT_ROOM_REFUSED = 3,     /* no table, and the room is no place for one */
    BOOT_BUILD_REFUSED = 4,    /* no table, and none built: `number`, `place` */
    BOOT_BUILT_NOT_LOWEST = 5, /* built, but a scan finds another one before it */
    BOOT_TABLE_REFUSED = 6,    /* the check refused the table: `number`, `place` */
    BOOT_NO_TARGET = 7,        /* the table has no target that is marked valid */
    BOOT_NO_NAME = 8           /* the initiator or that target has no name */
};

/* A string where it stands in the table, a zero byte behind it; NULL and 0 if it
 * is missing. */
struct boot_text {
    const uint8_t *bytes;
    uint16_t length;
};

/* What a login to the first target needs. */
struct boot_login {
    uint8_t target; /* its Index */
    uint8_t nic;    /* Index of the NIC to log in by */
    ibft_ip_address ip_address;
    uint16_t port;
    uint8_t lun[sizeof(uint64_t)]; /* as it stands in the table */
    uint8_t chap_type;             /* enum ibft_chap_type */
    struct boot_text initiator_name;
    struct boot_text target_name;
    struct boot_text chap_name;
    struct boot_text chap_secret;
    struct boot_text reverse_chap_name;
    struct boot_text reverse_chap_secret;
};

struct boot_report {
    enum boot_status status;
    uint8_t number;         /* why a call of the library refused: enum ibft_refusal */
    uint32_t place;         /* and where */
    bool built;             /* a table was written into the room */
    uint32_t table_address; /* the table a scan finds; 0 if none */
    uint32_t table_length;
    struct boot_login login; /* counts where the status is BOOT_READY */
};

/* What a table is built from: a record and its strings, as the build is lent them. */
struct boot_record {
    const uint8_t *range;
    size_t range_size;
    const uint8_t *strings;
    size_t strings_size;
};

extern const struct boot_record boot_cabinet; /* one NIC and one target */
extern const struct boot_record boot_depot;   /* four NICs and three targets */

struct boot_machine {
    uint8_t *memory; /* low memory */
    size_t memory_size;
    uint64_t memory_address;          /* of its first byte, in the machine */
    uint64_t room_address;            /* memory kept free for a table */
    size_t room_size;                 /* 0: there is none, build nothing */
    const struct boot_record *record; /* what to build where there is no table */
    struct boot_report report;
};

/* Looks for a table in low memory, builds one where there is none, and fills in
 * the report. Of the memory it writes the built table's bytes and no others. */
void boot(struct boot_machine *machine);

/* The stack that the program runs on. It grows down, towards the guard, which
 * keeps its bytes as long as the stack suffices. */
enum { BOOT_STACK_SIZE = 4096, BOOT_GUARD_SIZE = 4096 };

struct boot_stack {
    uint8_t guard[BOOT_GUARD_SIZE];
    uint8_t bytes[BOOT_STACK_SIZE];
} __attribute__((aligned(16)));

extern struct boot_stack boot_stack;

/* Calls the program on that stack, from its end on. */
void boot_on_stack(void (*program)(struct boot_machine *machine), struct boot_machine *machine);

#endif
