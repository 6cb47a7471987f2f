/*
 * bootfw.h: the C interface of libbootfw.a, for firmware that looks for an
 * iSCSI Boot Firmware Table (iBFT) in low memory, checks it, builds one or builds
 * again what one holds; and that looks for, checks or writes the tables for AoE
 * (aBFT) and SRP (sBFT).
 *
 * docs/C-INTERFACE.md says how to link, what a caller has to keep and how an
 * answer is split. Offsets in comments count bytes from the start of the
 * structure. Numbers of more than one byte are little endian, as the table has
 * them.
 *
 * For GCC and Clang, from C99 and C++98 on, with or without a C library. A target
 * takes 54 bytes though it holds a number of eight, and in a record the structures
 * stand at odd offsets: they are packed, by __attribute__((packed)). Do not take
 * the address of a field that is a number; copy the number. Read a table by
 * copying a structure out of it, by memcpy, once the check has accepted it.
 */
#ifndef BOOTFW_H
#define BOOTFW_H

#include <stddef.h>
#include <stdint.h>

#if !defined(__GNUC__) && !defined(__clang__)
#error "bootfw.h lays out its structures by __attribute__((packed)): use GCC or Clang"
#endif
#if __BYTE_ORDER__ != __ORDER_LITTLE_ENDIAN__
#error "bootfw.h reads the table's little-endian numbers in place"
#endif

/* The version of what this header declares, for #if. MINOR rises where something
 * is added; MAJOR where a program that was written for an earlier version may
 * have to be changed, and MINOR is 0 then. */
#define BOOTFW_VERSION_MAJOR 2
#define BOOTFW_VERSION_MINOR 0
#define BOOTFW_VERSION (BOOTFW_VERSION_MAJOR * 0x10000 + BOOTFW_VERSION_MINOR)

/* A layout that differs from the published one must not compile. The array of
 * negative size says the same to compilers older than C11 and C++11. */
#if defined(__cplusplus) && __cplusplus >= 201103L
#define BOOTFW_ASSERT(name, fact) static_assert(fact, #name)
#elif !defined(__cplusplus) && defined(__STDC_VERSION__) && __STDC_VERSION__ >= 201112L
#define BOOTFW_ASSERT(name, fact) _Static_assert(fact, #name)
#else
#define BOOTFW_ASSERT(name, fact) typedef char bootfw_##name[(fact) ? 1 : -1]
#endif
#define BOOTFW_SIZE(type, bytes) BOOTFW_ASSERT(type##_size, sizeof(struct type) == (bytes))
#define BOOTFW_FIELD(type, field, at) \
    BOOTFW_ASSERT(type##_##field##_offset, offsetof(struct type, field) == (at))

#ifdef __cplusplus
extern "C" {
#endif

/* ---- The table's numbers --------------------------------------------------- */

/* The addresses a table may take up: from START up to, not including, END. */
#define IBFT_WINDOW_START 0x80000u
#define IBFT_WINDOW_END   0x100000u

#define IBFT_SIGNATURE         "iBFT" /* a table begins with these four bytes */
#define IBFT_TABLE_ALIGNMENT   16u    /* a scan looks at addresses that are multiples of it */
#define IBFT_REVISION          1u
#define IBFT_STRUCTURE_VERSION 1u
#define IBFT_CONTROL_OFFSET    48u    /* where Control stands: behind the table's header */
#define IBFT_FIRST_START       72u    /* no other structure starts below, nor below Control's end */
#define IBFT_START_ALIGNMENT   8u     /* structures start at multiples of it */
#define IBFT_LEAST_LENGTH      66u    /* header and Control: the check accepts none shorter */
#define IBFT_LARGEST_LENGTH    3702u  /* ibft_build writes none longer without extra structures */
#define IBFT_LONGEST_NAME      223u   /* bytes of an initiator's or a target's name */
#define IBFT_LONGEST_STRING    255u   /* bytes of any other string */
#define IBFT_ISCSI_PORT        3260u  /* the TCP port that iSCSI targets mostly have */

/* The kinds of structure, by the ID that each starts with. */
enum ibft_structure_id {
    IBFT_ID_CONTROL = 1,
    IBFT_ID_INITIATOR = 2,
    IBFT_ID_NIC = 3,
    IBFT_ID_TARGET = 4
};

/* The places for structures that have a word of their own in Control, numbered as
 * these words stand. Extra structures come behind them: see below. */
enum ibft_slot {
    IBFT_SLOT_INITIATOR = 0,
    IBFT_SLOT_NIC0 = 1,
    IBFT_SLOT_TARGET0 = 2,
    IBFT_SLOT_NIC1 = 3,
    IBFT_SLOT_TARGET1 = 4
};
#define IBFT_SLOTS 5

BOOTFW_ASSERT(slots, IBFT_SLOTS == IBFT_SLOT_TARGET1 + 1);

/* The strings of these structures, numbered by slot and within it in the order of
 * the fields. */
enum ibft_entry_number {
    IBFT_ENTRY_INITIATOR_NAME = 0,
    IBFT_ENTRY_NIC0_HOST_NAME = 1,
    IBFT_ENTRY_TARGET0_NAME = 2,
    IBFT_ENTRY_TARGET0_CHAP_NAME = 3,
    IBFT_ENTRY_TARGET0_CHAP_SECRET = 4,
    IBFT_ENTRY_TARGET0_REVERSE_CHAP_NAME = 5,
    IBFT_ENTRY_TARGET0_REVERSE_CHAP_SECRET = 6,
    IBFT_ENTRY_NIC1_HOST_NAME = 7,
    IBFT_ENTRY_TARGET1_NAME = 8,
    IBFT_ENTRY_TARGET1_CHAP_NAME = 9,
    IBFT_ENTRY_TARGET1_CHAP_SECRET = 10,
    IBFT_ENTRY_TARGET1_REVERSE_CHAP_NAME = 11,
    IBFT_ENTRY_TARGET1_REVERSE_CHAP_SECRET = 12
};
#define IBFT_ENTRIES 13

BOOTFW_ASSERT(entries, IBFT_ENTRIES == IBFT_ENTRY_TARGET1_REVERSE_CHAP_SECRET + 1);

/* The strings of one target, in the order of its fields. */
enum ibft_target_string {
    IBFT_TARGET_STRING_NAME = 0,
    IBFT_TARGET_STRING_CHAP_NAME = 1,
    IBFT_TARGET_STRING_CHAP_SECRET = 2,
    IBFT_TARGET_STRING_REVERSE_CHAP_NAME = 3,
    IBFT_TARGET_STRING_REVERSE_CHAP_SECRET = 4
};
#define IBFT_TARGET_STRINGS 5

BOOTFW_ASSERT(target_strings, IBFT_TARGET_STRINGS == IBFT_TARGET_STRING_REVERSE_CHAP_SECRET + 1);

/* Extra structures: NICs and targets beyond the named ones, each with a word of its
 * own behind Control's named words and an Index from IBFT_LEAST_EXTRA_INDEX up to
 * 255 that no other extra of its kind has. In tables and records that have extras these
 * hold in place of IBFT_SLOTS, IBFT_ENTRIES and IBFT_LARGEST_LENGTH. */
#define IBFT_MOST_EXTRAS                6      /* extra NICs, and as many extra targets */
#define IBFT_MOST_EXTRA_WORDS           12     /* words of Control, unused ones counted */
#define IBFT_LEAST_EXTRA_INDEX          2u
#define IBFT_MOST_SLOTS                 17
#define IBFT_MOST_ENTRIES               49
#define IBFT_LONGEST_CONTROL            42u    /* Control's Length with all its words */
#define IBFT_LARGEST_RECORD             1393u  /* bytes of a record range with all extras */
#define IBFT_LARGEST_LENGTH_WITH_EXTRAS 13710u /* ibft_build writes none longer */

BOOTFW_ASSERT(most_words, IBFT_MOST_EXTRA_WORDS == 2 * IBFT_MOST_EXTRAS);
BOOTFW_ASSERT(most_slots, IBFT_MOST_SLOTS == IBFT_SLOTS + 2 * IBFT_MOST_EXTRAS);
BOOTFW_ASSERT(most_entries, IBFT_MOST_ENTRIES == IBFT_ENTRIES + IBFT_MOST_EXTRAS
                                + IBFT_TARGET_STRINGS * IBFT_MOST_EXTRAS);

/* The numbers of extras go on from the named ones without a gap: first the extra
 * NICs by Index, then the extra targets by Index. `i` counts those of a kind from
 * 0; `nics` is how many extra NICs there are. A NIC has one string, its host name; a
 * target has five, to be added as enum ibft_target_string. */
#define IBFT_SLOT_EXTRA_NIC(i)           (IBFT_SLOTS + (i))
#define IBFT_SLOT_EXTRA_TARGET(nics, i)  (IBFT_SLOTS + (nics) + (i))
#define IBFT_ENTRY_EXTRA_NIC(i)          (IBFT_ENTRIES + (i))
#define IBFT_ENTRY_EXTRA_TARGET(nics, i) (IBFT_ENTRIES + (nics) + IBFT_TARGET_STRINGS * (i))

enum ibft_chap_type {
    IBFT_CHAP_TYPE_NONE = 0,
    IBFT_CHAP_TYPE_CHAP = 1,
    IBFT_CHAP_TYPE_MUTUAL = 2
};

/* Flag bits, by kind of structure. A bit that has no name is reserved: zero. */
#define IBFT_CONTROL_SINGLE_LOGIN 0x01u
#define IBFT_INITIATOR_VALID      0x01u
#define IBFT_INITIATOR_SELECTED   0x02u
#define IBFT_NIC_VALID            0x01u
#define IBFT_NIC_SELECTED         0x02u
#define IBFT_NIC_GLOBAL           0x04u
#define IBFT_TARGET_VALID         0x01u
#define IBFT_TARGET_SELECTED      0x02u
#define IBFT_TARGET_RADIUS_CHAP   0x04u
#define IBFT_TARGET_RADIUS_RCHAP  0x08u

/* ---- The table's structures ------------------------------------------------ */

/* What a table begins with. */
struct ibft_table_header {
    uint8_t signature[4];    /* 0: IBFT_SIGNATURE */
    uint32_t length;         /* 4: of the whole table, strings included */
    uint8_t revision;        /* 8: IBFT_REVISION */
    uint8_t checksum;        /* 9: all bytes of the table sum to 0 modulo 256 */
    uint8_t oem_id[6];       /* 10: zero after the first zero byte */
    uint8_t oem_table_id[8]; /* 16: zero after the first zero byte */
    uint8_t reserved[24];    /* 24: written zero, not looked at */
} __attribute__((packed));

BOOTFW_SIZE(ibft_table_header, IBFT_CONTROL_OFFSET);
BOOTFW_FIELD(ibft_table_header, signature, 0);
BOOTFW_FIELD(ibft_table_header, length, 4);
BOOTFW_FIELD(ibft_table_header, revision, 8);
BOOTFW_FIELD(ibft_table_header, checksum, 9);
BOOTFW_FIELD(ibft_table_header, oem_id, 10);
BOOTFW_FIELD(ibft_table_header, oem_table_id, 16);
BOOTFW_FIELD(ibft_table_header, reserved, 24);

/* The six bytes that every structure starts with. */
struct ibft_structure_header {
    uint8_t id;      /* 0: enum ibft_structure_id */
    uint8_t version; /* 1: IBFT_STRUCTURE_VERSION */
    uint16_t length; /* 2: sizeof the structure: initiator 74, NIC 102, target 54; Control 18,
                      * and two more for each extra word */
    uint8_t index;   /* 4: n for NIC n and Target n, else 0 */
    uint8_t flags;   /* 5 */
} __attribute__((packed));

BOOTFW_SIZE(ibft_structure_header, 6);
BOOTFW_FIELD(ibft_structure_header, id, 0);
BOOTFW_FIELD(ibft_structure_header, version, 1);
BOOTFW_FIELD(ibft_structure_header, length, 2);
BOOTFW_FIELD(ibft_structure_header, index, 4);
BOOTFW_FIELD(ibft_structure_header, flags, 5);

/* At IBFT_CONTROL_OFFSET of every table. Where its Length is above 18, extra words
 * follow, each the start of a NIC or a target, or 0 if it is unused; their order
 * says nothing. They are none of this struct, since most tables have none. */
struct ibft_control {
    struct ibft_structure_header header; /* 0 */
    uint16_t extensions;                 /* 6: 0, or the check refuses the table */
    uint16_t slot_offset[IBFT_SLOTS];    /* 8: where each structure starts; 0 if absent */
} __attribute__((packed));

BOOTFW_SIZE(ibft_control, 18);
BOOTFW_FIELD(ibft_control, header, 0);
BOOTFW_FIELD(ibft_control, extensions, 6);
BOOTFW_FIELD(ibft_control, slot_offset, 8);
BOOTFW_ASSERT(least_length, sizeof(struct ibft_table_header) + sizeof(struct ibft_control)
                                == IBFT_LEAST_LENGTH);
BOOTFW_ASSERT(longest_control, sizeof(struct ibft_control) + 2 * IBFT_MOST_EXTRA_WORDS
                                   == IBFT_LONGEST_CONTROL);

/* Control's words as a row, of a table that the check accepted: the named ones, by
 * enum ibft_slot, then the extra ones. How many there are, and where word w stands
 * in the table. */
static inline unsigned ibft_control_words(const struct ibft_control *control)
{
    return IBFT_SLOTS + (control->header.length - (unsigned)sizeof *control) / 2u;
}
#define IBFT_WORD_OFFSET(w) \
    (IBFT_CONTROL_OFFSET + offsetof(struct ibft_control, slot_offset) + 2u * (w))

/* Where a string stands. In a table `offset` counts from the table's first
 * byte; length 0 with offset 0 is a missing string, length 0 with another
 * offset an empty one. In a record it is the string's start in the range lent
 * for strings. */
struct ibft_entry {
    uint16_t length; /* 0: without the zero byte that follows the string */
    uint16_t offset; /* 2 */
} __attribute__((packed));

BOOTFW_SIZE(ibft_entry, 4);
BOOTFW_FIELD(ibft_entry, length, 0);
BOOTFW_FIELD(ibft_entry, offset, 2);

/* An address of 16 bytes: IPv6; or IPv4 as ten zero bytes, FF FF and the four
 * bytes of the address; or absent, all zero. */
typedef uint8_t ibft_ip_address[16];

/* An IPv4 address as an initialiser, and where its four bytes stand in it. */
#define IBFT_IPV4(a, b, c, d) { 0, 0, 0, 0, 0, 0, 0, 0, 0, 0, 0xFF, 0xFF, a, b, c, d }
#define IBFT_IPV4_OFFSET 12u

/* The PCI word of a NIC: bus below 256, device below 32, function below 8. */
#define IBFT_PCI(bus, device, function) ((uint16_t)((bus) * 256u + (device) * 8u + (function)))

struct ibft_initiator {
    struct ibft_structure_header header;     /* 0 */
    ibft_ip_address isns_server;             /* 6 */
    ibft_ip_address slp_server;              /* 22 */
    ibft_ip_address primary_radius_server;   /* 38 */
    ibft_ip_address secondary_radius_server; /* 54 */
    struct ibft_entry name;                  /* 70: at most IBFT_LONGEST_NAME bytes */
} __attribute__((packed));

BOOTFW_SIZE(ibft_initiator, 74);
BOOTFW_FIELD(ibft_initiator, header, 0);
BOOTFW_FIELD(ibft_initiator, isns_server, 6);
BOOTFW_FIELD(ibft_initiator, slp_server, 22);
BOOTFW_FIELD(ibft_initiator, primary_radius_server, 38);
BOOTFW_FIELD(ibft_initiator, secondary_radius_server, 54);
BOOTFW_FIELD(ibft_initiator, name, 70);

struct ibft_nic {
    struct ibft_structure_header header; /* 0 */
    ibft_ip_address ip_address;          /* 6 */
    uint8_t subnet_mask_prefix;          /* 22: length of the mask, 24 for 255.255.255.0 */
    uint8_t origin;                      /* 23 */
    ibft_ip_address gateway;             /* 24 */
    ibft_ip_address primary_dns;         /* 40 */
    ibft_ip_address secondary_dns;       /* 56 */
    ibft_ip_address dhcp;                /* 72 */
    uint16_t vlan;                       /* 88 */
    uint8_t mac_address[6];              /* 90 */
    uint16_t pci_bus_dev_func;           /* 96: IBFT_PCI */
    struct ibft_entry host_name;         /* 98: at most IBFT_LONGEST_STRING bytes */
} __attribute__((packed));

BOOTFW_SIZE(ibft_nic, 102);
BOOTFW_FIELD(ibft_nic, header, 0);
BOOTFW_FIELD(ibft_nic, ip_address, 6);
BOOTFW_FIELD(ibft_nic, subnet_mask_prefix, 22);
BOOTFW_FIELD(ibft_nic, origin, 23);
BOOTFW_FIELD(ibft_nic, gateway, 24);
BOOTFW_FIELD(ibft_nic, primary_dns, 40);
BOOTFW_FIELD(ibft_nic, secondary_dns, 56);
BOOTFW_FIELD(ibft_nic, dhcp, 72);
BOOTFW_FIELD(ibft_nic, vlan, 88);
BOOTFW_FIELD(ibft_nic, mac_address, 90);
BOOTFW_FIELD(ibft_nic, pci_bus_dev_func, 96);
BOOTFW_FIELD(ibft_nic, host_name, 98);

struct ibft_target {
    struct ibft_structure_header header;   /* 0 */
    ibft_ip_address ip_address;            /* 6 */
    uint16_t ip_socket;                    /* 22: the TCP port, mostly IBFT_ISCSI_PORT */
    uint64_t boot_lun;                     /* 24 */
    uint8_t chap_type;                     /* 32: enum ibft_chap_type */
    uint8_t nic_association;               /* 33: Index of the NIC to log in by */
    struct ibft_entry name;                /* 34: at most IBFT_LONGEST_NAME bytes */
    struct ibft_entry chap_name;           /* 38: at most IBFT_LONGEST_STRING bytes, as below */
    struct ibft_entry chap_secret;         /* 42 */
    struct ibft_entry reverse_chap_name;   /* 46 */
    struct ibft_entry reverse_chap_secret; /* 50 */
} __attribute__((packed));

BOOTFW_SIZE(ibft_target, 54);
BOOTFW_FIELD(ibft_target, header, 0);
BOOTFW_FIELD(ibft_target, ip_address, 6);
BOOTFW_FIELD(ibft_target, ip_socket, 22);
BOOTFW_FIELD(ibft_target, boot_lun, 24);
BOOTFW_FIELD(ibft_target, chap_type, 32);
BOOTFW_FIELD(ibft_target, nic_association, 33);
BOOTFW_FIELD(ibft_target, name, 34);
BOOTFW_FIELD(ibft_target, chap_name, 38);
BOOTFW_FIELD(ibft_target, chap_secret, 42);
BOOTFW_FIELD(ibft_target, reverse_chap_name, 46);
BOOTFW_FIELD(ibft_target, reverse_chap_secret, 50);

/* ---- The record ------------------------------------------------------------ */

/* Presence marks of a record. Any other is refused. */
#define IBFT_ABSENT  0u
#define IBFT_PRESENT 1u

/* What a table is built from, beside the strings. A structure's image has the
 * layout it has in a table; of its header only the flags are looked at, and
 * each string's offset is its start in the range lent for strings. */
struct ibft_record {
    uint8_t oem_id[6];                   /* 0: zero after the first zero byte */
    uint8_t oem_table_id[8];             /* 6: zero after the first zero byte */
    uint8_t control_flags;               /* 14 */
    uint8_t slot_present[IBFT_SLOTS];    /* 15: marks, by enum ibft_slot */
    uint8_t entry_present[IBFT_ENTRIES]; /* 20: marks, by enum ibft_entry_number */
    struct ibft_initiator initiator;     /* 33 */
    struct ibft_nic nic0;                /* 107 */
    struct ibft_target target0;          /* 209 */
    struct ibft_nic nic1;                /* 263 */
    struct ibft_target target1;          /* 365 */
} __attribute__((packed));

BOOTFW_SIZE(ibft_record, 419);
BOOTFW_FIELD(ibft_record, oem_id, 0);
BOOTFW_FIELD(ibft_record, oem_table_id, 6);
BOOTFW_FIELD(ibft_record, control_flags, 14);
BOOTFW_FIELD(ibft_record, slot_present, 15);
BOOTFW_FIELD(ibft_record, entry_present, 20);
BOOTFW_FIELD(ibft_record, initiator, 33);
BOOTFW_FIELD(ibft_record, nic0, 107);
BOOTFW_FIELD(ibft_record, target0, 209);
BOOTFW_FIELD(ibft_record, nic1, 263);
BOOTFW_FIELD(ibft_record, target1, 365);

/* A record with extra structures is one range too: a struct ibft_expanded_record,
 * directly behind it the extra NICs by ascending Index, directly behind these the
 * extra targets by ascending Index. A record that has none may end with its struct
 * ibft_record. Packed structs leave nothing between them, so a firmware that knows
 * how many extras it has can declare
 *
 *     struct { struct ibft_expanded_record start;
 *              struct ibft_extra_nic nics[2];
 *              struct ibft_extra_target targets[1]; } record;
 */
struct ibft_expanded_record {
    struct ibft_record named; /* 0 */
    uint8_t extra_nics;       /* 419: how many follow */
    uint8_t extra_targets;    /* 420: how many follow those */
} __attribute__((packed));

BOOTFW_SIZE(ibft_expanded_record, 421);
BOOTFW_FIELD(ibft_expanded_record, named, 0);
BOOTFW_FIELD(ibft_expanded_record, extra_nics, 419);
BOOTFW_FIELD(ibft_expanded_record, extra_targets, 420);

/* Of an extra's header the Index is looked at beside the flags. */
struct ibft_extra_nic {
    struct ibft_nic nic;       /* 0 */
    uint8_t host_name_present; /* 102: a mark */
} __attribute__((packed));

BOOTFW_SIZE(ibft_extra_nic, 103);
BOOTFW_FIELD(ibft_extra_nic, nic, 0);
BOOTFW_FIELD(ibft_extra_nic, host_name_present, 102);

struct ibft_extra_target {
    struct ibft_target target;                   /* 0 */
    uint8_t string_present[IBFT_TARGET_STRINGS]; /* 54: marks, by enum ibft_target_string */
} __attribute__((packed));

BOOTFW_SIZE(ibft_extra_target, 59);
BOOTFW_FIELD(ibft_extra_target, target, 0);
BOOTFW_FIELD(ibft_extra_target, string_present, 54);

/* The size of the range with so many extra NICs and extra targets. */
#define IBFT_RECORD_SIZE(nics, targets)                                       \
    (sizeof(struct ibft_expanded_record) + (nics) * sizeof(struct ibft_extra_nic) \
     + (targets) * sizeof(struct ibft_extra_target))

BOOTFW_ASSERT(largest_record, IBFT_RECORD_SIZE(IBFT_MOST_EXTRAS, IBFT_MOST_EXTRAS)
                                  == IBFT_LARGEST_RECORD);

/* ---- The tables for AoE and SRP --------------------------------------------- */

/* An aBFT and an sBFT begin as an iBFT does, but for the signature and for bytes
 * 24 to 35, which have to be zero. They stand in another window, from address 0 on,
 * at multiples of IBFT_TABLE_ALIGNMENT too; their Revision is IBFT_REVISION. */
#define ABFT_SIGNATURE    "aBFT"
#define SBFT_SIGNATURE    "sBFT"
#define ABFT_WINDOW_START 0x00000u
#define ABFT_WINDOW_END   0xA0000u /* as of the iBFT: not an address of the window */
#define SBFT_WINDOW_START 0x00000u
#define SBFT_WINDOW_END   0xA0000u

#define ABFT_LENGTH            46u  /* the least that is accepted, and what is written */
#define SBFT_LEAST_LENGTH      48u  /* the bytes before the parts */
#define SBFT_LENGTH_WITHOUT_IB 88u  /* what is written where there is no IB part */
#define SBFT_LENGTH            136u /* what is written where there is one */

/* The table for AoE, and the image of one that is to be written. A write sets what
 * is marked so, whatever the image has there, and takes the rest. */
struct abft {
    uint8_t signature[4];    /* 0: ABFT_SIGNATURE; set by the write */
    uint32_t length;         /* 4: of the whole table; set by the write */
    uint8_t revision;        /* 8: IBFT_REVISION; set by the write */
    uint8_t checksum;        /* 9: all bytes sum to 0 modulo 256; set by the write */
    uint8_t oem_id[6];       /* 10: zero after the first zero byte */
    uint8_t oem_table_id[8]; /* 16: zero after the first zero byte */
    uint8_t reserved[12];    /* 24: zero; set by the write */
    uint16_t shelf;          /* 36 */
    uint8_t slot;            /* 38 */
    uint8_t reserved_39;     /* 39: zero; set by the write */
    uint8_t mac_address[6];  /* 40: of the network card to boot by */
} __attribute__((packed));

BOOTFW_SIZE(abft, ABFT_LENGTH);
BOOTFW_FIELD(abft, signature, 0);
BOOTFW_FIELD(abft, length, 4);
BOOTFW_FIELD(abft, revision, 8);
BOOTFW_FIELD(abft, checksum, 9);
BOOTFW_FIELD(abft, oem_id, 10);
BOOTFW_FIELD(abft, oem_table_id, 16);
BOOTFW_FIELD(abft, reserved, 24);
BOOTFW_FIELD(abft, shelf, 36);
BOOTFW_FIELD(abft, slot, 38);
BOOTFW_FIELD(abft, reserved_39, 39);
BOOTFW_FIELD(abft, mac_address, 40);

/* The parts of an sBFT. In a table that others wrote they stand at the offsets that
 * its start has: copy them from there. */
struct sbft_scsi {
    uint8_t lun[8]; /* 0: the logical unit number, by the SCSI architecture model */
} __attribute__((packed));

BOOTFW_SIZE(sbft_scsi, 8);
BOOTFW_FIELD(sbft_scsi, lun, 0);

struct sbft_srp {
    uint8_t initiator_port[16]; /* 0 */
    uint8_t target_port[16];    /* 16 */
} __attribute__((packed));

BOOTFW_SIZE(sbft_srp, 32);
BOOTFW_FIELD(sbft_srp, initiator_port, 0);
BOOTFW_FIELD(sbft_srp, target_port, 16);

struct sbft_ib {
    uint8_t source_gid[16];      /* 0 */
    uint8_t destination_gid[16]; /* 16 */
    uint8_t service[8];          /* 32 */
    uint16_t partition_key;      /* 40 */
    uint8_t reserved[6];         /* 42: zero; set by the write */
} __attribute__((packed));

BOOTFW_SIZE(sbft_ib, 48);
BOOTFW_FIELD(sbft_ib, source_gid, 0);
BOOTFW_FIELD(sbft_ib, destination_gid, 16);
BOOTFW_FIELD(sbft_ib, service, 32);
BOOTFW_FIELD(sbft_ib, partition_key, 40);
BOOTFW_FIELD(sbft_ib, reserved, 42);

/* The table for SRP as it is written, and the image of one that is to be written: a
 * start of SBFT_LEAST_LENGTH bytes, then the three parts. An accepted table begins
 * with such a start and may have its parts anywhere behind it. */
struct sbft {
    uint8_t signature[4];    /* 0: SBFT_SIGNATURE; set by the write */
    uint32_t length;         /* 4: of the whole table; set by the write */
    uint8_t revision;        /* 8: IBFT_REVISION; set by the write */
    uint8_t checksum;        /* 9: all bytes sum to 0 modulo 256; set by the write */
    uint8_t oem_id[6];       /* 10: zero after the first zero byte */
    uint8_t oem_table_id[8]; /* 16: zero after the first zero byte */
    uint8_t reserved[12];    /* 24: zero; set by the write */
    uint16_t scsi_offset;    /* 36: where the SCSI part starts; set by the write, to 48 */
    uint16_t srp_offset;     /* 38: where the SRP part starts; set by the write, to 56 */
    uint16_t ib_offset;      /* 40: where the IB part starts, 0 if it is absent; in an image any
                              * number but 0 says that it is present; set by the write, to 88 or 0 */
    uint8_t reserved_42[6];  /* 42: zero; set by the write */
    struct sbft_scsi scsi;   /* 48 */
    struct sbft_srp srp;     /* 56 */
    struct sbft_ib ib;       /* 88: not looked at where ib_offset is 0 */
} __attribute__((packed));

BOOTFW_SIZE(sbft, SBFT_LENGTH);
BOOTFW_FIELD(sbft, signature, 0);
BOOTFW_FIELD(sbft, length, 4);
BOOTFW_FIELD(sbft, revision, 8);
BOOTFW_FIELD(sbft, checksum, 9);
BOOTFW_FIELD(sbft, oem_id, 10);
BOOTFW_FIELD(sbft, oem_table_id, 16);
BOOTFW_FIELD(sbft, reserved, 24);
BOOTFW_FIELD(sbft, scsi_offset, 36);
BOOTFW_FIELD(sbft, srp_offset, 38);
BOOTFW_FIELD(sbft, ib_offset, 40);
BOOTFW_FIELD(sbft, reserved_42, 42);
BOOTFW_FIELD(sbft, scsi, SBFT_LEAST_LENGTH);
BOOTFW_FIELD(sbft, srp, 56);
BOOTFW_FIELD(sbft, ib, SBFT_LENGTH_WITHOUT_IB);

/* ---- Answers --------------------------------------------------------------- */

/* The number of an answer: 0, or why the call refused. A scan gives 1 and 2, a
 * check 3 to 19, 33 and 34, a build 8, 10, 13, 17 to 21, 24, 25, 33 and 34, a rebuild
 * those of a check, 20 and 21. Of an aBFT and an sBFT a scan gives 1 and 2, a check 3
 * to 8 and 30, of an sBFT 31 and 32 too, a write 8 and 21. The numbers 22 and 23 belong
 * to readings, which C makes through the structures: no call here gives them. */
enum ibft_refusal {
    IBFT_ACCEPTED = 0,               /* no refusal */
    IBFT_REFUSED_PAST_WINDOW = 1,    /* scan: address + size above the window's end */
    IBFT_REFUSED_NO_TABLE = 2,       /* scan: no sound table in the lent bytes */
    IBFT_REFUSED_FEW_BYTES = 3,      /* fewer than 48 bytes lent, for an aBFT than 46 */
    IBFT_REFUSED_SIGNATURE = 4,      /* the first four bytes are not the family's */
    IBFT_REFUSED_LENGTH = 5,         /* Length under 66, 46 or 48, or above the bytes lent */
    IBFT_REFUSED_SUM = 6,            /* the table's bytes do not sum to 0 modulo 256 */
    IBFT_REFUSED_REVISION = 7,       /* Revision is not 1 */
    IBFT_REFUSED_OEM_TAIL = 8,       /* an OEM field goes on after its first zero byte */
    IBFT_REFUSED_CONTROL = 9,        /* Control's ID, version, length or Index, or its end */
    IBFT_REFUSED_FLAGS = 10,         /* a reserved flag bit is set */
    IBFT_REFUSED_EXTENSIONS = 11,    /* the Extensions word is not 0 */
    IBFT_REFUSED_START = 12,         /* a structure is off 8, below Control's end or past Length */
    IBFT_REFUSED_STRUCTURE = 13,     /* a structure's ID, version, length or Index */
    IBFT_REFUSED_OVERLAP = 14,       /* two structures share a byte */
    IBFT_REFUSED_ENTRY_PLACE = 15,   /* a string is not in the heap, or has length but no offset */
    IBFT_REFUSED_ENTRY_END = 16,     /* no zero byte inside Length after a string */
    IBFT_REFUSED_ENTRY_LONG = 17,    /* a string is longer than its kind may be */
    IBFT_REFUSED_HOST_NAME = 18,     /* a host name is not of the form */
    IBFT_REFUSED_CHAP_TYPE = 19,     /* CHAP type above 2 */
    IBFT_REFUSED_ENTRY_ZERO = 20,    /* build, rebuild: a zero byte in a string */
    IBFT_REFUSED_ROOM = 21,          /* build, rebuild, write: Length exceeds the room */
    IBFT_REFUSED_MISSING = 22,       /* reading: structure, string or part not there */
    IBFT_REFUSED_NO_SUCH = 23,       /* reading: slot above 16 or entry above 48 */
    IBFT_REFUSED_ENTRY_OUTSIDE = 24, /* build: a string ends past the range lent for strings */
    IBFT_REFUSED_RECORD = 25,        /* build: record of another size, or a mark not 0 or 1 */
    IBFT_REFUSED_RESERVED = 30,      /* aBFT, sBFT: a reserved byte is not zero */
    IBFT_REFUSED_PART_PLACE = 31,    /* sBFT: a part starts below 48 or ends past Length */
    IBFT_REFUSED_PART_OVERLAP = 32,  /* sBFT: a part shares a byte with an earlier one */
    IBFT_REFUSED_SAME_INDEX = 33,    /* an extra's Index is taken; build: or not ascending */
    IBFT_REFUSED_SEVENTH_EXTRA = 34  /* a seventh extra NIC or extra target */
};

/* In a build, the place of IBFT_REFUSED_FLAGS where the flags are Control's. */
#define IBFT_PLACE_CONTROL 255u

/* A number in words, on one line; one text for all numbers that have no name. */
static inline const char *ibft_refusal_text(unsigned number)
{
    switch (number) {
    case IBFT_ACCEPTED:              return "accepted";
    case IBFT_REFUSED_PAST_WINDOW:   return "the memory reaches above the window's end";
    case IBFT_REFUSED_NO_TABLE:      return "no sound table in the memory";
    case IBFT_REFUSED_FEW_BYTES:     return "too few bytes for a whole header";
    case IBFT_REFUSED_SIGNATURE:     return "the signature is not the table's";
    case IBFT_REFUSED_LENGTH:        return "Length is too small or above the bytes lent";
    case IBFT_REFUSED_SUM:           return "the table's bytes do not sum to 0 modulo 256";
    case IBFT_REFUSED_REVISION:      return "Revision is not 1";
    case IBFT_REFUSED_OEM_TAIL:      return "an OEM field goes on after a zero byte";
    case IBFT_REFUSED_CONTROL:       return "Control's ID, version, length or Index is wrong";
    case IBFT_REFUSED_FLAGS:         return "a reserved flag bit is set";
    case IBFT_REFUSED_EXTENSIONS:    return "the Extensions word is not 0";
    case IBFT_REFUSED_START:         return "a structure is misaligned, too low or past Length";
    case IBFT_REFUSED_STRUCTURE:     return "a structure's ID, version, length or Index is wrong";
    case IBFT_REFUSED_OVERLAP:       return "two structures share a byte";
    case IBFT_REFUSED_ENTRY_PLACE:   return "a string is not in the heap, or has no offset";
    case IBFT_REFUSED_ENTRY_END:     return "no zero byte follows a string within Length";
    case IBFT_REFUSED_ENTRY_LONG:    return "a string is too long";
    case IBFT_REFUSED_HOST_NAME:     return "a host name is not of the form";
    case IBFT_REFUSED_CHAP_TYPE:     return "a CHAP type is above 2";
    case IBFT_REFUSED_ENTRY_ZERO:    return "a string to build holds a zero byte";
    case IBFT_REFUSED_ROOM:          return "the record's shortest table exceeds the room";
    case IBFT_REFUSED_MISSING:       return "the structure, string or part is missing";
    case IBFT_REFUSED_NO_SUCH:       return "there is no such slot or entry";
    case IBFT_REFUSED_ENTRY_OUTSIDE: return "a string ends past the range lent for strings";
    case IBFT_REFUSED_RECORD:        return "the record's size or a presence mark is wrong";
    case IBFT_REFUSED_RESERVED:      return "a reserved byte is not zero";
    case IBFT_REFUSED_PART_PLACE:    return "a part starts below 48 or ends past Length";
    case IBFT_REFUSED_PART_OVERLAP:  return "a part overlaps an earlier one";
    case IBFT_REFUSED_SAME_INDEX:    return "an extra's Index is taken, or does not ascend";
    case IBFT_REFUSED_SEVENTH_EXTRA: return "a seventh extra NIC or extra target";
    default:                         return "no refusal has this number";
    }
}

/* The parts of an answer: bits 0-7, 8-31 and 32-63, the last either a Length or a
 * checksum byte. Of every call: an enum ibft_refusal. */
static inline uint8_t ibft_answer_number(uint64_t answer)
{
    return (uint8_t)(answer & 0xFFu);
}

/* Of a scan: the address of the table's first byte; 0 when refused. A scan's
 * place is always 0 and takes no bits. An aBFT or sBFT may stand at address 0: whether
 * one was found, the number tells. */
static inline uint32_t ibft_answer_address(uint64_t answer)
{
    return (uint32_t)(answer >> 8) & 0xFFFFFFu;
}

/* Of a check, a build, a rebuild or a write: where the fault is; 0 when accepted. */
static inline uint32_t ibft_answer_place(uint64_t answer)
{
    return (uint32_t)(answer >> 8) & 0xFFFFFFu;
}

/* Of a scan, a build, a rebuild or a write: the table's Length in bytes; 0 when
 * refused. */
static inline uint32_t ibft_answer_length(uint64_t answer)
{
    return ibft_answer_number(answer) == IBFT_ACCEPTED ? (uint32_t)(answer >> 32) : 0u;
}

/* Of a check or a rebuild that refuses with IBFT_REFUSED_SUM: the byte with which, at
 * offset 9, the table would sum to 0 modulo 256; it may be 0. Of every other answer 0.
 * It is for a report: a wrong sum means that some byte was changed, and setting
 * this one does not bring that byte back. */
static inline uint8_t ibft_answer_checksum(uint64_t answer)
{
    return ibft_answer_number(answer) == IBFT_REFUSED_SUM ? (uint8_t)((answer >> 32) & 0xFFu) : 0u;
}

/* ---- Calls ----------------------------------------------------------------- */

/* Sizes are passed as 64-bit numbers: the library is compiled for x86-64. */
BOOTFW_ASSERT(size_t_is_64_bits, sizeof(size_t) == 8);

/* The library is called by the System V convention, also from code for which the
 * compiler follows another one, as it does for UEFI. */
#if defined(__x86_64__)
#define BOOTFW_CALL __attribute__((sysv_abi))
#else
#define BOOTFW_CALL
#endif

/* Looks for the lowest sound table in the lent bytes, the first of which has
 * the given address. Answers 0 with its address and Length; or 1 or 2 with
 * address and Length 0. Writes nothing. */
uint64_t ibft_scan(const uint8_t *memory, size_t memory_size, uint64_t address) BOOTFW_CALL;

/* Checks the table that starts with the first of the lent bytes; more may be
 * lent than its Length. Answers 0 with place 0; or the first of 3 to 19, 33 and 34
 * that applies, with its place, and with 6 the checksum byte that would be right in
 * bits 32-39. All other bits from 32 on are 0. Writes nothing. */
uint64_t ibft_check(const uint8_t *table, size_t table_size) BOOTFW_CALL;

/* Builds the shortest table of a record into the room. The record is one struct
 * ibft_record, or a struct ibft_expanded_record with its extras behind it; its
 * strings stand in the range lent for them. The room shares no byte with either:
 * that is taken on trust. In the table each CHAP secret and reverse CHAP secret has
 * bytes and a zero of its own, so that it can be wiped with its zero and no other
 * string changes. Answers 0 with place 0 and the table's Length, and the room past that
 * keeps its bytes; or the first of 25, 8, 34, 13, 33, 10, 19, 24, 17, 20, 18 and 21 that
 * applies, with its place and Length 0, and writes nothing. */
uint64_t ibft_build(const uint8_t *record, size_t record_size,
                    const uint8_t *strings, size_t strings_size,
                    uint8_t *room, size_t room_size) BOOTFW_CALL;

/* Builds the shortest table of what the lent table holds into the room; more may be
 * lent than its Length. The room shares no byte with the table: that is taken on
 * trust. The new table can be longer than the old one, where that had its structures
 * in another order or secrets that share bytes with other strings; room of
 * IBFT_LARGEST_LENGTH_WITH_EXTRAS is always enough. Answers 0 with place 0 and the new
 * table's Length, and the room past that keeps its bytes; or the first refusal of a
 * check, with its place, and with 6 the checksum byte as a check has it; or 20 with the
 * number of the first string that holds a zero byte; or 21. When refused, Length is 0
 * and nothing is written. */
uint64_t ibft_rebuild(const uint8_t *table, size_t table_size,
                      uint8_t *room, size_t room_size) BOOTFW_CALL;

/* Look for the lowest sound aBFT or sBFT in the lent bytes, as ibft_scan does for an
 * iBFT, in the window of ABFT_WINDOW_END and SBFT_WINDOW_END: lent bytes that go past
 * it are refused with 1. A table may be found at address 0. Write nothing. */
uint64_t abft_scan(const uint8_t *memory, size_t memory_size, uint64_t address) BOOTFW_CALL;
uint64_t sbft_scan(const uint8_t *memory, size_t memory_size, uint64_t address) BOOTFW_CALL;

/* Check the table that starts with the first of the lent bytes; more may be lent
 * than its Length, which may be above the least. Answer 0 with place 0; or the first
 * refusal that applies, with its place: 3 to 8, then 30 for the lowest reserved byte
 * that is not zero; of an sBFT then 31 and 32 for the first such part, of SCSI, SRP and
 * IB, at its offset word, then 30 for the reserved bytes of the IB part, at a place of
 * up to 65,582. Bits 32-63 are as ibft_check has them. Write nothing. */
uint64_t abft_check(const uint8_t *table, size_t table_size) BOOTFW_CALL;
uint64_t sbft_check(const uint8_t *table, size_t table_size) BOOTFW_CALL;

/* Write the table of an image, a struct abft or struct sbft, into the room. Bytes of
 * the image that are not lent are taken for zero, more than the struct's are not looked
 * at. The room shares no byte with the image: that is taken on trust. Answer 0 with
 * place 0 and the table's Length, ABFT_LENGTH, SBFT_LENGTH or SBFT_LENGTH_WITHOUT_IB,
 * and the room past that keeps its bytes; or 8 with 10 or 16, the OEM field that goes on
 * after a zero byte, then 21 if Length exceeds the room, with Length 0, and write
 * nothing. */
uint64_t abft_write(const uint8_t *image, size_t image_size,
                    uint8_t *room, size_t room_size) BOOTFW_CALL;
uint64_t sbft_write(const uint8_t *image, size_t image_size,
                    uint8_t *room, size_t room_size) BOOTFW_CALL;

#ifdef __cplusplus
}
#endif

#undef BOOTFW_FIELD
#undef BOOTFW_SIZE
#undef BOOTFW_ASSERT

#endif
