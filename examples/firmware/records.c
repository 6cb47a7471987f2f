/*
 * Two records that a table can be built from, as constants, and the strings of
 * each as one range of bytes. A string has a zero byte behind it only because that
 * is how C writes strings: the build does not want one.
 */
#include "boot.h"

/* The words of a string in a record: its length and its start in the range, which
 * is a struct of the same name. */
#define STRING(range, field) \
    { .length = sizeof range.field - 1, .offset = offsetof(struct range, field) }

/* ---- A cabinet: an initiator, NIC 0 and Target 0 ----------------------------- */

/* The host name is the tail of the initiator's name: in the table they share bytes. */
static const struct cabinet_strings {
    char initiator_name[sizeof "iqn.2026-11.example:crane7"];
    char host_name[sizeof "crane7"];
    char target_name[sizeof "iqn.2026-11.example:depot1"];
    char chap_name[sizeof "depot7"];
    char chap_secret[sizeof "secret-of-12"];
} cabinet_strings = {
    .initiator_name = "iqn.2026-11.example:crane7",
    .host_name = "crane7",
    .target_name = "iqn.2026-11.example:depot1",
    .chap_name = "depot7",
    .chap_secret = "secret-of-12",
};

/* What is not named is zero: absent, missing, or not looked at. */
static const struct ibft_record cabinet = {
    .oem_id = "DEPOT",
    .oem_table_id = "EXAMPLE",
    .slot_present = {
        [IBFT_SLOT_INITIATOR] = IBFT_PRESENT,
        [IBFT_SLOT_NIC0] = IBFT_PRESENT,
        [IBFT_SLOT_TARGET0] = IBFT_PRESENT,
    },
    .entry_present = {
        [IBFT_ENTRY_INITIATOR_NAME] = IBFT_PRESENT,
        [IBFT_ENTRY_NIC0_HOST_NAME] = IBFT_PRESENT,
        [IBFT_ENTRY_TARGET0_NAME] = IBFT_PRESENT,
        [IBFT_ENTRY_TARGET0_CHAP_NAME] = IBFT_PRESENT,
        [IBFT_ENTRY_TARGET0_CHAP_SECRET] = IBFT_PRESENT,
    },
    .initiator = {
        .header = { .flags = IBFT_INITIATOR_VALID | IBFT_INITIATOR_SELECTED },
        .name = STRING(cabinet_strings, initiator_name),
    },
    .nic0 = {
        .header = { .flags = IBFT_NIC_VALID | IBFT_NIC_SELECTED },
        .ip_address = IBFT_IPV4(10, 0, 2, 15),
        .subnet_mask_prefix = 24,
        .gateway = IBFT_IPV4(10, 0, 2, 2),
        .mac_address = { 0x52, 0x54, 0x00, 0x12, 0x34, 0x56 },
        .pci_bus_dev_func = IBFT_PCI(0, 3, 0),
        .host_name = STRING(cabinet_strings, host_name),
    },
    .target0 = {
        .header = { .flags = IBFT_TARGET_VALID | IBFT_TARGET_SELECTED },
        .ip_address = IBFT_IPV4(10, 0, 2, 2),
        .ip_socket = IBFT_ISCSI_PORT,
        .chap_type = IBFT_CHAP_TYPE_CHAP,
        .nic_association = 0,
        .name = STRING(cabinet_strings, target_name),
        .chap_name = STRING(cabinet_strings, chap_name),
        .chap_secret = STRING(cabinet_strings, chap_secret),
    },
};

const struct boot_record boot_cabinet = {
    (const uint8_t *)&cabinet, sizeof cabinet,
    (const uint8_t *)&cabinet_strings, sizeof cabinet_strings,
};

/* ---- A depot controller: an initiator, four NICs and three targets ------------ */

static const struct depot_strings {
    char initiator_name[sizeof "iqn.2026-11.example:crane7"];
    char host_name[sizeof "store.crane7"];
    char target0_name[sizeof "iqn.2026-11.example:depot1"];
    char target1_name[sizeof "iqn.2026-11.example:depot2"];
    char target7_name[sizeof "iqn.2026-11.example:depot7"];
    char chap_name[sizeof "depot7"];
    char chap_secret[sizeof "secret-of-12"];
} depot_strings = {
    .initiator_name = "iqn.2026-11.example:crane7",
    .host_name = "store.crane7",
    .target0_name = "iqn.2026-11.example:depot1",
    .target1_name = "iqn.2026-11.example:depot2",
    .target7_name = "iqn.2026-11.example:depot7",
    .chap_name = "depot7",
    .chap_secret = "secret-of-12",
};

/* A NIC of the depot's network, by the last byte of its addresses. */
#define DEPOT_NIC(last) \
    .ip_address = IBFT_IPV4(10, 0, 4, last), \
    .subnet_mask_prefix = 24, \
    .mac_address = { 0x52, 0x54, 0x00, 0x12, 0x35, last }

/* NIC 0, NIC 1, Target 0 and Target 1 have their places in a struct ibft_record. NIC 4,
 * NIC 9 and Target 7 are extras: they follow it, NICs first, each kind by ascending
 * Index. For a single login the selected target comes first: Target 7, by NIC 9. */
static const struct depot {
    struct ibft_expanded_record start;
    struct ibft_extra_nic nics[2];
    struct ibft_extra_target targets[1];
} depot = {
    .start = {
        .named = {
            .oem_id = "DEPOT",
            .oem_table_id = "EXAMPLE",
            .control_flags = IBFT_CONTROL_SINGLE_LOGIN,
            .slot_present = {
                [IBFT_SLOT_INITIATOR] = IBFT_PRESENT,
                [IBFT_SLOT_NIC0] = IBFT_PRESENT,
                [IBFT_SLOT_TARGET0] = IBFT_PRESENT,
                [IBFT_SLOT_NIC1] = IBFT_PRESENT,
                [IBFT_SLOT_TARGET1] = IBFT_PRESENT,
            },
            .entry_present = {
                [IBFT_ENTRY_INITIATOR_NAME] = IBFT_PRESENT,
                [IBFT_ENTRY_TARGET0_NAME] = IBFT_PRESENT,
                [IBFT_ENTRY_TARGET1_NAME] = IBFT_PRESENT,
            },
            .initiator = {
                .header = { .flags = IBFT_INITIATOR_VALID | IBFT_INITIATOR_SELECTED },
                .name = STRING(depot_strings, initiator_name),
            },
            .nic0 = { .header = { .flags = IBFT_NIC_VALID }, DEPOT_NIC(10) },
            .target0 = {
                .header = { .flags = IBFT_TARGET_VALID },
                .ip_address = IBFT_IPV4(10, 0, 4, 2),
                .ip_socket = IBFT_ISCSI_PORT,
                .nic_association = 0,
                .name = STRING(depot_strings, target0_name),
            },
            .nic1 = { .header = { .flags = IBFT_NIC_VALID }, DEPOT_NIC(11) },
            .target1 = {
                .header = { .flags = IBFT_TARGET_VALID },
                .ip_address = IBFT_IPV4(10, 0, 4, 3),
                .ip_socket = IBFT_ISCSI_PORT,
                .nic_association = 1,
                .name = STRING(depot_strings, target1_name),
            },
        },
        .extra_nics = 2,
        .extra_targets = 1,
    },
    .nics = {
        { .nic = { .header = { .index = 4, .flags = IBFT_NIC_VALID }, DEPOT_NIC(14) } },
        {
            .nic = {
                .header = { .index = 9, .flags = IBFT_NIC_VALID | IBFT_NIC_SELECTED },
                DEPOT_NIC(19),
                .host_name = STRING(depot_strings, host_name),
            },
            .host_name_present = IBFT_PRESENT,
        },
    },
    .targets = {
        {
            .target = {
                .header = { .index = 7, .flags = IBFT_TARGET_VALID | IBFT_TARGET_SELECTED },
                .ip_address = IBFT_IPV4(10, 0, 4, 7),
                .ip_socket = IBFT_ISCSI_PORT,
                .chap_type = IBFT_CHAP_TYPE_CHAP,
                .nic_association = 9,
                .name = STRING(depot_strings, target7_name),
                .chap_name = STRING(depot_strings, chap_name),
                .chap_secret = STRING(depot_strings, chap_secret),
            },
            .string_present = {
                [IBFT_TARGET_STRING_NAME] = IBFT_PRESENT,
                [IBFT_TARGET_STRING_CHAP_NAME] = IBFT_PRESENT,
                [IBFT_TARGET_STRING_CHAP_SECRET] = IBFT_PRESENT,
            },
        },
    },
};

_Static_assert(sizeof depot == IBFT_RECORD_SIZE(2, 1), "nothing stands between the extras");

const struct boot_record boot_depot = {
    (const uint8_t *)&depot, sizeof depot,
    (const uint8_t *)&depot_strings, sizeof depot_strings,
};
