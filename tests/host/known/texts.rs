//! Whole texts with the answers that docs/RECORD-FORMAT.md gives them, written out by hand.

use crate::model::check::Refusal;
use crate::model::enter_tell::{enter, tell, tell_hidden, Entered};
use crate::model::login::login_order;
use crate::model::readings::{self as readings, EntryWords};
use crate::model::text::{ALL_STRINGS, LONGEST_TEXT};

/// The document's example.
pub const EXAMPLE: &str = include_str!("../../../samples/cabinet7.record");

/// What `enter` answers: a table that is told so, a message, or a refusal and its place.
#[derive(Clone, Debug)]
pub enum Answer {
    Told(String),
    Unread(String),
    Refused(u64, u64),
}

use Answer::*;

pub struct Known {
    pub text: Vec<u8>,
    pub answer: Answer,
}

fn known(text: impl AsRef<[u8]>, answer: Answer) -> Known {
    Known {
        text: text.as_ref().to_vec(),
        answer,
    }
}

fn told(text: impl AsRef<[u8]>, lines: &[&str]) -> Known {
    let lines: Vec<String> = lines.iter().map(|line| format!("{}\n", line)).collect();
    known(text, Told(lines.concat()))
}

fn unread(text: impl AsRef<[u8]>, line: usize, reason: &str) -> Known {
    known(text, Unread(format!("enter: line {}: {}", line, reason)))
}

fn refused(text: impl AsRef<[u8]>, number: u64, place: u64) -> Known {
    known(text, Refused(number, place))
}

const NO_FIELD: &str = "there is no such field";
const GIVEN_BEFORE: &str = "this field was given before";
const NO_MODE: &str = "the value is not one of: multi single";
const NO_STRING: &str = "the value is not a string: a backslash starts \\\\ or \\xHH, \
                         bytes below 0x20 are written \\xHH, an empty string \"\"";

// ---- Lines ----

/// Texts that say nothing, and one line said in many ways.
fn blanks_and_comments() -> Vec<Known> {
    let nothing = [
        "",
        "\n",
        "\n\n\n",
        " ",
        "\t",
        "\r",
        "\r\n",
        " \t\r\n \t\r",
        "#",
        "#\n",
    ];
    let comments = [
        "# control single",
        " \t# control single\n",
        "#control\n#\0\x01\x7F \\q",
    ];
    let single = [
        "control single",
        "control single\n",
        "control single\r\n",
        "\n\ncontrol single\n\n",
        "control\tsingle",
        "control\rsingle",
        " control single ",
        "\t\r control \r\t  single\t\r ",
        "# first\ncontrol single\n# last",
        "#\r\n\r\ncontrol\t\tsingle\r\n\r\n",
    ];
    let mut all = vec![told(b"#\xFF\xFE\n", &["control multi"])];
    for text in nothing.iter().chain(&comments) {
        all.push(told(text, &["control multi"]));
    }
    for text in single {
        all.push(told(text, &["control single"]));
    }
    all
}

/// Lines that cannot be read, and which of several is named.
fn unread_lines() -> Vec<Known> {
    let no_name = "the value is not made of the words: valid selected";
    vec![
        unread("x", 1, NO_FIELD),
        unread("\0", 1, NO_FIELD),
        unread("control multi\n\n# three\nx y z\n", 4, NO_FIELD),
        unread("Control multi", 1, NO_FIELD),
        unread("control=multi", 1, NO_FIELD),
        unread("control: multi", 1, NO_FIELD),
        unread("control\x0Bmulti", 1, NO_FIELD),
        unread("\u{FEFF}control multi", 1, NO_FIELD),
        unread("control # multi", 1, NO_MODE),
        unread("control multi # the mode", 1, NO_MODE),
        unread("control", 1, NO_MODE),
        unread("control \t\r\n", 1, NO_MODE),
        unread("flags valid", 1, NO_FIELD),
        unread("initiator valid", 1, NO_FIELD),
        unread("initiator. valid", 1, NO_FIELD),
        unread("initiator0.flags valid", 1, NO_FIELD),
        unread("initiator.mac 02:00:5e:10:00:07", 1, NO_FIELD),
        unread("nic.mac 02:00:5e:10:00:07", 1, NO_FIELD),
        unread("oem1.id A", 1, NO_FIELD),
        unread("control0 multi", 1, NO_FIELD),
        unread("oem.id", 1, NO_STRING),
        unread("initiator.name", 1, NO_STRING),
        unread("initiator.flags", 1, no_name),
        unread("control single\ncontrol single", 2, GIVEN_BEFORE),
        unread("control single\n\ncontrol rubbish", 3, GIVEN_BEFORE),
        unread("control single\ncontrol", 2, GIVEN_BEFORE),
        unread("control rubbish\ncontrol multi", 1, NO_MODE),
        unread("control single\rcontrol multi", 1, NO_MODE),
        unread("nic0.host a\nnic1.host a\nnic0.host a", 3, GIVEN_BEFORE),
        unread("nic0.host \"\"\ny\nx", 2, NO_FIELD),
        unread(format!("{}x", "\n".repeat(65_535)), 65_536, NO_FIELD),
    ]
}

/// How the groups of NICs and targets are written, and how not.
fn group_names() -> Vec<Known> {
    let named = |group: &str| {
        let flags = format!("{}.flags none", group);
        told(&flags, &["control multi", &flags])
    };
    let target = |group: &str| {
        let lines = [".flags none", ".port 9"].map(|field| format!("{}{}", group, field));
        let text = lines.join("\n");
        told(text, &["control multi", &lines[0], &lines[1]])
    };
    let mut all: Vec<Known> = Vec::new();
    for index in [
        "0", "1", "2", "9", "10", "99", "100", "199", "200", "249", "250", "255",
    ] {
        all.push(named(&format!("nic{}", index)));
        all.push(target(&format!("target{}", index)));
    }
    for index in [
        "",
        "00",
        "01",
        "02",
        "002",
        "0255",
        "0x2",
        "2x",
        "x2",
        "256",
        "257",
        "258",
        "260",
        "300",
        "512",
        "514",
        "999",
        "1000",
        "65538",
        "4294967298",
        "18446744073709551618",
        "-1",
        "-2",
        "+2",
        "2-",
        "2.0",
        " 2",
        "2 ",
        "_2",
        "[2]",
        "2,3",
        "two",
        "\u{662}",
        "/",
        ":",
        "1:",
        "1/",
        "2\0",
    ] {
        for line in [
            "nic#.flags none",
            "target#.flags none",
            "nic#.rubbish",
            "target#.lun x",
        ] {
            all.push(unread(line.replace('#', index), 1, NO_FIELD));
        }
    }
    for name in [
        "nic5",
        "nic5.",
        "nic5.lun",
        "nic5.name",
        "nic5.flags.",
        "nic5..flags",
        "nic5.5.flags",
        "nic5flags",
        "nics5.flags",
        "Nic5.flags",
        "NIC5.flags",
        "nic5.Flags",
        "nic5.oem",
        "nic5.nic5",
        "target5",
        "target5.",
        "target5.host",
        "target5.mac",
        "target5.chap-",
        "target5.chap_name",
        "targets5.flags",
        "Target5.flags",
        "target5.target5",
        "tnic5.flags",
        "5.flags",
        ".flags",
        "oem",
        "oem.",
        "oem.id.table",
        "control.",
        "control.control",
        "nic",
        "target",
        "target.",
        ".",
        "..",
        "5",
        "nic5target5.flags",
        "oem5.id",
        "oem0.table",
        "control5",
        "initiator2.name",
        "initiator5.flags",
    ] {
        all.push(unread(format!("{} none", name), 1, NO_FIELD));
        all.push(unread(name, 1, NO_FIELD));
    }
    all
}

// ---- Structures and fields ----

/// A structure is there with its first field; what is not given has its default.
fn presence() -> Vec<Known> {
    let multi = "control multi";
    let address = "nic0.dns2 0.0.0.0";
    let nic0 = "nic0.flags valid selected";
    let nic1 = "nic1.flags valid selected";
    vec![
        told("oem.id METTA", &["oem.id METTA", multi]),
        told("oem.table \\x37\ncontrol multi", &["oem.table 7", multi]),
        told("oem.id \"\"\noem.table \\x00", &[multi]),
        told("oem.id A\\x00\\x00", &["oem.id A", multi]),
        told(
            "initiator.isns ::",
            &[multi, "initiator.flags valid selected"],
        ),
        told("initiator.flags none", &[multi, "initiator.flags none"]),
        told("nic0.vlan 0", &[multi, nic0]),
        told("nic1.pci 00:00.0", &[multi, nic1]),
        told("nic1.host a.", &[multi, nic1, "nic1.host a."]),
        told(address, &[multi, nic0, address]),
    ]
}

/// A target has a port that is not zero where it is given none.
fn targets() -> Vec<Known> {
    let multi = "control multi";
    let target0 = ["target0.flags valid selected", "target0.port 3260"];
    let target1 = ["target1.flags valid selected", "target1.port 3260"];
    let no_flags = ["target0.flags none", target0[1]];
    let port_0 = [target1[0], "target1.port 0"];
    let both = ["target1.name \"\"", "target0.nic 1"];
    vec![
        told("target0.lun 0", &[&[multi], &target0[..]].concat()),
        told("target1.chap none", &[&[multi], &target1[..]].concat()),
        told("target1.port 0", &[&[multi], &port_0[..]].concat()),
        told("target0.flags none", &[&[multi], &no_flags[..]].concat()),
        told(
            both.join("\n"),
            &[&[multi], &target0[..], &both[1..], &target1, &both[..1]].concat(),
        ),
    ]
}

/// A line for each field of each kind of structure, in the order in which they are told.
const EVERY_FIELD: [(&str, &[&str]); 3] = [
    (
        "initiator",
        &[
            "flags selected",
            "isns 1.2.3.4",
            "slp ::2",
            "radius1 ::3",
            "radius2 ::4",
            "name i",
        ],
    ),
    (
        "nic",
        &[
            "flags global",
            "address ::1",
            "prefix 6",
            "origin 7",
            "gateway ::2",
            "dns1 ::3",
            "dns2 ::4",
            "dhcp ::5",
            "vlan 8",
            "mac 00:00:00:00:00:09",
            "pci 01:02.3",
            "host n",
        ],
    ),
    (
        "target",
        &[
            "flags radius-chap",
            "address ::1",
            "port 2",
            "lun 3",
            "chap one-way",
            "nic 4",
            "name tn",
            "chap-name tc",
            "chap-secret ts",
            "reverse-name tr",
            "reverse-secret \"\"",
        ],
    ),
];

/// The lines from last to first; telling turns them round.
fn every_field() -> Known {
    let of = |kind: usize, number: &str| {
        let (name, fields) = EVERY_FIELD[kind];
        let line = |field: &&str| format!("{}{}.{}", name, number, field);
        fields.iter().map(line).collect::<Vec<String>>()
    };
    let header = ["oem.id I", "oem.table T", "control single"].map(str::to_string);
    let all = [
        header.to_vec(),
        of(0, ""),
        of(1, "0"),
        of(2, "0"),
        of(1, "1"),
        of(2, "1"),
        of(1, "2"),
        of(1, "10"),
        of(2, "9"),
        of(2, "255"),
    ];
    let mut lines = all.concat();
    let told = lines.iter().map(|line| format!("{}\n", line)).collect();
    lines.reverse();
    known(lines.join("\n"), Told(told))
}

// ---- Extras ----

/// Four NICs and three targets, their lines mixed.
const MIXED: &str = "\
# the far shelf first
target7.name iqn.2026-11.example:volume7
nic200.address 2001:db8:7::200
nic5.vlan 0x46
target1.nic 1
  nic1.mac 00:00:5E:00:53:01
target7.chap-secret \"\"
nic0.host depot7
control single

nic5.flags valid
target0.flags valid
nic200.prefix 64
target7.nic 200
target1.lun 1
nic0.address 192.0.2.10
target7.reverse-secret not\\x20told
nic200.flags none
nic5.host depot7-c
";

/// What they are told as.
const MIXED_TOLD: [&str; 23] = [
    "control single",
    "nic0.flags valid selected",
    "nic0.address 192.0.2.10",
    "nic0.host depot7",
    "target0.flags valid",
    "target0.port 3260",
    "nic1.flags valid selected",
    "nic1.mac 00:00:5e:00:53:01",
    "target1.flags valid selected",
    "target1.port 3260",
    "target1.lun 1",
    "target1.nic 1",
    "nic5.flags valid",
    "nic5.vlan 70",
    "nic5.host depot7-c",
    "nic200.flags none",
    "nic200.address 2001:db8:7::200",
    "nic200.prefix 64",
    "target7.flags valid selected",
    "target7.port 3260",
    "target7.nic 200",
    "target7.name iqn.2026-11.example:volume7",
    "target7.chap-secret \"\"",
];

/// The last line that they are told as, and the last two where secrets are hidden.
const MIXED_SECRET: &str = "target7.reverse-secret not told";
const MIXED_HIDDEN: [&str; 2] = [
    "# target7.chap-secret is hidden",
    "# target7.reverse-secret is hidden",
];

fn mixed() -> Known {
    told(MIXED, &[&MIXED_TOLD[..], &[MIXED_SECRET]].concat())
}

/// A structure is there with its first field; an extra too.
fn extras() -> Vec<Known> {
    let multi = "control multi";
    let nic = |index: &str| format!("nic{}.flags valid selected", index);
    let target = |index: &str| {
        let lines = [".flags valid selected", ".port 3260"];
        lines.map(|field| format!("target{}{}", index, field))
    };
    let [flags, port] = target("9");
    let [flags_2, port_2] = target("2");
    let mut all = vec![
        mixed(),
        told("nic2.vlan 0", &[multi, &nic("2")]),
        told("nic255.pci 00:00.0", &[multi, &nic("255")]),
        told("nic5.host a.", &[multi, &nic("5"), "nic5.host a."]),
        told(
            "nic5.dns2 0.0.0.0",
            &[multi, &nic("5"), "nic5.dns2 0.0.0.0"],
        ),
        told("target9.lun 0", &[multi, &flags, &port]),
        told("target9.chap none", &[multi, &flags, &port]),
        told("target9.port 0", &[multi, &flags, "target9.port 0"]),
        told("target9.flags none", &[multi, "target9.flags none", &port]),
        told(
            "target9.name \"\"",
            &[multi, &flags, &port, "target9.name \"\""],
        ),
        // By number and not by letter; NICs before targets; the same Index in both kinds.
        told(
            "nic10.vlan 0\nnic9.vlan 0\nnic100.vlan 0\nnic99.vlan 0\nnic2.vlan 0",
            &[
                multi,
                &nic("2"),
                &nic("9"),
                &nic("10"),
                &nic("99"),
                &nic("100"),
            ],
        ),
        told(
            "target9.lun 0\ntarget2.lun 0\nnic9.vlan 0",
            &[multi, &nic("9"), &flags_2, &port_2, &flags, &port],
        ),
        // A field of another structure is another field.
        told(
            "nic2.vlan 0\nnic22.vlan 0\nnic20.vlan 0",
            &[multi, &nic("2"), &nic("20"), &nic("22")],
        ),
    ];
    all.extend(
        [
            "nic2.vlan 0\nnic2.vlan 0",
            "nic2.vlan 0\nnic2.vlan x",
            "target255.lun 1\ntarget255.lun 0x1",
        ]
        .map(|text| unread(text, 2, GIVEN_BEFORE)),
    );
    all.push(unread(
        "nic2.vlan x\nnic2.vlan 0",
        1,
        "the value is not a number from 0 to 65535",
    ));
    all.push(unread(
        "target9.flags global",
        1,
        "the value is not made of the words: valid selected radius-chap radius-rchap",
    ));
    all.push(unread(
        "nic9.flags radius-chap",
        1,
        "the value is not made of the words: valid selected global",
    ));
    all
}

const SEVENTH_NIC: &str = "a record has at most six NICs beyond nic0 and nic1";
const SEVENTH_TARGET: &str = "a record has at most six targets beyond target0 and target1";

/// Six of a kind are read, a seventh is not, in whatever order and whatever it is given.
fn seventh_extras() -> Vec<Known> {
    let nics = |indexes: &[u8]| -> String {
        let line = |index: &u8| format!("nic{}.vlan 0\n", index);
        indexes.iter().map(line).collect()
    };
    let targets = |indexes: &[u8]| -> String {
        let line = |index: &u8| format!("target{}.lun 0\n", index);
        indexes.iter().map(line).collect()
    };
    let told_nics = |indexes: &[u8]| -> Vec<String> {
        let line = |index: &u8| format!("nic{}.flags valid selected", index);
        indexes.iter().map(line).collect()
    };
    let told_targets = |indexes: &[u8]| -> Vec<String> {
        let lines = |index: &u8| {
            [".flags valid selected", ".port 3260"].map(|field| format!("target{}{}", index, field))
        };
        indexes.iter().flat_map(lines).collect()
    };
    let built = |text: String, lines: Vec<String>| {
        let mut all = vec!["control multi"];
        all.extend(lines.iter().map(String::as_str));
        told(text, &all)
    };
    let up = [2, 3, 4, 5, 6, 7];
    let down = [255, 254, 100, 99, 10, 9];
    let sorted = [9, 10, 99, 100, 254, 255];
    let no_number = "the value is not a number from 0 to 65535";
    vec![
        built(nics(&up), told_nics(&up)),
        built(nics(&down), told_nics(&sorted)),
        built(targets(&down), told_targets(&sorted)),
        built(
            targets(&down) + &nics(&up),
            [told_nics(&up), told_targets(&sorted)].concat(),
        ),
        // The named ones are none of the six.
        built(
            nics(&up) + "nic0.vlan 0\nnic1.vlan 0\n",
            told_nics(&[0, 1, 2, 3, 4, 5, 6, 7]),
        ),
        // Nor is one that was named before, or one of the other kind.
        built(nics(&up) + "nic2.prefix 0\nnic7.host a.\n", {
            let mut lines = told_nics(&up);
            lines.push("nic7.host a.".to_string());
            lines
        }),
        built(
            nics(&up) + "target8.lun 0",
            [told_nics(&up), told_targets(&[8])].concat(),
        ),
        unread(nics(&up) + "nic8.vlan 0", 7, SEVENTH_NIC),
        unread(nics(&down) + "nic2.vlan 0", 7, SEVENTH_NIC),
        unread(
            targets(&up) + "\n# eight\ntarget255.lun 0",
            9,
            SEVENTH_TARGET,
        ),
        unread(targets(&down) + "target2.lun 0", 7, SEVENTH_TARGET),
        unread(
            nics(&up) + &targets(&up) + "target8.lun 0",
            13,
            SEVENTH_TARGET,
        ),
        unread(
            nics(&up) + &targets(&up) + "nic8.vlan 0\ntarget8.lun 0",
            13,
            SEVENTH_NIC,
        ),
        // The seventh's line is it, not the eighth's or another of the seventh's.
        unread(nics(&up) + "nic9.vlan 0\nnic8.vlan 0", 7, SEVENTH_NIC),
        unread(nics(&up) + "nic8.prefix 0\nnic8.vlan 0", 7, SEVENTH_NIC),
        // No such field comes before a seventh extra, this before the value.
        unread(nics(&up) + "nic8.lun 0", 7, NO_FIELD),
        unread(nics(&up) + "nic08.vlan 0", 7, NO_FIELD),
        unread(nics(&up) + "nic256.vlan 0", 7, NO_FIELD),
        unread(nics(&up) + "nic8.vlan rubbish", 7, SEVENTH_NIC),
        unread(nics(&up) + "nic8.vlan", 7, SEVENTH_NIC),
        unread(nics(&up) + "nic8.host \\q", 7, SEVENTH_NIC),
        unread(nics(&up) + "nic7.vlan 0", 7, GIVEN_BEFORE),
        unread(nics(&up) + "nic2.vlan rubbish", 7, GIVEN_BEFORE),
        unread(
            nics(&up) + "nic2.dns1 rubbish\nnic8.vlan 0",
            7,
            "the value is not an IP address",
        ),
        // The first line that cannot be read is named: a value before the seventh, or the seventh before a value.
        unread(nics(&up[..5]) + "nic7.vlan x\nnic8.vlan 0", 6, no_number),
        unread(format!("control x\n{}nic8.vlan 0", nics(&up)), 1, NO_MODE),
        unread(nics(&up) + "nic8.vlan 0\ncontrol x", 7, SEVENTH_NIC),
        unread(nics(&up) + "nic8.vlan 0\nnic8.lun 0", 7, SEVENTH_NIC),
        // What a build would refuse is not come to.
        unread(
            format!("nic2.host a_b\noem.id A\\x00B\n{}nic8.vlan 0", nics(&up)),
            9,
            SEVENTH_NIC,
        ),
    ]
}

// ---- Refused records ----

fn refused_records() -> Vec<Known> {
    let long = |field: &str, size: usize| format!("{} {}", field, "a".repeat(size));
    let is_long = |field: &str, most: usize| {
        let lines = [
            "control multi",
            "target0.flags valid selected",
            "target0.port 3260",
        ];
        let line = long(field, most);
        told(&line, &[lines[0], lines[1], lines[2], &line])
    };
    let name_too_long = long("target7.name", 224);
    let six = "nic2.vlan 0\nnic3.vlan 0\nnic4.vlan 0\nnic5.vlan 0\nnic6.vlan 0\nnic7.vlan 0\n";
    vec![
        // Strings of extras have numbers from 13 on, without a gap: hosts by Index, then five of each target.
        refused(&name_too_long, 17, 13),
        refused(format!("nic200.vlan 0\n{}", name_too_long), 17, 14),
        refused(
            format!(
                "{}\ntarget9.lun 0\nnic200.vlan 0\nnic5.vlan 0",
                name_too_long
            ),
            17,
            15,
        ),
        refused(
            format!("{}\ntarget6.lun 0\ntarget200.lun 0", name_too_long),
            17,
            18,
        ),
        refused(format!("{}{}", six, name_too_long), 17, 19),
        refused("nic5.host a_b", 18, 13),
        refused("nic5.host a_b\nnic6.host a", 18, 13),
        refused("nic5.host a_b\nnic4.vlan 0", 18, 14),
        refused("nic5.host \"\"\nnic4.host \"\"", 18, 13),
        refused(format!("{}nic7.host a.b.", six), 18, 18),
        refused("target200.chap-name \\x00", 20, 14),
        refused("target200.chap-secret a\\x00", 20, 15),
        refused("target200.reverse-name a\\x00b", 20, 16),
        refused(
            "target200.reverse-secret \\x00\ntarget2.lun 0\nnic9.vlan 0",
            20,
            23,
        ),
        refused("target200.reverse-secret \\x00\nnic9.host -", 18, 13),
        refused("target200.name \\x00\ntarget1.reverse-secret \\x00", 20, 12),
        refused("oem.id A\\x00B", 8, 10),
        refused("oem.table \\x00B", 8, 16),
        refused(
            "oem.table \\x00B\noem.id \\x00B\ninitiator.name \\x00",
            8,
            10,
        ),
        is_long("target0.name", 223),
        refused(long("target0.name", 224), 17, 2),
        is_long("target0.chap-secret", 255),
        refused(long("target0.chap-secret", 256), 17, 4),
        refused(long("initiator.name", ALL_STRINGS), 17, 0),
        refused(long("target255.reverse-secret", ALL_STRINGS), 17, 17),
        refused("initiator.name \\x00", 20, 0),
        refused("target1.reverse-secret a\\x00b", 20, 12),
        refused("target1.name \\x00\ntarget0.name a\\x00", 20, 2),
        refused("nic0.host \"\"", 18, 1),
        refused("nic0.host \\x00", 20, 1),
        refused("nic0.host a_b", 18, 1),
        refused("nic1.host a.b.", 18, 7),
        refused("nic1.host .\nnic0.host -", 18, 1),
        refused(long("nic1.host", 64), 18, 7),
        refused(long("nic1.host", 256), 17, 7),
    ]
}

// ---- Limits ----

/// The sizes of the OEM fields and of all strings together.
fn limits_of_strings() -> Vec<Known> {
    let six = "the string has more than 6 bytes";
    let eight = "the string has more than 8 bytes";
    let together = "the strings together have more than 16384 bytes";
    let oem = ["oem.id 123456", "oem.table 12345678", "control multi"];
    let name = |size: usize| format!("initiator.name {}\n", "a".repeat(size));
    let escaped = |size: usize| format!("target1.name {}\n", "\\x61".repeat(size));
    vec![
        told(oem.join("\n"), &oem),
        unread("oem.id 1234567", 1, six),
        unread("oem.id A\\x00\\x00\\x00\\x00\\x00\\x00", 1, six),
        unread("oem.id 1234567\\q", 1, NO_STRING),
        unread("\noem.table 123456789", 2, eight),
        refused(name(ALL_STRINGS), 17, 0),
        unread(name(ALL_STRINGS + 1), 1, together),
        unread(name(ALL_STRINGS) + "nic0.host a", 2, together),
        unread(name(ALL_STRINGS) + "nic0.host \\q", 2, NO_STRING),
        unread(name(ALL_STRINGS) + "initiator.name a", 2, GIVEN_BEFORE),
        refused(name(ALL_STRINGS) + "nic0.host \"\"\noem.id 123456", 17, 0),
        refused(escaped(8_000) + &name(8_384), 17, 0),
        unread(escaped(8_001) + &name(8_384), 2, together),
        unread(name(17_000).replace("a\n", "\\q"), 1, NO_STRING),
        unread(name(ALL_STRINGS) + "target7.name a", 2, together),
        refused(name(ALL_STRINGS) + "target7.name \"\"", 17, 0),
        refused(name(4_097), 17, 0),
    ]
}

/// Size comes before all else that is wrong.
fn limits_of_text() -> Vec<Known> {
    let longer = |text: String| {
        let message = "enter: the text has more than 65536 bytes";
        known(text, Unread(message.to_string()))
    };
    let filled = |text: &str, size: usize| format!("{}{}", text, "#".repeat(size - text.len()));
    let single = "control single\n";
    vec![
        told(filled(single, LONGEST_TEXT), &["control single"]),
        longer(filled(single, LONGEST_TEXT + 1)),
        longer(filled("x\n", LONGEST_TEXT + 1)),
        told("\n".repeat(LONGEST_TEXT), &["control multi"]),
        longer("\n".repeat(LONGEST_TEXT + 1)),
        longer(filled("", 1 << 20)),
    ]
}

pub fn known_texts() -> Vec<Known> {
    let mut all = blanks_and_comments();
    all.extend(unread_lines());
    all.extend(group_names());
    all.extend(presence());
    all.extend(targets());
    all.push(every_field());
    all.extend(extras());
    all.extend(seventh_extras());
    all.extend(refused_records());
    all.extend(limits_of_strings());
    all.extend(limits_of_text());
    all
}

// ---- Holding the model to them ----

fn is_answered_as_known(known: &Known) -> bool {
    let entered = enter(&known.text);
    let as_known = match (&entered, &known.answer) {
        (Entered::Table(table), Told(text)) => tell(table) == *text,
        (Entered::Unread(message), Unread(known)) => message == known,
        (Entered::Refused(refusal, _), Refused(n, p)) => *refusal == Refusal::new(*n, *p),
        _ => false,
    };
    if !as_known {
        let text = String::from_utf8_lossy(&known.text[..known.text.len().min(300)]);
        println!("text: {:?} is not answered {:?}, but", text, known.answer);
        match &entered {
            Entered::Table(table) => println!("  told {:?}", tell(table)),
            other => println!("  {:?}", other),
        }
    }
    as_known
}

/// The table of a text that has one.
fn table_of_text(text: &[u8]) -> Vec<u8> {
    match enter(text) {
        Entered::Table(table) => table,
        other => panic!(
            "{:?} is answered {:?}",
            String::from_utf8_lossy(text),
            other
        ),
    }
}

fn string<'a>(table: &'a [u8], words: &EntryWords) -> &'a [u8] {
    let start = words.offset as usize;
    &table[start..start + words.length as usize]
}

fn mapped(last: [u8; 4]) -> [u8; 16] {
    let mut address = [0; 16];
    address[10..12].fill(0xFF);
    address[12..].copy_from_slice(&last);
    address
}

/// `::1` and the like.
fn small(last: u8) -> [u8; 16] {
    let mut address = [0; 16];
    address[15] = last;
    address
}

/// The example's fields, by the readings of the table that it gives.
fn assert_example() {
    let table = table_of_text(EXAMPLE.as_bytes());
    let header = readings::header(&table).unwrap();
    assert_eq!(&header.oem_id, b"METTA\0");
    assert_eq!(&header.oem_table_id, b"CABINET7");
    assert_eq!(header.control_flags, 1);
    let initiator = readings::initiator(&table).unwrap();
    let name = string(&table, &initiator.name);
    assert_eq!(initiator.flags, 3);
    assert_eq!(name, b"iqn.2026-11.example:cabinet7");
    assert_example_nic(&table);
    assert_example_target(&table);
    assert!(readings::nic(&table, 1).is_err());
    assert!(readings::target(&table, 1).is_err());
}

fn assert_example_nic(table: &[u8]) {
    let nic = readings::nic(table, 0).unwrap();
    assert_eq!((nic.flags, nic.prefix, nic.origin, nic.vlan), (7, 24, 0, 0));
    assert_eq!(nic.address, mapped([192, 168, 70, 50]));
    assert_eq!(nic.gateway, mapped([192, 168, 70, 1]));
    assert_eq!(nic.primary_dns[..4], [0x20, 0x01, 0x0D, 0xB8]);
    assert_eq!(nic.primary_dns[4..], small(0x53)[4..]);
    assert_eq!((nic.secondary_dns, nic.dhcp), ([0; 16], [0; 16]));
    assert_eq!(nic.mac, [0x02, 0, 0x5E, 0x10, 0, 0x07]);
    assert_eq!(nic.pci, 0x0019);
    assert_eq!(string(table, &nic.host_name), b"cabinet7.example");
}

fn assert_example_target(table: &[u8]) {
    let target = readings::target(table, 0).unwrap();
    assert_eq!((target.flags, target.socket, target.lun), (3, 3260, 1));
    assert_eq!((target.chap_type, target.nic_association), (2, 0));
    assert_eq!(target.address, mapped([192, 168, 70, 35]));
    let secret = string(table, &target.chap_secret);
    assert_eq!(secret, b"a secret of \xFCber 12 bytes");
    assert_eq!(string(table, &target.name), b"iqn.2026-11.example:depot7");
    assert_eq!(string(table, &target.chap_name), b"depot7");
    assert_eq!(string(table, &target.reverse_name), b"7");
    // The secret's own zero byte is at 408; the empty one behind it has another, the table's last.
    assert_eq!(target.reverse_secret.length, 0);
    assert_eq!((target.reverse_secret.offset, table.len()), (409, 410));
}

/// Every field stands where the readings have it.
fn assert_every_field() {
    let table = table_of_text(&every_field().text);
    let initiator = readings::initiator(&table).unwrap();
    assert_eq!(initiator.flags, 2);
    assert_eq!(initiator.isns_server, mapped([1, 2, 3, 4]));
    assert_eq!(initiator.slp_server, small(2));
    assert_eq!(initiator.primary_radius_server, small(3));
    assert_eq!(initiator.secondary_radius_server, small(4));
    let accepted = readings::accepted(&table).ok().unwrap();
    let index = |slot: u64| accepted.structure(slot).ok().unwrap().index;
    assert_eq!([5, 6, 7, 8].map(index), [2, 10, 9, 255]);
    for n in 0..4 {
        let nic = readings::nic(&table, n).unwrap();
        let addresses = [nic.address, nic.gateway, nic.primary_dns, nic.secondary_dns];
        assert_eq!(addresses, [small(1), small(2), small(3), small(4)]);
        assert_eq!(nic.dhcp, small(5));
        assert_eq!((nic.flags, nic.prefix, nic.origin, nic.vlan), (4, 6, 7, 8));
        assert_eq!((nic.mac, nic.pci), ([0, 0, 0, 0, 0, 9], 0x0113));
        let target = readings::target(&table, n).unwrap();
        let numbers = [target.socket, target.lun, target.chap_type];
        assert_eq!(target.address, small(1));
        assert_eq!(numbers, [2, 3, 1]);
        assert_eq!((target.flags, target.nic_association), (4, 4));
        let names = [target.name, target.chap_name, target.chap_secret];
        let names = names.map(|words| string(&table, &words).to_vec());
        assert_eq!(names, [b"tn", b"tc", b"ts"]);
        assert_eq!(string(&table, &target.reverse_name), b"tr");
        assert_eq!(string(&table, &target.reverse_secret), b"");
    }
}

/// The words of a refusal name the field, an extra's by its Index.
fn assert_words() {
    let words = |text: &str| match enter(text.as_bytes()) {
        Entered::Refused(_, words) => words,
        other => panic!("{:?} is answered {:?}", text, other),
    };
    let long = "a".repeat(256);
    for (text, said) in [
        (
            "oem.id A\\x00B",
            "oem.id: a zero byte is followed by another byte",
        ),
        (
            "oem.table \\x00B",
            "oem.table: a zero byte is followed by another byte",
        ),
        ("nic1.host a.b.", "nic1.host: this is not a host name"),
        (
            "initiator.name \\x00",
            "initiator.name: the string has a zero byte",
        ),
        (
            &format!("target7.name {}", long),
            "target7.name: a name has at most 223 bytes, any other string 255",
        ),
        (
            &format!(
                "nic3.vlan 0\ntarget2.lun 0\ntarget7.reverse-secret {}",
                long
            ),
            "target7.reverse-secret: a name has at most 223 bytes, any other string 255",
        ),
        (
            "nic200.host -\nnic7.vlan 0",
            "nic200.host: this is not a host name",
        ),
        (
            "target255.chap-name \\x00\nnic7.vlan 0\ntarget9.lun 0",
            "target255.chap-name: the string has a zero byte",
        ),
    ] {
        assert_eq!(words(text), said);
    }
}

/// The secrets of an extra are hidden too.
fn assert_hidden() {
    let told = [&MIXED_TOLD[..22], &MIXED_HIDDEN].concat();
    let told: String = told.iter().map(|line| format!("{}\n", line)).collect();
    assert_eq!(tell_hidden(&table_of_text(MIXED.as_bytes())), told);
}

/// Of two targets whose flags are not given the lower Index goes first in single mode, unless it is
/// given as not selected.
fn assert_preferred_target() {
    let order = |text: &str| login_order(&table_of_text(text.as_bytes())).unwrap();
    let both = "control single\ntarget0.name a\ntarget1.name b\n";
    assert_eq!(order(both), [0, 1]);
    assert_eq!(order(&format!("{}target0.flags valid\n", both)), [1, 0]);
}

/// Does the model answer each of these texts as the document does?
pub fn known_texts_agree() -> bool {
    assert_example();
    assert_every_field();
    assert_words();
    assert_hidden();
    assert_preferred_target();
    known_texts().iter().all(is_answered_as_known)
}
