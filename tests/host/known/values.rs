//! Values of each notation of docs/RECORD-FORMAT.md, good ones and bad, written out by hand with
//! the bytes that they stand for.

use crate::model::build::table_of;
use crate::model::notation::Notation;
use crate::model::text::{all_fields, empty_record, Field};

/// A value as it is written, and its bytes in a structure; none where it cannot be read.
pub type Value = (&'static [u8], Option<&'static [u8]>);

const BYTES: &[Value] = &[
    (b"0", Some(&[0])),
    (b"24", Some(&[24])),
    (b"255", Some(&[255])),
    (b"256", None),
    (b"00", Some(&[0])),
    (b"010", Some(&[10])),
    (b"0000000000000000000000000000000000000000255", Some(&[255])),
    (b"0x0", Some(&[0])),
    (b"0xfe", Some(&[0xFE])),
    (b"0xFE", Some(&[0xFE])),
    (b"0xfE", Some(&[0xFE])),
    (
        b"0x0000000000000000000000000000000000000000fe",
        Some(&[0xFE]),
    ),
    (b"0x100", None),
    (b"0x", None),
    (b"0x-1", None),
    (b"0x+1", None),
    (b"0xg", None),
    (b"0x1g", None),
    (b"0x0x1", None),
    (b"0X1", None),
    (b"x1", None),
    (b"1x", None),
    (b"fe", None),
    (b"1h", None),
    (b"+1", None),
    (b"-1", None),
    (b"-0", None),
    (b"1 2", None),
    (b"1\t2", None),
    (b"0 x1", None),
    (b"1_0", None),
    (b"1,0", None),
    (b"1.0", None),
    (b"1e1", None),
    (b"/", None),
    (b":", None),
    (b"0x/", None),
    (b"0x:", None),
    (b"0x@", None),
    (b"0x`", None),
    (b"\"1\"", None),
    (b"\\x31", None),
    (b"1\0", None),
    (b"\xFF", None),
    (b"\xD9\xA1", None),
    (b"18446744073709551616", None),
    (b"18446744073709551871", None),
    (b"0x10000000000000001", None),
    (b"340282366920938463463374607431768211457", None),
    (b"none", None),
    (b"", None),
];

const WORDS_OF_TWO_BYTES: &[Value] = &[
    (b"0", Some(&[0, 0])),
    (b"3260", Some(&[0xBC, 0x0C])),
    (b"256", Some(&[0, 1])),
    (b"65535", Some(&[0xFF, 0xFF])),
    (b"65536", None),
    (b"65537", None),
    (b"0xffff", Some(&[0xFF, 0xFF])),
    (b"0x0ABC", Some(&[0xBC, 0x0A])),
    (b"0x10000", None),
    (b"00000000000065535", Some(&[0xFF, 0xFF])),
    (b"4294967296", None),
    (b"18446744073709551616", None),
    (b"99999999999999999999999999", None),
    (b"+1", None),
    (b"", None),
];

const LUNS: &[Value] = &[
    (b"0", Some(&[0; 8])),
    (b"1", Some(&[1, 0, 0, 0, 0, 0, 0, 0])),
    (b"0x0102030405060708", Some(&[8, 7, 6, 5, 4, 3, 2, 1])),
    (b"4294967296", Some(&[0, 0, 0, 0, 1, 0, 0, 0])),
    (b"9223372036854775808", Some(&[0, 0, 0, 0, 0, 0, 0, 0x80])),
    (b"18446744073709551615", Some(&[0xFF; 8])),
    (b"00018446744073709551615", Some(&[0xFF; 8])),
    (b"0xffffffffffffffff", Some(&[0xFF; 8])),
    (b"0x0FfFfFfFfFfFfFfFf", Some(&[0xFF; 8])),
    (b"18446744073709551616", None),
    (b"18446744073709551625", None),
    (b"18446744073709551620", None),
    (b"36893488147419103232", None),
    (b"99999999999999999999", None),
    (b"184467440737095516150", None),
    (b"0x10000000000000000", None),
    (b"0x1ffffffffffffffff", None),
    (b"-1", None),
    (b"", None),
];

const ADDRESSES: &[Value] = &[
    // IPv4.
    (
        b"192.168.70.50",
        Some(b"\0\0\0\0\0\0\0\0\0\0\xFF\xFF\xC0\xA8\x46\x32"),
    ),
    (b"0.0.0.0", Some(b"\0\0\0\0\0\0\0\0\0\0\xFF\xFF\0\0\0\0")),
    (
        b"255.255.255.255",
        Some(b"\0\0\0\0\0\0\0\0\0\0\xFF\xFF\xFF\xFF\xFF\xFF"),
    ),
    (
        b"001.02.3.004",
        Some(b"\0\0\0\0\0\0\0\0\0\0\xFF\xFF\x01\x02\x03\x04"),
    ),
    (
        b"010.000.00.1",
        Some(b"\0\0\0\0\0\0\0\0\0\0\xFF\xFF\x0A\0\0\x01"),
    ),
    (b"1.2.3", None),
    (b"1.2.3.4.5", None),
    (b"1.2.3.4.", None),
    (b".1.2.3.4", None),
    (b"1..2.3", None),
    (b"1.2.3.", None),
    (b"1.2.3.256", None),
    (b"300.2.3.4", None),
    (b"1.2.3.0004", None),
    (b"1.2.3.+4", None),
    (b"1.2.3.-4", None),
    (b"1.2.3.0x4", None),
    (b"1.2.3.a", None),
    (b"1.2.3.4 5", None),
    (b"1. 2.3.4", None),
    (b"1.2.3.4/24", None),
    (b"1,2,3,4", None),
    (b"16909060", None),
    // IPv6.
    (b"::", Some(&[0; 16])),
    (b"0:0:0:0:0:0:0:0", Some(&[0; 16])),
    (b"::0", Some(&[0; 16])),
    (b"0::", Some(&[0; 16])),
    (b"::1", Some(b"\0\0\0\0\0\0\0\0\0\0\0\0\0\0\0\x01")),
    (b"1::", Some(b"\0\x01\0\0\0\0\0\0\0\0\0\0\0\0\0\0")),
    (
        b"2001:db8::53",
        Some(b"\x20\x01\x0D\xB8\0\0\0\0\0\0\0\0\0\0\0\x53"),
    ),
    (
        b"2001:0DB8::0053",
        Some(b"\x20\x01\x0D\xB8\0\0\0\0\0\0\0\0\0\0\0\x53"),
    ),
    (
        b"2001:dB8:0:00:000:0000:0:53",
        Some(b"\x20\x01\x0D\xB8\0\0\0\0\0\0\0\0\0\0\0\x53"),
    ),
    (
        b"1:2:3:4:5:6:7:8",
        Some(b"\0\x01\0\x02\0\x03\0\x04\0\x05\0\x06\0\x07\0\x08"),
    ),
    (
        b"abcd:ef01:2345:6789:ABCD:EF01:fedc:ba98",
        Some(b"\xAB\xCD\xEF\x01\x23\x45\x67\x89\xAB\xCD\xEF\x01\xFE\xDC\xBA\x98"),
    ),
    (
        b"1:2:3:4:5:6:7::",
        Some(b"\0\x01\0\x02\0\x03\0\x04\0\x05\0\x06\0\x07\0\0"),
    ),
    (
        b"::2:3:4:5:6:7:8",
        Some(b"\0\0\0\x02\0\x03\0\x04\0\x05\0\x06\0\x07\0\x08"),
    ),
    (
        b"1:2:3::5:6:7:8",
        Some(b"\0\x01\0\x02\0\x03\0\0\0\x05\0\x06\0\x07\0\x08"),
    ),
    (
        b"1::6:7:8",
        Some(b"\0\x01\0\0\0\0\0\0\0\0\0\x06\0\x07\0\x08"),
    ),
    (b"1:2:3:4::5:6:7:8", None),
    (b"::1:2:3:4:5:6:7:8", None),
    (b"1:2:3:4:5:6:7:8::", None),
    (b"1:2:3:4:5:6:7", None),
    (b"1:2:3:4:5:6:7:8:9", None),
    (b"1:2:3:4:5:6:7:", None),
    (b":2:3:4:5:6:7:8", None),
    (b":1:2:3:4:5:6:7:8", None),
    (b"1:2:3:4:5:6:7:8:", None),
    (b"1::2::3", None),
    (b"::1::", None),
    (b":::", None),
    (b"1:::2", None),
    (b"::::", None),
    (b":", None),
    (b":1", None),
    (b"1:", None),
    (b"1::2:", None),
    (b":1::2", None),
    (b"1", None),
    (b"::12345", None),
    (b"::00001", None),
    (b"::g", None),
    (b"::0x1", None),
    (b"::-1", None),
    (b"::+1", None),
    (b"::1%eth0", None),
    (b"::1/64", None),
    (b"[::1]", None),
    (b"1: :2", None),
    // IPv6 whose last two groups are written as IPv4 is.
    (
        b"::ffff:192.168.70.50",
        Some(b"\0\0\0\0\0\0\0\0\0\0\xFF\xFF\xC0\xA8\x46\x32"),
    ),
    (
        b"0:0:0:0:0:FFFF:192.168.070.050",
        Some(b"\0\0\0\0\0\0\0\0\0\0\xFF\xFF\xC0\xA8\x46\x32"),
    ),
    (
        b"::192.168.70.50",
        Some(b"\0\0\0\0\0\0\0\0\0\0\0\0\xC0\xA8\x46\x32"),
    ),
    (
        b"64:ff9b::1.2.3.4",
        Some(b"\0\x64\xFF\x9B\0\0\0\0\0\0\0\0\x01\x02\x03\x04"),
    ),
    (
        b"1:2:3:4:5:6:1.2.3.4",
        Some(b"\0\x01\0\x02\0\x03\0\x04\0\x05\0\x06\x01\x02\x03\x04"),
    ),
    (
        b"1:2:3:4:5::1.2.3.4",
        Some(b"\0\x01\0\x02\0\x03\0\x04\0\x05\0\0\x01\x02\x03\x04"),
    ),
    (
        b"::2:3:4:5:6:1.2.3.4",
        Some(b"\0\0\0\x02\0\x03\0\x04\0\x05\0\x06\x01\x02\x03\x04"),
    ),
    (b"1:2:3:4:5:6::1.2.3.4", None),
    (b"1:2:3:4:5:6:7:1.2.3.4", None),
    (b"::1:2:3:4:5:6:1.2.3.4", None),
    (b"1:2:3:4:5:1.2.3.4", None),
    (b"1:2:3:4:5:6:1.2.3.4::", None),
    (b"1.2.3.4::", None),
    (b"::1.2.3.4:5", None),
    (b"::1.2.3.4:5.6.7.8", None),
    (b"1.2.3.4:5", None),
    (b":1.2.3.4", None),
    (b":::1.2.3.4", None),
    (b"::1.2.3", None),
    (b"::1.2.3.4.5", None),
    (b"::1.2.3.256", None),
    (b"::1.2.3.0004", None),
    (b"::a.2.3.4", None),
    (b"::.1.2.3", None),
    (b"none", None),
    (b"", None),
];

const MACS: &[Value] = &[
    (b"02:00:5e:10:00:07", Some(&[0x02, 0, 0x5E, 0x10, 0, 0x07])),
    (b"02:00:5E:10:00:07", Some(&[0x02, 0, 0x5E, 0x10, 0, 0x07])),
    (
        b"fe:DC:bA:98:76:54",
        Some(&[0xFE, 0xDC, 0xBA, 0x98, 0x76, 0x54]),
    ),
    (b"00:00:00:00:00:00", Some(&[0; 6])),
    (b"ff:ff:ff:ff:ff:ff", Some(&[0xFF; 6])),
    (b"2:00:5e:10:00:07", None),
    (b"02:00:5e:10:00:7", None),
    (b"02:00:5e:10:00:007", None),
    (b"02:00:5e:10:00", None),
    (b"02:00:5e:10:00:07:08", None),
    (b"02:00:5e:10:00:07:", None),
    (b":02:00:5e:10:00:07", None),
    (b"02:00:5e::00:07", None),
    (b"02:00:5e:10:00:0g", None),
    (b"02:00:5e:10:00:+7", None),
    (b"02:00:5e:10:00:x7", None),
    (b"02-00-5e-10-00-07", None),
    (b"0200:5e10:0007", None),
    (b"02005e100007", None),
    (b"02:00:5e:10:00: 7", None),
    (b"02.00.5e.10.00.07", None),
    (b"02:00:5e:10:00:\xC3\xA9", None),
    (b"none", None),
    (b"", None),
];

const PCI_WORDS: &[Value] = &[
    (b"00:03.1", Some(&[0x19, 0x00])),
    (b"00:00.0", Some(&[0x00, 0x00])),
    (b"ff:1f.7", Some(&[0xFF, 0xFF])),
    (b"FF:1F.7", Some(&[0xFF, 0xFF])),
    (b"12:00.0", Some(&[0x00, 0x12])),
    (b"00:10.0", Some(&[0x80, 0x00])),
    (b"aB:0c.5", Some(&[0x65, 0xAB])),
    (b"00:20.0", None),
    (b"00:ff.0", None),
    (b"00:1f.8", None),
    (b"00:1f.9", None),
    (b"00:1f.a", None),
    (b"00:1f.", None),
    (b"00:1f.00", None),
    (b"00:1f.17", None),
    (b"00:1f", None),
    (b"0:1f.1", None),
    (b"00:3.1", None),
    (b"000:03.1", None),
    (b"00:003.1", None),
    (b":03.1", None),
    (b"00:.1", None),
    (b"0000:00:03.1", None),
    (b"00.03.1", None),
    (b"00:03:1", None),
    (b"00:03.1.", None),
    (b"00:+3.1", None),
    (b"00:03.+1", None),
    (b"0g:03.1", None),
    (b"00:03 .1", None),
    (b"25", None),
    (b"none", None),
    (b"", None),
];

const MODES: &[Value] = &[
    (b"multi", Some(&[0])),
    (b"single", Some(&[1])),
    (b"Multi", None),
    (b"multi single", None),
    (b"multi multi", None),
    (b"mult", None),
    (b"multiple", None),
    (b"singl", None),
    (b"none", None),
    (b"0", None),
    (b"\"multi\"", None),
    (b"", None),
];

const CHAP_TYPES: &[Value] = &[
    (b"none", Some(&[0])),
    (b"one-way", Some(&[1])),
    (b"mutual", Some(&[2])),
    (b"oneway", None),
    (b"one way", None),
    (b"one-way mutual", None),
    (b"MUTUAL", None),
    (b"mutua", None),
    (b"mutuall", None),
    (b"2", None),
    (b"", None),
];

const INITIATOR_FLAGS: &[Value] = &[
    (b"valid", Some(&[1])),
    (b"selected", Some(&[2])),
    (b"valid selected", Some(&[3])),
    (b"selected valid", Some(&[3])),
    (b"selected \t\r valid", Some(&[3])),
    (b"none", Some(&[0])),
    (b"none none", None),
    (b"none valid", None),
    (b"valid none", None),
    (b"valid valid", None),
    (b"valid selected valid", None),
    (b"global", None),
    (b"valid global", None),
    (b"radius-chap", None),
    (b"Valid", None),
    (b"val", None),
    (b"valids", None),
    (b"validselected", None),
    (b"valid,selected", None),
    (b"valid\x0Bselected", None),
    (b"valid\xC2\xA0selected", None),
    (b"valid\xFFselected", None),
    (b"3", None),
    (b"\"\"", None),
    (b"", None),
];

const NIC_FLAGS: &[Value] = &[
    (b"none", Some(&[0])),
    (b"global", Some(&[4])),
    (b"global valid", Some(&[5])),
    (b"selected global", Some(&[6])),
    (b"valid selected global", Some(&[7])),
    (b"global   valid\tselected", Some(&[7])),
    (b"global global", None),
    (b"none global", None),
    (b"radius-chap", None),
    (b"globa", None),
    (b"7", None),
    (b"", None),
];

const TARGET_FLAGS: &[Value] = &[
    (b"none", Some(&[0])),
    (b"radius-chap", Some(&[4])),
    (b"radius-rchap", Some(&[8])),
    (b"radius-rchap radius-chap", Some(&[12])),
    (b"radius-rchap selected radius-chap valid", Some(&[15])),
    (b"selected radius-rchap", Some(&[10])),
    (b"radius-rchap valid radius-rchap", None),
    (b"radius-chap none", None),
    (b"radius", None),
    (b"radius-", None),
    (b"radius-rcha", None),
    (b"radius-chapp", None),
    (b"global", None),
    (b"15", None),
    (b"", None),
];

const STRINGS: &[Value] = &[
    (b"a", Some(b"a")),
    (
        b"iqn.2026-11.example:cabinet7",
        Some(b"iqn.2026-11.example:cabinet7"),
    ),
    (b"a b", Some(b"a b")),
    (b"a # b", Some(b"a # b")),
    (b"# b", Some(b"# b")),
    (b"\\x20", Some(b" ")),
    (b"\\x20a\\x20", Some(b" a ")),
    (b"a\\x09", Some(b"a\t")),
    (b"\\x41\\x62", Some(b"Ab")),
    (b"\\xfc", Some(b"\xFC")),
    (b"\\xFC", Some(b"\xFC")),
    (b"\\xfC\\xFc", Some(b"\xFC\xFC")),
    (b"\xFC", Some(b"\xFC")),
    (b"\xC3\xBC", Some(b"\xC3\xBC")),
    (b"\x80", Some(b"\x80")),
    (b"\xC2\xA0", Some(b"\xC2\xA0")),
    (
        b"~!$%&'()*+,-./:;<=>?@[]^_`{|}",
        Some(b"~!$%&'()*+,-./:;<=>?@[]^_`{|}"),
    ),
    (
        b"a secret of \\xfcber 12 bytes",
        Some(b"a secret of \xFCber 12 bytes"),
    ),
    (b"\\x010", Some(b"\x010")),
    (b"\\x00", Some(b"\0")),
    (b"\\x0a", Some(b"\n")),
    (b"\\x7f", Some(b"\x7F")),
    (b"\\\\", Some(b"\\")),
    (b"\\\\\\\\", Some(b"\\\\")),
    (b"a\\\\b", Some(b"a\\b")),
    (b"\\\\x41", Some(b"\\x41")),
    (b"\\\\\\x41", Some(b"\\A")),
    (b"\\x5c\\x5cx41", Some(b"\\\\x41")),
    (b"\\x5cx41", Some(b"\\x41")),
    (b"\"\"", Some(b"")),
    (b"\"", Some(b"\"")),
    (b"\"\"\"", Some(b"\"\"\"")),
    (b"\"a\"", Some(b"\"a\"")),
    (b"\"\" \"\"", Some(b"\"\" \"\"")),
    (b"\"\" a", Some(b"\"\" a")),
    (b"\\x22\\x22", Some(b"\"\"")),
    (b"\"\\x22", Some(b"\"\"")),
    (b"''", Some(b"''")),
    (b"none", Some(b"none")),
    (b"\\", None),
    (b"a\\", None),
    (b"\\\\\\", None),
    (b"\\n", None),
    (b"\\0", None),
    (b"\\\"", None),
    (b"\\ x41", None),
    (b"\\X41", None),
    (b"\\x", None),
    (b"\\x4", None),
    (b"\\x4\\x41", None),
    (b"\\x4g", None),
    (b"\\xg4", None),
    (b"\\x+4", None),
    (b"\\x 4", None),
    (b"\\u0041", None),
    (b"a\tb", None),
    (b"a\rb", None),
    (b"a\0b", None),
    (b"\0", None),
    (b"\x01", None),
    (b"\x1F", None),
    (b"\x0B", None),
    (b"\x7F", None),
    (b"a\x7F", None),
    (b"\x7Fa", None),
    (b"", None),
];

const SIX_BYTES: &[Value] = &[
    (b"METTA", Some(b"METTA\0")),
    (b"METTA7", Some(b"METTA7")),
    (b"A B", Some(b"A B\0\0\0")),
    (b"\"\"", Some(&[0; 6])),
    (b"\\x41\\x42\\x43\\x44\\x45\\x46", Some(b"ABCDEF")),
    (b"A\\x00", Some(b"A\0\0\0\0\0")),
    (b"\\x00\\x00\\x00\\x00\\x00\\x00", Some(&[0; 6])),
    (b"\xFCA", Some(b"\xFCA\0\0\0\0")),
    (b"A\tB", None),
    (b"A\\q", None),
    (b"ABCDEFG\\q", None),
    (b"", None),
];

const EIGHT_BYTES: &[Value] = &[
    (b"CABINET7", Some(b"CABINET7")),
    (b"CAB", Some(b"CAB\0\0\0\0\0")),
    (b"\"\"", Some(&[0; 8])),
    (
        b"\\\\\\\\\\\\\\\\\\\\\\\\\\\\\\\\",
        Some(b"\\\\\\\\\\\\\\\\"),
    ),
    (b"\x7F", None),
    (b"ABCDEFGHI\\", None),
    (b"", None),
];

/// A field, and the values that are tried on all fields of its notation.
const OF_FIELDS: &[(&str, &[Value])] = &[
    ("oem.id", SIX_BYTES),
    ("oem.table", EIGHT_BYTES),
    ("control", MODES),
    ("initiator.flags", INITIATOR_FLAGS),
    ("nic0.flags", NIC_FLAGS),
    ("target0.flags", TARGET_FLAGS),
    ("target0.chap", CHAP_TYPES),
    ("nic0.address", ADDRESSES),
    ("nic0.prefix", BYTES),
    ("nic0.vlan", WORDS_OF_TWO_BYTES),
    ("target0.lun", LUNS),
    ("nic0.mac", MACS),
    ("nic0.pci", PCI_WORDS),
    ("target0.chap-secret", STRINGS),
];

/// Each notation with the values that are known of it.
pub fn known_values() -> Vec<(Notation, &'static [Value])> {
    let fields = all_fields();
    let notation = |name: &str| {
        let is_it = |field: &&Field| field.name == name;
        fields.iter().find(is_it).unwrap().notation
    };
    OF_FIELDS
        .iter()
        .map(|(name, values)| (notation(name), *values))
        .collect()
}

/// Addresses by their groups, and how they are told.
const TOLD_ADDRESSES: &[([u16; 8], &str)] = &[
    ([0x2001, 0xDB8, 0, 0, 0, 0, 0, 0x53], "2001:db8::53"),
    ([0, 0, 0, 0, 0, 0, 0, 1], "::1"),
    ([1, 0, 0, 0, 0, 0, 0, 0], "1::"),
    ([1, 2, 3, 4, 5, 6, 7, 8], "1:2:3:4:5:6:7:8"),
    ([0, 2, 3, 4, 5, 6, 7, 8], "0:2:3:4:5:6:7:8"),
    ([1, 2, 3, 4, 5, 6, 7, 0], "1:2:3:4:5:6:7:0"),
    ([1, 0, 2, 0, 3, 0, 4, 0], "1:0:2:0:3:0:4:0"),
    ([0, 0, 3, 4, 5, 6, 7, 8], "::3:4:5:6:7:8"),
    ([1, 2, 3, 4, 5, 6, 0, 0], "1:2:3:4:5:6::"),
    ([1, 2, 3, 0, 0, 6, 7, 8], "1:2:3::6:7:8"),
    ([1, 0, 0, 2, 0, 0, 0, 3], "1:0:0:2::3"),
    ([1, 0, 0, 0, 2, 0, 0, 3], "1::2:0:0:3"),
    ([1, 0, 0, 0, 2, 0, 0, 0], "1::2:0:0:0"),
    ([0, 0, 1, 0, 0, 2, 0, 0], "::1:0:0:2:0:0"),
    ([0, 1, 0, 0, 2, 0, 0, 3], "0:1::2:0:0:3"),
    ([0, 0, 1, 0, 0, 0, 0, 0], "0:0:1::"),
    ([0, 0, 0, 0, 0, 0xFFFF, 0xC0A8, 0x4632], "192.168.70.50"),
    ([0, 0, 0, 0, 0, 0xFFFF, 0, 0], "0.0.0.0"),
    ([0, 0, 0, 0, 0, 0, 0xC0A8, 0x4632], "::c0a8:4632"),
    ([0, 0, 0, 0, 0, 0xFFFE, 1, 2], "::fffe:1:2"),
    ([0, 0, 0, 0, 0xFFFF, 0, 1, 2], "::ffff:0:1:2"),
    ([0, 0, 0, 0, 1, 0xFFFF, 1, 2], "::1:ffff:1:2"),
    ([1, 0, 0, 0, 0, 0xFFFF, 1, 2], "1::ffff:1:2"),
    (
        [
            0xABCD, 0xEF01, 0x2345, 0x6789, 0x0ABC, 0x00DE, 0x000F, 0x1000,
        ],
        "abcd:ef01:2345:6789:abc:de:f:1000",
    ),
];

/// Values that are told otherwise than they were written, and how.
const TOLD: &[(&str, &[u8], &str)] = &[
    ("nic0.prefix", &[255], "255"),
    ("nic0.vlan", &[0x02, 0x01], "258"),
    ("target0.lun", &[0xFF; 8], "18446744073709551615"),
    (
        "target0.lun",
        &[8, 7, 6, 5, 4, 3, 2, 1],
        "72623859790382856",
    ),
    (
        "nic0.mac",
        &[0x02, 0, 0x5E, 0x10, 0, 0xAB],
        "02:00:5e:10:00:ab",
    ),
    ("nic0.pci", &[0xFF, 0xFF], "ff:1f.7"),
    ("nic0.pci", &[0x19, 0x0A], "0a:03.1"),
    ("target0.chap", &[1], "one-way"),
    ("initiator.flags", &[0], "none"),
    ("initiator.flags", &[3], "valid selected"),
    ("nic0.flags", &[6], "selected global"),
    (
        "target0.flags",
        &[15],
        "valid selected radius-chap radius-rchap",
    ),
    ("target0.flags", &[9], "valid radius-rchap"),
    ("target0.name", b"", "\"\""),
    ("target0.name", b"\"\"", "\\x22\\x22"),
    ("target0.name", b"a b", "a b"),
    ("target0.name", b" a  b ", "\\x20a  b\\x20"),
    ("target0.name", b" ", "\\x20"),
    ("target0.name", b"   ", "\\x20 \\x20"),
    ("target0.name", b"a\tb", "a\\x09b"),
    ("target0.name", b"\\", "\\x5c"),
    ("target0.name", b"#~!", "#~!"),
    (
        "target0.name",
        b"\x00\x1F\x7F\x80\xFC\xFF",
        "\\x00\\x1f\\x7f\\x80\\xfc\\xff",
    ),
    ("oem.id", b"METTA\0", "METTA"),
    ("oem.id", b"A B\xFF\\\"", "A B\\xff\\x5c\\x22"),
    ("oem.table", b"BXPC    ", "BXPC   \\x20"),
    ("oem.table", b"CABINET7", "CABINET7"),
];

/// Each of these values, the field that it is told in, and its text.
fn told_values() -> Vec<(Field, Vec<u8>, &'static str)> {
    let fields = all_fields();
    let field = |name: &str| fields.iter().find(|field| field.name == name).unwrap();
    let addresses = TOLD_ADDRESSES.iter().map(|(groups, told)| {
        let bytes = groups.iter().flat_map(|group| group.to_be_bytes());
        (field("nic0.address").clone(), bytes.collect(), *told)
    });
    let others = TOLD
        .iter()
        .map(|(name, value, told)| (field(name).clone(), value.to_vec(), *told));
    addresses.chain(others).collect()
}

/// Tables with each of these values alone.
pub fn told_tables() -> Vec<Vec<u8>> {
    let values = told_values().into_iter();
    let with_it = values.map(|(field, value, _)| {
        let mut record = empty_record();
        field.set(&mut record, value);
        table_of(&record)
    });
    with_it.collect()
}

// ---- Holding the model to them ----

fn reads_as_known((notation, values): &(Notation, &[Value])) -> bool {
    values.iter().all(|(written, bytes)| {
        let mut read = notation.read(written);
        if let (Notation::Filled(size), Some(read)) = (notation, &mut read) {
            read.resize(*size, 0);
        }
        if read.as_deref() != *bytes {
            let written = String::from_utf8_lossy(written);
            println!(
                "text: {:?} of {:?} is read as {:02x?}",
                written, notation, read
            );
        }
        read.as_deref() == *bytes
    })
}

fn is_told_as((field, value, expected): &(Field, Vec<u8>, &str)) -> bool {
    let told = field.notation.written(value);
    if told != *expected {
        println!("text: {:02x?} is told as {}, not {}", value, told, expected);
    }
    told == *expected
}

/// Does the model read and tell these values as they are known, and is no notation left out?
pub fn known_values_agree() -> bool {
    let values = known_values();
    let is_known = |field: &Field| {
        values
            .iter()
            .any(|(notation, _)| *notation == field.notation)
    };
    let unknown = all_fields().into_iter().find(|field| !is_known(field));
    if let Some(field) = &unknown {
        println!("text: no values are known for {}", field.name);
    }
    unknown.is_none() && values.iter().all(reads_as_known) && told_values().iter().all(is_told_as)
}
