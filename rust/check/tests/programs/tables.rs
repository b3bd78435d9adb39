//! Scripts with their replies. They were worked out by hand from the rules of docs/SLOTRUN.md, or come from the crate slotmap.

/// A line of a script, and its reply.
pub type Line = (&'static str, &'static str);

/// Scripts for a `SlotMap`.
pub const SCRIPTS: [&[Line]; 14] = [
    &[],
    // A look-up leaves the value; a removal and a detach take it.
    &[
        ("insert 5", "key 4294967297"),
        ("get 4294967297", "value 5"),
        ("get 4294967297", "value 5"),
        ("remove 4294967297", "value 5"),
        ("get 4294967297", "none"),
        ("remove 4294967297", "none"),
        ("detach 4294967297", "none"),
        ("len", "len 0"),
    ],
    &[
        ("insert 5", "key 4294967297"),
        ("detach 4294967297", "value 5"),
        ("insert 6", "key 4294967298"),
        ("reattach 4294967297 9", "done"),
        ("reattach 4294967297 8", "not detached"),
        ("get 4294967297", "value 9"),
    ],
    // A clear leaves detached keys detached.
    &[
        ("insert 1", "key 4294967297"),
        ("insert 2", "key 4294967298"),
        ("detach 4294967297", "value 1"),
        ("clear", "done"),
        ("len", "len 0"),
        ("reattach 4294967297 3", "done"),
        ("insert 4", "key 12884901890"),
        ("keys", "keys 4294967297 12884901890"),
    ],
    &[
        ("insert 3", "key 4294967297"),
        ("insert 4", "key 4294967298"),
        ("keys", "keys 4294967297 4294967298"),
        ("clear", "done"),
        ("keys", "keys"),
        ("len", "len 0"),
    ],
    // Numbers: signs, leading zeros and the bounds; even versions and the largest index.
    &[
        ("insert -0", "key 4294967297"),
        ("get 018446744073709551615", "none"),
        ("insert -2147483648", "key 4294967298"),
        ("insert 2147483647", "key 4294967299"),
        ("insert -0007", "key 4294967300"),
        ("get 00000000004294967297", "value 0"),
        ("get 2", "value -2147483648"),
        ("remove 3", "value 2147483647"),
        ("detach 4294967300", "value -7"),
        ("reattach 4 -9", "done"),
        ("get 0", "none"),
        ("slots", "[{\"value\":null,\"version\":0},{\"value\":0,\"version\":1},\
            {\"value\":-2147483648,\"version\":1},{\"value\":null,\"version\":2},{\"value\":-9,\"version\":1}]"),
    ],
    &[
        ("insert 5", "key 4294967297"),
        ("insert 6", "key 4294967298"),
        ("remove 4294967298", "value 6"),
        ("insert 7", "key 12884901890"),
        ("get 4294967298", "none"),
        ("len", "len 2"),
        ("keys", "keys 4294967297 12884901890"),
        ("slots", r#"[{"value":null,"version":0},{"value":5,"version":1},{"value":7,"version":3}]"#),
    ],
    // Printing a list changes nothing.
    &[
        ("slots", r#"[{"value":null,"version":0}]"#),
        ("slots", r#"[{"value":null,"version":0}]"#),
        ("insert 5", "key 4294967297"),
        ("slots", r#"[{"value":null,"version":0},{"value":5,"version":1}]"#),
        ("remove 4294967297", "value 5"),
        ("slots", r#"[{"value":null,"version":0},{"value":null,"version":2}]"#),
    ],
    // A list that is read replaces the map; what it held is gone, detached keys too.
    &[
        ("insert 1", "key 4294967297"),
        ("detach 4294967297", "value 1"),
        ("slots", r#"[{"value":null,"version":0},{"value":null,"version":2}]"#),
        (r#"load [{"version":0},{"version":2}]"#, "done"),
        ("reattach 4294967297 3", "not detached"),
        ("insert 4", "key 12884901889"),
        (r#"load [{"version":0}]"#, "done"),
        ("len", "len 0"),
    ],
    // The vacant slots of a list are reused from the largest index down.
    &[
        (r#"load [{"version":0},{"version":2},{"value":7,"version":1},{"version":2},{"version":2}]"#, "done"),
        ("get 4294967298", "value 7"),
        ("insert 1", "key 12884901892"),
        ("insert 2", "key 12884901891"),
        ("insert 3", "key 12884901889"),
        ("insert 4", "key 4294967301"),
    ],
    // The text of a list may have blanks, other members and an even first version.
    &[
        (r#"load  [ {"other":[1], "version" : 4}, {"version": 3, "value" : -7} ] "#, "done"),
        ("get 12884901889", "value -7"),
        ("slots", r#"[{"value":null,"version":0},{"value":-7,"version":3}]"#),
    ],
    // The bounds of a value in a list.
    &[
        (r#"load [{"version":0},{"value":-2147483648,"version":1},{"value":2147483647,"version":1}]"#, "done"),
        ("get 4294967297", "value -2147483648"),
        ("get 4294967298", "value 2147483647"),
        (r#"load [{"version":0},{"value":2147483648,"version":1}]"#, "shape"),
        (r#"load [{"version":0},{"value":-2147483649,"version":1}]"#, "shape"),
        (r#"load [{"version":0},{"value":0.5,"version":1}]"#, "shape"),
        (r#"load [{"version":0},{"value":"x","version":1}]"#, "shape"),
        (r#"load [{"version":0},{"value":true,"version":1}]"#, "shape"),
        ("len", "len 2"),
    ],
    &[
        ("load {}", "shape"),
        ("load [3]", "shape"),
        ("load [null]", "shape"),
        (r#"load [{"value":1}]"#, "shape"),
        (r#"load [{"version":"1"}]"#, "shape"),
        (r#"load [{"version":-1}]"#, "shape"),
        (r#"load [{"version":4294967296}]"#, "shape"),
        (r#"load [{"version":0}]]"#, "shape"),
        ("load  ", "shape"),
    ],
    // Which error is returned, and with which position.
    &[
        (r#"load [{"version":1}]"#, "first not empty"),
        (r#"load [{"value":7,"version":1},{"version":1}]"#, "first not empty"),
        (r#"load [{"value":7,"version":0},{"version":1}]"#, "inconsistent 0"),
        (r#"load [{"version":0},{"version":2},{"value":7,"version":2},{"version":1}]"#, "inconsistent 2"),
        ("insert 1", "key 4294967297"),
    ],
];

/// Scripts for a `DenseSlotMap`. No reply shows the packed order: keys are printed by ascending index. It decides which slot a
/// cleared map reuses first.
pub const DENSE_SCRIPTS: &[Line] = &[
    ("insert 1", "key 4294967297"),
    ("insert 2", "key 4294967298"),
    ("insert 3", "key 4294967299"),
    ("remove 4294967297", "value 1"),
    ("keys", "keys 4294967298 4294967299"),
    ("slots", r#"[{"value":null,"version":0},{"value":null,"version":2},{"value":2,"version":1},{"value":3,"version":1}]"#),
    ("detach 4294967298", "value 2"),
    ("insert 4", "key 12884901889"),
    ("reattach 4294967298 5", "done"),
    ("insert 6", "key 4294967300"),
    ("keys", "keys 12884901889 4294967298 4294967299 4294967300"),
    ("clear", "done"),
    ("insert 7", "key 12884901891"),
    (r#"load [{"version":0},{"value":7,"version":1},{"version":2}]"#, "done"),
    ("insert 8", "key 12884901890"),
    ("len", "len 2"),
];

/// Scripts for a `HopSlotMap`.
pub const HOP_SCRIPTS: [&[Line]; 2] = [
    &[
        ("insert 5", "key 4294967297"),
        ("insert 6", "key 4294967298"),
        ("remove 4294967297", "value 5"),
        ("slots", r#"[{"value":null,"version":0},{"value":null,"version":2},{"value":6,"version":1}]"#),
    ],
    // The first block of the list is reused first, from its back, and that of slot 0 last.
    &[
        ("insert 1", "key 4294967297"),
        ("insert 2", "key 4294967298"),
        ("insert 3", "key 4294967299"),
        ("insert 4", "key 4294967300"),
        ("insert 5", "key 4294967301"),
        ("remove 4294967297", "value 1"),
        ("remove 4294967299", "value 3"),
        ("keys", "keys 4294967298 4294967300 4294967301"),
        ("insert 6", "key 12884901891"),
        ("insert 7", "key 12884901889"),
        ("insert 8", "key 4294967302"),
        ("get 4294967299", "none"),
        ("get 12884901891", "value 6"),
        ("len", "len 6"),
        ("clear", "done"),
        ("insert 9", "key 12884901894"),
    ],
];

/// A slot whose versions are used up is retired.
pub const RETIRED: &[Line] = &[
    (r#"load [{"value":null,"version":0},{"value":7,"version":4294967295}]"#, "done"),
    ("remove 18446744069414584321", "value 7"),
    ("insert 8", "key 4294967298"),
    ("slots", r#"[{"value":null,"version":0},{"value":null,"version":0},{"value":8,"version":1}]"#),
    ("load []", "first not empty"),
    (r#"load [{"version":0},{"version":1}]"#, "inconsistent 1"),
    ("load x", "shape"),
    ("len", "len 1"),
    // It is read as such from a list, too.
    (r#"load [{"version":0},{"version":0},{"value":8,"version":1},{"version":2}]"#, "done"),
    ("insert 9", "key 12884901891"),
    ("insert 10", "key 4294967300"),
    ("get 4294967297", "none"),
    ("slots", "[{\"value\":null,\"version\":0},{\"value\":null,\"version\":0},{\"value\":8,\"version\":1},\
        {\"value\":9,\"version\":3},{\"value\":10,\"version\":1}]"),
];

/// Which slot an insert reuses depends on the kind of map. These replies are those of the crate slotmap.
pub const REMOVED: &[Line] = &[
    ("insert 1", "key 4294967297"),
    ("insert 2", "key 4294967298"),
    ("insert 3", "key 4294967299"),
    ("insert 4", "key 4294967300"),
    ("remove 4294967298", "value 2"),
    ("remove 4294967300", "value 4"),
    ("remove 4294967299", "value 3"),
];

/// The slot of the last removal is reused first.
pub const STACK_SLOTS: &[Line] = &[
    ("insert 5", "key 12884901891"),
    ("insert 6", "key 12884901892"),
    ("insert 7", "key 12884901890"),
    ("insert 8", "key 4294967301"),
];

/// The removed slots are one block, which is reused from its back.
pub const HOP_SLOTS: &[Line] = &[
    ("insert 5", "key 12884901892"),
    ("insert 6", "key 12884901891"),
    ("insert 7", "key 12884901890"),
    ("insert 8", "key 4294967301"),
];

/// The key of the first insert after this is in the next two tables.
pub const CLEARED: &[Line] = &[
    ("insert 1", "key 4294967297"),
    ("insert 2", "key 4294967298"),
    ("clear", "done"),
];

pub const BASIC_FIRST: &[Line] = &[("insert 3", "key 12884901890")];

pub const DENSE_FIRST: &[Line] = &[("insert 3", "key 12884901889")];

/// A list of eight records, which is longer than 200 bytes, and an insert whose line is as well.
pub const LONG_LINES: &[Line] = &[
    ("load [{\"value\":null,\"version\":0},{\"value\":1,\"version\":1},{\"value\":2,\"version\":3},\
        {\"value\":3,\"version\":5},{\"value\":4,\"version\":7},{\"value\":5,\"version\":9},\
        {\"value\":6,\"version\":11},{\"value\":null,\"version\":2}]", "done"),
    ("len", "len 6"),
    ("get 47244640262", "value 6"),
    ("slots", "[{\"value\":null,\"version\":0},{\"value\":1,\"version\":1},{\"value\":2,\"version\":3},\
        {\"value\":3,\"version\":5},{\"value\":4,\"version\":7},{\"value\":5,\"version\":9},\
        {\"value\":6,\"version\":11},{\"value\":null,\"version\":2}]"),
    ("insert 0000000000000000000000000000000000000000000000000000000000000000000000000000000000\
        00000000000000000000000000000000000000000000000000000000000000000000000000000000000000000\
        00000000000000000000000000000000000000000000000000000000000000000000000000000000000000007", "key 12884901895"),
    ("get 12884901895", "value 7"),
    ("insert 8", "key 4294967304"),
];

/// Scripts, each with the number of its first bad line.
pub const BAD: [(&[u8], usize); 63] = [
    (b"insert", 1),
    (b"insert ", 1),
    (b"insert -", 1),
    (b"insert +1", 1),
    (b"insert --1", 1),
    (b"insert 2147483648", 1),
    (b"insert -2147483649", 1),
    (b"insert 1.0", 1),
    (b"insert 1 2", 1),
    (b"insert  1", 1),
    (b"insert 1 ", 1),
    (b"Insert 1", 1),
    (b"get", 1),
    (b"get ", 1),
    (b"get +1", 1),
    (b"get -1", 1),
    (b"get 1 1", 1),
    (b"get  1", 1),
    (b" get 1", 1),
    (b"get 0x1", 1),
    (b"get 18446744073709551616", 1),
    (b"remove +1", 1),
    (b"detach +1", 1),
    (b"reattach 1", 1),
    (b"reattach +1 1", 1),
    (b"reattach 1 +1", 1),
    (b"reattach 1 2147483648", 1),
    (b"reattach 1 -2147483649", 1),
    (b"reattach 18446744073709551616 1", 1),
    (b"reattach 1 1 1", 1),
    (b"len 1", 1),
    (b"len ", 1),
    (b"len\r\n", 1),
    (b"len\r", 1),
    (b"len\x0c", 1),
    (b"len\x0b\n", 1),
    (b"len\xc2\xa0", 1),
    (b"\xc2\xa0len", 1),
    (b"insert 1\x0c\n", 1),
    (b"insert 1\xc2\xa0", 1),
    (b"insert\xc2\xa01", 1),
    (b"len\x00", 1),
    (b"len\x00len\n", 1),
    (b"insert 1\x002", 1),
    (b"insert\t1", 1),
    (b"get\t1\n", 1),
    (b"\xef\xbb\xbflen\n", 1),
    (b"\xef\xbb\xbfload [{\"version\":0}]", 1),
    (b"len\xff\n", 1),
    (b"keys ", 1),
    (b"clear ", 1),
    (b"slots ", 1),
    (b"load", 1),
    (b"load ", 1),
    (b"load \xff", 1),
    (b"drop 1", 1),
    (b"\n", 1),
    (b"insert 1\ndrop 1\n", 2),
    (b"len\nx\ny", 2),
    (b"len\n\n", 2),
    (b"len\n\nlen\n", 2),
    (b"len\nslots\nload x\nlen\nlen\n ", 6),
    (b"slots\nload [{\"version\":0}]\nload x y\nload ", 4),
];

/// Lines that a map without `detach` doesn't have.
pub const BAD_HOP: [(&[u8], usize); 2] = [
    (b"insert 1\ndetach 4294967297\n", 2),
    (b"reattach 4294967297 1", 1),
];

/// Lists that are nearly right: whole numbers have no point and no exponent, and a value is a number or null.
pub const TEXTS: &[Line] = &[
    (r#"load [{"version":1.0}]"#, "shape"),
    (r#"load [{"version":0.0}]"#, "shape"),
    (r#"load [{"version":0e0}]"#, "shape"),
    (r#"load [{"version":0},{"version":2.0}]"#, "shape"),
    (r#"load [{"version":0},{"version":4294967294.0}]"#, "shape"),
    (r#"load [{"version":0},{"value":7,"version":4294967295.0}]"#, "shape"),
    (r#"load [{"version":null}]"#, "shape"),
    (r#"load [{"version":false}]"#, "shape"),
    (r#"load [{"version":0},{"value":7.0,"version":1}]"#, "shape"),
    (r#"load [{"version":0},{"value":7e0,"version":1}]"#, "shape"),
    (r#"load [{"version":0},{"value":-0.0,"version":1}]"#, "shape"),
    (r#"load [{"version":0},{"value":false,"version":1}]"#, "shape"),
    (r#"load [{"version":0},{"value":false,"version":2}]"#, "shape"),
    (r#"load [{"version":0},{"value":[],"version":2}]"#, "shape"),
    ("load [{\"version\":0}]\u{0}", "shape"),
    ("load [{\"version\":0}]\u{0}x", "shape"),
    ("load [{\"version\":0}]\u{c}", "shape"),
    ("load [{\"version\":0}]\u{a0}", "shape"),
    ("slots", r#"[{"value":null,"version":0}]"#),
];
