//! Scripts of the tables, run whole: the replies to all lines, or the number of the first bad one.

use super::tables::*;
use super::{assert_same, crates, run};

const KINDS: [&str; 3] = ["basic", "dense", "hop"];

fn assert_prints(kind: &str, script: &[u8], status: i32, wanted: &str) {
    let (ended, printed) = run("slotrun", &[kind], &crates(), script);
    let what = format!("slotrun {kind} {:?}", String::from_utf8_lossy(script));
    assert_eq!(ended, Some(status), "{what}");
    assert_same(&what, &printed, wanted.as_bytes());
}

/// Holds a map to a script in parts.
fn assert_replies(kind: &str, parts: &[&[Line]]) {
    let lines = || parts.iter().copied().flatten();
    let script: String = lines().map(|line| format!("{}\n", line.0)).collect();
    let replies: String = lines().map(|line| format!("{}\n", line.1)).collect();
    assert_prints(kind, script.as_bytes(), 0, &replies);
}

#[test]
fn replies() {
    SCRIPTS.iter().for_each(|lines| assert_replies("basic", &[lines]));
    assert_replies("dense", &[DENSE_SCRIPTS]);
    HOP_SCRIPTS.iter().for_each(|lines| assert_replies("hop", &[lines]));
}

#[test]
fn used_up_versions() {
    KINDS.iter().for_each(|kind| assert_replies(kind, &[RETIRED]));
}

#[test]
fn reused_slots() {
    assert_replies("basic", &[REMOVED, STACK_SLOTS]);
    assert_replies("dense", &[REMOVED, STACK_SLOTS]);
    assert_replies("hop", &[REMOVED, HOP_SLOTS]);
}

#[test]
fn slots_of_a_cleared_map() {
    assert_replies("basic", &[CLEARED, BASIC_FIRST]);
    assert_replies("dense", &[CLEARED, DENSE_FIRST]);
}

#[test]
fn long_lines() {
    KINDS.iter().for_each(|kind| assert_replies(kind, &[LONG_LINES]));
}

#[test]
fn texts_of_lists() {
    assert_replies("basic", &[TEXTS]);
}

#[test]
fn bad_lines() {
    for kind in KINDS {
        for (script, number) in BAD {
            assert_prints(kind, script, 2, &format!("bad line {number}\n"));
        }
    }
    for (script, number) in BAD_HOP {
        assert_prints("hop", script, 2, &format!("bad line {number}\n"));
    }
}

/// A list of three thousand values is read and printed as it was, by each kind of map.
#[test]
fn a_list_of_many_records() {
    let records: String = (0..3000).map(|value| format!(r#",{{"value":{value},"version":1}}"#)).collect();
    let list = format!(r#"[{{"value":null,"version":0}}{records}]"#);
    let script = format!("load {list}\nlen\nget 4294970296\nslots\n");
    let wanted = format!("done\nlen 3000\nvalue 2999\n{list}\n");
    for kind in KINDS {
        assert_prints(kind, script.as_bytes(), 0, &wanted);
    }
}

/// The last line may lack its line feed.
#[test]
fn last_line_feed() {
    for script in ["insert 5\nlen", "insert 5\nlen\n"] {
        assert_prints("basic", script.as_bytes(), 0, "key 4294967297\nlen 1\n");
    }
}
