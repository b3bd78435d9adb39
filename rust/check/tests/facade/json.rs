//! Keys and lists of slots as JSON: texts, errors, and how often closures are called. Expected texts were worked out by hand.

use super::key;
use serde_json::Value;
use slotmap_proved::errors::OutOfMemory;
use slotmap_proved::fallible::{SlotMap, Vec as ProvedVec};
use slotmap_proved::json::{key_from_value, key_to_value, slot_from_value, slots_from_value, slots_to_value, JsonError};
use slotmap_proved::serial::SlotRecord;
use slotmap_proved::{DefaultKey, Global, Key};
use std::cell::Cell;

fn parse(json: &str) -> Value {
    serde_json::from_str(json).expect("JSON")
}

/// A slot's value, if it has one, and its version.
fn slot_text(slot: &SlotRecord<u64>) -> String {
    match slot.value {
        Some(value) => format!("{value}@{}", slot.version),
        None => format!("-@{}", slot.version),
    }
}

/// What was read, or why it wasn't.
fn text_or_error<T>(read: Result<T, JsonError>, text: impl Fn(T) -> String) -> String {
    read.map_or_else(|error| error.to_string(), text)
}

/// Texts, and the keys that are read from them.
const KEYS: [(&str, &str); 8] = [
    (r#"{"idx":2,"version":3}"#, "2v3"),
    (r#"{"idx":0,"version":4}"#, "0v5"),
    (r#"{"idx":4294967295,"version":9}"#, "null"),
    (r#"{"version":1,"idx":2,"x":true}"#, "2v1"),
    (r#"{"idx":1}"#, "shape"),
    (r#"{"idx":-1,"version":1}"#, "shape"),
    (r#"{"idx":1,"version":-1}"#, "shape"),
    (r#"{"idx":1,"version":4294967296}"#, "shape"),
];

#[test]
fn keys_are_read() {
    for (json, wanted) in KEYS {
        let read = key_from_value::<DefaultKey>(&parse(json));
        assert_eq!(text_or_error(read, |key| format!("{:?}", key.data())), wanted, "{json}");
    }
}

#[test]
fn keys_are_written() {
    let value = key_to_value(Global, key(2, 3)).expect("memory");
    assert_eq!(value.to_string(), r#"{"idx":2,"version":3}"#);
}

fn read_number(value: &Value) -> Result<u64, JsonError> {
    value.as_u64().ok_or(JsonError::Shape)
}

fn write_number(value: &u64) -> Result<Value, OutOfMemory> {
    Ok(Value::from(*value))
}

/// Texts, and the lists that are read from them.
const READ: [(&str, &str); 12] = [
    ("[]", ""),
    (r#"[{"version":0},{"version":1}]"#, "-@0 -@1"),
    (r#"[{"value":null,"version":0},{"x":1,"version":3,"value":7}]"#, "-@0 7@3"),
    (r#"[{"value":7,"version":4294967295}]"#, "7@4294967295"),
    ("{}", "shape"),
    ("[3]", "shape"),
    ("[null]", "shape"),
    (r#"[{"value":1}]"#, "shape"),
    (r#"[{"version":4294967296}]"#, "shape"),
    (r#"[{"version":"1"}]"#, "shape"),
    (r#"[{"value":"x","version":1}]"#, "shape"),
    (r#"[{"version":0},{"value":-1,"version":1}]"#, "shape"),
];

fn slots_text(slots: &[SlotRecord<u64>]) -> String {
    slots.iter().map(slot_text).collect::<Vec<_>>().join(" ")
}

#[test]
fn lists_are_read() {
    for (json, wanted) in READ {
        let read = slots_from_value(Global, &parse(json), read_number);
        assert_eq!(text_or_error(read, |list| slots_text(&list)), wanted, "{json}");
    }
}

/// Texts, and the slots that are read from them.
const SLOTS: [(&str, &str); 16] = [
    (r#"{"version":2}"#, "-@2"),
    (r#"{"value":null,"version":4294967295}"#, "-@4294967295"),
    (r#"{"idx":9,"version":0,"value":7}"#, "7@0"),
    (r#"{"version":1,"version":3,"value":7}"#, "7@3"),
    ("null", "shape"),
    ("3", "shape"),
    (r#""version""#, "shape"),
    (r#"[{"version":1}]"#, "shape"),
    ("{}", "shape"),
    (r#"{"value":7}"#, "shape"),
    (r#"{"version":null,"value":7}"#, "shape"),
    (r#"{"version":-1}"#, "shape"),
    (r#"{"version":1.5}"#, "shape"),
    (r#"{"version":4294967296}"#, "shape"),
    (r#"{"version":18446744073709551615}"#, "shape"),
    (r#"{"version":1,"value":{"value":7}}"#, "shape"),
];

#[test]
fn slots_are_read() {
    for (json, wanted) in SLOTS {
        let read = slot_from_value(&parse(json), &read_number);
        assert_eq!(text_or_error(read, |slot| slot_text(&slot)), wanted, "{json}");
    }
}

fn slot(value: Option<u64>, version: u32) -> SlotRecord<u64> {
    SlotRecord { value, version }
}

#[test]
fn lists_are_written() {
    let table = [
        (vec![], "[]"),
        (vec![slot(None, 0), slot(None, 2)], r#"[{"value":null,"version":0},{"value":null,"version":2}]"#),
        (vec![slot(Some(7), 3)], r#"[{"value":7,"version":3}]"#),
    ];
    for (list, wanted) in table {
        let value = slots_to_value(Global, &list, write_number).expect("memory");
        assert_eq!(value.to_string(), wanted);
    }
}

#[test]
fn the_first_error_of_a_reader_is_returned() {
    let value = parse(r#"[{"value":1,"version":1},{"value":2}]"#);
    let read = slots_from_value(Global, &value, |_| Err::<u64, _>(JsonError::Memory));
    assert!(matches!(read, Err(JsonError::Memory)));
}

#[test]
fn the_first_error_of_a_writer_is_returned() {
    assert!(slots_to_value(Global, &[slot(Some(7), 3)], |_| Err(OutOfMemory)).is_err());
}

#[test]
fn each_value_of_a_long_list_is_shown_once() {
    let list: Vec<_> = (0..3000).map(|value| slot(Some(value), 1)).collect();
    let (shown, made) = (Cell::new(0), Cell::new(0));
    let write = |value: &u64| {
        shown.set(shown.get() + 1);
        write_number(value)
    };
    let value = slots_to_value(Global, &list, write).expect("memory");
    let read = |value: &Value| {
        made.set(made.get() + 1);
        read_number(value)
    };
    let again = slots_from_value(Global, &value, read).expect("a list of slots");
    assert_eq!((shown.get(), made.get()), (3000, 3000));
    assert_eq!(slots_text(&again), slots_text(&list));
}

/// A map of the null key, and of the key that it has, is written and read back.
#[test]
fn values_that_hold_keys_come_back() {
    let mut map: SlotMap<DefaultKey, DefaultKey> = SlotMap::new(Global).expect("memory");
    let first = map.insert(DefaultKey::null()).expect("memory");
    let second = map.insert(first).expect("memory");
    let list = map.to_slots().expect("memory");
    let value = slots_to_value(Global, &list, |key: &DefaultKey| key_to_value(Global, *key)).expect("memory");
    let list: ProvedVec<SlotRecord<DefaultKey>> = slots_from_value(Global, &value, key_from_value).expect("a list of slots");
    let read = SlotMap::from_slots(Global, list).expect("memory");
    assert_eq!((read.get(second), read.get(first)), (Some(&first), Some(&DefaultKey::null())));
}
