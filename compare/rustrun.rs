//! `rustrun KIND`: the lines of `slotrun`, answered by the maps of the Rust crate slotmap through its public calls.
//! `rustrun KIND walked`: the same, but `keys` prints the keys in the order of the map's own walk.
//!
//! Without the feature `lists`, which needs serde, the lines `slots` and `load T` are bad lines. Where the Rust crate
//! can't stand for the port, it says why on standard error and ends with 9.

#[allow(deprecated)]
use slotmap::{DefaultKey, DenseSlotMap, HopSlotMap, Key, KeyData, SlotMap};
use std::fmt::Write as _;
use std::io::{self, Read, Write};
use std::panic::{self, AssertUnwindSafe};
use std::process::{exit, ExitCode};

enum Line {
    Insert(i32),
    Get(DefaultKey),
    Remove(DefaultKey),
    Detach(DefaultKey),
    Reattach(DefaultKey, i32),
    Len,
    Keys,
    Clear,
    Slots,
    Load(String),
}

fn is_number(word: &str) -> bool {
    !word.is_empty() && word.bytes().all(|byte| byte.is_ascii_digit())
}

fn key(word: &str) -> Option<DefaultKey> {
    let number = word.parse().ok().filter(|_| is_number(word))?;
    Some(KeyData::from_ffi(number).into())
}

fn value(word: &str) -> Option<i32> {
    word.parse().ok().filter(|_| is_number(word.strip_prefix('-').unwrap_or(word)))
}

fn line(bytes: &[u8], kind: &str) -> Option<Line> {
    let text = std::str::from_utf8(bytes).ok()?;
    let lists = cfg!(feature = "lists");
    if let Some(list) = text.strip_prefix("load ").filter(|list| lists && !list.is_empty()) {
        return Some(Line::Load(list.to_string()));
    }
    let detaches = kind != "hop";
    match text.split(' ').collect::<Vec<_>>()[..] {
        ["insert", n] => Some(Line::Insert(value(n)?)),
        ["get", k] => Some(Line::Get(key(k)?)),
        ["remove", k] => Some(Line::Remove(key(k)?)),
        ["detach", k] if detaches => Some(Line::Detach(key(k)?)),
        ["reattach", k, n] if detaches => Some(Line::Reattach(key(k)?, value(n)?)),
        ["len"] => Some(Line::Len),
        ["keys"] => Some(Line::Keys),
        ["clear"] => Some(Line::Clear),
        ["slots"] if lists => Some(Line::Slots),
        _ => None,
    }
}

/// The lines of a script, or the number of the first that is bad.
fn lines(script: &[u8], kind: &str) -> Result<Vec<Line>, usize> {
    if script.is_empty() {
        return Ok(Vec::new());
    }
    let script = script.strip_suffix(b"\n").unwrap_or(script);
    let pieces = script.split(|byte| *byte == b'\n').enumerate();
    pieces.map(|(i, piece)| line(piece, kind).ok_or(i + 1)).collect()
}

fn cannot_compare(why: &str) -> ! {
    eprintln!("rustrun: {why}");
    exit(9)
}

/// The crate starts a place again after its last version, where the port retires it.
fn no_wrap(mut leaving: impl Iterator<Item = DefaultKey>) {
    if leaving.any(|key| key.data().as_ffi() >> 32 == u64::from(u32::MAX)) {
        cannot_compare("a key of the last version is removed");
    }
}

fn shown(value: Option<i32>) -> String {
    value.map_or("none".to_string(), |value| format!("value {value}"))
}

/// The live keys, by ascending index or as the map walks.
fn listed(keys: impl Iterator<Item = DefaultKey>, walked: bool) -> String {
    let mut keys: Vec<KeyData> = keys.map(|key| key.data()).collect();
    if !walked {
        keys.sort();
    }
    let mut text = "keys".to_string();
    for key in keys {
        write!(text, " {}", key.as_ffi()).expect("a string takes any text");
    }
    text
}

/// The list of slots that a text is, by the port's rules, or the word of its refusal.
#[cfg(feature = "lists")]
fn list(text: &str, kind: &str) -> Result<serde_json::Value, String> {
    use serde_json::{json, Value};
    let shape = || "shape".to_string();
    let json: Value = serde_json::from_str(text).map_err(|_| shape())?;
    let mut list = Vec::new();
    for element in json.as_array().ok_or_else(shape)? {
        let version = element.get("version").and_then(Value::as_u64).ok_or_else(shape)?;
        let version = u32::try_from(version).map_err(|_| shape())?;
        let value = element.get("value").filter(|value| !value.is_null());
        let fits = |value: &Value| value.as_i64().is_some_and(|value| i32::try_from(value).is_ok());
        if !value.is_none_or(fits) {
            return Err(shape());
        }
        list.push((value.cloned(), version));
    }
    if list.first().is_none_or(|(_, version)| version % 2 == 1) {
        return Err("first not empty".to_string());
    }
    if let Some(i) = list.iter().position(|(value, version)| value.is_some() != (version % 2 == 1)) {
        return Err(format!("inconsistent {i}"));
    }
    if list[1..].iter().any(|(_, version)| *version == 0) {
        cannot_compare("version 0 after the first place, which the port reads as a retired place");
    }
    if kind == "hop" && list[1..].iter().any(|(value, _)| value.is_none()) {
        cannot_compare("a HopSlotMap that is read with vacant places lacks a link in Rust");
    }
    list[0].1 = 0;
    Ok(list.iter().map(|(value, version)| json!({"value": value, "version": version})).collect())
}

macro_rules! runner {
    ($name:ident, $map:ident, $kind:literal, $detach:expr, $reattach:expr) => {
        #[allow(deprecated)]
        fn $name(lines: &[Line], walked: bool) -> String {
            let mut map: $map<DefaultKey, i32> = $map::with_key();
            let mut replies = String::new();
            for line in lines {
                let reply = match line {
                    Line::Insert(value) => format!("key {}", map.insert(*value).data().as_ffi()),
                    Line::Get(key) => shown(map.get(*key).copied()),
                    Line::Remove(key) => {
                        no_wrap(map.contains_key(*key).then_some(*key).into_iter());
                        shown(map.remove(*key))
                    }
                    Line::Detach(key) => shown($detach(&mut map, *key)),
                    Line::Reattach(key, value) => {
                        // The crate panics, before it changes anything, where the key isn't detached.
                        let call = AssertUnwindSafe(|| $reattach(&mut map, *key, *value));
                        let word = if panic::catch_unwind(call).is_ok() { "done" } else { "not detached" };
                        word.to_string()
                    }
                    Line::Len => format!("len {}", map.len()),
                    Line::Keys => listed(map.keys(), walked),
                    Line::Clear => {
                        no_wrap(map.keys());
                        map.clear();
                        "done".to_string()
                    }
                    #[cfg(feature = "lists")]
                    Line::Slots => serde_json::to_string(&map).expect("a map is written"),
                    #[cfg(feature = "lists")]
                    Line::Load(text) => match list(text, $kind) {
                        Ok(list) => {
                            map = serde_json::from_value(list).expect("a list that was looked at is read");
                            "done".to_string()
                        }
                        Err(word) => word,
                    },
                    #[cfg(not(feature = "lists"))]
                    Line::Slots | Line::Load(_) => unreachable!(),
                };
                replies.push_str(&reply);
                replies.push('\n');
            }
            replies
        }
    };
}

runner!(run_basic, SlotMap, "basic", SlotMap::detach, SlotMap::reattach);
runner!(run_dense, DenseSlotMap, "dense", DenseSlotMap::detach, DenseSlotMap::reattach);
runner!(run_hop, HopSlotMap, "hop", |_, _| unreachable!(), |_, _, _| unreachable!());

/// What is printed, and the status.
fn answer() -> (String, u8) {
    let words: Vec<String> = std::env::args().skip(1).collect();
    let run: fn(&[Line], bool) -> String = match words.iter().map(String::as_str).collect::<Vec<_>>()[..] {
        ["basic"] | ["basic", "walked"] => run_basic,
        ["dense"] | ["dense", "walked"] => run_dense,
        ["hop"] | ["hop", "walked"] => run_hop,
        _ => return ("usage: slotrun basic|dense|hop\n".to_string(), 2),
    };
    let mut script = Vec::new();
    if io::stdin().read_to_end(&mut script).is_err() {
        return ("no script\n".to_string(), 3);
    }
    match lines(&script, &words[0]) {
        Ok(lines) => (run(&lines, words.len() == 2), 0),
        Err(number) => (format!("bad line {number}\n"), 2),
    }
}

fn main() -> ExitCode {
    panic::set_hook(Box::new(|_| ()));
    let (text, status) = answer();
    match io::stdout().write_all(text.as_bytes()) {
        Ok(()) => ExitCode::from(status),
        Err(_) => ExitCode::from(3),
    }
}
