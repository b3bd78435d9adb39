//! The words of a call, and keys and pairs as text: `2v3`, `2v3:5`.

use slotmap::{DefaultKey, Key, KeyData};

/// A word of a call.
#[derive(Clone, Copy)]
pub enum Word<'t> {
    /// A key: `2v3` of index 2 and version 3, or `null`.
    Key(DefaultKey),
    /// A number: `17`.
    Number(u64),
    /// A key with a value: `2v3:5`.
    Pair(DefaultKey, u64),
    /// Anything else.
    Name(&'t str),
}

impl<'t> Word<'t> {
    /// Reads a word in turn `turn` of a repeated call.
    pub fn read(word: &'t str, turn: u64) -> Word<'t> {
        if let Some(number) = read_number(word, turn) {
            return Word::Number(number);
        }
        if let Some(key) = read_key(word, turn) {
            return Word::Key(key);
        }
        match read_pair(word, turn) {
            Some((key, value)) => Word::Pair(key, value),
            None => Word::Name(word),
        }
    }
}

fn read_number(word: &str, turn: u64) -> Option<u64> {
    let Some((factor, wheel)) = word.split_once('#') else {
        return word.parse().ok();
    };
    let factor: u64 = if factor.is_empty() { 1 } else { factor.parse().ok()? };
    Some(factor * read_wheel(wheel, turn)?)
}

/// The turn, or one of three wheels of a counter.
fn read_wheel(name: &str, turn: u64) -> Option<u64> {
    let before = turn - 1;
    match name {
        "" => Some(turn),
        "a" => Some(before % 10 + 1),
        "b" => Some(before / 10 % 10 + 1),
        "c" => Some(before / 100 % 10 + 1),
        _ => None,
    }
}

fn read_key(word: &str, turn: u64) -> Option<DefaultKey> {
    if word == "null" {
        return Some(DefaultKey::null());
    }
    let (index, version) = word.split_once('v')?;
    let index = u32::try_from(read_number(index, turn)?).ok()?;
    let version: u32 = version.parse().ok()?;
    Some(KeyData::from_ffi(u64::from(version) << 32 | u64::from(index)).into())
}

fn read_pair(word: &str, turn: u64) -> Option<(DefaultKey, u64)> {
    let (key, value) = word.split_once(':')?;
    Some((read_key(key, turn)?, read_number(value, turn)?))
}

/// The index of a key.
pub fn index(key: DefaultKey) -> u64 {
    key.data().as_ffi() & 0xffff_ffff
}

/// The version of a key.
pub fn version(key: DefaultKey) -> u64 {
    key.data().as_ffi() >> 32
}

pub fn key_text(key: DefaultKey) -> String {
    format!("{}v{}", index(key), version(key))
}

/// The number, or `none`.
pub fn option_text(number: Option<u64>) -> String {
    number.map_or("none".to_string(), |number| number.to_string())
}

pub fn pair_text(pair: (DefaultKey, u64)) -> String {
    format!("{}:{}", key_text(pair.0), pair.1)
}
