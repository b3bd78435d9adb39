//! The library by the names that its users see: names, keys, messages, debug texts, JSON, refused room, and runs one after the other.
//! Expected values were worked out by hand or are those of the crate slotmap, never this port's own results.

#[path = "facade/clones.rs"]
mod clones;
#[path = "facade/debug.rs"]
mod debug;
#[path = "facade/errors.rs"]
mod errors;
#[path = "facade/json.rs"]
mod json;
#[path = "facade/keys.rs"]
mod keys;
#[path = "facade/names.rs"]
mod names;
#[path = "facade/two_runs.rs"]
mod two_runs;
#[path = "facade/wide.rs"]
mod wide;

use slotmap_proved::{DefaultKey, KeyData};

/// The key of an index and a version.
fn key(index: u32, version: u32) -> DefaultKey {
    DefaultKey::from(KeyData::new(index, version))
}
