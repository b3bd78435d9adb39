//! Replies that no small script produces, and maps that have fewer lines.

use super::programs::slotmap_script::commands::{Commands, Plain};
use super::programs::slotmap_script::list::{write_refusal, Listed, LoadError};
use super::programs::slotmap_script::reply::{write_reply, LineReply};
use super::programs::slotmap_script::run::{finish, run_on, run_stretches};
use super::programs::slotmap_script::script::parse;
use slotmap_proved::errors::{OutOfMemory, SlotsError};
use slotmap_proved::fallible::{SlotMap, Vec as ProvedVec};
use slotmap_proved::json::JsonError;
use slotmap_proved::runs::Reply;
use slotmap_proved::serial::SlotRecord;
use slotmap_proved::{DefaultKey, Global};

#[test]
fn words() {
    let table: [(LineReply, &str); 4] = [
        (Reply::Full(None), "full\n"),
        (Reply::Full(Some(5)), "full\n"),
        (Reply::Memory(None), "memory\n"),
        (Reply::Memory(Some(5)), "memory\n"),
    ];
    for (mut reply, wanted) in table {
        let mut output = Vec::new();
        write_reply(&mut output, &mut reply).expect("it is written");
        assert_eq!(output, wanted.as_bytes());
    }
}

/// Why a list isn't read.
#[test]
fn refusals_of_lists() {
    let table = [
        (LoadError::Json(JsonError::Shape), "shape\n"),
        (LoadError::Json(JsonError::Memory), "memory\n"),
        (LoadError::Slots(SlotsError::Memory), "memory\n"),
        (LoadError::Slots(SlotsError::TooMany), "too many\n"),
    ];
    for (error, wanted) in table {
        let mut output = Vec::new();
        write_refusal(&mut output, &error).expect("it is written");
        assert_eq!(output, wanted.as_bytes());
    }
}

/// A map whose list of slots needs more memory than there is.
struct Refusing;

impl Listed for Refusing {
    fn to_slots(&self) -> Result<ProvedVec<SlotRecord<i32>>, OutOfMemory> {
        Err(OutOfMemory)
    }

    fn from_slots(_alloc: Global, list: ProvedVec<SlotRecord<i32>>) -> Result<Self, SlotsError> {
        Err(if list.is_empty() { SlotsError::TooMany } else { SlotsError::Memory })
    }
}

/// A command for whose reply there is no memory.
struct Unanswered;

impl Commands<Refusing> for Unanswered {
    fn from_words(words: &[&str]) -> Option<Self> {
        (words.len() <= 3).then_some(Unanswered)
    }

    fn run(alloc: Global, _map: &mut Refusing, commands: ProvedVec<Self>) -> Option<ProvedVec<LineReply>> {
        commands.is_empty().then(|| ProvedVec::new(alloc))
    }
}

/// Replies before the failure are printed; then the script ends.
#[test]
fn refused_memory() {
    let script = b"slots\nload []\nload [{\"version\":0}]\nlen\nslots\n";
    let stretches = parse::<Refusing, Unanswered>(Global, script).ok().expect("a script");
    let mut output = Vec::new();
    let ended = run_stretches(Global, Refusing, stretches, &mut output);
    let status = finish(Global, ended, &mut output);
    let printed = String::from_utf8(output).expect("UTF-8");
    assert_eq!((status, printed.as_str()), (3, "memory\ntoo many\nmemory\nno script\n"));
}

/// Scripts, what they print, and their statuses.
const PLAIN: [(&str, &str, u8); 3] = [
    (
        "insert 5\nget 4294967297\nremove 4294967297\nlen\nkeys\nclear\nslots\nload [{\"version\":0}]",
        "key 4294967297\nvalue 5\nvalue 5\nlen 0\nkeys\ndone\n\
            [{\"value\":null,\"version\":0},{\"value\":null,\"version\":2}]\ndone\n",
        0,
    ),
    ("insert 1\ndetach 4294967297\n", "bad line 2\n", 2),
    ("reattach 4294967297 1\n", "bad line 1\n", 2),
];

/// The lines of a map whose keys can't be detached.
#[test]
fn plain_lines() {
    for (script, wanted, wanted_status) in PLAIN {
        let mut output = Vec::new();
        let ended = run_on::<SlotMap<DefaultKey, i32>, Plain, _, _>(Global, &mut script.as_bytes(), &mut output);
        let status = finish(Global, ended, &mut output);
        let printed = String::from_utf8(output).expect("UTF-8");
        assert_eq!((status, printed.as_str()), (wanted_status, wanted));
    }
}
