//! Runs one after the other on one map, each with closures of its own. That no insert of the second returns a key of the first is proved
//! for all lists; these are two of them.

use super::key;
use slotmap_proved::fallible::{SlotMap, Vec as ProvedVec};
use slotmap_proved::runs::{run, run_detaching, run_detaching_new, Command, DetachCommand, Reply};
use slotmap_proved::{DefaultKey, Global};

type Map = SlotMap<DefaultKey, u64>;
type Replies = ProvedVec<Reply<DefaultKey, u64, u64, ()>>;

fn keep(_key: DefaultKey, _value: &mut u64) -> bool {
    true
}

fn refuse(_key: DefaultKey) -> Result<u64, ()> {
    Err(())
}

fn drop_all(_key: DefaultKey, _value: &mut u64) -> bool {
    false
}

fn give_five(_key: DefaultKey) -> Result<u64, ()> {
    Ok(5)
}

/// The new key that a reply is.
fn key_in(replies: &Replies, position: usize) -> Option<DefaultKey> {
    match replies.get(position) {
        Some(Reply::Key(key)) => Some(*key),
        _ => None,
    }
}

#[test]
fn a_second_run_answers_no_key_of_the_first() {
    let mut map = Map::new(Global).expect("memory");
    let first = vec![Command::Insert(1), Command::Remove(key(1, 1)), Command::InsertWith];
    let earlier: Replies = run(Global, &mut map, first.into(), |value| *value, keep, refuse).ok().expect("memory");
    assert_eq!((earlier.len(), key_in(&earlier, 0)), (3, Some(key(1, 1))));
    assert!(matches!(earlier[1], Reply::Taken(Some(1))));
    assert!(matches!(earlier[2], Reply::Failed(())));
    let second = vec![Command::InsertWith, Command::Get(key(1, 3)), Command::Retain, Command::Len, Command::Insert(7)];
    let later: Replies = run(Global, &mut map, second.into(), |_| 0, drop_all, give_five).ok().expect("memory");
    assert_eq!((later.len(), key_in(&later, 0), key_in(&later, 4)), (5, Some(key(1, 3)), Some(key(1, 5))));
    assert!(matches!(later[1], Reply::Looked(Some(0))));
    assert!(matches!(later[3], Reply::Len(0)));
}

#[test]
fn a_run_goes_on_where_one_on_a_new_map_ended() {
    let first = vec![DetachCommand::Plain(Command::Insert(1)), DetachCommand::Detach(key(1, 1))];
    let made = run_detaching_new(Global, first.into(), |value: &u64| *value, keep, refuse);
    let (mut map, earlier): (Map, Replies) = made.ok().expect("memory");
    assert!(matches!(earlier[1], Reply::Taken(Some(1))));
    let second = vec![
        DetachCommand::Plain(Command::InsertWith),
        DetachCommand::Reattach(key(1, 1), 9),
        DetachCommand::Plain(Command::Replace(key(1, 1), 8)),
    ];
    let later: Replies = run_detaching(Global, &mut map, second.into(), |_| 0, drop_all, give_five).ok().expect("memory");
    assert_eq!(key_in(&later, 0), Some(key(2, 1)));
    assert!(matches!(later[1], Reply::Done));
    assert!(matches!(later[2], Reply::Put(Ok(9))));
    assert_eq!(map.get(key(1, 1)), Some(&8));
}
