//! Runs: where there is no memory for the replies, the commands come back and nothing is run; where a command finds none, its reply says so
//! and has the value.

use super::common::keys::key_of;
use super::watching::refusing;
use slotmap_proved::fallible::{SecondaryMap, SlotMap, Vec as ProvedVec};
use slotmap_proved::runs::*;
use slotmap_proved::{DefaultKey, Global};

const VALUE: u64 = 7;

type Map = SlotMap<DefaultKey, u64>;
type Side = SecondaryMap<DefaultKey, u64>;

/// A map whose next insert asks for memory, and a map beside it in which its next key has no place.
fn full() -> (Map, Side) {
    let (mut map, mut side) = (Map::with_key(Global).expect("memory"), Side::new(Global).expect("memory"));
    while map.len() < 4 || map.len() < map.capacity() {
        assert!(map.insert(1).is_ok());
    }
    while side.capacity() < map.len() {
        assert!(side.insert(key_of(side.capacity() as u32 + 1, 1), 1).is_ok());
    }
    (map, side)
}

/// What came of a run whose request of some number was refused.
enum End {
    /// The commands came back.
    Back(bool),
    /// There are replies; whether one says that memory ran out, and has its value.
    Replies(bool),
}

fn end<T, C>(result: Result<ProvedVec<T>, ProvedVec<C>>, is_same: impl Fn(&[C]) -> bool, ran_out: impl Fn(&T) -> bool) -> End {
    match result {
        Ok(replies) => End::Replies(replies.iter().any(ran_out)),
        Err(back) => End::Back(is_same(&back)),
    }
}

/// Refuses each request of a run in turn. The run returns its end, and whether the maps are as before.
fn assert_run(what: &str, run: impl Fn(u64) -> (End, bool, bool)) {
    let (mut back, mut told) = (0, 0);
    for number in 0.. {
        let (end, refused, unchanged) = run(number);
        match end {
            End::Replies(ran_out) => {
                assert_eq!(ran_out, refused, "{what}: request {number}");
                if !refused {
                    assert!(back > 0 && told > 0, "{what}: {back} times the commands came back, {told} times a reply told");
                    return;
                }
                told += 1;
            }
            End::Back(is_same) => {
                assert!(refused && is_same && unchanged, "{what}: request {number}");
                back += 1;
            }
        }
    }
}

fn commands<C>(command: fn() -> C) -> ProvedVec<C> {
    ProvedVec::from_std(vec![command()])
}

fn insert() -> Command<DefaultKey, u64> {
    Command::Insert(VALUE)
}

fn is_insert(command: &Command<DefaultKey, u64>) -> bool {
    matches!(command, Command::Insert(VALUE))
}

type Answer = Reply<DefaultKey, u64, u64, ()>;

fn ran_out(reply: &Answer) -> bool {
    matches!(reply, Reply::Memory(Some(VALUE)))
}

fn is_short<T>(list: &[T], test: impl Fn(&T) -> bool) -> bool {
    list.len() == 1 && test(&list[0])
}

#[test]
fn of_primary_maps() {
    let keep = |_: DefaultKey, _: &mut u64| true;
    let make = |_: DefaultKey| Err::<u64, ()>(());
    assert_run("run", |number| {
        let ((mut map, _), list) = (full(), commands(insert));
        let before = map.len();
        let (result, refused) = refusing(number, || run(Global, &mut map, list, |value| *value, keep, make));
        (end(result, |back| is_short(back, is_insert), ran_out), refused, map.len() == before)
    });
    let is_plain = |command: &DetachCommand<DefaultKey, u64>| matches!(command, DetachCommand::Plain(Command::Insert(VALUE)));
    assert_run("run_detaching", |number| {
        let ((mut map, _), list) = (full(), commands(|| DetachCommand::Plain(insert())));
        let before = map.len();
        let (result, refused) = refusing(number, || run_detaching(Global, &mut map, list, |value| *value, keep, make));
        (end(result, |back| is_short(back, is_plain), ran_out), refused, map.len() == before)
    });
    // A new map has room for no value: of its requests some are the map's own.
    assert_run("run_new", |number| {
        let list = commands(insert);
        let made = || run_new::<Map, _, _, u64, (), _, _, _>(Global, list, |value: &u64| *value, keep, make);
        let (result, refused) = refusing(number, made);
        (end(result.map(|made| made.1), |back| is_short(back, is_insert), ran_out), refused, true)
    });
    assert_run("run_detaching_new", |number| {
        let list = commands(|| DetachCommand::Plain(insert()));
        let made = || run_detaching_new::<Map, _, _, u64, (), _, _, _>(Global, list, |value: &u64| *value, keep, make);
        let (result, refused) = refusing(number, made);
        (end(result.map(|made| made.1), |back| is_short(back, is_plain), ran_out), refused, true)
    });
}

#[test]
fn of_secondary_maps() {
    let put = || SecondaryCommand::Insert(key_of::<DefaultKey>(1000, 1), VALUE);
    assert_run("run_secondary", |number| {
        let ((_, mut side), list) = (full(), commands(put));
        let before = side.len();
        let (result, refused) = refusing(number, || run_secondary(Global, &mut side, list, |value: &u64| *value));
        let is_put = |command: &SecondaryCommand<DefaultKey, u64>| matches!(command, SecondaryCommand::Insert(_, VALUE));
        let told = |reply: &SecondaryReply<u64, u64>| matches!(reply, SecondaryReply::Memory(VALUE));
        (end(result, |back| is_short(back, is_put), told), refused, side.len() == before)
    });
}

/// The reply to an insert, or to a put beside it, that found no memory. Where the insert found none, the put finds no key.
fn joined_ran_out(reply: &JoinedReply<DefaultKey, u64, u64, u64>) -> bool {
    matches!(reply, JoinedReply::Memory(VALUE) | JoinedReply::NoRoom(8))
}

#[test]
fn of_joined_maps() {
    let list = || vec![JoinedCommand::Insert(VALUE), JoinedCommand::Put(1, 8)];
    let is_list = |back: &[JoinedCommand<u64, u64>]| matches!(back, [JoinedCommand::Insert(VALUE), JoinedCommand::Put(1, 8)]);
    assert_run("run_joined", |number| {
        let ((mut map, mut side), list) = (full(), ProvedVec::from_std(list()));
        let before = (map.len(), side.len());
        let (result, refused) = refusing(number, || run_joined(Global, &mut map, &mut side, list, |value: &u64| *value));
        (end(result, is_list, joined_ran_out), refused, (map.len(), side.len()) == before)
    });
    let is_plain = |back: &[JoinedDetachCommand<u64, u64>]| {
        matches!(back, [JoinedDetachCommand::Plain(JoinedCommand::Insert(VALUE)), JoinedDetachCommand::Plain(JoinedCommand::Put(1, 8))])
    };
    assert_run("run_joined_detaching", |number| {
        let list = list().into_iter().map(JoinedDetachCommand::Plain).collect();
        let ((mut map, mut side), list) = (full(), ProvedVec::from_std(list));
        let before = (map.len(), side.len());
        let (result, refused) = refusing(number, || run_joined_detaching(Global, &mut map, &mut side, list, |value: &u64| *value));
        (end(result, is_plain, joined_ran_out), refused, (map.len(), side.len()) == before)
    });
}
