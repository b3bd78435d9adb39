//! Runs of commands, JSON, and the functions that look at numbers and lists alone.
//!
//! A run asks for a vector of replies, and for one for the keys or pairs that a reply returns. It asks for no more, however many commands
//! there are: each is a call within the map's room.

use super::common::keys::key_of;
use super::table::{assert_all, done, table, Entry};
use serde_json::Value;
use slotmap_proved::errors::OutOfMemory;
use slotmap_proved::fallible::{SecondaryMap, SlotMap, Vec as ProvedVec};
use slotmap_proved::serial::SlotRecord;
use slotmap_proved::json::{self, JsonError};
use slotmap_proved::{runs, serial, DefaultKey, Global};
use runs::{Command, DetachCommand, JoinedCommand, JoinedDetachCommand, SecondaryCommand};

type Map = SlotMap<DefaultKey, u64>;
type Side = SecondaryMap<DefaultKey, u64>;

/// What the rows are made on: a map with room, one beside it, and commands.
struct State<C> {
    map: Map,
    side: Side,
    commands: Option<ProvedVec<C>>,
}

/// So many commands, made of their numbers.
fn state<C>(size: usize, command: fn(usize) -> C) -> State<C> {
    let map = Map::with_capacity(Global, size).expect("memory");
    let side = Side::with_capacity(Global, size).expect("memory");
    State { map, side, commands: Some(ProvedVec::from_std((0..size).map(command).collect())) }
}

impl<C> State<C> {
    fn commands(&mut self) -> ProvedVec<C> {
        self.commands.take().expect("commands")
    }
}

/// The key that the first insert of a slot returns.
fn first_key(at: usize) -> DefaultKey {
    key_of(at as u32 + 1, 1)
}

fn command(at: usize) -> Command<DefaultKey, u64> {
    let key = first_key(at / 9);
    match at % 9 {
        0 => Command::Insert(7),
        1 => Command::InsertWith,
        2 => Command::Get(key),
        3 => Command::Contains(key),
        4 => Command::Replace(key, 8),
        5 if at % 27 == 5 => Command::Remove(key),
        6 => Command::Len,
        7 if at % 900 == 7 => Command::Retain,
        _ => Command::Reserve(1),
    }
}

fn plain(size: usize) -> State<Command<DefaultKey, u64>> {
    state(size, command)
}

/// The last commands list the keys, take the pairs out, and clear the map.
fn listing(size: usize) -> State<Command<DefaultKey, u64>> {
    let mut state = plain(size);
    let mut commands = state.commands().into_std();
    commands.extend([Command::Keys, Command::Drain, Command::Clear]);
    State { commands: Some(ProvedVec::from_std(commands)), ..state }
}

fn detaching(size: usize) -> State<DetachCommand<DefaultKey, u64>> {
    state(size, |at| match at % 3 {
        0 => DetachCommand::Plain(Command::Insert(7)),
        1 => DetachCommand::Detach(first_key(at / 3)),
        _ => DetachCommand::Reattach(first_key(at / 3), 8),
    })
}

fn beside(size: usize) -> State<SecondaryCommand<DefaultKey, u64>> {
    state(size, |at| match at % 5 {
        0 => SecondaryCommand::Insert(first_key(at), 7),
        1 => SecondaryCommand::OrPut(first_key(at), 7),
        2 => SecondaryCommand::Get(first_key(at - 1)),
        3 => SecondaryCommand::Contains(first_key(at - 3)),
        _ => SecondaryCommand::Remove(first_key(at - 4)),
    })
}

fn joined_command(at: usize) -> JoinedCommand<u64, u64> {
    match at % 3 {
        0 => JoinedCommand::Insert(7),
        1 => JoinedCommand::Put(at / 3, 8),
        _ => JoinedCommand::Look(at / 3),
    }
}

fn joined(size: usize) -> State<JoinedCommand<u64, u64>> {
    state(size, joined_command)
}

fn joined_detaching(size: usize) -> State<JoinedDetachCommand<u64, u64>> {
    state(size, |at| JoinedDetachCommand::Plain(joined_command(at)))
}

fn look(value: &u64) -> u64 {
    *value
}

fn keep(_: DefaultKey, _: &mut u64) -> bool {
    true
}

fn make(_: DefaultKey) -> Result<u64, ()> {
    Ok(7)
}

fn of_primary() -> Vec<Vec<Entry>> {
    let plain = rows![State<Command<DefaultKey, u64>>:
        once [plain] run asks 1 "the replies" => |s, _| {
            let commands = s.commands();
            assert!(runs::run(Global, &mut s.map, commands, look, keep, make).is_ok());
        };
        once [listing] run asks 3 "the replies, a list of keys, and one of pairs" => |s, _| {
            let commands = s.commands();
            assert!(runs::run(Global, &mut s.map, commands, look, keep, make).is_ok());
        };
        once [plain] run_new asks up to 40 "the replies, and a map, which grows" => |s, _| {
            assert!(runs::run_new::<Map, _, _, _, _, _, _, _>(Global, s.commands(), look, keep, make).is_ok());
        };
    ];
    let detaching = rows![State<DetachCommand<DefaultKey, u64>>:
        once [detaching] run_detaching asks 1 "the replies" => |s, _| {
            let commands = s.commands();
            assert!(runs::run_detaching(Global, &mut s.map, commands, look, keep, make).is_ok());
        };
        once [detaching] run_detaching_new asks up to 40 "the replies, and a map, which grows" => |s, _| {
            assert!(runs::run_detaching_new::<Map, _, _, _, _, _, _, _>(Global, s.commands(), look, keep, make).is_ok());
        };
    ];
    vec![table("runs", plain), table("runs", detaching)]
}

fn of_others() -> Vec<Vec<Entry>> {
    let beside = rows![State<SecondaryCommand<DefaultKey, u64>>:
        once [beside] run_secondary asks 1 "the replies" => |s, _| {
            let commands = s.commands();
            assert!(runs::run_secondary(Global, &mut s.side, commands, look).is_ok());
        };
    ];
    let joined = rows![State<JoinedCommand<u64, u64>>:
        once [joined] run_joined asks 2 "the replies, and the keys" => |s, _| {
            let commands = s.commands();
            assert!(runs::run_joined(Global, &mut s.map, &mut s.side, commands, look).is_ok());
        };
    ];
    let joined_detaching = rows![State<JoinedDetachCommand<u64, u64>>:
        once [joined_detaching] run_joined_detaching asks 2 "the replies, and the keys" => |s, _| {
            let commands = s.commands();
            assert!(runs::run_joined_detaching(Global, &mut s.map, &mut s.side, commands, look).is_ok());
        };
    ];
    vec![table("runs", beside), table("runs", joined), table("runs", joined_detaching)]
}

/// Keys and slots as values of JSON, and a list of slots.
struct Texts {
    key: Value,
    slots: Value,
    list: Vec<SlotRecord<u64>>,
}

fn number(value: &u64) -> Result<Value, OutOfMemory> {
    Ok(Value::from(*value))
}

fn read(value: &Value) -> Result<u64, JsonError> {
    value.as_u64().ok_or(JsonError::Shape)
}

fn texts(size: usize) -> Texts {
    let mut map = Map::new(Global).expect("memory");
    (0..size).for_each(|_| assert!(map.insert(7).is_ok()));
    let list = map.to_slots().expect("memory").into_std();
    let key = json::key_to_value(Global, first_key(1)).expect("memory");
    Texts { key, slots: json::slots_to_value(Global, &list, number).expect("memory"), list }
}

fn of_texts() -> Vec<Vec<Entry>> {
    let json = rows![Texts:
        walk [texts] key_to_value asks 3 "an object of JSON" => |_, _| done(json::key_to_value(Global, first_key(1)));
        look [texts] key_from_value => |s, _| assert_eq!(json::key_from_value(&s.key).ok(), Some(first_key(1)));
        walk [texts] slots_to_value asks up to 400000 "an object of JSON for each slot" => |s, _| done(json::slots_to_value(Global, &s.list, number));
        walk [texts] slots_from_value asks 1 "the list" => |s, _| done(json::slots_from_value(Global, &s.slots, read));
        walk [texts] slot_from_value => |s, _| for slot in s.slots.as_array().expect("a list") {
            done(json::slot_from_value(slot, &read));
        };
    ];
    let serial = rows![Texts:
        walk [texts] check_slots => |s, _| assert!(serial::check_slots(&s.list, u32::MAX as usize).is_ok());
    ];
    let others = rows![Texts:
        look [texts] is_older_version => |_, at| slotmap_proved::is_older_version(at as u32, 3);
    ];
    vec![table("json", json), table("serial", serial), table("", others)]
}

pub fn all() -> Vec<Vec<Entry>> {
    [of_primary(), of_others(), of_texts()].into_iter().flatten().collect()
}

#[test]
fn of_maps() {
    assert_all([of_primary(), of_others()].into_iter().flatten().collect());
}

#[test]
fn of_lists_of_slots() {
    assert_all(of_texts());
}
