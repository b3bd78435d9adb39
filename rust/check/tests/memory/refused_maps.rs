//! `map` and `other` are one of SlotMap, DenseSlotMap, HopSlotMap, SecondaryMap, SparseSecondaryMap; `fallible` and `spare` are the proved
//! maps.

use super::common::keys::key_of;
use super::refused::{assert_all, calls, or_panic, Call, VALUE};
use slotmap_proved::fallible::Vec as ProvedVec;
use slotmap_proved::serial::SlotRecord;
use slotmap_proved::fallible;
use slotmap_proved::{DefaultKey, DenseSlotMap, Global, HopSlotMap, SecondaryMap, SlotMap, SparseSecondaryMap};

/// A map under slotmap's names, and another one.
struct State<M> {
    map: M,
    other: M,
    key: DefaultKey,
}

/// A proved map, another one, and vectors to be filled.
struct Proved<M> {
    fallible: M,
    spare: M,
    key: DefaultKey,
    keys: ProvedVec<DefaultKey>,
    pairs: ProvedVec<(DefaultKey, u64)>,
}

impl<M> Proved<M> {
    fn new(fallible: M, spare: M, key: DefaultKey) -> Self {
        Proved { fallible, spare, key, keys: ProvedVec::new(Global), pairs: ProvedVec::new(Global) }
    }
}

type List = Vec<SlotRecord<u64>>;

fn show_list(list: &[SlotRecord<u64>]) -> String {
    format!("{:?}", list.iter().map(|slot| (slot.value, slot.version)).collect::<Vec<_>>())
}

/// Two lists, one for each turn of a call that reads one. What it reads is gone if it fails.
struct Lists(Vec<List>);

impl Lists {
    fn new(list: impl Fn() -> List) -> Self {
        Lists(vec![list(), list()])
    }

    fn take(&mut self) -> List {
        self.0.pop().expect("a list for each turn")
    }

    fn take_proved(&mut self) -> ProvedVec<SlotRecord<u64>> {
        ProvedVec::from_std(self.take())
    }
}

/// Calls that make a map: one that fails leaves nothing to look at.
fn assert_made(calls: Vec<Call<()>>) {
    assert_all(calls, &|| (), &|_| String::new());
}

fn assert_read(calls: Vec<Call<Lists>>, list: fn() -> List) {
    assert_all(calls, &|| Lists::new(list), &|_| String::new());
}

macro_rules! primary {
    ($module:ident, $map:ident) => {
        mod $module {
            use super::*;

            type Map = $map<DefaultKey, u64>;
            type Fallible = fallible::$map<DefaultKey, u64>;

            /// A map without a vacant slot, some of whose slots were used twice, and the first of its keys.
            pub fn full() -> (Map, DefaultKey) {
                let mut map = Map::new();
                let key = map.insert(1);
                let gone = map.insert(2);
                while map.len() < map.capacity() {
                    map.insert(9);
                }
                map.remove(gone);
                map.insert(3);
                (map, key)
            }

            fn list() -> List {
                full().0.to_slots().expect("memory")
            }

            #[test]
            fn slotmaps_calls() {
                let make = || {
                    let (map, key) = full();
                    State { map, other: Map::new(), key }
                };
                let show = |state: &State<Map>| {
                    format!("{} {:?} {:?}", show_list(&state.map.to_slots().expect("memory")), state.map, state.other)
                };
                let calls = calls![State<Map>:
                    "try_insert", VALUE => |state| state.map.try_insert(VALUE);
                    "insert" => |state| or_panic(|| state.map.insert(VALUE));
                    "insert_with_key" => |state| or_panic(|| state.map.insert_with_key(|_| VALUE));
                    "try_insert_with_key" => |state| or_panic(|| state.map.try_insert_with_key(|_| Ok::<u64, ()>(VALUE)));
                    "try_reserve" => |state| state.map.try_reserve(100);
                    "reserve" => |state| or_panic(|| state.map.reserve(100));
                    "try_clone" => |state| state.map.try_clone();
                    "clone" => |state| or_panic(|| state.map.clone());
                    "clone_from" => |state| or_panic(|| state.other.clone_from(&state.map));
                    "to_slots" => |state| state.map.to_slots();
                ];
                assert_all(calls, &make, &show);
            }

            #[test]
            fn proved_calls() {
                let make = || {
                    let (map, key) = full();
                    Proved::new(map.into(), Fallible::new(Global).expect("memory"), key)
                };
                let show = |state: &Proved<Fallible>| {
                    let slots = show_list(&state.fallible.to_slots().expect("memory"));
                    format!("{slots} {:?} {:?} {:?} {:?}", state.fallible, state.spare, state.keys.as_slice(), state.pairs.as_slice())
                };
                let calls = calls![Proved<Fallible>:
                    "insert", VALUE => |state| state.fallible.insert(VALUE);
                    "insert_with_key" => |state| state.fallible.insert_with_key(|_| VALUE);
                    "try_insert_with_key" => |state| state.fallible.try_insert_with_key(|_| Ok::<u64, ()>(VALUE));
                    "reserve" => |state| state.fallible.reserve(100);
                    "try_reserve" => |state| state.fallible.try_reserve(100);
                    "clone" => |state| state.fallible.clone();
                    "clone_from" => |state| state.spare.clone_from(&state.fallible);
                    "to_slots" => |state| state.fallible.to_slots();
                    "keys_into" => |state| state.fallible.keys_into(&mut state.keys);
                    "drain_into" => |state| state.fallible.drain_into(&mut state.pairs);
                ];
                assert_all(calls, &make, &show);
            }

            #[test]
            fn copies_of_iterators() {
                let calls = calls![slotmap_proved::$module::IntoIter<DefaultKey, u64>:
                    "IntoIter::clone" => |state| or_panic(|| state.clone());
                ];
                assert_all(calls, &|| full().0.into_iter(), &|state| state.len().to_string());
                let calls = calls![fallible::$module::IntoIter<DefaultKey, u64>: "IntoIter::clone" => |state| state.clone();];
                assert_all(calls, &|| Fallible::from(full().0).into_iter(), &|state| state.len().to_string());
            }

            #[test]
            fn made() {
                assert_made(calls![():
                    "new" => |_state| or_panic(Map::new);
                    "with_key" => |_state| or_panic(Map::with_key);
                    "default" => |_state| or_panic(Map::default);
                    "with_capacity" => |_state| or_panic(|| Map::with_capacity(9));
                    "with_capacity_and_key" => |_state| or_panic(|| Map::with_capacity_and_key(9));
                    "try_with_capacity_and_key" => |_state| Map::try_with_capacity_and_key(9);
                    "proved new" => |_state| Fallible::new(Global);
                    "proved with_key" => |_state| Fallible::with_key(Global);
                    "proved with_capacity" => |_state| Fallible::with_capacity(Global, 9);
                    "proved with_capacity_and_key" => |_state| Fallible::with_capacity_and_key(Global, 9);
                ]);
                let calls = calls![Lists:
                    "from_slots" => |state| Map::from_slots(state.take());
                    "proved from_slots" => |state| Fallible::from_slots(Global, state.take_proved());
                ];
                assert_read(calls, list);
            }
        }
    };
}

primary!(basic, SlotMap);
primary!(dense, DenseSlotMap);
primary!(hop, HopSlotMap);

/// A packed map has a place for each live key alone: where they are full, a key that comes back asks for memory.
#[test]
fn reattach() {
    let make = || {
        let (mut map, key) = dense::full();
        map.detach(key);
        map.insert(9);
        while map.values_as_slice().len() < map.capacity() {
            map.insert(9);
        }
        State { map, other: DenseSlotMap::new(), key }
    };
    let show = |state: &State<DenseSlotMap<DefaultKey, u64>>| format!("{:?}", state.map);
    let calls = calls![State<DenseSlotMap<DefaultKey, u64>>:
        "try_reattach", VALUE => |state| state.map.try_reattach(state.key, VALUE);
        "reattach" => |state| or_panic(|| state.map.reattach(state.key, VALUE));
        "proved reattach", VALUE => |state| {
            let fallible = state.map.as_mut();
            fallible.reattach(state.key, VALUE)
        };
    ];
    assert_all(calls, &make, &show);
}

/// The calls that both side maps have. A map that is full asks for memory where it has no pair at the key's index.
macro_rules! side {
    ($module:ident, $map:ident, is_full: $is_full:expr) => {
        mod $module {
            use super::*;

            pub type Map = $map<DefaultKey, u64>;
            pub type Fallible = fallible::$map<DefaultKey, u64>;

            pub fn pair() -> [(DefaultKey, u64); 1] {
                [(key_of(1000, 1), VALUE)]
            }

            fn slotmaps() -> State<Map> {
                let (mut map, mut index) = (Map::default(), 4);
                map.insert(key_of(3, 5), 1);
                while !$is_full(map.len(), map.capacity()) {
                    map.insert(key_of(index, 1), 3);
                    index += 1;
                }
                State { map, other: Map::default(), key: key_of(1000, 1) }
            }

            pub fn proved() -> Proved<Fallible> {
                let (mut fallible, mut index) = (Fallible::new(Global).ok().expect("memory"), 4);
                assert!(fallible.insert(key_of(3, 5), 1).is_ok());
                while !$is_full(fallible.len(), fallible.capacity()) {
                    assert!(fallible.insert(key_of(index, 1), 3).is_ok());
                    index += 1;
                }
                Proved::new(fallible, Fallible::new(Global).ok().expect("memory"), key_of(1000, 1))
            }

            pub fn show(state: &Proved<Fallible>) -> String {
                let mut pairs: Vec<_> = state.fallible.iter().collect();
                pairs.sort();
                format!("{pairs:?} {}", state.spare.len())
            }

            pub fn list() -> List {
                slotmaps().map.to_slots().expect("memory")
            }

            #[test]
            fn slotmaps_calls() {
                let show = |state: &State<Map>| {
                    let mut pairs: Vec<_> = state.map.iter().collect();
                    pairs.sort();
                    format!("{pairs:?} {}", state.other.len())
                };
                let calls = calls![State<Map>:
                    "try_insert", VALUE => |state| state.map.try_insert(state.key, VALUE);
                    "insert" => |state| or_panic(|| state.map.insert(state.key, VALUE));
                    "try_clone" => |state| state.map.try_clone();
                    "clone" => |state| or_panic(|| state.map.clone());
                    "clone_from" => |state| or_panic(|| state.other.clone_from(&state.map));
                    "to_slots" => |state| state.map.to_slots();
                    "entry, or_insert" => |state| or_panic(|| state.map.entry(state.key).map(|entry| *entry.or_insert(VALUE)));
                    "entry, or_insert_with" => |state| or_panic(|| state.map.entry(state.key).map(|entry| *entry.or_insert_with(|| VALUE)));
                    "entry, or_default" => |state| or_panic(|| state.map.entry(state.key).map(|entry| *entry.or_default()));
                    "entry, insert" => |state| or_panic(|| match state.map.entry(state.key) {
                        Some(slotmap_proved::$module::Entry::Vacant(entry)) => *entry.insert(VALUE),
                        _ => panic!("it has a vacant entry"),
                    });
                    "extend" => |state| or_panic(|| state.map.extend(pair()));
                    "extend by reference" => |state| or_panic(|| state.map.extend(pair().iter().map(|pair| (pair.0, &pair.1))));
                ];
                assert_all(calls, &slotmaps, &show);
                assert_made(calls![(): "from_iter" => |_state| or_panic(|| pair().into_iter().collect::<Map>());]);
            }

            #[test]
            fn proved_calls() {
                let calls = calls![Proved<Fallible>:
                    "insert", VALUE => |state| state.fallible.insert(state.key, VALUE);
                    "or_put", VALUE => |state| state.fallible.or_put(state.key, VALUE);
                    "extend", VALUE => |state| state.fallible.extend(pair());
                    "extend_refs", VALUE => |state| state.fallible.extend_refs(pair().iter().map(|pair| (pair.0, &pair.1)));
                    "clone" => |state| state.fallible.clone();
                    "clone_from" => |state| state.spare.clone_from(&state.fallible);
                    "to_slots" => |state| state.fallible.to_slots();
                ];
                assert_all(calls, &proved, &show);
                assert_made(calls![(): "from_iter" => |_state| Fallible::from_iter(Global, pair());]);
                assert_read(calls![Lists: "from_slots" => |state| Fallible::from_slots(Global, state.take_proved());], list);
            }
        }
    };
}

side!(secondary, SecondaryMap, is_full: |len, _capacity| len > 4);
side!(sparse_secondary, SparseSecondaryMap, is_full: |len, capacity| len > 4 && len == capacity);

/// The calls that SecondaryMap alone has.
#[test]
fn of_secondary() {
    use secondary::{list, proved, show, Fallible, Map};
    let calls = calls![Proved<Fallible>:
        "entry" => |state| state.fallible.entry(state.key);
        "try_entry" => |state| state.fallible.try_entry(state.key);
        "set_capacity" => |state| state.fallible.set_capacity(100);
        "try_set_capacity" => |state| state.fallible.try_set_capacity(100);
    ];
    assert_all(calls, &proved, &show);
    let calls = calls![Map:
        "slotmap's try_entry" => |map| map.try_entry(key_of(1000, 1));
        "slotmap's set_capacity" => |map| or_panic(|| map.set_capacity(100));
        "slotmap's try_set_capacity" => |map| map.try_set_capacity(100);
    ];
    assert_all(calls, &Map::new, &|map| format!("{map:?}"));
    assert_made(calls![():
        "slotmap's new" => |_state| or_panic(Map::new);
        "slotmap's default" => |_state| or_panic(Map::default);
        "slotmap's with_capacity" => |_state| or_panic(|| Map::with_capacity(9));
        "slotmap's try_with_capacity" => |_state| Map::try_with_capacity(9);
        "new" => |_state| Fallible::new(Global);
        "with_capacity" => |_state| Fallible::with_capacity(Global, 9);
    ]);
    assert_read(calls![Lists: "slotmap's from_slots" => |state| Map::from_slots(state.take());], list);
}

/// The calls that SparseSecondaryMap alone has, and those of its entries, which ask for memory only when they put a value.
#[test]
fn of_sparse_secondary() {
    use fallible::sparse_secondary::Entry;
    use sparse_secondary::{list, proved, show, Fallible, Map};
    let calls = calls![Proved<Fallible>:
        "reserve" => |state| state.fallible.reserve(100);
        "try_reserve" => |state| state.fallible.try_reserve(100);
        "or_insert", VALUE => |state| {
            let entry = state.fallible.try_entry(state.key).ok().expect("an entry");
            entry.or_insert(VALUE)
        };
        "or_insert_with" => |state| {
            let entry = state.fallible.try_entry(state.key).ok().expect("an entry");
            entry.or_insert_with(|| VALUE)
        };
        "or_default" => |state| {
            let entry = state.fallible.try_entry(state.key).ok().expect("an entry");
            entry.or_default()
        };
        "insert of a vacant entry", VALUE => |state| match state.fallible.try_entry(state.key) {
            Ok(Entry::Vacant(entry)) => entry.insert(VALUE),
            _ => panic!("it has a vacant entry"),
        };
    ];
    assert_all(calls, &proved, &show);
    let calls = calls![Map:
        "slotmap's reserve" => |map| or_panic(|| map.reserve(100));
        "slotmap's try_reserve" => |map| map.try_reserve(100);
        "slotmap's try_insert of a vacant entry", VALUE => |map| match map.try_entry(key_of(1000, 1)) {
            Ok(slotmap_proved::sparse_secondary::Entry::Vacant(entry)) => entry.try_insert(VALUE),
            _ => panic!("it has a vacant entry"),
        };
    ];
    assert_all(calls, &Map::new, &|map| format!("{map:?}"));
    assert_made(calls![():
        "slotmap's with_capacity" => |_state| or_panic(|| Map::with_capacity(9));
        "slotmap's with_capacity_and_hasher" => |_state| or_panic(|| Map::with_capacity_and_hasher(9, Default::default()));
        "slotmap's try_with_capacity_and_hasher" => |_state| Map::try_with_capacity_and_hasher(9, Default::default());
        "with_capacity" => |_state| Fallible::with_capacity(Global, 9);
        "with_capacity_and_hasher" => |_state| Fallible::with_capacity_and_hasher(Global, 9, Default::default());
        "from_iter_with_hasher" => |_state| Fallible::from_iter_with_hasher(Global, sparse_secondary::pair(), Default::default());
    ]);
    let calls = calls![Lists:
        "slotmap's from_slots_with_hasher" => |state| Map::from_slots_with_hasher(state.take(), Default::default());
        "from_slots_with_hasher" => |state| Fallible::from_slots_with_hasher(Global, state.take_proved(), Default::default());
    ];
    assert_read(calls, list);
}
