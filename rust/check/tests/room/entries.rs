//! The entries of SecondaryMap and SparseSecondaryMap, under slotmap's names and as they are proved.

use super::side::{freed, full, newer, newer_with_room, room, State};
use super::table::{assert_all, done, table, Entry as TableEntry, Nowhere};
use slotmap_proved::{fallible, DefaultKey, SecondaryMap, SparseSecondaryMap};
use std::fmt::Write;

type Tables = Vec<Vec<TableEntry>>;

macro_rules! entries {
    ($name:ident, $path:literal, $($module:ident)::+, $Map:ty, more: [$($more:tt)*]) => {
        mod $name {
            use super::*;
            use slotmap_proved::$($module)::+::{Entry, OccupiedEntry, VacantEntry};

            type S = State<$Map>;

            fn entry(state: &mut S, at: usize) -> Entry<'_, DefaultKey, u64> {
                state.map.try_entry(state.keys[at]).ok().expect("an entry")
            }

            fn occupied(state: &mut S, at: usize) -> OccupiedEntry<'_, DefaultKey, u64> {
                match entry(state, at) {
                    Entry::Occupied(entry) => entry,
                    Entry::Vacant(_) => panic!("a key with a value"),
                }
            }

            fn vacant(state: &mut S, at: usize) -> VacantEntry<'_, DefaultKey, u64> {
                match entry(state, at) {
                    Entry::Vacant(entry) => entry,
                    Entry::Occupied(_) => panic!("a key without a value"),
                }
            }

            pub fn tables() -> Tables {
                vec![of_entry(), of_occupied(), of_vacant()]
            }

            fn of_entry() -> Vec<TableEntry> {
                table(concat!($path, "::Entry"), rows![S:
                    look [room, full] key => |s, at| entry(s, at).key();
                    look [room, full, newer] and_modify => |s, at| { entry(s, at).and_modify(|value| *value += 1).key() };
                    each [room, freed, full, newer_with_room] or_insert => |s, at| done(entry(s, at).or_insert(8));
                    each [room, full, newer_with_room] or_insert_with => |s, at| done(entry(s, at).or_insert_with(|| 8));
                    each [room, full, newer_with_room] or_default => |s, at| done(entry(s, at).or_default());
                    walk [room, full] fmt => |s, _| write!(Nowhere, "{:?}", entry(s, 0));
                ])
            }

            fn of_occupied() -> Vec<TableEntry> {
                table(concat!($path, "::OccupiedEntry"), rows![S:
                    look [full] key => |s, at| occupied(s, at).key();
                    look [full] get => |s, at| *occupied(s, at).get();
                    look [full] get_mut => |s, at| *occupied(s, at).get_mut() += 1;
                    look [full] into_mut => |s, at| *occupied(s, at).into_mut() += 1;
                    look [full] insert => |s, at| occupied(s, at).insert(8);
                    walk [full] fmt => |s, _| write!(Nowhere, "{:?}", occupied(s, 0));
                    each [full] remove => |s, at| occupied(s, at).remove();
                    each [full] remove_entry => |s, at| occupied(s, at).remove_entry();
                ])
            }

            fn of_vacant() -> Vec<TableEntry> {
                table(concat!($path, "::VacantEntry"), rows![S:
                    look [room, newer] key => |s, at| vacant(s, at).key();
                    each [room, freed, newer_with_room] insert => |s, at| done(vacant(s, at).insert(8));
                    walk [room] fmt => |s, _| write!(Nowhere, "{:?}", vacant(s, 0));
                    $($more)*
                ])
            }
        }
    };
}

entries!(secondary, "secondary", secondary, SecondaryMap<DefaultKey, u64>, more: []);
entries!(sparse, "sparse_secondary", sparse_secondary, SparseSecondaryMap<DefaultKey, u64>, more: [
    each [room, newer_with_room] try_insert => |s, at| done(vacant(s, at).try_insert(8));
]);
entries!(proved_secondary, "fallible::secondary", fallible::secondary, fallible::SecondaryMap<DefaultKey, u64>, more: []);
entries!(proved_sparse, "fallible::sparse_secondary", fallible::sparse_secondary, fallible::SparseSecondaryMap<DefaultKey, u64>, more: []);

pub fn all() -> Tables {
    [secondary::tables(), sparse::tables(), proved_secondary::tables(), proved_sparse::tables()].into_iter().flatten().collect()
}

#[test]
fn of_secondary_map() {
    assert_all([secondary::tables(), proved_secondary::tables()].into_iter().flatten().collect());
}

#[test]
fn of_sparse_secondary_map() {
    assert_all([sparse::tables(), proved_sparse::tables()].into_iter().flatten().collect());
}
