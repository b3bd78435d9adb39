//! Entity stores: what their errors say, what a debugger shows, and copies of one table.

use super::{assert_errors, assert_shows};
use slotmap_proved::entities::{AttachError, CloneTable, First, SpawnError, Table, World};
use slotmap_proved::fallible::{SecondaryMap, SparseSecondaryMap};
use slotmap_proved::{DefaultKey, Global, KeyData};

#[test]
fn errors() {
    assert_errors(&[
        (AttachError::Gone(5), "the entity is gone", "Gone(..)"),
        (AttachError::Memory(5), "out of memory", "Memory(..)"),
    ]);
    assert_errors(&[
        (SpawnError::Full(1, 5), "no key is left for an entity", "Full(..)"),
        (SpawnError::Memory(1, 5), "out of memory", "Memory(..)"),
    ]);
}

#[test]
fn a_world_shows_its_tables() {
    let mut world: World<DefaultKey, u64, (SecondaryMap<DefaultKey, u32>, ())> = World::new(Global).expect("memory");
    assert!(world.spawn_with::<First>(1, 10).is_ok());
    assert_shows(&world, "World { entities: {DefaultKey(1v1): 1}, tables: ({DefaultKey(1v1): 10}, ()) }");
}

/// Of a table and its copy only the copy has a component when the table is cleared.
fn assert_copied<M>()
where
    M: CloneTable<DefaultKey> + Table<DefaultKey, Component = u32>,
{
    let key = DefaultKey::from(KeyData::new(2, 3));
    let mut table = M::new(Global).expect("memory");
    assert!(table.insert(key, 7).is_ok());
    let copy = table.clone_table().expect("memory");
    table.clear();
    assert_eq!((copy.get(key), table.get(key)), (Some(&7), None));
}

#[test]
fn copies_of_tables() {
    assert_copied::<SecondaryMap<DefaultKey, u32>>();
    assert_copied::<SparseSecondaryMap<DefaultKey, u32>>();
}
