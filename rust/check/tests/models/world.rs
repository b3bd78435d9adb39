//! `world` and `copy` are a World with three tables. The model is a vector of entities in packed order, each with what it has.

use slotmap_proved::entities::{AttachError, CloneTables, First, Fourth, Second, SpawnError, Tables, Third, World};
use slotmap_proved::errors::ReserveError;
use slotmap_proved::fallible::{SecondaryMap, SparseSecondaryMap};
use slotmap_proved::{DefaultKey, Global, NodeKey};
use super::common::keys::{parts, Issued};
use super::common::random::Random;
use super::common::seeds::each_seed;

const SEEDS: u64 = 20;
const CALLS: usize = 10_000;

type Dense = SecondaryMap<NodeKey, u64>;
type Sparse = SparseSecondaryMap<NodeKey, u64>;
type Three = (Dense, (Sparse, (Dense, ())));

/// An entity with its components.
#[derive(Clone, Copy)]
struct Entity {
    key: NodeKey,
    value: u64,
    parts: [Option<u64>; 3],
}

struct Beside<'a> {
    random: &'a mut Random,
    world: World<NodeKey, u64, Three>,
    model: Vec<Entity>,
    issued: Issued<NodeKey>,
}

/// Makes the same call with each of the kinds.
macro_rules! by_kind {
    ($kind:expr, $of:ident => $call:expr) => {
        match $kind {
            0 => {
                type $of = First;
                $call
            }
            1 => {
                type $of = Second;
                $call
            }
            _ => {
                type $of = Third;
                $call
            }
        }
    };
}

/// Makes the same call with each two kinds that differ.
macro_rules! by_two_kinds {
    ($kinds:expr, $a:ident, $b:ident => $call:expr) => {
        match $kinds {
            [0, 1] => by_two_kinds!(First, Second, $a, $b => $call),
            [0, _] => by_two_kinds!(First, Third, $a, $b => $call),
            [1, 0] => by_two_kinds!(Second, First, $a, $b => $call),
            [1, _] => by_two_kinds!(Second, Third, $a, $b => $call),
            [_, 0] => by_two_kinds!(Third, First, $a, $b => $call),
            _ => by_two_kinds!(Third, Second, $a, $b => $call),
        }
    };
    ($one:ty, $other:ty, $a:ident, $b:ident => $call:expr) => {{
        type $a = $one;
        type $b = $other;
        $call
    }};
}

impl Beside<'_> {
    fn value(&mut self) -> u64 {
        self.random.draw() % 100
    }

    fn key(&mut self) -> NodeKey {
        let live: Vec<NodeKey> = self.model.iter().map(|entity| entity.key).collect();
        self.issued.pick(self.random, &live)
    }

    fn place(&self, key: NodeKey) -> Option<usize> {
        self.model.iter().position(|entity| entity.key == key)
    }

    fn kinds(&mut self) -> [usize; 2] {
        let first = self.random.below(3);
        [first, (first + 1 + self.random.below(2)) % 3]
    }

    fn spawn(&mut self) {
        let (value, kinds) = (self.value(), self.kinds());
        let components = [self.value(), self.value(), self.value()];
        let mut parts = [None; 3];
        let key = match self.random.below(4) {
            0 => self.world.spawn(value).ok(),
            1 => {
                parts[kinds[0]] = Some(components[0]);
                by_kind!(kinds[0], A => self.world.spawn_with::<A>(value, components[0]).ok())
            }
            2 => {
                parts[kinds[0]] = Some(components[0]);
                parts[kinds[1]] = Some(components[1]);
                by_two_kinds!(kinds, A, B => self.world.spawn_with_both::<A, B>(value, components[0], components[1]).ok())
            }
            _ => {
                let [a, b, c] = components;
                parts = [Some(b), Some(c), Some(a)];
                self.world.spawn_with_three::<Third, First, Second>(value, a, b, c).ok()
            }
        };
        let key = key.expect("memory");
        self.issued.note(key);
        self.model.push(Entity { key, value, parts });
    }

    /// The last entity takes the place of the removed one.
    fn despawn(&mut self) {
        let key = self.key();
        let removed = self.place(key).map(|at| self.model.swap_remove(at));
        let wanted = removed.map(|Entity { value, parts: [a, b, c], .. }| (value, (a, (b, (c, ())))));
        assert_eq!(self.world.despawn(key), wanted);
    }

    fn attach(&mut self) {
        let (key, kind, component) = (self.key(), self.random.below(3), self.value());
        match (by_kind!(kind, A => self.world.attach::<A>(key, component)), self.place(key)) {
            (Ok(before), Some(at)) => assert_eq!(self.model[at].parts[kind].replace(component), before),
            (Err(AttachError::Gone(back)), None) => assert_eq!(back, component),
            other => panic!("{other:?}"),
        }
    }

    fn detach(&mut self) {
        let (key, kind) = (self.key(), self.random.below(3));
        let wanted = self.place(key).and_then(|at| self.model[at].parts[kind].take());
        assert_eq!(by_kind!(kind, A => self.world.detach::<A>(key)), wanted);
    }

    fn replace_both(&mut self) {
        let (key, kinds, pair) = (self.key(), self.kinds(), (self.value(), self.value()));
        let replaced = by_two_kinds!(kinds, A, B => self.world.replace_both::<A, B>(key, pair.0, pair.1));
        let has = self.place(key).map(|at| &mut self.model[at].parts).filter(|parts| kinds.iter().all(|kind| parts[*kind].is_some()));
        match has {
            None => assert_eq!(replaced, Err(pair)),
            Some(parts) => {
                let before = (parts[kinds[0]].replace(pair.0), parts[kinds[1]].replace(pair.1));
                assert_eq!(replaced.map(|(first, second)| (Some(first), Some(second))), Ok(before));
            }
        }
    }

    fn write(&mut self) {
        let (key, kind, value) = (self.key(), self.random.below(3), self.value());
        let place = self.place(key);
        let (lent, known) = match self.random.one_of(2) {
            true => (self.world.get_mut(key), place.map(|at| &mut self.model[at].value)),
            false => {
                let lent = by_kind!(kind, A => self.world.component_mut::<A>(key));
                (lent, place.and_then(|at| self.model[at].parts[kind].as_mut()))
            }
        };
        assert_eq!(lent, known);
        if let (Some(lent), Some(known)) = (lent, known) {
            (*lent, *known) = (value, value);
        }
    }

    fn look(&mut self) {
        let (key, kinds) = (self.key(), self.kinds());
        let entity = self.place(key).map(|at| self.model[at]);
        let parts = entity.map_or([None; 3], |entity| entity.parts);
        let (first, second) = (parts[kinds[0]], parts[kinds[1]]);
        assert_eq!((self.world.contains_key(key), self.world.get(key).copied()), (entity.is_some(), entity.map(|entity| entity.value)));
        if let Some(entity) = entity {
            assert_eq!(self.world[key], entity.value);
        }
        by_two_kinds!(kinds, A, B => {
            assert_eq!(self.world.has::<A>(key), first.is_some());
            assert_eq!(self.world.component::<A>(key).copied(), first);
            assert_eq!(self.world.both::<A, B>(key).map(|(a, b)| (*a, *b)), first.zip(second));
        });
        let (dense, (sparse, (last, ()))) = self.world.tables();
        assert_eq!([dense.get(key).copied(), sparse.get(key).copied(), last.get(key).copied()], parts);
    }

    fn look_at_all(&self) {
        let count = self.model.len();
        assert_eq!((self.world.len(), self.world.is_empty()), (count, count == 0));
        assert!(self.world.capacity() >= count);
    }

    fn walk(&self) {
        let entities = || self.model.iter().map(|entity| (entity.key, &entity.value));
        assert!(self.world.iter().eq(entities()) && (&self.world).into_iter().eq(entities()));
        assert!(self.world.keys().eq(entities().map(|pair| pair.0)));
        assert!(self.world.keys_as_slice().iter().copied().eq(entities().map(|pair| pair.0)));
        assert!(self.world.values().eq(entities().map(|pair| pair.1)));
        assert_eq!((self.world.iter().len(), self.world.keys().len()), (self.model.len(), self.model.len()));
    }

    /// The joins, in packed order.
    fn join(&mut self) {
        let kinds = self.kinds();
        let all = || self.model.iter().map(|entity| (entity.key, entity.parts[kinds[0]], entity.parts[kinds[1]]));
        by_two_kinds!(kinds, A, B => {
            let with = all().filter_map(|(key, first, _)| Some((key, first?)));
            assert!(self.world.with::<A>().map(|(key, first)| (key, *first)).eq(with.clone()));
            let both = all().filter_map(|(key, first, second)| Some((key, first?, second?)));
            assert!(self.world.with_both::<A, B>().map(|(key, first, second)| (key, *first, *second)).eq(both));
            let optional = all().filter_map(|(key, first, second)| Some((key, first?, second)));
            assert!(self.world.with_optional::<A, B>().map(|(key, first, second)| (key, *first, second.copied())).eq(optional));
            let without = all().filter(|entity| entity.2.is_none()).filter_map(|(key, first, _)| Some((key, first?)));
            assert!(self.world.with_without::<A, B>().map(|(key, first)| (key, *first)).eq(without));
            assert!(self.world.with::<A>().size_hint().1.map_or(true, |most| most >= with.count()));
        });
        let three = self.model.iter().filter_map(|entity| Some((entity.key, entity.parts[2]?, entity.parts[0]?, entity.parts[1]?)));
        let found = self.world.with_three::<Third, First, Second>().map(|(key, a, b, c)| (key, *a, *b, *c));
        assert!(found.eq(three));
    }

    fn retain(&mut self) {
        let (kind, divisor) = (self.random.below(3), 2 + self.value() % 4);
        let mut seen = Vec::new();
        let mut keep = |key: NodeKey, component: &mut u64| {
            seen.push((key, *component));
            *component += 1;
            *component % divisor != 0
        };
        by_kind!(kind, A => self.world.retain_components::<A, _>(&mut keep));
        let mut wanted = Vec::new();
        for entity in &mut self.model {
            wanted.extend(entity.parts[kind].map(|component| (entity.key, component)));
            entity.parts[kind] = entity.parts[kind].map(|component| component + 1).filter(|component| component % divisor != 0);
        }
        (seen.sort(), wanted.sort());
        assert_eq!(seen, wanted);
    }

    /// A copy has the same entities and components, and returns the same new keys. The test goes on with the copy.
    fn copy(&mut self) {
        let (mut copy, value) = (self.world.clone().expect("memory"), self.value());
        let key = copy.spawn(value).ok().expect("memory");
        assert_eq!(self.world.spawn(value).ok(), Some(key));
        self.issued.note(key);
        self.model.push(Entity { key, value, parts: [None; 3] });
        self.world = copy;
        self.walk();
        self.join();
    }

    fn room(&mut self) {
        let (additional, kind) = (self.random.below(50), self.random.below(3));
        match self.random.below(5) {
            0 => {
                self.world.clear();
                self.model.clear();
            }
            1 => assert!(matches!(self.world.reserve(u32::MAX as usize), Err(ReserveError::TooGreat))),
            2 => {
                let last = self.model.iter().map(|entity| parts(entity.key).0 as usize).max().unwrap_or(0) + additional;
                assert!(by_kind!(kind, A => self.world.reserve_components::<A>(additional, last)).is_ok());
            }
            3 => assert!(matches!(self.world.reserve_components::<First>(0, u32::MAX as usize), Err(ReserveError::TooGreat))),
            _ => {
                assert!(self.world.reserve(additional).is_ok());
                assert!(self.world.capacity() >= self.model.len() + additional);
            }
        }
    }

    fn call(&mut self) {
        match self.random.below(64) {
            0..=11 => self.spawn(),
            12..=17 => self.despawn(),
            18..=29 => self.attach(),
            30..=35 => self.detach(),
            36..=41 => self.replace_both(),
            42..=46 => self.write(),
            47..=52 => self.look(),
            53 | 54 => self.walk(),
            55..=59 => self.join(),
            60 if self.random.one_of(2) => self.retain(),
            61 | 62 => self.copy(),
            63 => self.room(),
            _ => {}
        }
        self.look_at_all();
    }
}

#[test]
fn beside_a_vector() {
    each_seed("World", SEEDS, |random| {
        let world = World::with_key(Global).expect("memory");
        let mut beside = Beside { random, world, model: Vec::new(), issued: Issued::new() };
        for _ in 0..CALLS {
            beside.call();
        }
    });
}

#[test]
fn made_with_room() {
    type One = (SecondaryMap<DefaultKey, u64>, ());
    let world: World<DefaultKey, u64, One> = World::new(Global).expect("memory");
    assert!(world.is_empty());
    let world: World<DefaultKey, u64, One> = World::with_capacity(Global, 9).expect("memory");
    assert!(world.is_empty() && world.capacity() >= 9);
    let world: World<NodeKey, u64, Three> = World::with_capacity_and_key(Global, 9).expect("memory");
    assert!(world.is_empty() && world.capacity() >= 9);
    assert!(matches!(World::<DefaultKey, u64, ()>::with_capacity(Global, u32::MAX as usize), Err(ReserveError::TooGreat)));
}

/// A world of four tables, and one of none.
#[test]
fn other_tables() {
    let mut world: World<NodeKey, &str, (Dense, (Dense, (Dense, (Sparse, ()))))> = World::with_key(Global).expect("memory");
    let key = world.spawn_with::<Fourth>("four", 4).ok().expect("memory");
    assert_eq!((world.component::<Fourth>(key), world.has::<First>(key)), (Some(&4), false));
    assert_eq!(world.despawn(key), Some(("four", (None, (None, (None, (Some(4), ())))))));
    let mut world: World<DefaultKey, &str, ()> = World::new(Global).expect("memory");
    let key = world.spawn("none").ok().expect("memory");
    assert_eq!(world.despawn(key), Some(("none", ())));
}

/// The tables by themselves.
#[test]
fn tables() {
    let mut tables: Three = Tables::new(Global).expect("memory");
    let key = super::common::keys::key_of(3, 1);
    assert!(tables.0.insert(key, 1).is_ok() && tables.1 .0.insert(key, 2).is_ok());
    let mut copy = tables.clone_tables().expect("memory");
    assert_eq!(Tables::remove(&mut tables, key), (Some(1), (Some(2), (None, ()))));
    Tables::clear(&mut copy);
    assert_eq!(Tables::remove(&mut copy, key), (None, (None, (None, ()))));
}

#[test]
fn shown() {
    let mut world: World<NodeKey, &str, Three> = World::with_key(Global).expect("memory");
    let key = world.spawn_with::<First>("boat", 5).ok().expect("memory");
    let text = format!("{world:?}");
    assert!(text.contains(&format!("{key:?}: \"boat\"")) && text.contains(&format!("{key:?}: 5")), "{text}");
    assert!(SpawnError::Full(1, 2).to_string() != SpawnError::Memory(1, 2).to_string());
    assert!(AttachError::Gone(1).to_string() != AttachError::Memory(1).to_string());
}
