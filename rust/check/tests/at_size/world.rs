//! Worlds of numbers, with numbers as components: in a `SecondaryMap`, and in a `SparseSecondaryMap`.

use super::random::Random;
use super::sums::{add_within, increment, Report, Sum};
use slotmap_proved::entities::{First, Kind, Second, Table, Tables, Third, World};
use slotmap_proved::errors::ReserveError;
use slotmap_proved::fallible::{SecondaryMap, SparseSecondaryMap};
use slotmap_proved::{DefaultKey, Global};

type Dense = SecondaryMap<DefaultKey, u64>;
type Sparse = SparseSecondaryMap<DefaultKey, u64>;
type OfTwo = (Dense, (Sparse, ()));
type OfThree = (Dense, (Sparse, (Dense, ())));
type Numbers<T> = World<DefaultKey, u64, T>;

/// Spawns the numbers below `count`. The even ones have a first component: the number, twice.
fn spawn_all(world: &mut Numbers<OfTwo>, count: u64) -> Vec<DefaultKey> {
    let spawn = |number| match number % 2 {
        0 => world.spawn_with::<First>(number, number * 2).expect("memory"),
        _ => world.spawn(number).expect("memory"),
    };
    (0..count).map(spawn).collect()
}

/// The entities with a component of a kind, in packed order, each before the component.
fn sum_with<T, C>(world: &Numbers<T>) -> Sum
where
    T: Tables<DefaultKey>,
    C: Kind<DefaultKey, T>,
    C::Table: Table<DefaultKey, Component = u64>,
{
    let mut sum = Sum::new();
    for (key, component) in world.with::<C>() {
        sum.add_found(world.get(key));
        sum.add(*component);
    }
    sum
}

/// The same with components of both kinds.
fn sum_with_both(world: &Numbers<OfTwo>) -> Sum {
    let mut sum = Sum::new();
    for (key, first, second) in world.with_both::<First, Second>() {
        sum.add_found(world.get(key));
        sum.extend([*first, *second]);
    }
    sum
}

/// All entities and their components.
fn tell_all(report: &mut Report, world: &Numbers<OfTwo>) {
    report.tell_all("entities", world.values().copied());
    report.tell("first components", sum_with::<_, First>(world));
    report.tell("second components", sum_with::<_, Second>(world));
    report.tell("both", sum_with_both(world));
}

/// The entities that have components of both kinds, each before the components, the first one twice.
fn sum_with_three(world: &Numbers<OfTwo>) -> Sum {
    let mut sum = Sum::new();
    for (key, first, second, third) in world.with_three::<First, Second, First>() {
        sum.add_found(world.get(key));
        sum.extend([*first, *second, *third]);
    }
    sum
}

/// The entities that have a second component and no first one, each before the component.
fn sum_with_without(world: &Numbers<OfTwo>) -> Sum {
    let mut sum = Sum::new();
    for (key, second) in world.with_without::<Second, First>() {
        sum.add_found(world.get(key));
        sum.add(*second);
    }
    sum
}

/// The entities that have a first component, each before the component, and before the second one if it has one.
fn sum_with_optional(world: &Numbers<OfTwo>) -> Sum {
    let mut sum = Sum::new();
    for (key, first, second) in world.with_optional::<First, Second>() {
        sum.add_found(world.get(key));
        sum.add(*first);
        sum.extend(second.copied());
    }
    sum
}

/// How many entities each iterator yields.
fn sum_of_lengths(world: &Numbers<OfTwo>) -> Sum {
    let (mut sum, most) = (Sum::new(), world.len());
    add_within(&mut sum, world.with::<First>(), most);
    add_within(&mut sum, world.with_both::<First, Second>(), most);
    add_within(&mut sum, world.with_three::<First, Second, First>(), most);
    add_within(&mut sum, world.with_without::<Second, First>(), most);
    add_within(&mut sum, world.with_optional::<First, Second>(), most);
    sum
}

/// Adds the second component of each entity that has both to its first one, by the positions of the keys.
fn add_second_to_first(world: &mut Numbers<OfTwo>) {
    for at in 0..world.len() {
        let key = world.keys_as_slice()[at];
        if let Some((first, second)) = world.both::<First, Second>(key) {
            let next = first + second;
            *world.component_mut::<First>(key).expect("a component") = next;
        }
    }
}

/// The joins, and a loop that writes components on the way.
fn look_around(report: &mut Report, world: &mut Numbers<OfTwo>) {
    report.tell("three", sum_with_three(world));
    report.tell("without the first", sum_with_without(world));
    report.tell("perhaps the second", sum_with_optional(world));
    report.tell("lengths", sum_of_lengths(world));
    add_second_to_first(world);
    report.tell("moved", sum_with::<_, First>(world));
}

/// The numbers by their keys, in packed order, and then by each other way to go over them.
fn sum_of_entities(world: &Numbers<OfTwo>) -> Sum {
    let mut sum = Sum::new();
    world.keys().for_each(|key| sum.add_found(world.get(key)));
    for (key, number) in world.iter() {
        assert!(world.contains_key(key));
        sum.extend([world[key], *number]);
    }
    for (_, number) in world {
        sum.add(*number);
    }
    sum
}

/// Which of these entities have a component of a kind, by the world and by its table, and each such component.
fn sum_of_components<C>(world: &Numbers<OfTwo>, keys: &[DefaultKey]) -> Sum
where
    C: Kind<DefaultKey, OfTwo>,
    C::Table: Table<DefaultKey, Component = u64>,
{
    let mut sum = Sum::new();
    for key in keys {
        sum.add_if(world.has::<C>(*key));
        sum.add_if(C::table(world.tables()).contains_key(*key));
        sum.extend(world.component::<C>(*key).copied());
    }
    sum
}

/// Writes and looks up by keys.
fn look_up(report: &mut Report, world: &mut Numbers<OfTwo>, keys: &[DefaultKey]) {
    keys.iter().for_each(|key| increment(world.get_mut(*key)));
    report.tell("by keys", sum_of_entities(world));
    report.tell_all("live", keys.iter().map(|key| u64::from(world.contains_key(*key))));
    report.tell("first by key", sum_of_components::<First>(world, keys));
    report.tell("second by key", sum_of_components::<Second>(world, keys));
}

/// Makes entities with their components. Each whose number is divisible by 3 gets a second one: the number, three times. The first kind
/// refuses an index beyond the last one, and the second kind a count, beside what is there.
fn fill(report: &mut Report, world: &mut Numbers<OfTwo>, size: u64) -> Vec<DefaultKey> {
    let keys = spawn_all(world, size);
    world.reserve_components::<Second>(size as usize, size as usize).expect("memory");
    for key in &keys {
        let number = world[*key];
        if number % 3 == 0 {
            world.attach::<Second>(*key, number * 3).expect("memory");
        }
    }
    assert!(matches!(world.reserve_components::<First>(0, 4294967295), Err(ReserveError::TooGreat)));
    assert!(matches!(world.reserve_components::<Second>(4294967295, 0), Err(ReserveError::TooGreat)));
    tell_all(report, world);
    let both = keys.iter().filter_map(|key| world.both::<First, Second>(*key));
    report.tell_all("by key", both.flat_map(|(first, second)| [*first, *second]));
    keys
}

/// Removes entities and components.
fn change(report: &mut Report, world: &mut Numbers<OfTwo>, keys: &[DefaultKey], random: &mut Random) {
    let mut despawned = Sum::new();
    for _ in 0..keys.len() / 2 {
        if let Some((number, (first, (second, ())))) = world.despawn(random.pick(keys)) {
            despawned.add(number);
            despawned.extend(first.into_iter().chain(second));
        }
    }
    report.tell("despawned", despawned);
    report.tell_all("detached", (0..keys.len() / 2).filter_map(|_| world.detach::<Second>(random.pick(keys))));
    keys.iter().for_each(|key| increment(world.component_mut::<First>(*key)));
    world.retain_components::<First, _>(|_, component| *component % 4 != 0);
    world.retain_components::<Second, _>(|_, component| *component % 4 != 0);
}

/// Adds 1 to both components of each entity that has both. The sum is of those that were there. An entity that lacks one of them is refused
/// others.
fn replace_all(world: &mut Numbers<OfTwo>, keys: &[DefaultKey]) -> Sum {
    let mut sum = Sum::new();
    for key in keys {
        if let Some((first, second)) = world.both::<First, Second>(*key) {
            let (first, second) = (first + 1, second + 1);
            let (first, second) = world.replace_both::<First, Second>(*key, first, second).expect("it has both");
            sum.extend([first, second]);
        } else {
            sum.add_if(world.replace_both::<First, Second>(*key, 1, 2) == Err((1, 2)));
        }
    }
    sum
}

/// Makes one more entity, and others with both components, twice and three times the number, and replaces those.
fn grow(report: &mut Report, world: &mut Numbers<OfTwo>, keys: &mut Vec<DefaultKey>, size: u64) {
    world.reserve(size as usize).expect("memory");
    assert!(world.capacity() >= size as usize);
    keys.push(world.spawn(size).expect("memory"));
    for number in size + 1..=size + size / 2 {
        keys.push(world.spawn_with_both::<First, Second>(number, number * 2, number * 3).expect("memory"));
    }
    report.tell("replaced", replace_all(world, keys));
}

/// Makes a world in each way: an empty one, with room for so many entities.
fn make_all(room: usize) {
    let made = [
        (World::new(Global), 0),
        (World::with_key(Global), 0),
        (World::with_capacity(Global, room), room),
        (World::with_capacity_and_key(Global, room), room),
    ];
    for (world, room) in made {
        let world: Numbers<OfTwo> = world.expect("memory");
        assert!(world.is_empty() && world.capacity() >= room);
    }
}

/// The entities that have components of three kinds, in packed order, each before the components.
fn sum_of_three(world: &Numbers<OfThree>) -> Sum {
    let mut sum = Sum::new();
    for (key, third, first, second) in world.with_three::<Third, First, Second>() {
        sum.add_found(world.get(key));
        sum.extend([*third, *first, *second]);
    }
    sum
}

/// A world whose entities are spawned with components of three kinds: twice, three and four times the number.
fn run_of_three(report: &mut Report, size: u64) {
    let mut world: Numbers<OfThree> = World::new(Global).expect("memory");
    let mut keys = Vec::new();
    for number in 0..size {
        let made = world.spawn_with_three::<Third, First, Second>(number, number * 2, number * 3, number * 4);
        keys.push(made.expect("memory"));
    }
    report.tell("of three kinds", sum_of_three(&world));
    report.tell_all("taken off", keys.iter().step_by(2).filter_map(|key| world.detach::<First>(*key)));
    report.tell("of those left", sum_of_three(&world));
}

/// The calls of a world that may ask for memory or go over all elements.
pub fn run(size: u64) -> Report {
    let mut report = Report::of("world");
    make_all(size as usize);
    let mut world = World::with_capacity(Global, size as usize).expect("memory");
    let mut keys = fill(&mut report, &mut world, size);
    change(&mut report, &mut world, &keys, &mut Random::new(6));
    look_around(&mut report, &mut world);
    look_up(&mut report, &mut world, &keys);
    grow(&mut report, &mut world, &mut keys, size);
    let copy = world.clone().expect("memory");
    world.clear();
    assert!(world.is_empty());
    tell_all(&mut report, &world);
    tell_all(&mut report, &copy);
    run_of_three(&mut report, size);
    report
}
