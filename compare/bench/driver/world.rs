//! Entities as places in two vectors, one for their values and one for their components. A place doesn't tell whether its entity
//! was replaced, as a key of the port does. The operations are those of port/world.template.

use crate::operations::World as Operation;
use crate::shuffler::Shuffler;
use crate::value::Sum;

#[derive(Default)]
struct World {
    values: Vec<Option<u64>>,
    components: Vec<Option<u64>>,
    vacant: Vec<u32>,
    len: u64,
}

impl World {
    fn spawn(&mut self, value: u64) -> u32 {
        let place = self.vacant.pop().unwrap_or_else(|| {
            self.values.push(None);
            self.components.push(None);
            self.values.len() as u32 - 1
        });
        self.values[place as usize] = Some(value);
        self.len += 1;
        place
    }

    fn attach(&mut self, place: u32, component: u64) {
        self.components[place as usize] = Some(component);
    }

    fn despawn(&mut self, place: u32) -> Option<(u64, Option<u64>)> {
        let value = self.values[place as usize].take()?;
        self.vacant.push(place);
        self.len -= 1;
        Some((value, self.components[place as usize].take()))
    }

    /// A place, and its component.
    fn with(&self) -> impl Iterator<Item = (usize, &u64)> {
        self.components.iter().enumerate().filter_map(|(place, component)| Some((place, component.as_ref()?)))
    }
}

fn spawn(world: &mut World, i: u64) -> u32 {
    let place = world.spawn(i);
    if i % 2 == 0 {
        world.attach(place, i);
    }
    place
}

fn build(n: u64) -> u64 {
    let mut world = World::default();
    for i in 0..n {
        spawn(&mut world, i);
    }
    world.len
}

fn read(world: &World, places: &[u32]) -> u64 {
    let mut sum = Sum::default();
    for place in places {
        sum.add(world.components[*place as usize].unwrap_or(1));
    }
    sum.0
}

fn join(world: &World) -> u64 {
    let mut sum = Sum::default();
    for (_, component) in world.with() {
        sum.add(*component);
    }
    sum.0
}

fn churn(world: &mut World, places: &mut [u32]) -> Option<u64> {
    let mut sum = Sum::default();
    for at in places {
        let (value, component) = world.despawn(*at)?;
        sum.add(value);
        *at = world.spawn(value.wrapping_add(1));
        if let Some(component) = component {
            world.attach(*at, component.wrapping_add(1));
        }
    }
    Some(sum.0)
}

pub fn workload(operation: Operation, n: u64, rounds: u64) -> Option<u64> {
    let mut world = World::default();
    let mut places: Vec<u32> = (0..n).map(|i| spawn(&mut world, i)).collect();
    Shuffler::new().shuffle(&mut places);
    let mut sum = Sum::default();
    for _ in 0..rounds {
        sum.add(match operation {
            Operation::Build => build(n),
            Operation::Read => read(&world, &places),
            Operation::Join => join(&world),
            Operation::Churn => churn(&mut world, &mut places)?,
        });
    }
    Some(sum.0)
}
