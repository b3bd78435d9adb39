//! Room: what each public call asks the allocator for. No call is left out: `room.py` compares the names of the rows with those of the
//! public calls.
//!
//! A row that may ask for nothing is made within its room, at 1,000 elements and at 100,000, once for each element or, if the call goes over
//! all of them, once. The requests of all threads' calls are counted, each thread's by itself, and there must be none. A row that may ask says
//! for what, and at most how often; it must ask at least once. In the turns of `turns.rs` the calls come one after the other.

mod common;
#[macro_use]
#[path = "room/table.rs"]
mod table;
#[macro_use]
#[path = "room/steps.rs"]
mod steps;
#[path = "room/entries.rs"]
mod entries;
#[path = "room/graph.rs"]
mod graph;
#[path = "room/list.rs"]
mod list;
#[path = "room/lists.rs"]
mod lists;
#[path = "room/paths.rs"]
mod paths;
#[path = "room/primary.rs"]
mod primary;
#[path = "room/primary_steps.rs"]
mod primary_steps;
#[path = "room/runs.rs"]
mod runs;
#[path = "room/scene.rs"]
mod scene;
#[path = "room/scheduler.rs"]
mod scheduler;
#[path = "room/side.rs"]
mod side;
#[path = "room/side_steps.rs"]
mod side_steps;
#[path = "room/turns.rs"]
mod turns;
#[path = "memory/watching.rs"]
mod watching;
#[path = "room/world.rs"]
mod world;

#[global_allocator]
static ALLOCATOR: watching::Watching = watching::Watching;

/// Each row's name, and what it may ask for: room.py reads this.
#[test]
fn names() {
    let tables = [
        primary::all(),
        primary_steps::all(),
        side::all(),
        side_steps::all(),
        entries::all(),
        list::all(),
        lists::all(),
        graph::all(),
        paths::all(),
        scene::all(),
        world::all(),
        scheduler::all(),
        runs::all(),
    ];
    for entry in tables.iter().flatten().flatten() {
        println!("row {} {}", entry.name, entry.asks);
        assert!(entry.names_its_call(), "{} isn't the call of its row: {}", entry.name, entry.text);
    }
}
