//! Memory: what a call does when it is refused. That a call within its room asks for none is the test `room`.

mod common;
#[path = "memory/refused.rs"]
mod refused;
#[path = "memory/refused_maps.rs"]
mod refused_maps;
#[path = "memory/refused_runs.rs"]
mod refused_runs;
#[path = "memory/refused_structures.rs"]
mod refused_structures;
#[path = "memory/watching.rs"]
mod watching;

#[global_allocator]
static ALLOCATOR: watching::Watching = watching::Watching;
