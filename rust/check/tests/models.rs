//! Random calls of each map and each structure beside a simple model: each result, its order and each error is compared.
//!
//! The seeds are fixed. A run that fails prints its seed.

mod common;
#[path = "models/list.rs"]
mod list;
#[path = "models/lists.rs"]
mod lists;
#[path = "models/graph.rs"]
mod graph;
#[path = "models/paths.rs"]
mod paths;
#[path = "models/scheduler.rs"]
mod scheduler;
#[path = "models/scene.rs"]
mod scene;
#[path = "models/world.rs"]
mod world;
#[path = "models/primary.rs"]
mod primary;
#[path = "models/side.rs"]
mod side;
#[path = "models/proved.rs"]
mod proved;
