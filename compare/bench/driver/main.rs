//! Runs one operation of one map, of the Rust crate slotmap or of the port's library that is linked in.
//!
//!     driver sum SIDE MAP OPERATION N ROUNDS     prints the checksum; callgrind counts this
//!     driver time SIDE MAP OPERATION N MS        prints the nanoseconds of processor time of one round
//!     driver once SIDE MAP OPERATION N 1         prints the nanoseconds of the first round of a process
//!     driver faults SIDE MAP OPERATION N ROUNDS  prints the checksum and the page faults
//!     driver peak SIDE MAP OPERATION N ROUNDS    prints the checksum and the greatest resident size in bytes
//!
//! SIDE is `rust` or `port`; MAP and OPERATION are the numbers of operations.py. A run sets up its operation at N keys once,
//! and does ROUNDS rounds of it. So what one round costs is the difference of two runs, without set-up and start.

mod clock;
#[cfg(maps)]
mod columns;
#[cfg(maps)]
mod folded;
mod graph;
mod list;
mod lists;
mod operations;
mod ordered;
mod paths;
#[cfg(maps)]
mod primary;
mod scene;
mod scheduler;
#[cfg(maps)]
mod secondary;
mod shuffler;
#[cfg(petgraph)]
mod stable;
mod stamped;
#[cfg(maps)]
mod stepped;
mod value;
#[cfg(maps)]
mod valued;
mod world;

use operations::{Graph, List, Lists, Paths, Scene, Scheduler, World};
#[cfg(maps)]
use operations::{Primary, Secondary, Stepped};
use std::hint::black_box;
use std::process::ExitCode;

/// No checksum is this one: memory ran out, or there is no such operation.
const NONE: u64 = u64::MAX;

unsafe extern "C" {
    // The port's library. Its parameter for the allocator takes no room.
    fn port_bench(map: u32, operation: u32, n: u64, rounds: u64) -> u64;
}

/// The crate's maps, and the models beside which the port's maps are measured.
#[cfg(maps)]
fn of_maps(map: u32, operation: u32, n: u64, rounds: u64) -> Option<u64> {
    let primary = Primary::of_number(operation);
    let secondary = Secondary::of_number(operation);
    match map {
        0 => primary::basic::workload(primary?, n, rounds),
        1 => primary::dense::workload(primary?, n, rounds),
        2 => primary::hop::workload(primary?, n, rounds),
        3 => Some(secondary::plain::workload(secondary?, n, rounds)),
        4 => Some(secondary::sparse::workload(secondary?, n, rounds)),
        5 => Some(secondary::folded::workload(secondary?, n, rounds)),
        6 => valued::basic::workload(operation, n, rounds),
        7 => valued::dense::workload(operation, n, rounds),
        8 => valued::hop::workload(operation, n, rounds),
        9 => Some(stepped::workload(Stepped::of_number(operation)?, n, rounds)),
        14 => columns::workload(primary?, n, rounds),
        _ => None,
    }
}

/// A driver that is built for structures alone has no maps.
#[cfg(not(maps))]
fn of_maps(_map: u32, _operation: u32, _n: u64, _rounds: u64) -> Option<u64> {
    None
}

fn rust_bench(map: u32, operation: u32, n: u64, rounds: u64) -> Option<u64> {
    match map {
        10 => Some(list::workload(List::of_number(operation)?, n, rounds)),
        11 => Some(graph::workload(Graph::of_number(operation)?, n, rounds)),
        12 => Some(scene::workload(Scene::of_number(operation)?, n, rounds)),
        13 => Some(scheduler::workload(Scheduler::of_number(operation)?, n, rounds)),
        15 => world::workload(World::of_number(operation)?, n, rounds),
        16 => Some(ordered::workload(Graph::of_number(operation)?, n, rounds)),
        #[cfg(petgraph)]
        17 => Some(stable::workload(Graph::of_number(operation)?, n, rounds)),
        18 => Some(stamped::workload(Scene::of_number(operation)?, n, rounds)),
        19 => Some(lists::workload(Lists::of_number(operation)?, n, rounds)),
        20 => Some(paths::workload(Paths::of_number(operation)?, n, rounds)),
        _ => of_maps(map, operation, n, rounds),
    }
}

/// One operation of one map, and how many keys it has.
struct Work {
    is_port: bool,
    map: u32,
    operation: u32,
    n: u64,
}

impl Work {
    fn of_words(words: &[String]) -> Option<Work> {
        let is_port = match words[0].as_str() {
            "port" => true,
            "rust" => false,
            _ => return None,
        };
        let map = words[1].parse().ok()?;
        let operation = words[2].parse().ok()?;
        Some(Work { is_port, map, operation, n: words[3].parse().ok()? })
    }

    fn sum(&self, rounds: u64) -> u64 {
        let (map, operation) = (black_box(self.map), black_box(self.operation));
        let (n, rounds) = (black_box(self.n), black_box(rounds));
        if self.is_port {
            // The port has one sparse map and one `SlotMap`. The sparse map is compared with two of the crate's, which differ in
            // their hashers, and the `SlotMap` with the crate's and with a model of its layout. Its graph and its scene are
            // compared with several others.
            let map = match map {
                5 => 4,
                14 => 0,
                16 | 17 => 11,
                18 => 12,
                _ => map,
            };
            // SAFETY: the function takes any numbers.
            unsafe { port_bench(map, operation, n, rounds) }
        } else {
            rust_bench(map, operation, n, rounds).unwrap_or(NONE)
        }
    }

    /// The least time in nanoseconds that some calls took.
    fn least_time(&self, rounds: u64, calls: u32) -> f64 {
        let time = |_| {
            let start = clock::thread_time();
            black_box(self.sum(rounds));
            clock::thread_time() - start
        };
        (0..calls).map(time).fold(f64::INFINITY, f64::min)
    }

    /// The time of one round. There are as many rounds as take `ms` milliseconds and half as long as the set-up.
    fn time_of_round(&self, ms: f64) -> f64 {
        const CALLS: u32 = 3;
        let once = self.least_time(1, CALLS);
        let enough = (ms * 1e6).max(once / 2.0);
        let mut more = 1;
        while self.least_time(1 + more, 1) - once < enough && more < 1 << 30 {
            more *= 2;
        }
        (self.least_time(1 + more, CALLS) - once) / more as f64
    }
}

fn run(words: &[String]) -> Option<String> {
    let (mode, rest) = words.split_first()?;
    if rest.len() != 5 {
        return None;
    }
    let work = Work::of_words(rest)?;
    let last = &rest[4];
    Some(match mode.as_str() {
        "sum" => work.sum(last.parse().ok()?).to_string(),
        "time" => format!("{:.1}", work.time_of_round(last.parse().ok()?)),
        "once" => format!("{:.1}", work.least_time(1, 1)),
        "faults" => {
            let before = clock::page_faults()?;
            let sum = work.sum(last.parse().ok()?);
            format!("{sum} {}", clock::page_faults()? - before)
        }
        "peak" => {
            clock::map_large_blocks();
            let sum = work.sum(last.parse().ok()?);
            format!("{sum} {}", clock::greatest_resident_size()?)
        }
        _ => return None,
    })
}

fn main() -> ExitCode {
    let words: Vec<String> = std::env::args().skip(1).collect();
    match run(&words) {
        Some(text) => {
            println!("{text}");
            ExitCode::SUCCESS
        }
        None => {
            eprintln!("usage: driver sum|time|once|faults|peak SIDE MAP OPERATION N ROUNDS|MS");
            ExitCode::from(2)
        }
    }
}
