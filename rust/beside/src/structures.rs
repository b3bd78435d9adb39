//! `structures WHOSE NAME N ROUNDS OPERATION ..`: work on a structure with N elements, and a checksum. See structures.py, which writes the
//! other files. Callgrind counts each operation twice, without rounds and with them.
#[allow(dead_code)]
mod clock;
mod graph;
mod list;
mod lists;
mod operations;
mod paths;
mod scene;
mod scheduler;
mod shuffler;
mod stable;
mod value;
mod world;

/// The work over this crate.
mod ours {
    pub mod graph;
    pub mod list;
    pub mod lists;
    pub mod paths;
    pub mod scene;
    pub mod scheduler;
    pub mod world;
}

fn workload(whose: &str, name: &str, operation: &str, n: u64, rounds: u64) -> Option<u64> {
    include!("calls.rs")
}

fn main() {
    let words: Vec<String> = std::env::args().collect();
    let [_, whose, name, n, rounds, operations @ ..] = &words[..] else { panic!("WHOSE NAME N ROUNDS OPERATION ..") };
    let (n, rounds) = (n.parse().unwrap(), rounds.parse().unwrap());
    for operation in operations {
        let work = |rounds| workload(whose, name, operation, n, rounds).unwrap_or_else(|| panic!("{name} {operation} fails"));
        work(rounds);
        let mut sum = 0;
        clock::count(|| sum = work(0));
        clock::count(|| sum = work(rounds));
        println!("{operation} {sum}");
    }
}
