//! The calls of the structures at 1,000, at 100,000 and at 1,000,000 elements: counts and sums of what they return.
//!
//! What they have to be is in the files `at_size/SIZE.txt`. `python3 expected.py SIZE >SIZE.txt` there writes them, from a model of its own in
//! plain Python. So a call that gives up above some number of elements is seen, which no contract forbids: memory may run out at any time.

#[path = "at_size/graph.rs"]
mod graph;
#[path = "at_size/list.rs"]
mod list;
#[path = "at_size/lists.rs"]
mod lists;
#[path = "at_size/paths.rs"]
mod paths;
#[path = "at_size/random.rs"]
mod random;
#[path = "at_size/scene.rs"]
mod scene;
#[path = "at_size/scheduler.rs"]
mod scheduler;
#[path = "at_size/sums.rs"]
mod sums;
#[path = "at_size/world.rs"]
mod world;

use std::collections::BTreeMap;
use std::path::Path;
use sums::Report;

/// The sections of what the model says, by their names: each begins with a line of its name, after one space.
fn sections(size: u64) -> BTreeMap<String, String> {
    let path = Path::new(env!("CARGO_MANIFEST_DIR")).join(format!("tests/at_size/{size}.txt"));
    let text = std::fs::read_to_string(&path).unwrap_or_else(|error| panic!("{}: {error}", path.display()));
    let (head, text) = text.split_once('\n').expect("lines");
    assert_eq!(head, format!("{size} elements"));
    let (mut found, mut name) = (BTreeMap::new(), String::new());
    for line in text.split_inclusive('\n') {
        if !line.starts_with("  ") {
            name = line.trim().to_string();
        }
        *found.entry(name.clone()).or_default() += line;
    }
    found
}

/// Fails at the first line that differs.
fn assert_same(name: &str, size: u64, run: fn(u64) -> Report) {
    let (printed, wanted) = (run(size).text, sections(size).remove(name).expect("a section"));
    for (is, must) in printed.lines().zip(wanted.lines()) {
        assert_eq!(is, must, "{name} at {size}");
    }
    assert_eq!(printed.lines().count(), wanted.lines().count(), "{name} at {size}: lines");
}

/// Each section is a test of its own at each size.
macro_rules! sections {
    ($($name:ident: $run:path;)*) => {
        const NAMES: &[&str] = &[$(stringify!($name)),*];

        $(mod $name {
            #[test]
            fn at_a_thousand() {
                super::super::assert_same(stringify!($name), 1_000, $run);
            }

            #[test]
            fn at_a_hundred_thousand() {
                super::super::assert_same(stringify!($name), 100_000, $run);
            }

            #[test]
            fn at_a_million() {
                super::super::assert_same(stringify!($name), 1_000_000, $run);
            }
        })*
    };
}

mod calls {
    sections! {
        list: crate::list::run;
        lists: crate::lists::run;
        graph: crate::graph::run;
        routes: crate::paths::run_routes;
        searches: crate::paths::run_searches;
        scene: crate::scene::run;
        scheduler: crate::scheduler::run;
        world: crate::world::run;
    }

    /// No section of the model is left out, at any size.
    #[test]
    fn sections() {
        for size in [1_000, 100_000, 1_000_000] {
            let (mut names, mut found): (Vec<&str>, _) = (NAMES.to_vec(), super::sections(size));
            names.sort_unstable();
            assert_eq!(found.keys().map(String::as_str).collect::<Vec<_>>(), names);
            found.clear();
        }
    }
}
