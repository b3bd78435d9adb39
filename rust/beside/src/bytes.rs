//! `bytes KEYS`: how many bytes a key takes in each map of both crates, with values of 8 and of 32 bytes.
//!
//! A line for each map and size: its name, the size, and what is allocated after so many inserts, a key, of ours and of theirs.
use std::alloc::{GlobalAlloc, Layout, System};
use std::sync::atomic::{AtomicUsize, Ordering::Relaxed};

static ALLOCATED: AtomicUsize = AtomicUsize::new(0);

/// Counts the bytes that are allocated.
struct Counted;

// It hands each call on.
unsafe impl GlobalAlloc for Counted {
    unsafe fn alloc(&self, layout: Layout) -> *mut u8 {
        ALLOCATED.fetch_add(layout.size(), Relaxed);
        System.alloc(layout)
    }

    unsafe fn dealloc(&self, place: *mut u8, layout: Layout) {
        ALLOCATED.fetch_sub(layout.size(), Relaxed);
        System.dealloc(place, layout);
    }
}

#[global_allocator]
static COUNTED: Counted = Counted;

/// The bytes a key of what is made.
fn bytes_of<M>(keys: usize, make: impl FnOnce() -> M) -> f64 {
    let before = ALLOCATED.load(Relaxed);
    let made = make();
    let bytes = ALLOCATED.load(Relaxed) - before;
    drop(made);
    bytes as f64 / keys as f64
}

macro_rules! primary {
    ($library:ident, $map:ident, $keys:expr, $value:expr) => {
        bytes_of($keys, || {
            let mut map = $library::$map::new();
            (0..$keys).for_each(|_| drop(map.insert($value)));
            map
        })
    };
}

macro_rules! side {
    ($library:ident, $map:ident, $keys:expr, $value:expr) => {{
        let mut primary = $library::SlotMap::new();
        let keys: Vec<$library::DefaultKey> = (0..$keys).map(|_| primary.insert(())).collect();
        bytes_of($keys, || {
            let mut map = $library::$map::new();
            keys.iter().for_each(|key| drop(map.insert(*key, $value)));
            map
        })
    }};
}

macro_rules! lines {
    ($kind:ident, $name:literal, $map:ident, $keys:expr) => {
        let (ours, theirs) = ($kind!(slotmap_proved, $map, $keys, 0u64), $kind!(slotmap, $map, $keys, 0u64));
        println!("{} 8 {ours:.1} {theirs:.1}", $name);
        let (ours, theirs) = ($kind!(slotmap_proved, $map, $keys, [0u64; 4]), $kind!(slotmap, $map, $keys, [0u64; 4]));
        println!("{} 32 {ours:.1} {theirs:.1}", $name);
    };
}

#[allow(deprecated)]
fn main() {
    let keys: usize = std::env::args().nth(1).expect("KEYS").parse().expect("a number");
    lines!(primary, "basic", SlotMap, keys);
    lines!(primary, "dense", DenseSlotMap, keys);
    lines!(primary, "hop", HopSlotMap, keys);
    lines!(side, "secondary", SecondaryMap, keys);
    lines!(side, "sparse", SparseSecondaryMap, keys);
}
