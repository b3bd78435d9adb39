//! Measures the calls of the archive beside the maps of the Rust crate, which are inlined here. See c-speed.sh. By default these are
//! the calls of the C interface.
//!
//!     c_speed                                     prints the least time of each operation, of many runs in turn
//!     c_speed SIDE OPERATION SLOTS LIVE ROUNDS    does so many rounds with so many live slots, for a count of instructions, and
//!                                                 prints how many calls a round makes. SIDE is `port` or `rust`

use std::time::Instant;

const OPERATIONS: [&str; 9] = [
    "insert",
    "the loop of a get alone",
    "get",
    "get of a stale key",
    "a removal and an insert",
    "a step of a walk",
    "put",
    "get of a side table",
    "put of a new key",
];
const SIZES: [usize; 2] = [1000, 100_000];

/// A map with n live keys and n stale ones, and a side table with the live ones.
trait Side {
    fn new(n: usize) -> Self;
    /// Leaves so many keys, by chance.
    fn thin(&mut self, live: usize);
    /// Does an operation once for each key, and returns a sum that the operation can't be left out for.
    fn round(&mut self, operation: &str) -> u64;
}

/// The same for a number and for that with its halves the other way round.
fn halves(number: u64) -> u64 {
    (number >> 32) ^ (number & 0xFFFF_FFFF)
}

/// The numbers from 0 to n - 1, shuffled.
fn order(n: usize) -> Vec<usize> {
    let mut all: Vec<usize> = (0..n).collect();
    let mut state = 0x9E37_79B9_7F4A_7C15_u64;
    for i in (1..n).rev() {
        state = state.wrapping_mul(6364136223846793005).wrapping_add(1442695040888963407);
        all.swap(i, (state >> 33) as usize % (i + 1));
    }
    all
}

#[path = "c_words.rs"]
mod port;

struct Port {
    map: port::SlotMap,
    side: port::Side,
    keys: Vec<u64>,
    stale: Vec<u64>,
    order: Vec<usize>,
}

impl Side for Port {
    fn new(n: usize) -> Port {
        let (mut map, mut side) = (port::SlotMap::new().unwrap(), port::Side::new().unwrap());
        let stale: Vec<u64> = (0..n as u64).map(|i| map.insert(i).unwrap()).collect();
        for key in &stale {
            map.remove(*key);
        }
        let keys: Vec<u64> = (0..n as u64).map(|i| map.insert(i).unwrap()).collect();
        keys.iter().for_each(|key| side.put(*key, 1).unwrap());
        Port { map, side, keys, stale, order: order(n) }
    }

    fn thin(&mut self, live: usize) {
        for at in &self.order[live..] {
            self.map.remove(self.keys[*at]);
        }
    }

    fn round(&mut self, operation: &str) -> u64 {
        let mut sum: u64 = 0;
        match operation {
            "insert" => {
                let mut map = port::SlotMap::new().unwrap();
                (0..self.keys.len() as u64).for_each(|i| sum += map.insert(i).unwrap());
            }
            "the loop of a get alone" => sum = halves(self.order.iter().fold(0, |all, at| all ^ self.keys[*at])),
            "get" => self.order.iter().for_each(|at| sum += self.map.get(self.keys[*at]).unwrap()),
            "get of a stale key" => self.order.iter().for_each(|at| sum += self.map.get(self.stale[*at]).unwrap_or(1)),
            "a removal and an insert" => {
                for at in &self.order {
                    sum += self.map.remove(self.keys[*at]).unwrap();
                    self.keys[*at] = self.map.insert(*at as u64).unwrap();
                }
            }
            "a step of a walk" => {
                let mut key = 0;
                while let Some((next, value)) = self.map.next_after(key) {
                    sum += value;
                    key = next;
                }
            }
            "a key of a list" => {
                let (mut last, mut keys, mut values) = (0, [0; 64], [0; 64]);
                loop {
                    let count = self.map.list_after(last, &mut keys, &mut values);
                    if count == 0 {
                        break;
                    }
                    sum += values[..count].iter().sum::<u64>();
                    last = keys[count - 1];
                }
            }
            "set" => self.order.iter().for_each(|at| sum += self.map.set(self.keys[*at], *at as u64).unwrap()),
            "put of a new key" => {
                let mut side = port::Side::new().unwrap();
                self.keys.iter().for_each(|key| side.put(*key, 1).unwrap());
            }
            "put" => self.order.iter().for_each(|at| self.side.put(self.keys[*at], *at as u64).unwrap()),
            _ => self.order.iter().for_each(|at| sum += self.side.get(self.keys[*at]).unwrap()),
        }
        sum
    }
}

/// A side over the maps of a crate that has the interface of slotmap.
macro_rules! side {
    ($name:ident, $of:ident) => {
        struct $name {
            map: $of::SlotMap<$of::DefaultKey, u64>,
            side: $of::SecondaryMap<$of::DefaultKey, u64>,
            keys: Vec<$of::DefaultKey>,
            stale: Vec<$of::DefaultKey>,
            order: Vec<usize>,
        }

        impl Side for $name {
            fn new(n: usize) -> Self {
                let (mut map, mut side) = ($of::SlotMap::new(), $of::SecondaryMap::new());
                let stale: Vec<_> = (0..n as u64).map(|i| map.insert(i)).collect();
                for key in &stale {
                    map.remove(*key);
                }
                let keys: Vec<_> = (0..n as u64).map(|i| map.insert(i)).collect();
                for key in &keys {
                    side.insert(*key, 1);
                }
                $name { map, side, keys, stale, order: order(n) }
            }

            fn thin(&mut self, live: usize) {
                for at in &self.order[live..] {
                    self.map.remove(self.keys[*at]);
                }
            }

            fn round(&mut self, operation: &str) -> u64 {
                let mut sum: u64 = 0;
                match operation {
                    "insert" => {
                        let mut map: $of::SlotMap<$of::DefaultKey, u64> = $of::SlotMap::new();
                        (0..self.keys.len() as u64).for_each(|i| sum += $of::Key::data(&map.insert(i)).as_ffi());
                    }
                    "the loop of a get alone" => {
                        // SAFETY: a key has two numbers of 4 bytes. So it is loaded as one of 8, as those of the C interface.
                        let number = |at: &usize| unsafe { std::mem::transmute::<_, u64>(self.keys[*at]) };
                        sum = halves(self.order.iter().fold(0, |all, at| all ^ number(at)));
                    }
                    "get" => self.order.iter().for_each(|at| sum += *self.map.get(self.keys[*at]).unwrap()),
                    "get of a stale key" => self.order.iter().for_each(|at| sum += *self.map.get(self.stale[*at]).unwrap_or(&1)),
                    "a removal and an insert" => {
                        for at in &self.order {
                            sum += self.map.remove(self.keys[*at]).unwrap();
                            self.keys[*at] = self.map.insert(*at as u64);
                        }
                    }
                    "a step of a walk" => self.map.iter().for_each(|(_, value)| sum += *value),
                    "put of a new key" => {
                        let mut side: $of::SecondaryMap<$of::DefaultKey, u64> = $of::SecondaryMap::new();
                        for key in &self.keys {
                            side.insert(*key, 1);
                        }
                    }
                    "put" => {
                        for at in &self.order {
                            self.side.insert(self.keys[*at], *at as u64);
                        }
                    }
                    _ => self.order.iter().for_each(|at| sum += *self.side.get(self.keys[*at]).unwrap()),
                }
                sum
            }
        }
    };
}

side!(Rust, slotmap);

/// The least times of a round on both sides, in turn, in nanoseconds for one call.
fn times(operation: &str, n: usize) -> (f64, f64) {
    let (mut port, mut rust) = (Port::new(n), Rust::new(n));
    let (mut least_port, mut least_rust) = (f64::MAX, f64::MAX);
    for _ in 0..(4_000_000 / n).clamp(20, 1000) {
        let start = Instant::now();
        let a = port.round(operation);
        least_port = least_port.min(start.elapsed().as_nanos() as f64 / n as f64);
        let start = Instant::now();
        let b = rust.round(operation);
        least_rust = least_rust.min(start.elapsed().as_nanos() as f64 / n as f64);
        assert_eq!(a, b, "{operation} at {n}");
    }
    (least_port, least_rust)
}

/// Does so many rounds, and prints what they add up to.
fn run<S: Side>(operation: &str, [n, live, rounds]: [usize; 3]) {
    let mut side = S::new(n);
    side.thin(live);
    let sum = (0..rounds).fold(0, |sum: u64, _| sum.wrapping_add(side.round(operation)));
    println!("{live} calls, sum {sum}");
}

fn main() {
    let words: Vec<String> = std::env::args().skip(1).collect();
    if let [side, operation, slots, live, rounds] = &words[..] {
        let numbers = [slots, live, rounds].map(|it| it.parse::<usize>().expect("a number"));
        return if side == "port" { run::<Port>(operation, numbers) } else { run::<Rust>(operation, numbers) };
    }
    for n in SIZES {
        for operation in OPERATIONS {
            let (port, rust) = times(operation, n);
            println!("{operation}\t{n}\t{port:.1}\t{rust:.1}");
        }
    }
}
