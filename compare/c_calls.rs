//! Random calls on maps and side tables of the archive, through the C interface, and on a `SlotMap` and a `SecondaryMap` of the
//! Rust crate: each result is compared. See c-calls.sh.

#[path = "c_words.rs"]
mod port;

use slotmap::{DefaultKey, Key, KeyData, SecondaryMap, SlotMap};
use std::panic::{AssertUnwindSafe, catch_unwind};

/// A random number generator: xorshift64*.
struct Random(u64);

impl Random {
    fn next(&mut self) -> u64 {
        self.0 ^= self.0 >> 12;
        self.0 ^= self.0 << 25;
        self.0 ^= self.0 >> 27;
        self.0.wrapping_mul(0x2545_F491_4F6C_DD1D)
    }

    fn below(&mut self, bound: usize) -> usize {
        (self.next() % bound as u64) as usize
    }
}

fn key(number: u64) -> DefaultKey {
    DefaultKey::from(KeyData::from_ffi(number))
}

fn number(key: DefaultKey) -> u64 {
    key.data().as_ffi()
}

struct Both {
    port: port::SlotMap,
    rust: SlotMap<DefaultKey, u64>,
    random: Random,
    // Keys that were returned, and those of them that are detached now.
    known: Vec<u64>,
    detached: Vec<u64>,
    // How many keys may be live.
    most: usize,
}

impl Both {
    fn new(seed: u64) -> Both {
        let mut random = Random(seed.wrapping_mul(0x9E37_79B9_7F4A_7C15) | 1);
        let most = [4, 40, 400, 4000][random.below(4)];
        let port = port::SlotMap::new().unwrap();
        Both { port, rust: SlotMap::new(), random, known: vec![0], detached: Vec::new(), most }
    }

    /// A key of this map, live or stale, most often one of the last; or any number, often one near to such a key.
    fn some_key(&mut self) -> u64 {
        let recent = self.known.len().min(2 * self.most);
        let known = self.known[self.known.len() - 1 - self.random.below(recent)];
        match self.random.below(16) {
            0 => self.random.next(),
            1 => known ^ (1 << self.random.below(64)),
            2 => self.known[self.random.below(self.known.len())],
            _ => known,
        }
    }

    fn insert(&mut self) {
        let value = self.random.next();
        let made = self.port.insert(value).unwrap();
        assert_eq!(made, number(self.rust.insert(value)), "insert");
        self.known.push(made);
    }

    fn detach(&mut self) {
        let at = self.some_key();
        let value = self.port.detach(at);
        assert_eq!(value, self.rust.detach(key(at)), "detach {at:#x}");
        if value.is_some() {
            self.detached.push(number(key(at)));
        }
    }

    /// The crate panics where the key isn't detached, so there the port is asked alone.
    fn reattach(&mut self) {
        let value = self.random.next();
        if self.random.below(3) > 0 && !self.detached.is_empty() {
            let at = self.detached.swap_remove(self.random.below(self.detached.len()));
            assert_eq!(self.port.reattach(at, value), Ok(()), "reattach {at:#x}");
            self.rust.reattach(key(at), value);
        } else {
            let at = self.some_key();
            if !self.detached.contains(&number(key(at))) {
                assert_eq!(self.port.reattach(at, value), Err(port::Status(6)), "reattach {at:#x}");
            }
        }
    }

    fn next_after(&mut self) {
        let at = self.some_key();
        let after = at as u32;
        let next = self.rust.iter().find(|(it, _)| number(*it) as u32 > after);
        assert_eq!(self.port.next_after(at), next.map(|(it, value)| (number(it), *value)), "next {at:#x}");
    }

    fn list(&mut self) {
        let rust: Vec<(u64, u64)> = self.rust.iter().map(|(it, value)| (number(it), *value)).collect();
        let len = self.random.below(rust.len() + 2);
        let (mut keys, mut values) = (vec![7; len], vec![7; len + 1]);
        let count = self.port.list(&mut keys, &mut values);
        assert_eq!(count, len.min(rust.len()), "list of {len}");
        for i in 0..len + 1 {
            let (key, value) = if i < count { rust[i] } else { (7, 7) };
            assert!(values[i] == value && (i == len || keys[i] == key), "list of {len} at {i}");
        }
    }

    /// Blocks of the keys above any number.
    fn list_after(&mut self) {
        let at = self.some_key();
        let above = self.rust.iter().map(|(it, value)| (number(it), *value)).filter(|(it, _)| *it as u32 > at as u32);
        let len = self.random.below(20);
        let rust: Vec<(u64, u64)> = above.take(len).collect();
        let (mut keys, mut values) = (vec![7; len], vec![7; len + 1]);
        let count = self.port.list_after(at, &mut keys, &mut values);
        let port: Vec<(u64, u64)> = keys.iter().copied().zip(values.iter().copied()).take(count).collect();
        assert_eq!(port, rust, "list of {len} after {at:#x}");
        assert!(keys[count..].iter().chain(&values[count..]).all(|it| *it == 7), "list of {len} after {at:#x} writes more");
    }

    fn delete(&mut self) {
        let at = self.some_key();
        assert_eq!(self.port.delete(at), self.rust.remove(key(at)).is_some(), "delete {at:#x}");
    }

    fn walk(&mut self) {
        let mut at = 0;
        for (it, value) in &self.rust {
            assert_eq!(self.port.next_after(at), Some((number(it), *value)), "walk at {at:#x}");
            at = number(it);
        }
        assert_eq!(self.port.next_after(at), None, "walk's end");
    }

    fn remove(&mut self) {
        let at = self.some_key();
        assert_eq!(self.port.remove(at), self.rust.remove(key(at)), "remove {at:#x}");
    }

    fn rare(&mut self) {
        match self.random.below(6) {
            0 => {
                self.port.clear();
                self.rust.clear();
            }
            1 => {
                self.port = self.port.try_clone().unwrap();
                self.rust = self.rust.clone();
            }
            2 => self.port.reserve(self.random.below(100)).unwrap(),
            3 => assert!(self.port.capacity() >= self.rust.len(), "capacity"),
            4 => self.list(),
            _ => self.walk(),
        }
    }

    fn call(&mut self) {
        let full = self.rust.len() + self.detached.len() >= self.most;
        match self.random.below(40) {
            0..10 if !full => self.insert(),
            0..17 => self.remove(),
            17..20 => self.delete(),
            20..22 => self.list_after(),
            22..24 => {
                let at = self.some_key();
                assert_eq!(self.port.get(at), self.rust.get(key(at)).copied(), "get {at:#x}");
            }
            24..28 => {
                let (at, value) = (self.some_key(), self.random.next());
                let old = self.rust.get_mut(key(at)).map(|place| std::mem::replace(place, value));
                assert_eq!(self.port.set(at, value), old, "set {at:#x}");
            }
            28..31 => {
                let at = self.some_key();
                assert_eq!(self.port.contains(at), self.rust.contains_key(key(at)), "contains {at:#x}");
            }
            31..34 => self.detach(),
            34..37 => self.reattach(),
            37..39 => self.next_after(),
            _ if self.random.below(self.most) < 4 => self.rare(),
            _ => assert_eq!(self.port.len(), self.rust.len(), "len"),
        }
    }
}

struct Beside {
    port: port::Side,
    rust: SecondaryMap<DefaultKey, u64>,
    random: Random,
    // A map and its keys, live or stale.
    map: SlotMap<DefaultKey, u64>,
    known: Vec<u64>,
    most: usize,
}

impl Beside {
    fn new(seed: u64) -> Beside {
        let mut random = Random(seed.wrapping_mul(0x9E37_79B9_7F4A_7C15) | 1);
        let most = [4, 40, 400, 4000][random.below(4)];
        let port = port::Side::new().unwrap();
        Beside { port, rust: SecondaryMap::new(), random, map: SlotMap::new(), known: vec![1 << 32 | 1], most }
    }

    /// A key of the map, live or stale, most often one of the last; or, for a look-up alone, any number.
    fn some_key(&mut self, any: bool) -> u64 {
        let recent = self.known.len().min(2 * self.most);
        let known = self.known[self.known.len() - 1 - self.random.below(recent)];
        match self.random.below(16) {
            0 if any => self.random.next(),
            1 if any => known ^ (1 << self.random.below(64)),
            2 => self.known[self.random.below(self.known.len())],
            _ => known,
        }
    }

    /// A put without effect is `None` in the crate and a status in the port. The null key is of no index there.
    fn put(&mut self) {
        let (at, value) = (self.some_key(false), self.random.next());
        self.rust.insert(key(at), value);
        let has_entry = self.rust.contains_key(key(at));
        let expected = if has_entry { Ok(()) } else { Err(port::Status(8)) };
        assert_eq!(self.port.put(at, value), expected, "put {at:#x}");
        assert_eq!(self.port.put(8589934591, value), Err(port::Status(8)), "put of the null key");
    }

    /// What stood at the index is handed out. The crate hands out this key's value alone, so an older one is looked for.
    fn exchange(&mut self) {
        let (at, value) = (self.some_key(false), self.random.next());
        let stood = self.rust.iter().map(|(it, old)| (number(it), *old)).find(|(it, _)| *it as u32 == at as u32);
        self.rust.insert(key(at), value);
        let expected = if self.rust.contains_key(key(at)) { Ok(stood) } else { Err(port::Status(8)) };
        assert_eq!(self.port.exchange(at, value), expected, "exchange {at:#x}");
    }

    /// The crate's order is that of the slots too.
    fn list(&mut self) {
        let rust: Vec<(u64, u64)> = self.rust.iter().map(|(it, value)| (number(it), *value)).collect();
        let len = self.random.below(rust.len() + 2);
        let (mut keys, mut values) = (vec![7; len], vec![7; len + 1]);
        let count = self.port.list(&mut keys, &mut values);
        let port: Vec<(u64, u64)> = keys.iter().copied().zip(values.iter().copied()).take(count).collect();
        assert_eq!(port, rust[..len.min(rust.len())], "list of {len}");
        assert!(keys[count..].iter().chain(&values[count..]).all(|it| *it == 7), "list of {len} writes more");
    }

    fn change_keys(&mut self) {
        if self.map.len() < self.most && self.random.below(3) > 0 {
            self.known.push(number(self.map.insert(0)));
        } else {
            let at = self.some_key(false);
            self.map.remove(key(at));
        }
    }

    fn compare_all(&mut self) {
        for at in 0..self.known.len() {
            let at = self.known[at];
            assert_eq!(self.port.get(at), self.rust.get(key(at)).copied(), "get of all at {at:#x}");
        }
    }

    fn rare(&mut self) {
        match self.random.below(5) {
            0 => {
                self.port.clear();
                self.rust.clear();
            }
            1 => {
                self.port = self.port.try_clone().unwrap();
                self.rust = self.rust.clone();
            }
            2 => {
                let capacity = self.random.below(1000);
                self.port.reserve(capacity).unwrap();
                assert!(self.port.capacity() >= capacity, "capacity");
            }
            _ => self.compare_all(),
        }
    }

    fn call(&mut self) {
        match self.random.below(40) {
            0..10 => self.put(),
            10..11 => self.exchange(),
            11..12 if self.random.below(self.most) < 4 => self.list(),
            11..20 => {
                let at = self.some_key(true);
                assert_eq!(self.port.get(at), self.rust.get(key(at)).copied(), "get {at:#x}");
            }
            20..24 => {
                let at = self.some_key(true);
                assert_eq!(self.port.contains(at), self.rust.contains_key(key(at)), "contains {at:#x}");
            }
            24..28 => {
                let at = self.some_key(true);
                assert_eq!(self.port.remove(at), self.rust.remove(key(at)), "remove {at:#x}");
            }
            28..39 => self.change_keys(),
            _ if self.random.below(self.most) < 4 => self.rare(),
            _ => assert_eq!(self.port.len(), self.rust.len(), "len"),
        }
    }
}

/// Makes so many calls, each ten thousand of them on a new map with a seed of its own.
fn make_calls<T>(name: &str, calls: u64, seed: u64, new: fn(u64) -> T, call: fn(&mut T)) {
    const TURN: u64 = 10_000;
    let (mut made, mut maps) = (0, 0);
    while made < calls {
        let mut both = new(seed + maps);
        let turn = TURN.min(calls - made);
        for at in 0..turn {
            if catch_unwind(AssertUnwindSafe(|| call(&mut both))).is_err() {
                eprintln!("c_calls: {name}, seed {}, call {at}", seed + maps);
                std::process::exit(1);
            }
        }
        made += turn;
        maps += 1;
    }
    println!("{name}: {made} calls on {maps} maps, seeds {seed} to {}: no difference", seed + maps - 1);
}

fn main() {
    let mut words = std::env::args().skip(1).map(|it| it.parse::<u64>().expect("a number"));
    let calls = words.next().unwrap_or(1_000_000);
    let seed = words.next().unwrap_or(1);
    make_calls("SlotMap", calls, seed, Both::new, Both::call);
    make_calls("SecondaryMap", calls, seed, Beside::new, Beside::call);
}
