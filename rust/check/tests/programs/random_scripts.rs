//! Random scripts, each reply of which is the model's.

use super::model::{number, Model, Record};
use super::{assert_same, common::random::Random, crates, run};

/// Scripts of each kind of map, and the lines of a script.
const SCRIPTS: u64 = 100;
const LINES: usize = 400;

struct Script {
    random: Random,
    model: Model,
    kind: &'static str,
    gone: Vec<u64>,
    lines: String,
    replies: String,
}

impl Script {
    fn new(kind: &'static str, seed: u64) -> Script {
        let (random, model) = (Random::new(seed), Model::new(kind));
        Script { random, model, kind, gone: Vec::new(), lines: String::new(), replies: String::new() }
    }

    fn add(&mut self, line: String, reply: String) {
        self.lines += &(line + "\n");
        self.replies += &(reply + "\n");
    }

    fn value(&mut self) -> i32 {
        let any = self.random.draw() as i32;
        *self.random.pick(&[0, -1, any % 10, any, i32::MIN, i32::MAX])
    }

    /// Mostly a live key, else one that is gone, one of another version, or any number.
    fn key(&mut self) -> u64 {
        let live = self.model.live();
        let index = self.random.below(self.model.slots() + 2);
        let version = if index < self.model.slots() { self.model.version(index) } else { 0 };
        let other = version.wrapping_add(*self.random.pick(&[u32::MAX - 2, u32::MAX - 1, u32::MAX, 1, 2, 1 << 31]));
        match self.random.below(10) {
            0..=5 if !live.is_empty() => *self.random.pick(&live),
            6 | 7 if !self.gone.is_empty() => *self.random.pick(&self.gone),
            8 => number(index as u32, other),
            _ => *self.random.pick(&[0, 1, u64::MAX, 0xffff_ffff, 0x1_0000_0000, 0x1_ffff_ffff, 0x1_ffff_fffe]),
        }
    }

    fn detached_key(&mut self) -> u64 {
        let detached = self.model.detached();
        if detached.is_empty() || self.random.one_of(4) {
            self.key()
        } else {
            *self.random.pick(&detached)
        }
    }

    /// A list of slots. That of a `HopSlotMap` has no vacant ones: which blocks the Rust crate makes of those, the rules don't say.
    fn list(&mut self) -> Vec<Record> {
        let mut list = vec![(None, 2 * self.random.below(2) as u32)];
        for _ in 0..self.random.below(20) {
            let version = *self.random.pick(&[1, 3, 5, u32::MAX - 2, u32::MAX]);
            let is_live = self.kind == "hop" || !self.random.one_of(3);
            list.push(if is_live { (Some(self.value()), version) } else { (None, version.wrapping_add(1)) });
        }
        if self.random.one_of(5) {
            let at = self.random.below(list.len());
            list[at].1 ^= 1;
        }
        if self.random.one_of(20) {
            list.clear();
        }
        list
    }

    fn load(&mut self) {
        let list = self.list();
        let record = |(value, version): &Record| match value {
            Some(value) => format!("{{ \"version\":{version}, \"value\":{value} }}"),
            None if version % 4 == 0 => format!("{{\"version\":{version}}}"),
            None => format!("{{\"value\":null,\"version\":{version},\"other\":[1,{{}}]}}"),
        };
        let records: Vec<String> = list.iter().map(record).collect();
        let reply = self.model.load(&list);
        self.add(format!("load [{}]", records.join(",")), reply);
    }

    /// A line that asks about all of the map, or changes all of it.
    fn rest(&mut self) {
        match self.random.below(12) {
            0 => {
                self.gone.extend(self.model.live());
                let reply = self.model.clear();
                self.add("clear".into(), reply);
            }
            1 | 2 => self.load(),
            3..=5 => self.add("slots".into(), self.model.write()),
            6..=8 => self.add("keys".into(), self.model.keys()),
            _ => self.add("len".into(), self.model.len()),
        }
    }

    /// A line with a key.
    fn of_key(&mut self) {
        let key = self.key();
        match self.random.below(3) {
            0 => self.add(format!("get {key}"), self.model.get(key)),
            1 if self.kind != "hop" && self.random.one_of(2) => {
                let reply = self.model.detach(key);
                self.add(format!("detach {key}"), reply);
            }
            _ => {
                self.gone.push(key);
                let reply = self.model.remove(key);
                self.add(format!("remove {key}"), reply);
            }
        }
    }

    fn line(&mut self, inserts: usize) {
        match self.random.below(24) {
            0 => self.rest(),
            1 | 2 if self.kind != "hop" => {
                let (key, value) = (self.detached_key(), self.value());
                let reply = self.model.reattach(key, value);
                self.add(format!("reattach {key} {value}"), reply);
            }
            choice if choice < 4 + inserts => {
                let value = self.value();
                let reply = self.model.insert(value);
                self.add(format!("insert {value}"), reply);
            }
            _ => self.of_key(),
        }
    }

    /// The script grows and shrinks by turns.
    fn write(&mut self) {
        for line in 0..LINES {
            self.line(if line / 50 % 2 == 0 { 14 } else { 4 });
        }
        self.add("slots".into(), self.model.write());
    }
}

fn assert_scripts(kind: &'static str) {
    for seed in 0..SCRIPTS {
        let mut script = Script::new(kind, seed);
        script.write();
        let (status, printed) = run("slotrun", &[kind], &crates(), script.lines.as_bytes());
        assert_eq!(status, Some(0), "seed {seed}");
        assert_same(&format!("{kind}, seed {seed}"), &printed, script.replies.as_bytes());
    }
}

#[test]
fn basic() {
    assert_scripts("basic");
}

#[test]
fn dense() {
    assert_scripts("dense");
}

#[test]
fn hop() {
    assert_scripts("hop");
}
