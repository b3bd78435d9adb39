//! A map of each crate, and what is known of both.
use slotmap::Key as _;
use slotmap_proved::Key as _;

pub type OurKey = slotmap_proved::DefaultKey;
pub type TheirKey = slotmap::DefaultKey;

pub fn our(number: u64) -> OurKey {
    slotmap_proved::KeyData::from_ffi(number).into()
}

pub fn their(number: u64) -> TheirKey {
    slotmap::KeyData::from_ffi(number).into()
}

/// A key as a number.
pub trait Number {
    fn number(&self) -> u64;
}

impl Number for OurKey {
    fn number(&self) -> u64 {
        self.data().as_ffi()
    }
}

impl Number for TheirKey {
    fn number(&self) -> u64 {
        self.data().as_ffi()
    }
}

/// Random numbers: xorshift64*.
pub struct Random(u64);

impl Random {
    pub fn new(seed: u64) -> Self {
        Random(seed.wrapping_mul(0x9E37_79B9_7F4A_7C15) | 1)
    }

    pub fn below(&mut self, bound: usize) -> usize {
        self.0 ^= self.0 >> 12;
        self.0 ^= self.0 << 25;
        self.0 ^= self.0 >> 27;
        (self.0.wrapping_mul(0x2545_F491_4F6C_DD1D) >> 32) as usize % bound
    }

    pub fn value(&mut self) -> u32 {
        self.below(1 << 30) as u32
    }
}

/// A map of this crate and the same of the other one.
pub struct Pair<O, T> {
    pub ours: O,
    pub theirs: T,
    pub seed: u64,
    pub random: Random,
    /// Keys that were made or stored, as numbers.
    pub known: Vec<u64>,
    pub detached: Vec<u64>,
}

impl<O: Default, T: Default> Pair<O, T> {
    pub fn new(seed: u64) -> Self {
        let known = vec![0x1_ffff_ffff, 0x1_0000_0001];
        Pair { ours: O::default(), theirs: T::default(), seed, random: Random::new(seed), known, detached: Vec::new() }
    }
}

impl<O, T> Pair<O, T> {
    /// One of the last keys.
    pub fn any(&mut self) -> u64 {
        let back = 1 + self.random.below(self.known.len().min(40));
        self.known[self.known.len() - back]
    }
}

/// Makes the same call on both maps, compares what they return, and returns it.
macro_rules! same {
    ($pair:expr, |$map:ident, $key:ident| $call:expr) => {{
        let ours = {
            let ($map, $key) = (&mut $pair.ours, crate::pair::our);
            let _ = $key;
            $call
        };
        let theirs = {
            let ($map, $key) = (&mut $pair.theirs, crate::pair::their);
            let _ = $key;
            $call
        };
        assert_eq!(ours, theirs, "seed {}", $pair.seed);
        ours
    }};
}

/// How many calls each test makes.
fn calls() -> u64 {
    std::env::var("CALLS").map_or(100_000, |calls| calls.parse().expect("CALLS is a number"))
}

/// Makes random calls, of each kind with its weight, on new maps again and again.
pub fn run<O: Default, T: Default>(kinds: &[(usize, fn(&mut Pair<O, T>))]) {
    let weight: usize = kinds.iter().map(|kind| kind.0).sum();
    let mut done = 0;
    for seed in 1.. {
        let mut pair = Pair::new(seed);
        for _ in 0..500 {
            let mut at = pair.random.below(weight);
            let kind = kinds.iter().find(|kind| at < kind.0 || { at -= kind.0; false });
            kind.expect("the weights add up").1(&mut pair);
            done += 1;
        }
        if done >= calls() {
            println!("{done} calls: the same");
            return;
        }
    }
}

pub(crate) use same;
