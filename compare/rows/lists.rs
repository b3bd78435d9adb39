//! Lists of two hundred calls, each made from its number by a rule, which is that of the port's program primary_rows.

use crate::hold::{Answer, Subject};
use crate::words::Word;
use slotmap::{DefaultKey, KeyData};

/// A sum of results: FNV-1a over their bytes, with a line feed after each.
pub struct Sum(u64);

impl Sum {
    pub fn new() -> Sum {
        Sum(14695981039346656037)
    }

    pub fn add(&mut self, result: &str) {
        for byte in result.bytes().chain([b'\n']) {
            self.0 = (self.0 ^ u64::from(byte)).wrapping_mul(1099511628211);
        }
    }

    pub fn value(&self) -> u64 {
        self.0
    }
}

/// How far a list is written.
struct Script {
    state: u64,
    detaches: bool,
}

impl Script {
    /// The next number of a linear congruential generator.
    fn next(&mut self) -> u64 {
        self.state = self.state.wrapping_mul(6364136223846793005).wrapping_add(1442695040888963407);
        self.state >> 33
    }

    /// A key of an index from 1 to 12 and a version of 1, 3 or 5.
    fn key(&mut self) -> DefaultKey {
        let index = self.next() % 12 + 1;
        let version = self.next() % 5 / 2 * 2 + 1;
        KeyData::from_ffi(version << 32 | index).into()
    }

    /// The next call: its name and its words.
    fn call(&mut self, value: u64) -> (&'static str, Vec<Word<'static>>) {
        let choice = self.next() % 100;
        if choice >= 64 {
            return match choice {
                64..=87 => ("insert", vec![Word::Number(value)]),
                88..=90 => ("insert_made", vec![]),
                91..=94 => ("keys_into", vec![]),
                95..=96 => ("len", vec![]),
                _ if value % 5 != 4 => ("len", vec![]),
                97 => ("retain", vec![Word::Name("even")]),
                98 => ("drain_into", vec![]),
                _ => ("clear", vec![]),
            };
        }
        let key = Word::Key(self.key());
        match choice {
            0..=13 if self.detaches => ("detach", vec![key]),
            14..=31 if self.detaches => ("reattach", vec![key, Word::Number(value)]),
            0..=13 | 32..=47 => ("remove", vec![key]),
            14..=31 | 48..=52 => ("get", vec![key]),
            53..=55 => ("contains_key", vec![key]),
            _ => ("replace", vec![key, Word::Number(value)]),
        }
    }
}

/// The sum of a new map's results to the calls of a list.
pub fn sum_list(maps: &mut dyn Subject, number: u64, detaches: bool) -> Answer {
    let mut script = Script { state: number, detaches };
    let mut sum = Sum::new();
    for value in 0..200 {
        let (name, words) = script.call(value);
        match maps.call(name, &words) {
            Answer::Result(result) => sum.add(&result),
            answer => return answer,
        }
    }
    Answer::Result(sum.value().to_string())
}
