//! Holds a map to the rows of a file, or fills their results in.

use crate::lists::{Sum, sum_list};
use crate::number::Counts;
use crate::words::Word;
use std::rc::Rc;

/// What the Rust crate says to a call.
pub enum Answer {
    /// The call's result.
    Result(String),
    /// It can't be asked, and the call changes nothing: the row goes on.
    LeftOut,
    /// It can't be asked, and so nothing is known of the row from here on.
    Lost,
}

/// What came of a call; none where there is no such call.
pub type Made = Option<Answer>;

pub fn said(result: impl ToString) -> Made {
    Some(Answer::Result(result.to_string()))
}

pub fn done() -> Made {
    said("done")
}

/// The maps of a row.
pub trait Subject {
    fn call(&mut self, name: &str, words: &[Word]) -> Answer;
}

/// Makes the maps of a row, of a kind.
pub type Begin = fn(&Rc<Counts>) -> Box<dyn Subject>;

/// A row that has begun.
struct Row<'t> {
    name: &'t str,
    counts: Rc<Counts>,
    maps: Box<dyn Subject>,
    /// Makes new maps.
    begin: Begin,
    /// The counts that a call would have changed that was left out.
    not_known: Vec<&'static str>,
}

impl<'t> Row<'t> {
    fn new(name: &'t str, begin: Begin) -> Row<'t> {
        let counts = Rc::new(Counts::default());
        Row { name, maps: begin(&counts), begin, counts, not_known: Vec::new() }
    }

    /// Makes the call of a line, as often as it says. `expected` has a `#` for the turn.
    fn make(&mut self, call: &str, expected: &str) -> Answer {
        let call = call.strip_prefix("surely ").unwrap_or(call);
        let call = call.strip_prefix("displacing ").unwrap_or(call);
        if let Some((times, call)) = made_often(call, "repeat ") {
            return self.repeat(call, times, expected);
        }
        if let Some((times, call)) = made_often(call, "last ") {
            return (1..=times).map(|turn| self.make_once(call, turn)).last().unwrap_or(Answer::Lost);
        }
        match made_often(call, "sum ") {
            Some((times, call)) => self.sum(call, times),
            None => self.make_once(call, 1),
        }
    }

    /// Makes a call so many times, up to the first result that isn't the expected one. If there is none, the answer is what was
    /// expected.
    fn repeat(&mut self, call: &str, times: u64, expected: &str) -> Answer {
        for turn in 1..=times {
            match self.make_once(call, turn) {
                Answer::Result(result) if result == expected.replacen('#', &turn.to_string(), 1) => {}
                answer => return answer,
            }
        }
        Answer::Result(expected.to_string())
    }

    /// The sum of the results of a call in so many turns.
    fn sum(&mut self, call: &str, times: u64) -> Answer {
        let mut sum = Sum::new();
        for turn in 1..=times {
            match self.make_once(call, turn) {
                Answer::Result(result) => sum.add(&result),
                answer => return answer,
            }
        }
        Answer::Result(sum.value().to_string())
    }

    fn make_once(&mut self, call: &str, turn: u64) -> Answer {
        let mut parts = call.split(' ');
        let name = parts.next().unwrap_or_default();
        let words: Vec<Word> = parts.map(|word| Word::read(word, turn)).collect();
        match name {
            "list" | "detaching_list" => match words[..] {
                [Word::Number(number)] => {
                    let detaches = name == "detaching_list";
                    sum_list(&mut *(self.begin)(&self.counts), number, detaches)
                }
                _ => Answer::Lost,
            },
            "alive" => Answer::Result(self.counts.alive().to_string()),
            "cloned" => self.taken(name, self.counts.take_cloned()),
            "dropped" => self.taken(name, self.counts.take_dropped()),
            _ => {
                if name == "to_slots" {
                    // (the port's list has clones of the values)
                    self.not_known = vec!["cloned", "dropped"];
                }
                self.maps.call(name, &words)
            }
        }
    }

    /// A count that was taken, where it is known.
    fn taken(&mut self, name: &str, count: u64) -> Answer {
        let is_known = !self.not_known.contains(&name);
        self.not_known.retain(|it| *it != name);
        if is_known { Answer::Result(count.to_string()) } else { Answer::LeftOut }
    }

    /// Drops the maps: how many values were forgotten.
    fn end(self) -> u64 {
        drop(self.maps);
        self.counts.alive()
    }
}

/// Whether the rows of a kind are runs of commands.
fn is_run(kind: &str) -> bool {
    kind.starts_with("run") || kind.starts_with("detaching")
}

/// How often a call is made that begins with this word, and the call.
fn made_often<'t>(call: &'t str, word: &str) -> Option<(u64, &'t str)> {
    let (times, call) = call.strip_prefix(word)?.split_once(' ')?;
    Some((times.parse().ok()?, call))
}

/// A line of a file of rows.
enum Line<'t> {
    Maps(&'t str),
    Row(&'t str),
    Call(&'t str, Option<&'t str>),
    Other,
}

impl<'t> Line<'t> {
    fn read(line: &'t str) -> Line<'t> {
        if line.is_empty() || line.starts_with('#') {
            Line::Other
        } else if let Some(kinds) = line.strip_prefix("maps ") {
            Line::Maps(kinds)
        } else if let Some(name) = line.strip_prefix("row ") {
            Line::Row(name)
        } else {
            match line.split_once(" -> ") {
                Some((call, result)) => Line::Call(call, Some(result)),
                None => Line::Call(line, None),
            }
        }
    }
}

/// The kinds of map that a text has rows for.
pub fn kinds(text: &str) -> Vec<&str> {
    let lines = text.lines().filter_map(|line| line.strip_prefix("maps "));
    let mut kinds: Vec<&str> = lines.flat_map(|kinds| kinds.split(' ')).collect();
    kinds.sort_unstable();
    kinds.dedup();
    kinds
}

/// How far the rows of a file were held to a kind of map.
pub struct Held<'t> {
    file: &'t str,
    kind: &'t str,
    list_left_out: bool,
    row: Option<Row<'t>>,
    number: usize,
    rows: usize,
    calls: usize,
    differences: usize,
    left_out: usize,
    lost: usize,
}

impl<'t> Held<'t> {
    pub fn new(file: &'t str, kind: &'t str, list_left_out: bool) -> Held<'t> {
        Held {
            file,
            kind,
            list_left_out,
            row: None,
            number: 0,
            rows: 0,
            calls: 0,
            differences: 0,
            left_out: 0,
            lost: 0,
        }
    }

    /// Holds the kind of map to the rows that are for it, prints what differs, and returns whether nothing does.
    pub fn hold(mut self, text: &'t str, begin: Begin) -> bool {
        let mut is_meant = false;
        let mut is_lost = false;
        for (position, line) in text.lines().enumerate() {
            self.number = position + 1;
            match Line::read(line) {
                Line::Maps(kinds) => is_meant = kinds.split(' ').any(|it| it == self.kind),
                Line::Row(name) => {
                    self.end_row();
                    is_lost = false;
                    if is_meant {
                        self.rows += 1;
                        self.row = Some(Row::new(name, begin));
                    }
                }
                Line::Call(call, result) if is_meant && self.row.is_some() => {
                    is_lost |= self.hold_call(call, result.unwrap_or("done"));
                }
                Line::Call(call, _) if is_meant && is_lost => self.leave_out(call),
                Line::Call(..) | Line::Other => {}
            }
        }
        self.end_row();
        self.finish()
    }

    /// Holds the maps to a call, and returns whether nothing is known of the row from here on.
    fn hold_call(&mut self, call: &str, expected: &str) -> bool {
        let Some(row) = &mut self.row else {
            return false;
        };
        if matches!(call, "dropped" | "looks") && is_run(self.kind) {
            // (a run drops what its commands hold, and here no closure looks at a value)
            self.leave_out(call);
            return false;
        }
        match row.make(call, expected) {
            Answer::Result(seen) => {
                self.calls += 1;
                if seen != expected {
                    self.differ(&format!("{call} -> {seen}, expected {expected}"));
                    self.row = None;
                }
                false
            }
            Answer::LeftOut => {
                self.leave_out(call);
                false
            }
            Answer::Lost => {
                self.leave_out(call);
                self.lost += 1;
                self.row = None;
                true
            }
        }
    }

    fn leave_out(&mut self, call: &str) {
        self.left_out += 1;
        if self.list_left_out {
            println!("{}:{}: {}: left out: {call}", self.file, self.number, self.kind);
        }
    }

    fn differ(&mut self, difference: &str) {
        self.differences += 1;
        let name = self.row.as_ref().map_or("", |row| row.name);
        println!("{}:{}: {}: {name}: {difference}", self.file, self.number, self.kind);
    }

    /// Drops the maps of a row, after which no value may be alive.
    fn end_row(&mut self) {
        let Some(row) = self.row.take() else {
            return;
        };
        let name = row.name;
        let alive = row.end();
        if alive != 0 {
            self.differences += 1;
            println!("{}:{}: {}: {name}: {alive} values alive at the end", self.file, self.number, self.kind);
        }
    }

    fn finish(self) -> bool {
        if self.rows != 0 {
            println!(
                "{}: {}: {} rows, {} calls, {} differences; {} calls left out, {} rows not to their end",
                self.file, self.kind, self.rows, self.calls, self.differences, self.left_out, self.lost
            );
        }
        self.differences == 0
    }
}

/// The text with the results filled in, each by the first kind of map that the rows name.
pub fn fill(text: &str, begin: impl Fn(&str) -> Option<Begin>) -> Result<String, String> {
    let mut filled = String::new();
    let mut kind = None;
    let mut row = None;
    for (position, line) in text.lines().enumerate() {
        filled.push_str(line);
        match Line::read(line) {
            Line::Maps(kinds) => kind = kinds.split(' ').find_map(&begin),
            Line::Row(name) => row = kind.map(|begin| Row::new(name, begin)),
            Line::Call(call, None) => {
                let Some(Answer::Result(result)) = row.as_mut().map(|row| row.make(call, "done")) else {
                    return Err(format!("line {}: the Rust crate can't be asked: {call}", position + 1));
                };
                if result != "done" {
                    filled.push_str(&format!(" -> {result}"));
                }
            }
            Line::Call(_, Some(_)) => return Err(format!("line {} has a result", position + 1)),
            Line::Other => {}
        }
        filled.push('\n');
    }
    Ok(filled)
}
