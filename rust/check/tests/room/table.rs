//! The form of the tables: a row is a call, what it may ask the allocator for, and how it is made.

use super::watching::count;
use slotmap_proved::{DefaultKey, Key};
use std::cell::RefCell;
use std::fmt;
use std::rc::Rc;

const SIZES: [usize; 2] = [1000, 100_000];

/// What a call may ask the allocator for.
#[derive(Clone, Copy)]
pub enum Asks {
    /// Nothing, within its room.
    Nothing,
    /// So often, however many elements there are, for this.
    Exactly(u64, &'static str),
    /// At least once, and at most so often, for what grows.
    UpTo(u64, &'static str),
}

impl fmt::Display for Asks {
    fn fmt(&self, f: &mut fmt::Formatter<'_>) -> fmt::Result {
        match self {
            Asks::Nothing => f.write_str("nothing"),
            Asks::Exactly(times, what) => write!(f, "{times}: {what}"),
            Asks::UpTo(most, what) => write!(f, "up to {most}: {what}"),
        }
    }
}

/// How a row makes its call.
#[derive(Clone, Copy)]
pub struct Turns {
    /// Once for each element, or once.
    of_each: bool,
    /// The call leaves its state as good as it was: the next rows take it too.
    is_kept: bool,
}

/// The call is made once for each element.
pub fn each() -> Turns {
    Turns { of_each: true, is_kept: false }
}

/// The call is made once: it goes over all elements, or looks at none.
pub fn once() -> Turns {
    Turns { of_each: false, is_kept: false }
}

/// The call is made once for each element, and changes values at most.
pub fn look() -> Turns {
    Turns { of_each: true, is_kept: true }
}

/// The call is made once, and changes values at most.
pub fn walk() -> Turns {
    Turns { of_each: false, is_kept: true }
}

/// A row of a table of calls on states.
pub struct Row<S: 'static> {
    pub call: &'static str,
    pub text: &'static str,
    pub asks: Asks,
    pub turns: Turns,
    /// What the states are at the beginning, each by the number of its elements.
    pub starts: Vec<fn(usize) -> S>,
    pub make: fn(&mut S, usize),
}

/// The states at the beginning, as functions.
macro_rules! starts {
    ($State:ty, [$($start:expr),*]) => {
        vec![$($start as fn(usize) -> $State),*]
    };
}

/// Lists rows: `each`, `once`, `look` or `walk`; the states at the beginning; the call's name; the call on a state, by the number of the turn.
macro_rules! rows {
    ($State:ty: $($turns:ident $starts:tt $call:ident $(asks $times:literal $what:literal)? $(asks up to $most:literal $grown:literal)?
        => |$state:pat_param, $at:pat_param| $body:expr;)*) => {
        vec![$($crate::table::Row::<$State> {
            call: stringify!($call),
            text: stringify!($body),
            asks: [$($crate::table::Asks::Exactly($times, $what),)? $($crate::table::Asks::UpTo($most, $grown),)? $crate::table::Asks::Nothing][0],
            turns: $crate::table::$turns(),
            starts: starts!($State, $starts),
            make: |$state: &mut $State, $at: usize| {
                let _ = std::hint::black_box($body);
            },
        }),*]
    };
}

/// A row without the type of its states.
pub struct Entry {
    pub name: String,
    pub text: &'static str,
    pub asks: Asks,
    call: &'static str,
    /// How often the allocator is asked, at a number of elements, from each state.
    requests: Box<dyn Fn(usize) -> Vec<u64>>,
}

/// States that are kept, with the number of their elements and the function that made them.
type Kept<S> = Rc<RefCell<Vec<(usize, fn(usize) -> S, S)>>>;

/// The rows of a type, or with no name those of functions.
pub fn table<S: 'static>(of: &str, rows: Vec<Row<S>>) -> Vec<Entry> {
    let kept: Kept<S> = Rc::default();
    let entry = |row: Row<S>| {
        let kept = kept.clone();
        Entry {
            name: if of.is_empty() { row.call.to_string() } else { format!("{of}::{}", row.call) },
            text: row.text,
            asks: row.asks,
            call: row.call,
            requests: Box::new(move |size| row.starts.iter().map(|start| requests(&row, *start, size, &kept)).collect()),
        }
    };
    rows.into_iter().map(entry).collect()
}

/// Makes the call of a row on one of its states, and returns how often the allocator was asked.
fn requests<S>(row: &Row<S>, start: fn(usize) -> S, size: usize, kept: &Kept<S>) -> u64 {
    let mut kept = kept.borrow_mut();
    let found = kept.iter().position(|(of, made_by, _)| *of == size && *made_by as usize == start as usize);
    let mut state = match found {
        Some(at) if row.turns.is_kept => kept.swap_remove(at).2,
        _ => start(size),
    };
    let before = count();
    for at in 0..if row.turns.of_each { size } else { 1 } {
        (row.make)(&mut state, at);
    }
    let asked = count() - before;
    if row.turns.is_kept {
        kept.push((size, start, state));
    }
    asked
}

impl Entry {
    /// Whether the text of the row calls what the row is named after.
    pub fn names_its_call(&self) -> bool {
        let text: String = self.text.split_whitespace().collect();
        let forms = [".", "::"].iter().flat_map(|before| ["(", "::<"].iter().map(move |behind| format!("{before}{}{behind}", self.call)));
        forms.into_iter().any(|form| text.contains(&form)) || self.call == "fmt" && text.contains(":?}")
    }

    /// Makes the call, and compares what it asks for with what it may. Returns what is wrong.
    fn fault(&self) -> Option<String> {
        let (name, asks) = (&self.name, self.asks);
        for size in SIZES {
            for (start, asked) in (self.requests)(size).into_iter().enumerate() {
                let fits = match asks {
                    Asks::Nothing => asked == 0,
                    Asks::Exactly(times, _) => asked == times,
                    Asks::UpTo(most, _) => 0 < asked && asked <= most,
                };
                if !fits {
                    return Some(format!("{name}, at {size} elements from state {start}: it asks {asked} times, and may ask {asks}"));
                }
            }
        }
        None
    }
}

/// Makes each call of some tables.
pub fn assert_all(tables: Vec<Vec<Entry>>) {
    let faults: Vec<String> = tables.iter().flatten().filter_map(Entry::fault).collect();
    assert!(faults.is_empty(), "\n{}", faults.join("\n"));
}

/// Whether a call that adds something did.
pub trait Done {
    fn done(&self) -> bool;
}

impl Done for () {
    fn done(&self) -> bool {
        true
    }
}

impl Done for DefaultKey {
    fn done(&self) -> bool {
        !self.is_null()
    }
}

/// What was there before.
impl Done for Option<u64> {
    fn done(&self) -> bool {
        true
    }
}

/// Where a value was put.
impl Done for &mut u64 {
    fn done(&self) -> bool {
        true
    }
}

impl<T, E> Done for Result<T, E> {
    fn done(&self) -> bool {
        self.is_ok()
    }
}

/// Panics if a call that should add something didn't.
pub fn done(result: impl Done) {
    assert!(result.done(), "there is room");
}

/// Takes what is printed and keeps none of it.
pub struct Nowhere;

impl fmt::Write for Nowhere {
    fn write_str(&mut self, _: &str) -> fmt::Result {
        Ok(())
    }
}
