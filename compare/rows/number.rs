//! Values that are counted.

use std::cell::Cell;
use std::mem::replace;
use std::rc::Rc;

/// How many values were made, cloned and dropped in a row.
#[derive(Default)]
pub struct Counts {
    made: Cell<u64>,
    cloned: Cell<u64>,
    dropped: Cell<u64>,
    cloned_before: Cell<u64>,
    dropped_before: Cell<u64>,
}

impl Counts {
    /// How many values were made or cloned, and not dropped.
    pub fn alive(&self) -> u64 {
        self.made.get() + self.cloned.get() - self.dropped.get()
    }

    /// How many values were cloned since this was asked last.
    pub fn take_cloned(&self) -> u64 {
        let cloned = self.cloned.get();
        cloned - self.cloned_before.replace(cloned)
    }

    /// How many values were dropped since this was asked last.
    pub fn take_dropped(&self) -> u64 {
        let dropped = self.dropped.get();
        dropped - self.dropped_before.replace(dropped)
    }
}

fn count(counter: &Cell<u64>) {
    counter.set(counter.get() + 1);
}

/// A number that is counted when it is made, cloned and dropped.
pub struct Number {
    pub value: u64,
    counts: Rc<Counts>,
}

impl Number {
    pub fn new(counts: &Rc<Counts>, value: u64) -> Number {
        count(&counts.made);
        Number { value, counts: counts.clone() }
    }
}

impl Number {
    /// A number that counts as a clone.
    pub fn cloned(counts: &Rc<Counts>, value: u64) -> Number {
        count(&counts.cloned);
        Number { value, counts: counts.clone() }
    }
}

impl Clone for Number {
    fn clone(&self) -> Number {
        Number::cloned(&self.counts, self.value)
    }
}

/// For `or_default`; such a number is counted nowhere.
impl Default for Number {
    fn default() -> Number {
        Number { value: 0, counts: Rc::default() }
    }
}

impl Drop for Number {
    fn drop(&mut self) {
        count(&self.counts.dropped);
    }
}

impl PartialEq for Number {
    fn eq(&self, other: &Number) -> bool {
        self.value == other.value
    }
}

/// The values before, or those that come back.
pub fn put_all<const N: usize>(places: Option<[&mut Number; N]>, new: [Number; N]) -> String {
    let texts = |numbers: [Number; N]| numbers.map(|number| number.value.to_string()).join(" ");
    match places {
        Some(places) => {
            let mut new = new.into_iter();
            texts(places.map(|place| replace(place, new.next().unwrap())))
        }
        None => format!("{} back", texts(new)),
    }
}
