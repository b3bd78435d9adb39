//! Sums of numbers, and lines of text that show them.

use std::fmt::Write;

/// How many numbers there were, and a sum by which two lists of them are told apart.
pub struct Sum {
    count: u64,
    value: u64,
}

impl Sum {
    /// The sum of no number.
    pub fn new() -> Sum {
        Sum { count: 0, value: 14695981039346656037 }
    }

    /// Adds a number.
    pub fn add(&mut self, number: u64) {
        self.count += 1;
        self.value = (self.value ^ number).wrapping_mul(1099511628211);
    }

    /// Adds whether something is so: 1 or 0.
    pub fn add_if(&mut self, is_so: bool) {
        self.add(u64::from(is_so));
    }

    /// Adds a number that has to be there. Where it isn't, the sum is another one: that of the greatest number in its place.
    pub fn add_found(&mut self, number: Option<&u64>) {
        self.add(*number.unwrap_or(&u64::MAX));
    }
}

/// Takes so many steps of an iterator. Adds how many elements there were, and how many it says are left. Its size hints, and its length
/// before and after these steps, have to say the same.
pub fn add_exact<I: ExactSizeIterator>(sum: &mut Sum, mut walk: I, steps: usize) {
    let whole = walk.len();
    assert_eq!(walk.size_hint(), (whole, Some(whole)));
    let taken = walk.by_ref().take(steps).count();
    let left = walk.len();
    assert_eq!((walk.size_hint(), taken + left), ((left, Some(left)), whole));
    sum.extend([taken as u64, left as u64]);
}

/// Walks to the end of an iterator of at most so many elements, and adds how many there were. Its size hint has to allow that, and no more at
/// the end.
pub fn add_within<I: Iterator>(sum: &mut Sum, mut walk: I, most: usize) {
    let hint = walk.size_hint();
    let count = walk.by_ref().take(most).count();
    assert!(allows(hint, count) && allows(walk.size_hint(), 0), "{hint:?} of {count}, and then {:?}", walk.size_hint());
    sum.add(count as u64);
}

/// Whether a size hint allows so many elements.
fn allows((least, most): (usize, Option<usize>), count: usize) -> bool {
    least <= count && count <= most.unwrap_or(usize::MAX)
}

impl Extend<u64> for Sum {
    fn extend<I: IntoIterator<Item = u64>>(&mut self, numbers: I) {
        numbers.into_iter().for_each(|number| self.add(number));
    }
}

impl FromIterator<u64> for Sum {
    fn from_iter<I: IntoIterator<Item = u64>>(numbers: I) -> Sum {
        let mut sum = Sum::new();
        sum.extend(numbers);
        sum
    }
}

/// What the calls of a structure returned: a line for each sum.
pub struct Report {
    pub text: String,
}

impl Report {
    /// The report of a structure, whose name is its first line.
    pub fn of(structure: &str) -> Report {
        Report { text: format!(" {structure}\n") }
    }

    /// Adds a line with a sum.
    pub fn tell(&mut self, what: &str, sum: Sum) {
        writeln!(self.text, "  {what}: {} numbers, {}", sum.count, sum.value).expect("a string takes all");
    }

    /// Adds a line with the sum of these numbers.
    pub fn tell_all(&mut self, what: &str, numbers: impl IntoIterator<Item = u64>) {
        self.tell(what, numbers.into_iter().collect());
    }
}

/// Adds 1 to a number, if there is one.
pub fn increment(number: Option<&mut u64>) {
    if let Some(number) = number {
        *number += 1;
    }
}
