//! Values and iterators that panic at a chosen moment.

use std::cell::Cell;
use std::panic::{catch_unwind, set_hook, AssertUnwindSafe};

thread_local! {
    /// The number of ticks until the panic; at 0 there is none.
    static FUSE: Cell<u32> = const { Cell::new(0) };
}

/// Burns the fuse down by one, and panics at its end. After that it is out, so nothing panics a second time.
pub fn tick() {
    let left = FUSE.with(Cell::get);
    FUSE.with(|fuse| fuse.set(left.saturating_sub(1)));
    assert!(left != 1, "planted");
}

/// A number that ticks when it is dropped, cloned, compared or made by default.
#[derive(Debug)]
pub struct Hooked(pub u64);

impl Drop for Hooked {
    fn drop(&mut self) {
        tick();
    }
}

impl Clone for Hooked {
    fn clone(&self) -> Self {
        tick();
        Hooked(self.0)
    }
}

impl Default for Hooked {
    fn default() -> Self {
        tick();
        Hooked(100)
    }
}

impl PartialEq for Hooked {
    fn eq(&self, other: &Self) -> bool {
        tick();
        self.0 == other.0
    }
}

/// Yields these, with a tick before each.
pub fn ticking<T>(items: impl IntoIterator<Item = T>) -> impl Iterator<Item = T> {
    items.into_iter().inspect(|_| tick())
}

/// Makes the call once for each of its ticks, with a panic at that tick, each time from a new start, and checks what is left. The last
/// turn is without a panic. Returns the number of panics.
pub fn at_each_tick<S>(make: impl Fn() -> S, call: impl Fn(&mut S), check: impl Fn(S)) -> u32 {
    set_hook(Box::new(|info| {
        if !info.to_string().contains("planted") {
            eprintln!("{info}");
        }
    }));
    for turn in 1.. {
        let mut state = make();
        FUSE.with(|fuse| fuse.set(turn));
        let ended = catch_unwind(AssertUnwindSafe(|| call(&mut state)));
        FUSE.with(|fuse| fuse.set(0));
        check(state);
        match ended {
            Ok(()) => return turn - 1,
            Err(why) => assert!(why.downcast_ref::<&str>() == Some(&"planted"), "another panic at tick {turn}"),
        }
    }
    unreachable!()
}
