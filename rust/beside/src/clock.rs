//! The least time of many: what the work costs where nothing else disturbs it. And what callgrind counts.
use std::time::Instant;

/// How a piece of work is measured.
#[derive(Clone, Copy)]
pub enum Measure {
    /// By the clock, so many times.
    Least(usize),
    /// Once, in `counted`: callgrind's options name that function.
    Counted,
}

/// Callgrind sets its counters to 0 where this is called.
#[inline(never)]
fn counted(work: &mut dyn FnMut()) {
    work();
    ended();
}

/// Callgrind writes its counters where this is called.
#[inline(never)]
fn ended() {
    std::hint::black_box(());
}

/// Work that callgrind counts.
#[allow(dead_code)]
pub fn count(mut work: impl FnMut()) {
    counted(&mut work);
}

/// Nanoseconds for one unit of a piece of work that has so many: the least of the runs, after two that aren't measured.
pub fn measure(how: Measure, units: usize, mut work: impl FnMut()) -> f64 {
    work();
    work();
    match how {
        Measure::Counted => {
            counted(&mut work);
            f64::NAN
        }
        Measure::Least(runs) => {
            let once = |_| {
                let start = Instant::now();
                work();
                start.elapsed().as_nanos() as f64 / units as f64
            };
            (0..runs).map(once).fold(f64::MAX, f64::min)
        }
    }
}
