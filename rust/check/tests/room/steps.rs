//! The rows of iterators.

/// A call of an iterator: `next` and `next_back` up to the end, `drop` behind the first item.
macro_rules! step {
    (next $walk:ident) => {
        while $walk.next().is_some() {}
    };
    (next_back $walk:ident) => {
        while $walk.next_back().is_some() {}
    };
    (drop $walk:ident) => {{
        $walk.next();
        std::mem::drop($walk)
    }};
    (fmt $walk:ident) => {
        write!($crate::table::Nowhere, "{:?}", $walk)
    };
    // By `Clone`, or for an iterator of a proved map by the trait that may fail.
    (clone $walk:ident) => {
        slotmap_proved::fallible::TryClone::clone(&$walk)
    };
    ($call:ident $walk:ident) => {
        $walk.$call()
    };
}

/// The rows of an iterator: `walk`, or `once` if it takes items out; its type; the states at the beginning; how it is made; its calls.
macro_rules! steps {
    ($turns:ident $path:expr, $State:ty, $starts:tt, |$state:ident| $walk:expr; $($call:ident)*) => {
        $crate::table::table($path, vec![$($crate::table::Row::<$State> {
            call: stringify!($call),
            text: concat!(".", stringify!($call), "("),
            asks: $crate::table::Asks::Nothing,
            turns: $crate::table::$turns(),
            starts: starts!($State, $starts),
            make: |$state: &mut $State, _| {
                #[allow(unused_mut)]
                let mut walk = $walk;
                let _ = std::hint::black_box(step!($call walk));
            },
        }),*])
    };
}
