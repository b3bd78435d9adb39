//! A call is made once for each request for memory that it makes, and this request is refused. It then fails with its error for that, hands
//! back the value, and changes nothing. Made once more with memory, it does what it does where nothing was refused.

use super::watching::refusing;
use slotmap_proved::errors::*;
use slotmap_proved::fallible::{AllocError, OrPut};
use std::any::Any;
use std::panic::{catch_unwind, set_hook, AssertUnwindSafe};

/// That memory ran out, and the value that was handed back, if the call takes one.
#[derive(Debug, PartialEq)]
pub struct Refused(pub Option<u64>);

/// A call's result as a number, so that telling it needs no memory.
pub type Outcome = Result<u64, Refused>;

/// Makes each of its results or errors an outcome. An error for another reason is none: it panics.
pub trait IntoOutcome {
    fn outcome(self) -> Outcome;
}

/// The value that the calls here store.
pub const VALUE: u64 = 7;

/// Tells how an error for want of memory looks.
macro_rules! errors {
    ($($error:ty: $shape:pat => $back:expr;)*) => {
        $(impl IntoOutcome for $error {
            fn outcome(self) -> Outcome {
                match self {
                    $shape => Err(Refused($back)),
                    #[allow(unreachable_patterns)]
                    _ => panic!("it failed for another reason"),
                }
            }
        })*
    };
}

use slotmap_proved::{entities, graph, list, lists, paths, scene, scheduler};

errors! {
    AllocError: AllocError => None;
    OutOfMemory: OutOfMemory => None;
    ReserveError: ReserveError::Memory => None;
    std::collections::TryReserveError: _ => None;
    SlotsError: SlotsError::Memory => None;
    InsertError<u64>: InsertError::Memory(back) => Some(back);
    InsertWithError: InsertWithError::Memory => None;
    TryInsertError<()>: TryInsertError::Memory => None;
    ReattachError<u64>: ReattachError::Memory(back) => Some(back);
    PutError<u64>: PutError(back) => Some(back);
    NoEntry: NoEntry::Memory => None;
    list::PushError<u64>: list::PushError::Memory(back) => Some(back);
    list::PlaceError<u64>: list::PlaceError::Memory(back) => Some(back);
    lists::AddError<u64>: lists::AddError::Memory(back) => Some(back);
    graph::EdgeError<u64>: graph::EdgeError::Memory(back) => Some(back);
    graph::OrderError: graph::OrderError::Memory => None;
    paths::PathError: paths::PathError::Memory => None;
    scene::AddError<u64>: scene::AddError::Memory(back) => Some(back);
    scheduler::ScheduleError<u64>: scheduler::ScheduleError::Memory(back) => Some(back);
    entities::AttachError<u64>: entities::AttachError::Memory(back) => Some(back);
    entities::SpawnError<u64, u64>: entities::SpawnError::Memory(back, 1) => Some(back);
    entities::SpawnError<u64, (u64, u64)>: entities::SpawnError::Memory(back, (1, 2)) => Some(back);
    entities::SpawnError<u64, (u64, u64, u64)>: entities::SpawnError::Memory(back, (1, 2, 3)) => Some(back);
    std::fmt::Error: std::fmt::Error => None;
    (slotmap_proved::DefaultKey, u64): (_, back) => Some(back);
    // What is handed back depends on how far it came.
    Option<(slotmap_proved::DefaultKey, u64)>: None | Some((_, VALUE)) => None;
    Option<list::PushError<u64>>: None | Some(list::PushError::Memory(VALUE)) => None;
    Refused: Refused(back) => back;
}

impl<E: IntoOutcome, T> IntoOutcome for Result<T, E> {
    fn outcome(self) -> Outcome {
        match self {
            Ok(_) => Ok(0),
            Err(error) => error.outcome(),
        }
    }
}

impl IntoOutcome for OrPut<u64> {
    fn outcome(self) -> Outcome {
        match self {
            OrPut::Memory(back) => Err(Refused(Some(back))),
            _ => Ok(0),
        }
    }
}

fn reason(panic: &(dyn Any + Send)) -> &str {
    match panic.downcast_ref::<String>() {
        Some(text) => text,
        None => panic.downcast_ref::<&str>().copied().unwrap_or("no text"),
    }
}

/// The outcome of a call that panics if memory runs out.
pub fn or_panic<T>(call: impl FnOnce() -> T) -> Outcome {
    set_hook(Box::new(|panic| {
        if !panic.to_string().contains("out of memory") {
            eprintln!("{panic}");
        }
    }));
    match catch_unwind(AssertUnwindSafe(call)) {
        Ok(_) => Ok(0),
        Err(panic) => {
            assert_eq!(reason(&*panic), "out of memory");
            Err(Refused(None))
        }
    }
}

/// A call, by its name, with the value that it hands back if it takes one.
pub struct Call<S> {
    pub name: &'static str,
    pub back: Option<u64>,
    pub call: fn(&mut S) -> Outcome,
}

/// Lists calls on a type of states: `name => |state| call` hands nothing back, and `name, VALUE => |state| call` that value.
macro_rules! calls {
    ($of:ty: $($name:literal $(, $back:expr)? => |$state:ident| $call:expr;)*) => {
        vec![$($crate::refused::Call {
            name: $name,
            back: None $(.or(Some($back)))?,
            call: |$state: &mut $of| $crate::refused::IntoOutcome::outcome($call),
        }),*]
    };
}
pub(crate) use calls;

impl<S> Call<S> {
    /// Refuses each request of the call in turn. `show` tells all that a call may change.
    fn assert_refusals(&self, make: &dyn Fn() -> S, show: &dyn Fn(&S) -> String) -> u64 {
        let mut whole = make();
        assert_eq!((self.call)(&mut whole), Ok(0), "{}", self.name);
        let done = show(&whole);
        for number in 0.. {
            let mut state = make();
            let before = show(&state);
            let (outcome, refused) = refusing(number, || (self.call)(&mut state));
            if !refused {
                assert_eq!(outcome, Ok(0), "{}", self.name);
                assert_eq!(show(&state), done, "{}", self.name);
                return number;
            }
            assert_eq!(outcome, Err(Refused(self.back)), "{}: request {number}", self.name);
            assert_eq!(show(&state), before, "{}: request {number} changed something", self.name);
            assert_eq!((self.call)(&mut state), Ok(0), "{}: request {number}, once more", self.name);
            assert_eq!(show(&state), done, "{}: request {number}, once more", self.name);
        }
        unreachable!()
    }
}

/// Refuses each request of each call in turn. Each call must make one at least.
pub fn assert_all<S>(calls: Vec<Call<S>>, make: &dyn Fn() -> S, show: &dyn Fn(&S) -> String) {
    for call in calls {
        let requests = call.assert_refusals(make, show);
        assert!(requests > 0, "{} asks for no memory", call.name);
    }
}
