//! The message of each error, what it prints with `{:?}`, and the value that comes back in it.

use slotmap_proved::errors::{
    InsertError, InsertWithError, NoEntry, OutOfMemory, PutError, ReattachError, ReserveError, SlotsError, TryInsertError,
};
use slotmap_proved::json::JsonError;
use std::error::Error;

fn next(number: u64) -> u64 {
    number + 1
}

#[test]
fn what_comes_back_of_an_insert() {
    assert_eq!((InsertError::Full(5).into_inner(), InsertError::Memory(6).into_inner()), (5, 6));
    assert!(matches!(InsertError::Full(5).map(next), InsertError::Full(6)));
    assert!(matches!(InsertError::Memory(5).map(next), InsertError::Memory(6)));
}

#[test]
fn what_comes_back_of_a_reattach() {
    assert_eq!((ReattachError::NotDetached(5).into_inner(), ReattachError::Memory(6).into_inner()), (5, 6));
    assert!(matches!(ReattachError::NotDetached(5).map(next), ReattachError::NotDetached(6)));
    assert!(matches!(ReattachError::Memory(5).map(next), ReattachError::Memory(6)));
}

#[test]
fn what_comes_back_of_a_put() {
    assert!(matches!(PutError(5).map(next), PutError(6)));
}

/// Each text is of an error's message and of what `{:?}` prints: not the value that it holds, which may be of any type.
fn assert_texts<E: Error>(errors: &[(E, &str)]) {
    for (error, text) in errors {
        assert_eq!(format!("{error}: {error:?}"), *text);
    }
}

#[test]
fn messages_with_what_comes_back() {
    assert_texts(&[(InsertError::Full(5), "full: Full(..)"), (InsertError::Memory(5), "out of memory: Memory(..)")]);
    assert_texts(&[
        (ReattachError::NotDetached(5), "not detached: NotDetached(..)"),
        (ReattachError::Memory(5), "out of memory: Memory(..)"),
    ]);
    assert_texts(&[(PutError(5), "out of memory: PutError(..)")]);
}

#[test]
fn messages_of_inserts_with_a_closure() {
    assert_texts(&[
        (TryInsertError::Closure(SlotsError::Inconsistent(3)), "inconsistent 3: Closure(..)"),
        (TryInsertError::Full, "full: Full"),
        (TryInsertError::Memory, "out of memory: Memory"),
    ]);
    assert_texts(&[(InsertWithError::Full, "full: Full"), (InsertWithError::Memory, "out of memory: Memory")]);
}

#[test]
fn messages_of_lists() {
    assert_texts(&[
        (SlotsError::TooMany, "too many: TooMany"),
        (SlotsError::FirstNotEmpty, "first not empty: FirstNotEmpty"),
        (SlotsError::Inconsistent(3), "inconsistent 3: Inconsistent(3)"),
        (SlotsError::Memory, "out of memory: Memory"),
    ]);
    assert_texts(&[(JsonError::Shape, "shape: Shape"), (JsonError::Memory, "out of memory: Memory")]);
}

#[test]
fn messages() {
    assert_texts(&[(OutOfMemory, "out of memory: OutOfMemory")]);
    assert_texts(&[(ReserveError::TooGreat, "too great: TooGreat"), (ReserveError::Memory, "out of memory: Memory")]);
    assert_texts(&[(NoEntry::Older, "no entry: Older"), (NoEntry::Memory, "out of memory: Memory")]);
}
