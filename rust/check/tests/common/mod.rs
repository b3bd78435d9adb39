//! What the tests share.
#![allow(dead_code, unused_imports)] // Each test file uses some of it.

pub mod keys;
pub mod random;
pub mod seeds;

/// Takes the first item off what is left.
pub fn take_first<'a, T>(left: &mut &'a [T]) -> Option<&'a T> {
    let (first, rest) = left.split_first()?;
    *left = rest;
    Some(first)
}

/// Takes the last item off what is left.
pub fn take_last<'a, T>(left: &mut &'a [T]) -> Option<&'a T> {
    let (last, rest) = left.split_last()?;
    *left = rest;
    Some(last)
}
