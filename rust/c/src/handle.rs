//! A handle: a map behind a pointer, or none.

use crate::status::{CLOSED, NO_MEMORY, OK, OPEN};
use alloc::{boxed::Box, vec::Vec};

/// A handle of slotmap.h: open, with a map, or closed. Its one field is the pointer `at`, which is null in a closed handle: a `Box` of
/// a type with a size is a pointer for C, and `None` is null. An array of one map is a type that a box is made of without `unsafe`,
/// where memory may run out.
#[repr(C)]
pub struct Handle<M> {
    at: Option<Box<[M; 1]>>,
}

impl<M> Handle<M> {
    /// The map of an open handle.
    pub(crate) fn inside(&self) -> Option<&M> {
        self.at.as_ref().map(|inside| &inside[0])
    }

    /// The map of an open handle, to change it.
    pub(crate) fn inside_mut(&mut self) -> Option<&mut M> {
        self.at.as_mut().map(|inside| &mut inside[0])
    }

    /// Opens a closed handle with a map, which is made if the handle is closed.
    pub(crate) fn open<E>(&mut self, make: impl FnOnce() -> Result<M, E>) -> u32 {
        if self.at.is_some() {
            return OPEN;
        }
        self.at = make().ok().and_then(boxed);
        if self.at.is_some() {
            OK
        } else {
            NO_MEMORY
        }
    }

    /// Opens a closed handle with a copy of the map of another.
    pub(crate) fn open_copy<E>(&self, copy: &mut Self, clone: impl FnOnce(&M) -> Result<M, E>) -> u32 {
        match self.inside() {
            Some(map) => copy.open(|| clone(map)),
            None => CLOSED,
        }
    }

    /// Frees the map of an open handle, which is closed then.
    pub(crate) fn free(&mut self) {
        self.at = None;
    }
}

/// Returns a box of a map, or nothing where memory runs out: `Box::new` would end the program.
fn boxed<M>(map: M) -> Option<Box<[M; 1]>> {
    let mut room = Vec::new();
    room.try_reserve_exact(1).ok()?;
    room.push(map);
    room.into_boxed_slice().try_into().ok()
}
