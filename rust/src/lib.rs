//! The five maps of the crate [slotmap](https://docs.rs/slotmap) 1.1.1, and structures over them: proved sources, in safe Rust.
//!
//! ```
//! use slotmap_proved::{SecondaryMap, SlotMap};
//!
//! let mut names = SlotMap::new();
//! let river = names.insert("river");
//! let mut lengths = SecondaryMap::new();
//! lengths.insert(river, 246);
//! assert_eq!((names[river], lengths[river]), ("river", 246));
//! assert_eq!(names.remove(river), Some("river"));
//! assert!(!names.contains_key(river));
//! ```
//!
//! A program over slotmap compiles with its `use` lines changed, or with this line in its `Cargo.toml`:
//! `slotmap = { package = "slotmap-proved", version = ".." }`. The README has the few exceptions, and each call says where it behaves
//! otherwise.
//!
//! # What is proved
//!
//! The sources are written in Rattle, which is Rust with contracts. Each function is proved to meet its contract, for all values and all
//! sequences of calls. So no map makes a key twice, a removed key never becomes live again, and a call does what its page says under
//! "Proved". These clauses are text for a reader: rustc doesn't check them. A clone, and a map that is read from a list of slots, begin
//! with the keys of that moment, and each goes on by itself; so does a map after `clone_from`.
//!
//! # What is erased
//!
//! A script takes the contracts out. What is left is plain Rust, and the module that holds it is compiled as it stands there. The body of a
//! call is the body that was proved. `python3 rust/erase.py --check` in the repository compares this crate's files with the sources, byte
//! for byte; the proofs are checked there too.
//!
//! # What is trusted
//!
//! The script. The few hundred lines that stand in for Rattle's vector, hash map and allocator. And rustc with std, in place of Rattle's
//! own compiler. Some parts aren't proved. The layer with slotmap's names hands each call on to a proved one. The module `lent` lends several
//! values at once: `iter_mut`, `values_mut`, `get_disjoint_mut`, and lists of slots for serde. It also drains a `SparseSecondaryMap`. The
//! key types of [`new_key_type!`] and the format of serde are written by hand too. All of it is safe code: a fault there may be a wrong
//! answer, a panic or a call that doesn't return, and never undefined behaviour.
//!
//! # What a caller must keep to
//!
//! A contract may ask something of its caller; in Rust nobody proves that. So a call first tests what a program could break, and panics with
//! the reason: a key that isn't live never finds another value. `Key`, `Hash` and `Eq` of one's own types are to keep to their laws. A map of
//! a type that doesn't may answer wrongly, panic, abort the program or not return. Other maps aren't touched. If a closure, a clone or a drop
//! panics in the middle of a call, the map can still be used.
//!
//! # Features
//!
//! `std`, the only one that is on by default: `SparseSecondaryMap`, and the trait `Error` for the errors. Without it the crate is `no_std`, and
//! takes `core` and `alloc`. `serde`: keys and maps in slotmap's format. `structures`: `list`, `lists`, `graph`, `paths`, `scene`, `entities`
//! and `scheduler`. `runs`: lists of commands for any map. `json`: keys and lists of slots as values of serde_json; it includes `std`.
#![no_std]
#![forbid(unsafe_code)]
#![warn(missing_docs)]
#![allow(unexpected_cfgs)]

extern crate alloc;
#[cfg(feature = "std")]
extern crate std;

#[macro_use]
mod clauses;

#[cfg(not(feature = "internals"))]
#[allow(warnings)]
#[deny(rustdoc::broken_intra_doc_links, rustdoc::private_intra_doc_links)]
mod proved;
#[cfg(feature = "internals")]
#[doc(hidden)]
#[allow(warnings)]
#[deny(rustdoc::broken_intra_doc_links)]
pub mod proved;
// The programs of the folder `check` use what the crate itself does not.
#[cfg(not(feature = "internals"))]
#[allow(dead_code, unused_imports)]
mod rt;
#[cfg(feature = "internals")]
#[doc(hidden)]
pub mod rt;

mod key;
mod lent;
mod maps;
mod sealed;
pub mod words;
#[cfg(all(test, feature = "structures"))]
mod parts_of_structures;
#[cfg(feature = "serde")]
mod serialize;

#[doc(inline)]
pub use maps::basic::{self, SlotMap};
#[doc(inline)]
pub use maps::dense::{self, DenseSlotMap};
#[doc(inline)]
pub use maps::hop::{self, HopSlotMap};
#[doc(inline)]
pub use maps::secondary::{self, SecondaryMap};
#[cfg(feature = "std")]
#[doc(inline)]
pub use maps::sparse_secondary::{self, SparseSecondaryMap};
pub use proved::slotmap_core::keys::{is_older_version, DefaultKey, Key, KeyData, NodeKey};
pub use rt::std::alloc::Global;

/// Why a call failed. An error holds the value that was to be stored.
pub mod errors {
    pub use crate::proved::slotmap_core::errors::{
        InsertError, InsertWithError, OutOfMemory, PutError, ReattachError, ReserveError, SlotsError, TryInsertError,
    };
    pub use crate::proved::slotmap_core::secondary::NoEntry;
}

/// Lists of slots: a map as a list, by its `to_slots`, and back, by its `from_slots`.
pub mod serial {
    pub use crate::proved::slotmap_core::serial::{check_slots, SlotRecord};
}

/// The proved maps and the vector as they are: what allocates returns a `Result`, and what makes a map takes the allocator, [`Global`].
///
/// The structures use these. A map of this crate turns into one of these by `into`, and back; `as_ref` lends it.
pub mod fallible {
    pub use crate::proved::slotmap_basic as basic;
    pub use crate::proved::slotmap_core::secondary::OrPut;
    pub use crate::proved::slotmap_dense as dense;
    pub use crate::proved::slotmap_hop as hop;
    pub use crate::proved::slotmap_secondary as secondary;
    #[cfg(feature = "std")]
    pub use crate::proved::slotmap_sparse as sparse_secondary;
    pub use crate::rt::std::alloc::{AllocError, AllocFailed, Global};
    pub use crate::rt::vec::Vec;
    pub use crate::rt::TryClone;
    #[doc(no_inline)]
    pub use basic::SlotMap;
    #[doc(no_inline)]
    pub use dense::DenseSlotMap;
    #[doc(no_inline)]
    pub use hop::HopSlotMap;
    #[doc(no_inline)]
    pub use secondary::SecondaryMap;
    #[cfg(feature = "std")]
    #[doc(no_inline)]
    pub use sparse_secondary::SparseSecondaryMap;
}

#[cfg(feature = "structures")]
pub use proved::slotmap_entities as entities;
#[cfg(feature = "structures")]
pub use proved::slotmap_graph as graph;
#[cfg(feature = "structures")]
pub use proved::slotmap_list as list;
#[cfg(feature = "structures")]
pub use proved::slotmap_lists as lists;
#[cfg(feature = "structures")]
pub use proved::slotmap_paths as paths;
#[cfg(feature = "structures")]
pub use proved::slotmap_scene as scene;
#[cfg(feature = "structures")]
pub use proved::slotmap_scheduler as scheduler;

/// Runs: lists of commands that a map serves one after the other, with a reply to each.
#[cfg(feature = "runs")]
pub mod runs {
    pub use crate::proved::slotmap_core::commands::{Command, DetachCommand, Reply};
    pub use crate::proved::slotmap_core::joined::{JoinedCommand, JoinedDetachCommand, JoinedReply};
    pub use crate::proved::slotmap_core::primary::{Detaching, Primary};
    pub use crate::proved::slotmap_core::secondary::{Secondary, SecondaryCommand, SecondaryReply};
    pub use crate::proved::slotmap_run::joined::{run_joined, run_joined_detaching};
    pub use crate::proved::slotmap_run::primary::{run, run_detaching, run_detaching_new, run_new};
    pub use crate::proved::slotmap_run::secondary::run_secondary;
}

/// Keys and lists of slots as values of serde_json.
#[cfg(feature = "json")]
pub mod json {
    pub use crate::proved::slotmap_core::errors::JsonError;
    pub use crate::proved::slotmap_json::{key_from_value, key_to_value, slot_from_value, slots_from_value, slots_to_value};
}

#[doc(hidden)]
#[deprecated(note = "every type can be a value")]
pub trait Slottable {}

#[allow(deprecated)]
impl<T> Slottable for T {}

#[doc(hidden)]
pub mod __impl {
    pub use core::convert::From;
    pub use core::result::Result;

    pub fn null() -> crate::KeyData {
        crate::KeyData::default()
    }

    #[cfg(feature = "serde")]
    pub use serde::{Deserialize, Deserializer, Serialize, Serializer};
}
