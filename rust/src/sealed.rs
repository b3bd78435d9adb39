//! Seals: a trait that stands above one here can be implemented in this crate alone, since no other can name its seal.
//!
//! The eraser adds a seal to each trait of the proved sources that only ties types together, and implements it where
//! that trait is implemented, with the same parameters and bounds.

/// The seal of how the slots of a map lie in memory.
pub trait Layout<P> {}

/// The seal of a table of components.
#[cfg(feature = "structures")]
pub trait Table<K> {}

/// The seal of the tables of an entity store.
#[cfg(feature = "structures")]
pub trait Tables<K> {}

/// The seal of what names one of these tables.
#[cfg(feature = "structures")]
pub trait Kind<K, T> {}

/// The seal of a table of components that can be cloned.
#[cfg(feature = "structures")]
pub trait CloneTable<K> {}

/// The seal of tables that can be cloned.
#[cfg(feature = "structures")]
pub trait CloneTables<K> {}

/// The seal of what names a table that can be cloned.
#[cfg(feature = "structures")]
pub trait CloneKind<K, T> {}

/// The seal of two kinds that name different tables. A seal of [`Kind`] alone doesn't do, since a key type of one's own lets one write
/// impls for the kinds of this crate:
///
/// ```compile_fail
/// use slotmap_proved::entities::{Apart, First};
/// use slotmap_proved::SecondaryMap;
///
/// slotmap_proved::new_key_type! {
///     struct Own;
/// }
///
/// impl Apart<Own, (SecondaryMap<Own, u8>, ()), First> for First {}
/// ```
#[cfg(feature = "structures")]
pub trait Apart<K, T, B> {}
