//! What calls return: the numbers that slotmap.h names.

use slotmap_proved::errors::{InsertError, ReserveError};

pub(crate) const OK: u32 = 0;
pub(crate) const FULL: u32 = 1;
pub(crate) const NO_MEMORY: u32 = 2;
pub(crate) const CLOSED: u32 = 3;
pub(crate) const OPEN: u32 = 4;
pub(crate) const NOT_LIVE: u32 = 5;
pub(crate) const NOT_DETACHED: u32 = 6;
pub(crate) const NO_MORE: u32 = 7;
pub(crate) const NO_ENTRY: u32 = 8;

/// Writes a new key.
pub(crate) fn inserted<V>(made: Result<slotmap_proved::DefaultKey, InsertError<V>>, out: &mut u64) -> u32 {
    match made {
        Ok(key) => {
            *out = crate::number(key);
            OK
        }
        Err(InsertError::Full(_)) => FULL,
        Err(InsertError::Memory(_)) => NO_MEMORY,
    }
}

pub(crate) fn reserved(made: Result<(), ReserveError>) -> u32 {
    match made {
        Ok(()) => OK,
        Err(ReserveError::TooGreat) => FULL,
        Err(ReserveError::Memory) => NO_MEMORY,
    }
}
