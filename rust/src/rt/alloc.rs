//! The allocator of Rattle, and the errors of memory.

/// The allocator that calls are passed. Rust's collections use the global one, so it holds nothing.
#[derive(Clone, Copy, Debug, Default)]
pub struct Global;

/// Memory ran out.
#[derive(Clone, Copy, Debug, PartialEq, Eq)]
pub struct AllocError;

/// Memory ran out for this value, which comes back. Rattle's has the same field.
#[derive(Clone, Copy, Debug)]
pub struct AllocFailed<T> {
    /// The value that found no room.
    pub value: T,
}

impl<T> From<AllocFailed<T>> for AllocError {
    /// For `?` behind a `push`. The value is dropped, as in Rattle.
    fn from(_: AllocFailed<T>) -> Self {
        AllocError
    }
}

impl ::core::fmt::Display for AllocError {
    fn fmt(&self, f: &mut ::core::fmt::Formatter<'_>) -> ::core::fmt::Result {
        f.write_str("out of memory")
    }
}

#[cfg(feature = "std")]
impl ::std::error::Error for AllocError {}

impl<T> ::core::fmt::Display for AllocFailed<T> {
    fn fmt(&self, f: &mut ::core::fmt::Formatter<'_>) -> ::core::fmt::Result {
        f.write_str("out of memory")
    }
}

#[cfg(feature = "std")]
impl<T: ::core::fmt::Debug> ::std::error::Error for AllocFailed<T> {}

#[cfg(feature = "std")]
impl From<AllocError> for ::std::io::Error {
    /// For `?` in the programs of the tests.
    fn from(_: AllocError) -> Self {
        ::std::io::ErrorKind::OutOfMemory.into()
    }
}

#[cfg(feature = "std")]
impl<T> From<AllocFailed<T>> for ::std::io::Error {
    /// For `?` in the programs of the tests.
    fn from(_: AllocFailed<T>) -> Self {
        ::std::io::ErrorKind::OutOfMemory.into()
    }
}
