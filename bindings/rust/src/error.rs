//! Errors: why a call failed.

use std::fmt;

/// Errors: why a call failed.
#[derive(Clone, Debug, PartialEq, Eq)]
pub enum Error {
    /// The pattern is rejected.
    Pattern {
        /// The number of regex_lite.h for the reason.
        number: u32,
        /// What is wrong.
        message: String,
        /// The place of the fault. There is none if the pattern only exceeds a limit, or if memory
        /// runs out while the fault is located.
        fault: Option<Fault>,
    },
    /// The offset is above the text's length, or inside a character.
    BadOffset,
    /// Memory ran out.
    OutOfMemory,
}

/// The place of a pattern's first fault, as offsets in bytes.
#[derive(Clone, Copy, Debug, PartialEq, Eq)]
pub struct Fault {
    /// The start of the part of the pattern that can't be parsed.
    pub start: usize,
    /// The end of the shortest prefix with which no accepted pattern begins. There is none if some
    /// accepted pattern begins with this one.
    pub end: Option<usize>,
}

impl fmt::Display for Error {
    fn fmt(&self, f: &mut fmt::Formatter<'_>) -> fmt::Result {
        match self {
            Error::Pattern { message, .. } => f.write_str(message),
            Error::BadOffset => f.write_str("the offset is not between two characters"),
            Error::OutOfMemory => f.write_str("out of memory"),
        }
    }
}

impl std::error::Error for Error {}

/// Why a list of patterns is rejected.
#[derive(Clone, Debug, PartialEq, Eq)]
pub struct ListError {
    /// The number of the first pattern that is rejected by itself, if one is.
    pub number: Option<usize>,
    /// Why that pattern is rejected, or the whole list.
    pub error: Error,
}

impl fmt::Display for ListError {
    fn fmt(&self, f: &mut fmt::Formatter<'_>) -> fmt::Result {
        match self.number {
            Some(number) => write!(f, "pattern {number}: {}", self.error),
            None => self.error.fmt(f),
        }
    }
}

impl std::error::Error for ListError {
    fn source(&self) -> Option<&(dyn std::error::Error + 'static)> {
        Some(&self.error)
    }
}

/// Returns the value, for a call that can't return an error.
///
/// # Panics
///
/// If there is none.
#[track_caller]
pub(crate) fn unwrap<T, E: fmt::Display>(result: Result<T, E>) -> T {
    match result {
        Ok(value) => value,
        Err(error) => panic!("{error}; the try_ form of this call returns that as an error"),
    }
}
