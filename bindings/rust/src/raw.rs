//! The library for C, as regex_lite.h declares it, behind safe calls. All unsafe code is here.
//!
//! Most of the caller's obligations hold by types. A text is a `&str`, so it is UTF-8, and its
//! length is below 2^63. No reference is null, even to nothing. What a call writes to is borrowed
//! mutably, so it overlaps nothing else. A handle is borrowed mutably by each call, so no two calls
//! use one at once, and it can't be copied.

#![allow(unsafe_code)]

mod calls;
mod handle;
mod list;
mod one;
#[cfg(test)]
pub mod replace;
mod types;

pub use handle::{Handle, Held};
pub use list::List;
pub use one::{escape, One};
pub use types::{GroupCount, ListSpan, Span, Walk, Where};

use crate::error::Error;

const NO: u32 = 0;
const YES: u32 = 1;
const BAD_OFFSET: u32 = 4;
const NO_ROOM: u32 = 5;
const OUT_OF_MEMORY: u32 = 6;
const SYNTAX: u32 = 10;

/// The greatest length of an error message, in bytes.
const MESSAGE: usize = 100;

/// Returns whether the answer is yes, or the error of the call.
fn is_yes(answer: u32) -> Result<bool, Error> {
    match answer {
        YES => Ok(true),
        NO => Ok(false),
        BAD_OFFSET => Err(Error::BadOffset),
        OUT_OF_MEMORY => Err(Error::OutOfMemory),
        // The handle holds something, the text is UTF-8, each buffer is long enough, and a list has
        // the pattern that is named.
        other => unreachable!("the library answers {other}"),
    }
}

/// Gives the buffer this length, with blank items at its end if it was shorter.
pub fn resize<T: Clone + Default>(buffer: &mut Vec<T>, len: usize) -> Result<(), Error> {
    let more = len.saturating_sub(buffer.len());
    buffer
        .try_reserve_exact(more)
        .map_err(|_| Error::OutOfMemory)?;
    buffer.resize(len, T::default());
    Ok(())
}

/// Returns the text that `call` writes to the buffer that it is lent, if there is one. `call`
/// returns its answer, and the length of the text. The first buffer has `first` bytes, and if these
/// are too few the second has as many as necessary.
fn written(
    first: usize,
    mut call: impl FnMut(&mut [u8]) -> (u32, usize),
) -> Result<Option<String>, Error> {
    let mut buffer = Vec::new();
    resize(&mut buffer, first)?;
    let (mut answer, mut len) = call(&mut buffer);
    if answer == NO_ROOM {
        resize(&mut buffer, len)?;
        (answer, len) = call(&mut buffer);
    }
    if !is_yes(answer)? {
        return Ok(None);
    }
    buffer.truncate(len);
    Ok(Some(
        String::from_utf8(buffer).expect("the library writes UTF-8"),
    ))
}
