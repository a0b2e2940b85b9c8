//! Handles, and the calls that a regex and a list of patterns both have.

use std::ffi::c_void;
use std::fmt;
use std::marker::PhantomData;
use std::ptr;

use super::types::{GroupCount, Span, Walk, Where};
use super::{is_yes, resize, NO_ROOM, OUT_OF_MEMORY};
use crate::error::Error;
use crate::Cost;

/// What a handle holds: a regex, or a list of patterns.
pub trait Held: Sized + 'static {
    /// The span of a match, as a call writes it.
    type Span: Copy + Default + fmt::Debug;

    /// The calls for such a handle.
    const CALLS: Calls<Self>;

    /// Writes the groups of the first match, and their number. Returns the answer of the call.
    fn captures(
        handle: &mut Handle<Self>,
        text: &str,
        place: Where,
        spans: &mut [Span],
        told: &mut GroupCount,
    ) -> u32;

    /// Writes the groups of the next matches, their number in each, and the number of matches, or
    /// the number of groups of the next match. Returns the answer of the call.
    fn captures_all(
        handle: &mut Handle<Self>,
        text: &str,
        walk: &mut Walk,
        told: &mut [GroupCount],
        spans: &mut [Span],
        count: &mut usize,
    ) -> u32;
}

/// A call that returns whether there is a match.
type IsMatch<H> = unsafe extern "C" fn(*mut Handle<H>, *const u8, usize, usize) -> u32;

/// A call that writes the span of a match.
type Find<H> =
    unsafe extern "C" fn(*mut Handle<H>, *const u8, usize, usize, *mut <H as Held>::Span) -> u32;

/// The calls of a kind of handle that have the same parameters for both kinds.
pub struct Calls<H: Held> {
    pub free: unsafe extern "C" fn(*mut Handle<H>),
    pub places: unsafe extern "C" fn(*mut Handle<H>) -> usize,
    pub arrows: unsafe extern "C" fn(*mut Handle<H>) -> usize,
    pub is_match: IsMatch<H>,
    pub is_match_anchored: IsMatch<H>,
    pub is_full_match: unsafe extern "C" fn(*mut Handle<H>, *const u8, usize) -> u32,
    pub find: Find<H>,
    pub find_anchored: Find<H>,
    pub full_match: unsafe extern "C" fn(*mut Handle<H>, *const u8, usize, *mut H::Span) -> u32,
    pub find_counted: unsafe extern "C" fn(
        *mut Handle<H>,
        *const u8,
        usize,
        usize,
        *mut H::Span,
        *mut Cost,
    ) -> u32,
    pub find_all: unsafe extern "C" fn(
        *mut Handle<H>,
        *const u8,
        usize,
        *mut Walk,
        *mut H::Span,
        usize,
        *mut usize,
    ) -> u32,
}

/// A handle of C. It holds something, except while that is being built.
#[repr(C)]
pub struct Handle<H: Held> {
    place: *mut c_void,
    held: PhantomData<H>,
}

// SAFETY: what a handle holds is its own, and any thread may use it, if only one does at a time.
unsafe impl<H: Held> Send for Handle<H> {}

impl<H: Held> Handle<H> {
    /// Makes a handle that holds nothing yet.
    pub(super) fn nothing() -> Handle<H> {
        Handle {
            place: ptr::null_mut(),
            held: PhantomData,
        }
    }

    /// Returns the number of places of the patterns.
    pub fn places(&mut self) -> usize {
        // SAFETY: the handle is live, and borrowed mutably.
        unsafe { (H::CALLS.places)(self) }
    }

    /// Returns the number of arrows of the patterns.
    pub fn arrows(&mut self) -> usize {
        // SAFETY: the handle is live, and borrowed mutably.
        unsafe { (H::CALLS.arrows)(self) }
    }

    /// Returns whether there is a match.
    pub fn is_match(&mut self, text: &str, place: Where) -> Result<bool, Error> {
        let (bytes, len) = (text.as_ptr(), text.len());
        // SAFETY: the handle and the text are live, and the text is as long as is said.
        is_yes(unsafe {
            match place {
                Where::From(start) => (H::CALLS.is_match)(self, bytes, len, start),
                Where::At(start) => (H::CALLS.is_match_anchored)(self, bytes, len, start),
                Where::Whole => (H::CALLS.is_full_match)(self, bytes, len),
            }
        })
    }

    /// Returns the first match.
    pub fn find(&mut self, text: &str, place: Where) -> Result<Option<H::Span>, Error> {
        let mut span = H::Span::default();
        let (bytes, len) = (text.as_ptr(), text.len());
        // SAFETY: the handle, the text and the span are live, and the text is as long as is said.
        let answer = unsafe {
            match place {
                Where::From(start) => (H::CALLS.find)(self, bytes, len, start, &mut span),
                Where::At(start) => (H::CALLS.find_anchored)(self, bytes, len, start, &mut span),
                Where::Whole => (H::CALLS.full_match)(self, bytes, len, &mut span),
            }
        };
        Ok(is_yes(answer)?.then_some(span))
    }

    /// Returns the first match from the offset on, and the cost of the search for it.
    pub fn find_counted(
        &mut self,
        text: &str,
        start: usize,
    ) -> Result<(Option<H::Span>, Cost), Error> {
        let mut span = H::Span::default();
        let mut cost = Cost::default();
        let (bytes, len) = (text.as_ptr(), text.len());
        // SAFETY: all that is passed is live, and the text is as long as is said.
        let answer =
            unsafe { (H::CALLS.find_counted)(self, bytes, len, start, &mut span, &mut cost) };
        Ok((is_yes(answer)?.then_some(span), cost))
    }

    /// Writes the next matches, as many as the buffer holds, and returns their number. The buffer
    /// isn't empty, and the walk is one over this text.
    pub fn find_all(
        &mut self,
        text: &str,
        walk: &mut Walk,
        buffer: &mut [H::Span],
    ) -> Result<usize, Error> {
        let mut count = 0;
        // SAFETY: all that is passed is live, and the text and the buffer are as long as is said.
        let answer = unsafe {
            (H::CALLS.find_all)(
                self,
                text.as_ptr(),
                text.len(),
                walk,
                buffer.as_mut_ptr(),
                buffer.len(),
                &mut count,
            )
        };
        is_yes(answer)?;
        Ok(count)
    }

    /// Writes the groups of the first match, and returns the number of its pattern, if there is a
    /// match. The buffer is extended if necessary, and then has the length of the match's groups.
    pub fn captures(
        &mut self,
        text: &str,
        place: Where,
        spans: &mut Vec<Span>,
    ) -> Result<Option<usize>, Error> {
        groups_written(spans, |spans, told| {
            H::captures(self, text, place, spans, told)
        })
    }

    /// Writes the groups of the next matches and their number in each, and returns the number of
    /// matches. They may be fewer than the buffers hold although others follow. The buffer of spans
    /// is extended if the next match has more groups. The walk is one over this text.
    pub fn captures_all(
        &mut self,
        text: &str,
        walk: &mut Walk,
        told: &mut [GroupCount],
        spans: &mut Vec<Span>,
    ) -> Result<usize, Error> {
        let mut count = 0;
        let mut answer = H::captures_all(self, text, walk, told, spans, &mut count);
        if answer == NO_ROOM {
            resize(spans, count)?;
            answer = H::captures_all(self, text, walk, told, spans, &mut count);
        }
        // If memory runs out after some matches, these come first.
        if answer != OUT_OF_MEMORY || count == 0 {
            is_yes(answer)?;
        }
        Ok(count)
    }
}

/// Returns the number of the pattern of the match whose groups `call` writes, with their number, if
/// there is a match. `call` returns its answer. The buffer is extended if necessary, and then has
/// the length of the match's groups.
pub(super) fn groups_written(
    spans: &mut Vec<Span>,
    mut call: impl FnMut(&mut [Span], &mut GroupCount) -> u32,
) -> Result<Option<usize>, Error> {
    let mut told = GroupCount::default();
    let mut answer = call(spans, &mut told);
    if answer == NO_ROOM {
        resize(spans, told.count)?;
        answer = call(spans, &mut told);
    }
    if !is_yes(answer)? {
        return Ok(None);
    }
    spans.truncate(told.count);
    Ok(Some(told.number))
}

impl<H: Held> Drop for Handle<H> {
    fn drop(&mut self) {
        // SAFETY: the handle is live, and is not used again.
        unsafe { (H::CALLS.free)(self) }
    }
}
