//! The calls that only a regex has, and those that need no handle.

use super::calls::*;
use super::handle::{Calls, Handle, Held};
use super::types::{GroupCount, RawFault, Span, Walk, Where};
use super::{is_yes, resize, written, MESSAGE, OUT_OF_MEMORY, SYNTAX, YES};
use crate::error::{Error, Fault};
use crate::Options;

/// The number of bytes of a name for which there is room at first.
const NAME: usize = 32;

/// A regex, as a handle holds it.
pub enum One {}

impl Held for One {
    type Span = Span;

    const CALLS: Calls<One> = Calls {
        free: regex_lite_free,
        places: regex_lite_places,
        arrows: regex_lite_arrows,
        is_match: regex_lite_is_match,
        is_match_anchored: regex_lite_is_match_anchored,
        is_full_match: regex_lite_is_full_match,
        find: regex_lite_find,
        find_anchored: regex_lite_find_anchored,
        full_match: regex_lite_full_match,
        find_counted: regex_lite_find_counted,
        find_all: regex_lite_find_all,
    };

    fn captures(
        handle: &mut Handle<One>,
        text: &str,
        place: Where,
        spans: &mut [Span],
        told: &mut GroupCount,
    ) -> u32 {
        let (bytes, len) = (text.as_ptr(), text.len());
        let (room, most) = (spans.as_mut_ptr(), spans.len());
        let count = &mut told.count;
        // SAFETY: all that is passed is live, and the text and the spans are as long as is said.
        unsafe {
            match place {
                Where::From(start) => {
                    regex_lite_captures(handle, bytes, len, start, room, most, count)
                }
                Where::At(start) => {
                    regex_lite_captures_anchored(handle, bytes, len, start, room, most, count)
                }
                Where::Whole => regex_lite_full_captures(handle, bytes, len, room, most, count),
            }
        }
    }

    fn captures_all(
        handle: &mut Handle<One>,
        text: &str,
        walk: &mut Walk,
        told: &mut [GroupCount],
        spans: &mut [Span],
        count: &mut usize,
    ) -> u32 {
        let groups = handle.groups();
        let most = spans.len().min(told.len() * groups);
        // SAFETY: all that is passed is live, the text is as long as is said, and the spans are as
        // long at least.
        let answer = unsafe {
            regex_lite_captures_all(
                handle,
                text.as_ptr(),
                text.len(),
                walk,
                spans.as_mut_ptr(),
                most,
                count,
            )
        };
        told[..*count].fill(GroupCount {
            number: 0,
            count: groups,
        });
        answer
    }
}

impl Handle<One> {
    /// Builds the regex of this pattern.
    pub fn new(pattern: &str, options: &Options) -> Result<Handle<One>, Error> {
        let mut handle = Handle::nothing();
        let mut message = [0; MESSAGE];
        let mut len = 0;
        // SAFETY: all that is passed is live, and the pattern and the message are as long as is
        // said.
        let answer = unsafe {
            regex_lite_new(
                &mut handle,
                pattern.as_ptr(),
                pattern.len(),
                options,
                message.as_mut_ptr(),
                message.len(),
                &mut len,
            )
        };
        match answer {
            YES => Ok(handle),
            number => Err(refusal(number, &message, len, pattern, options)),
        }
    }

    /// Returns the number of groups of a match, including the whole match.
    pub fn groups(&mut self) -> usize {
        // SAFETY: the handle is live, and borrowed mutably.
        unsafe { regex_lite_groups(self) }
    }

    /// Returns the least number of groups that take part in every match; 0 if it isn't known.
    pub fn static_groups(&mut self) -> usize {
        // SAFETY: the handle is live, and borrowed mutably.
        unsafe { regex_lite_static_groups(self) }
    }

    /// Returns whether the pattern may match the empty text if its looks are assumed to hold.
    pub fn may_be_empty(&mut self) -> bool {
        // SAFETY: the handle is live, and borrowed mutably.
        unsafe { regex_lite_may_be_empty(self) == YES }
    }

    /// Returns the name of the group with this index, if it has one. There is such a group.
    pub fn group_name(&mut self, index: usize) -> Result<Option<String>, Error> {
        written(NAME, |buffer| {
            let mut len = 0;
            let (room, room_len) = (buffer.as_mut_ptr(), buffer.len());
            // SAFETY: all that is passed is live, and the buffer is as long as is said.
            let answer = unsafe { regex_lite_group_name(self, index, room, room_len, &mut len) };
            (answer, len)
        })
    }

    /// Returns the least offset at which a match from the offset on ends.
    pub fn shortest(&mut self, text: &str, start: usize) -> Result<Option<usize>, Error> {
        let mut end = 0;
        // SAFETY: all that is passed is live, and the text is as long as is said.
        let answer =
            unsafe { regex_lite_shortest(self, text.as_ptr(), text.len(), start, &mut end) };
        Ok(is_yes(answer)?.then_some(end))
    }

    /// Returns the first match in each of several texts, which are concatenated and have these
    /// lengths.
    pub fn find_each(&mut self, texts: &str, lens: &[usize]) -> Result<Vec<Span>, Error> {
        let mut spans = Vec::new();
        resize(&mut spans, lens.len())?;
        // SAFETY: all that is passed is live and as long as is said.
        let answer = unsafe {
            regex_lite_find_each(
                self,
                texts.as_ptr(),
                texts.len(),
                lens.as_ptr(),
                lens.len(),
                spans.as_mut_ptr(),
                spans.len(),
            )
        };
        is_yes(answer)?;
        Ok(spans)
    }
}

/// Returns the pattern that matches exactly this text.
pub fn escape(text: &str) -> Result<String, Error> {
    let pattern = written(text.len().saturating_mul(2), |buffer| {
        let mut len = 0;
        let (room, room_len) = (buffer.as_mut_ptr(), buffer.len());
        // SAFETY: all that is passed is live, and the text and the buffer are as long as is said.
        let answer =
            unsafe { regex_lite_escape(text.as_ptr(), text.len(), room, room_len, &mut len) };
        (answer, len)
    });
    Ok(pattern?.unwrap_or_default())
}

/// Makes the error for a pattern that is rejected, with a message of `len` bytes.
pub(super) fn refusal(
    number: u32,
    message: &[u8],
    len: usize,
    pattern: &str,
    options: &Options,
) -> Error {
    if number == OUT_OF_MEMORY {
        return Error::OutOfMemory;
    }
    let message = String::from_utf8_lossy(message.get(..len).unwrap_or_default()).into_owned();
    let fault = if number == SYNTAX {
        fault_in(pattern, options)
    } else {
        None
    };
    Error::Pattern {
        number,
        message,
        fault,
    }
}

/// Returns the place of the first fault in a pattern, if there is one and memory suffices.
fn fault_in(pattern: &str, options: &Options) -> Option<Fault> {
    let mut told = RawFault::default();
    // SAFETY: all that is passed is live, and the pattern is as long as is said.
    let answer =
        unsafe { regex_lite_fault_at(pattern.as_ptr(), pattern.len(), options, &mut told) };
    (answer == YES).then_some(Fault {
        start: told.start,
        end: (!told.is_cut_short).then_some(told.end),
    })
}
