//! The calls that only a list of patterns has.

use super::calls::*;
use super::handle::{groups_written, Calls, Handle, Held};
use super::one::refusal;
use super::types::{GroupCount, ListPattern, ListRefusal, ListSpan, Span, Walk, Where};
use super::{is_yes, resize, MESSAGE, YES};
use crate::error::{Error, ListError};
use crate::Options;

/// A list of patterns, as a handle holds it.
pub enum List {}

impl Held for List {
    type Span = ListSpan;

    const CALLS: Calls<List> = Calls {
        free: regex_lite_list_free,
        places: regex_lite_list_places,
        arrows: regex_lite_list_arrows,
        is_match: regex_lite_list_is_match,
        is_match_anchored: regex_lite_list_is_match_anchored,
        is_full_match: regex_lite_list_is_full_match,
        find: regex_lite_list_find,
        find_anchored: regex_lite_list_find_anchored,
        full_match: regex_lite_list_full_match,
        find_counted: regex_lite_list_find_counted,
        find_all: regex_lite_list_find_all,
    };

    fn captures(
        handle: &mut Handle<List>,
        text: &str,
        place: Where,
        spans: &mut [Span],
        told: &mut GroupCount,
    ) -> u32 {
        let (bytes, len) = (text.as_ptr(), text.len());
        let (room, most) = (spans.as_mut_ptr(), spans.len());
        // SAFETY: all that is passed is live, and the text and the spans are as long as is said.
        unsafe {
            match place {
                Where::From(start) => {
                    regex_lite_list_captures(handle, bytes, len, start, room, most, told)
                }
                Where::At(start) => {
                    regex_lite_list_captures_anchored(handle, bytes, len, start, room, most, told)
                }
                Where::Whole => regex_lite_list_full_captures(handle, bytes, len, room, most, told),
            }
        }
    }

    fn captures_all(
        handle: &mut Handle<List>,
        text: &str,
        walk: &mut Walk,
        told: &mut [GroupCount],
        spans: &mut [Span],
        count: &mut usize,
    ) -> u32 {
        // SAFETY: all that is passed is live, and the text and both buffers are as long as is said.
        unsafe {
            regex_lite_list_captures_all(
                handle,
                text.as_ptr(),
                text.len(),
                walk,
                told.as_mut_ptr(),
                told.len(),
                spans.as_mut_ptr(),
                spans.len(),
                count,
            )
        }
    }
}

impl Handle<List> {
    /// Builds the list of these patterns.
    pub fn new(patterns: &[(&str, Options)]) -> Result<Handle<List>, ListError> {
        let mut handle = Handle::nothing();
        let bytes: String = patterns.iter().map(|(text, _)| *text).collect();
        let own = |&(text, options): &(&str, Options)| ListPattern {
            len: text.len(),
            options,
        };
        let each: Vec<_> = patterns.iter().map(own).collect();
        let mut message = [0; MESSAGE];
        let mut told = ListRefusal::default();
        // SAFETY: all that is passed is live and as long as is said, and the lengths of the
        // patterns add up to that of the bytes.
        let answer = unsafe {
            regex_lite_list_new(
                &mut handle,
                bytes.as_ptr(),
                bytes.len(),
                each.as_ptr(),
                each.len(),
                message.as_mut_ptr(),
                message.len(),
                &mut told,
            )
        };
        if answer == YES {
            return Ok(handle);
        }
        let number = (told.number < patterns.len()).then_some(told.number);
        let (pattern, options) = number.map_or(("", Options::default()), |k| patterns[k]);
        let error = refusal(answer, &message, told.message_len, pattern, &options);
        Err(ListError { number, error })
    }

    /// Returns whether the pattern with this number may match the empty text if its looks are
    /// assumed to hold. There is such a pattern.
    pub fn may_be_empty(&mut self, number: usize) -> bool {
        // SAFETY: the handle is live, and borrowed mutably.
        unsafe { regex_lite_list_may_be_empty(self, number) == YES }
    }

    /// Returns whether the pattern with this number matches from the offset on. There is such a
    /// pattern.
    pub fn is_match_of(&mut self, number: usize, text: &str, start: usize) -> Result<bool, Error> {
        // SAFETY: the handle and the text are live, and the text is as long as is said.
        is_yes(unsafe {
            regex_lite_list_is_match_of(self, number, text.as_ptr(), text.len(), start)
        })
    }

    /// Returns the first match of the pattern with this number from the offset on. There is such a
    /// pattern.
    pub fn find_of(
        &mut self,
        number: usize,
        text: &str,
        start: usize,
    ) -> Result<Option<Span>, Error> {
        let mut span = Span::default();
        let (bytes, len) = (text.as_ptr(), text.len());
        // SAFETY: the handle, the text and the span are live, and the text is as long as is said.
        let answer = unsafe { regex_lite_list_find_of(self, number, bytes, len, start, &mut span) };
        Ok(is_yes(answer)?.then_some(span))
    }

    /// Writes the groups of that match, and returns whether there is one. There is such a pattern.
    /// The buffer is extended if necessary, and then has the length of the match's groups.
    pub fn captures_of(
        &mut self,
        number: usize,
        text: &str,
        start: usize,
        spans: &mut Vec<Span>,
    ) -> Result<bool, Error> {
        let found = groups_written(spans, |spans, told| {
            // SAFETY: all that is passed is live, and the text and the spans are as long as is
            // said.
            unsafe {
                regex_lite_list_captures_of(
                    self,
                    number,
                    text.as_ptr(),
                    text.len(),
                    start,
                    spans.as_mut_ptr(),
                    spans.len(),
                    &mut told.count,
                )
            }
        });
        Ok(found?.is_some())
    }

    /// Returns whether each pattern matches from the offset on. The list has `len` patterns.
    pub fn matches(&mut self, text: &str, start: usize, len: usize) -> Result<Vec<bool>, Error> {
        let mut flags = Vec::new();
        resize(&mut flags, len)?;
        let mut count = 0;
        // SAFETY: all that is passed is live, and the text and the flags are as long as is said.
        let answer = unsafe {
            regex_lite_list_matches(
                self,
                text.as_ptr(),
                text.len(),
                start,
                flags.as_mut_ptr(),
                flags.len(),
                &mut count,
            )
        };
        is_yes(answer)?;
        Ok(flags.iter().map(|flag| *flag == 1_u8).collect())
    }
}
