//! Matches.

use std::fmt;
use std::ops::Range;

use crate::raw::{ListSpan, Span};

/// A match: a part of the text. Offsets count bytes.
#[derive(Clone, Copy, PartialEq, Eq)]
pub struct Match<'h> {
    text: &'h str,
    start: usize,
    end: usize,
}

impl<'h> Match<'h> {
    /// Makes the match that the library has written.
    pub(crate) fn new(text: &'h str, span: Span) -> Match<'h> {
        Match {
            text,
            start: span.start,
            end: span.end,
        }
    }

    /// Makes the match that the library has written, with the number of its pattern.
    pub(crate) fn numbered(text: &'h str, span: ListSpan) -> (usize, Match<'h>) {
        let found = Match {
            text,
            start: span.start,
            end: span.end,
        };
        (span.number, found)
    }

    /// Returns the offset of the first byte.
    pub fn start(&self) -> usize {
        self.start
    }

    /// Returns the offset after the last byte.
    pub fn end(&self) -> usize {
        self.end
    }

    /// Returns whether the match is empty.
    pub fn is_empty(&self) -> bool {
        self.start == self.end
    }

    /// Returns the number of bytes.
    pub fn len(&self) -> usize {
        self.end - self.start
    }

    /// Returns the range from the start to the end.
    pub fn range(&self) -> Range<usize> {
        self.start..self.end
    }

    /// Returns the part of the text that matched.
    ///
    /// ```
    /// let year = regex_lite_proved::Regex::new("[0-9]{4}")?;
    /// let found = year.find("in 1969").unwrap();
    /// assert_eq!((found.start(), found.end(), found.as_str()), (3, 7, "1969"));
    /// # Ok::<(), regex_lite_proved::Error>(())
    /// ```
    pub fn as_str(&self) -> &'h str {
        &self.text[self.range()]
    }
}

impl fmt::Debug for Match<'_> {
    fn fmt(&self, f: &mut fmt::Formatter<'_>) -> fmt::Result {
        f.debug_struct("Match")
            .field("start", &self.start)
            .field("end", &self.end)
            .field("string", &self.as_str())
            .finish()
    }
}

impl<'h> From<Match<'h>> for &'h str {
    fn from(found: Match<'h>) -> &'h str {
        found.as_str()
    }
}

impl From<Match<'_>> for Range<usize> {
    fn from(found: Match<'_>) -> Range<usize> {
        found.range()
    }
}
