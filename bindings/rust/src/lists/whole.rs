//! Searches for whole matches of several patterns: matches of the whole text.

use crate::error::{unwrap, Error};
use crate::raw::Where;
use crate::{Captures, Match, RegexList};

/// These calls find only a match of the whole text, of the pattern with the lowest number that has
/// one.
///
/// # Panics
///
/// A call that returns no [`Result`] panics if memory runs out.
///
/// # Errors
///
/// A call that returns a [`Result`] returns [`Error::OutOfMemory`] then.
impl RegexList {
    /// Returns whether one of the patterns matches the whole text.
    #[track_caller]
    pub fn is_full_match(&self, text: &str) -> bool {
        unwrap(self.try_is_full_match(text))
    }

    /// Returns whether one of the patterns matches the whole text.
    pub fn try_is_full_match(&self, text: &str) -> Result<bool, Error> {
        self.shared.lock().is_match(text, Where::Whole)
    }

    /// Returns the match of the whole text, and the number of its pattern.
    ///
    /// ```
    /// let kinds = regex_lite_proved::RegexList::new(["[0-9]+", "[0-9]+px", "[a-z]+"])?;
    /// assert_eq!(kinds.full_match("72px").map(|(number, _)| number), Some(1));
    /// assert_eq!(kinds.full_match("72 px"), None);
    /// # Ok::<(), regex_lite_proved::ListError>(())
    /// ```
    #[track_caller]
    pub fn full_match<'h>(&self, text: &'h str) -> Option<(usize, Match<'h>)> {
        unwrap(self.try_full_match(text))
    }

    /// Returns the match of the whole text, and the number of its pattern.
    pub fn try_full_match<'h>(&self, text: &'h str) -> Result<Option<(usize, Match<'h>)>, Error> {
        let span = self.shared.lock().find(text, Where::Whole)?;
        Ok(span.map(|span| Match::numbered(text, span)))
    }

    /// Returns the groups of the match of the whole text, with the indices and names of its
    /// pattern, as that pattern prefers them.
    #[track_caller]
    pub fn full_captures<'h>(&self, text: &'h str) -> Option<(usize, Captures<'h>)> {
        unwrap(self.try_full_captures(text))
    }

    /// Returns the groups of the match of the whole text.
    pub fn try_full_captures<'h>(
        &self,
        text: &'h str,
    ) -> Result<Option<(usize, Captures<'h>)>, Error> {
        self.captures_by(text, Where::Whole)
    }
}
