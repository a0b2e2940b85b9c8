//! Searches for whole matches: matches of the whole text.

use crate::error::{unwrap, Error};
use crate::raw::Where;
use crate::{Captures, Match, Regex};

/// These calls find only a match of the whole text, even if the pattern prefers a shorter one: what
/// the pattern between `\A(?:` and `)\z` would match.
///
/// # Panics
///
/// A call that returns no [`Result`] panics if memory runs out.
///
/// # Errors
///
/// A call that returns a [`Result`] returns [`Error::OutOfMemory`] then.
impl Regex {
    /// Returns whether the pattern matches the whole text.
    ///
    /// ```
    /// let width = regex_lite_proved::Regex::new("width=[0-9]+|width=[0-9]+px")?;
    /// assert!(width.is_full_match("width=72px"));
    /// assert!(!width.is_full_match("width=72px;"));
    /// # Ok::<(), regex_lite_proved::Error>(())
    /// ```
    #[track_caller]
    pub fn is_full_match(&self, text: &str) -> bool {
        unwrap(self.try_is_full_match(text))
    }

    /// Returns whether the pattern matches the whole text.
    pub fn try_is_full_match(&self, text: &str) -> Result<bool, Error> {
        self.shared.lock().is_match(text, Where::Whole)
    }

    /// Returns the match of the whole text.
    #[track_caller]
    pub fn full_match<'h>(&self, text: &'h str) -> Option<Match<'h>> {
        unwrap(self.try_full_match(text))
    }

    /// Returns the match of the whole text.
    pub fn try_full_match<'h>(&self, text: &'h str) -> Result<Option<Match<'h>>, Error> {
        let span = self.shared.lock().find(text, Where::Whole)?;
        Ok(span.map(|span| Match::new(text, span)))
    }

    /// Returns the groups of the match of the whole text, as the pattern prefers them.
    #[track_caller]
    pub fn full_captures<'h>(&self, text: &'h str) -> Option<Captures<'h>> {
        unwrap(self.try_full_captures(text))
    }

    /// Returns the groups of the match of the whole text.
    pub fn try_full_captures<'h>(&self, text: &'h str) -> Result<Option<Captures<'h>>, Error> {
        self.captures_by(text, Where::Whole)
    }
}
