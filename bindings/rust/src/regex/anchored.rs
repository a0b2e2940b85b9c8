//! Anchored searches: they find a match that starts at the offset.

use crate::error::{unwrap, Error};
use crate::raw::Where;
use crate::{Captures, Match, Regex};

/// These calls find only a match that starts at the offset itself, and stop as soon as none can.
/// The pattern's looks see the whole text, as in [`Regex::find_at`].
///
/// # Panics
///
/// A call that returns no [`Result`] panics if memory runs out, or if the offset is above the
/// text's length or inside a character.
///
/// # Errors
///
/// A call that returns a [`Result`] returns [`Error::OutOfMemory`] or [`Error::BadOffset`] then.
impl Regex {
    /// Returns whether a match starts at the offset.
    #[track_caller]
    pub fn is_match_anchored_at(&self, text: &str, start: usize) -> bool {
        unwrap(self.try_is_match_anchored_at(text, start))
    }

    /// Returns whether a match starts at the offset.
    pub fn try_is_match_anchored_at(&self, text: &str, start: usize) -> Result<bool, Error> {
        self.shared.lock().is_match(text, Where::At(start))
    }

    /// Returns the match that starts at the offset; of several, the one that the pattern prefers.
    ///
    /// ```
    /// let number = regex_lite_proved::Regex::new("[0-9]+")?;
    /// let found = number.find_anchored_at("width=72", 6);
    /// assert_eq!(found.map(|found| found.as_str()), Some("72"));
    /// assert_eq!(number.find_anchored_at("width=72", 5), None);
    /// # Ok::<(), regex_lite_proved::Error>(())
    /// ```
    #[track_caller]
    pub fn find_anchored_at<'h>(&self, text: &'h str, start: usize) -> Option<Match<'h>> {
        unwrap(self.try_find_anchored_at(text, start))
    }

    /// Returns the match that starts at the offset.
    pub fn try_find_anchored_at<'h>(
        &self,
        text: &'h str,
        start: usize,
    ) -> Result<Option<Match<'h>>, Error> {
        let span = self.shared.lock().find(text, Where::At(start))?;
        Ok(span.map(|span| Match::new(text, span)))
    }

    /// Returns the groups of the match that starts at the offset.
    #[track_caller]
    pub fn captures_anchored_at<'h>(&self, text: &'h str, start: usize) -> Option<Captures<'h>> {
        unwrap(self.try_captures_anchored_at(text, start))
    }

    /// Returns the groups of the match that starts at the offset.
    pub fn try_captures_anchored_at<'h>(
        &self,
        text: &'h str,
        start: usize,
    ) -> Result<Option<Captures<'h>>, Error> {
        self.captures_by(text, Where::At(start))
    }
}
