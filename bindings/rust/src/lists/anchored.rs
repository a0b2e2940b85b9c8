//! Anchored searches for several patterns: they find a match that starts at the offset.

use crate::error::{unwrap, Error};
use crate::raw::Where;
use crate::{Captures, Match, RegexList};

/// These calls find only a match that starts at the offset itself, of the pattern with the lowest
/// number that matches there. They stop as soon as no match that starts there can continue. The
/// patterns' looks see the whole text, as in [`Regex::find_at`](crate::Regex::find_at).
///
/// # Panics
///
/// A call that returns no [`Result`] panics if memory runs out, or if the offset is above the
/// text's length or inside a character.
///
/// # Errors
///
/// A call that returns a [`Result`] returns [`Error::OutOfMemory`] or [`Error::BadOffset`] then.
impl RegexList {
    /// Returns whether a match of one of the patterns starts at the offset.
    #[track_caller]
    pub fn is_match_anchored_at(&self, text: &str, start: usize) -> bool {
        unwrap(self.try_is_match_anchored_at(text, start))
    }

    /// Returns whether a match of one of the patterns starts at the offset.
    pub fn try_is_match_anchored_at(&self, text: &str, start: usize) -> Result<bool, Error> {
        self.shared.lock().is_match(text, Where::At(start))
    }

    /// Returns the match that starts at the offset.
    ///
    /// A tokeniser searches for each token where the last one ended. Each call checks the whole
    /// text, so for a long one use [`RegexList::find_iter`], and check where each match starts.
    ///
    /// ```
    /// let list = regex_lite_proved::RegexList::new(["[0-9]+", "[a-z]+", "[-+*/]"])?;
    /// let (text, mut at, mut numbers) = ("x1+42?", 0, Vec::new());
    /// while let Some((number, token)) = list.find_anchored_at(text, at) {
    ///     numbers.push(number);
    ///     at = token.end();
    /// }
    /// assert_eq!((at, &numbers[..]), (5, &[1, 0, 2, 0][..]));
    /// # Ok::<(), regex_lite_proved::ListError>(())
    /// ```
    #[track_caller]
    pub fn find_anchored_at<'h>(&self, text: &'h str, start: usize) -> Option<(usize, Match<'h>)> {
        unwrap(self.try_find_anchored_at(text, start))
    }

    /// Returns the match that starts at the offset.
    pub fn try_find_anchored_at<'h>(
        &self,
        text: &'h str,
        start: usize,
    ) -> Result<Option<(usize, Match<'h>)>, Error> {
        let span = self.shared.lock().find(text, Where::At(start))?;
        Ok(span.map(|span| Match::numbered(text, span)))
    }

    /// Returns the groups of the match that starts at the offset, by their indices and names in its
    /// pattern.
    #[track_caller]
    pub fn captures_anchored_at<'h>(
        &self,
        text: &'h str,
        start: usize,
    ) -> Option<(usize, Captures<'h>)> {
        unwrap(self.try_captures_anchored_at(text, start))
    }

    /// Returns the groups of the match that starts at the offset.
    pub fn try_captures_anchored_at<'h>(
        &self,
        text: &'h str,
        start: usize,
    ) -> Result<Option<(usize, Captures<'h>)>, Error> {
        self.captures_by(text, Where::At(start))
    }
}
