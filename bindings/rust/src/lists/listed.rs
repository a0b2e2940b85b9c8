//! Searches for one pattern of a list, given by its number.

use std::sync::Arc;

use crate::error::{unwrap, Error};
use crate::pattern::Pattern;
use crate::{Captures, Match, RegexList};

/// These calls search only for the pattern with this number, and return what the calls of its own
/// [`Regex`](crate::Regex) return, whatever the other patterns match. [`RegexList::find`] returns
/// the match that starts first; a caller that prefers some patterns to others searches for them in
/// that order instead.
///
/// # Panics
///
/// If the list has no pattern with this number. A call that returns no [`Result`] also panics if
/// memory runs out, or if the offset is above the text's length or inside a character.
///
/// # Errors
///
/// A call that returns a [`Result`] returns [`Error::OutOfMemory`] or [`Error::BadOffset`] then.
impl RegexList {
    /// Returns whether the pattern may match the empty text: what
    /// [`Regex::may_be_empty`](crate::Regex::may_be_empty) returns for it.
    #[track_caller]
    pub fn may_be_empty(&self, number: usize) -> bool {
        self.pattern(number);
        self.shared.lock().may_be_empty(number)
    }

    /// Returns whether the pattern matches somewhere.
    #[track_caller]
    pub fn is_match_of(&self, number: usize, text: &str) -> bool {
        self.is_match_of_at(number, text, 0)
    }

    /// Returns whether the pattern matches from the offset on.
    #[track_caller]
    pub fn is_match_of_at(&self, number: usize, text: &str, start: usize) -> bool {
        unwrap(self.try_is_match_of_at(number, text, start))
    }

    /// Returns whether the pattern matches somewhere.
    #[track_caller]
    pub fn try_is_match_of(&self, number: usize, text: &str) -> Result<bool, Error> {
        self.try_is_match_of_at(number, text, 0)
    }

    /// Returns whether the pattern matches from the offset on.
    #[track_caller]
    pub fn try_is_match_of_at(
        &self,
        number: usize,
        text: &str,
        start: usize,
    ) -> Result<bool, Error> {
        self.pattern(number);
        self.shared.lock().is_match_of(number, text, start)
    }

    /// Returns the first match of the pattern.
    #[track_caller]
    pub fn find_of<'h>(&self, number: usize, text: &'h str) -> Option<Match<'h>> {
        self.find_of_at(number, text, 0)
    }

    /// Returns the first match of the pattern from the offset on.
    #[track_caller]
    pub fn find_of_at<'h>(&self, number: usize, text: &'h str, start: usize) -> Option<Match<'h>> {
        unwrap(self.try_find_of_at(number, text, start))
    }

    /// Returns the first match of the pattern.
    #[track_caller]
    pub fn try_find_of<'h>(
        &self,
        number: usize,
        text: &'h str,
    ) -> Result<Option<Match<'h>>, Error> {
        self.try_find_of_at(number, text, 0)
    }

    /// Returns the first match of the pattern from the offset on.
    #[track_caller]
    pub fn try_find_of_at<'h>(
        &self,
        number: usize,
        text: &'h str,
        start: usize,
    ) -> Result<Option<Match<'h>>, Error> {
        self.pattern(number);
        let span = self.shared.lock().find_of(number, text, start)?;
        Ok(span.map(|span| Match::new(text, span)))
    }

    /// Returns the groups of the first match of the pattern.
    ///
    /// A router that takes the first of its rules that matches first finds out which match, and
    /// then searches for the groups of that one:
    ///
    /// ```
    /// let rules = regex_lite_proved::RegexList::new(["id=([0-9]+)", "([a-z]+)=([0-9]+)"])?;
    /// let text = "x=1&id=72";
    /// let first = rules.matches(text).iter().position(|matches| *matches);
    /// let caps = rules.captures_of(first.unwrap(), text).unwrap();
    /// assert_eq!((first, &caps[1]), (Some(0), "72"));
    /// # Ok::<(), regex_lite_proved::ListError>(())
    /// ```
    #[track_caller]
    pub fn captures_of<'h>(&self, number: usize, text: &'h str) -> Option<Captures<'h>> {
        self.captures_of_at(number, text, 0)
    }

    /// Returns the groups of the first match of the pattern from the offset on.
    #[track_caller]
    pub fn captures_of_at<'h>(
        &self,
        number: usize,
        text: &'h str,
        start: usize,
    ) -> Option<Captures<'h>> {
        unwrap(self.try_captures_of_at(number, text, start))
    }

    /// Returns the groups of the first match of the pattern.
    #[track_caller]
    pub fn try_captures_of<'h>(
        &self,
        number: usize,
        text: &'h str,
    ) -> Result<Option<Captures<'h>>, Error> {
        self.try_captures_of_at(number, text, 0)
    }

    /// Returns the groups of the first match of the pattern from the offset on.
    #[track_caller]
    pub fn try_captures_of_at<'h>(
        &self,
        number: usize,
        text: &'h str,
        start: usize,
    ) -> Result<Option<Captures<'h>>, Error> {
        let pattern = self.pattern(number);
        let mut spans = self.room()?;
        let found = self
            .shared
            .lock()
            .captures_of(number, text, start, &mut spans)?;
        Ok(found.then(|| Captures::new(text, spans, pattern)))
    }

    /// Returns the pattern.
    #[track_caller]
    fn pattern(&self, number: usize) -> &Arc<Pattern> {
        self.patterns
            .get(number)
            .expect("the list has a pattern with this number")
    }
}
