//! Searches for several patterns.

use std::sync::atomic::Ordering;

use crate::batches::{Groups, Spans};
use crate::error::{unwrap, Error};
use crate::iterators::{
    ListCaptureMatches, ListMatches, TryListCaptureMatches, TryListMatches, Unwrapped,
};
use crate::raw::{resize, Span, Where};
use crate::{Captures, Cost, Match, RegexList};

/// These calls search for the first match, whichever pattern it is of. A match comes with the
/// number of its pattern. A call whose name ends in `_at` begins at an offset, as
/// [`Regex::find_at`](crate::Regex::find_at) does.
///
/// # Panics
///
/// A call that returns no [`Result`] panics if memory runs out, or if the offset is above the
/// text's length or inside a character.
///
/// # Errors
///
/// A call that returns a [`Result`] returns [`Error::OutOfMemory`] or [`Error::BadOffset`] then.
impl RegexList {
    /// Returns whether one of the patterns matches somewhere.
    #[track_caller]
    pub fn is_match(&self, text: &str) -> bool {
        self.is_match_at(text, 0)
    }

    /// Returns whether one of the patterns matches from the offset on.
    #[track_caller]
    pub fn is_match_at(&self, text: &str, start: usize) -> bool {
        unwrap(self.try_is_match_at(text, start))
    }

    /// Returns whether one of the patterns matches somewhere.
    pub fn try_is_match(&self, text: &str) -> Result<bool, Error> {
        self.try_is_match_at(text, 0)
    }

    /// Returns whether one of the patterns matches from the offset on.
    pub fn try_is_match_at(&self, text: &str, start: usize) -> Result<bool, Error> {
        self.shared.lock().is_match(text, Where::From(start))
    }

    /// Returns whether each pattern matches somewhere, by their numbers.
    ///
    /// ```
    /// let list = regex_lite_proved::RegexList::new(["[0-9]+", "[a-z]+", "sam"])?;
    /// assert_eq!(list.matches("frodo 7"), [true, true, false]);
    /// # Ok::<(), regex_lite_proved::ListError>(())
    /// ```
    #[track_caller]
    pub fn matches(&self, text: &str) -> Vec<bool> {
        self.matches_at(text, 0)
    }

    /// Returns whether each pattern matches from the offset on, by their numbers.
    #[track_caller]
    pub fn matches_at(&self, text: &str, start: usize) -> Vec<bool> {
        unwrap(self.try_matches_at(text, start))
    }

    /// Returns whether each pattern matches somewhere, by their numbers.
    pub fn try_matches(&self, text: &str) -> Result<Vec<bool>, Error> {
        self.try_matches_at(text, 0)
    }

    /// Returns whether each pattern matches from the offset on, by their numbers.
    pub fn try_matches_at(&self, text: &str, start: usize) -> Result<Vec<bool>, Error> {
        self.shared.lock().matches(text, start, self.len())
    }

    /// Returns the first match.
    #[track_caller]
    pub fn find<'h>(&self, text: &'h str) -> Option<(usize, Match<'h>)> {
        self.find_at(text, 0)
    }

    /// Returns the first match from the offset on.
    #[track_caller]
    pub fn find_at<'h>(&self, text: &'h str, start: usize) -> Option<(usize, Match<'h>)> {
        unwrap(self.try_find_at(text, start))
    }

    /// Returns the first match.
    pub fn try_find<'h>(&self, text: &'h str) -> Result<Option<(usize, Match<'h>)>, Error> {
        self.try_find_at(text, 0)
    }

    /// Returns the first match from the offset on.
    pub fn try_find_at<'h>(
        &self,
        text: &'h str,
        start: usize,
    ) -> Result<Option<(usize, Match<'h>)>, Error> {
        let span = self.shared.lock().find(text, Where::From(start))?;
        Ok(span.map(|span| Match::numbered(text, span)))
    }

    /// Returns the first match, and the cost of the search for it.
    #[track_caller]
    pub fn find_counted<'h>(&self, text: &'h str) -> (Option<(usize, Match<'h>)>, Cost) {
        self.find_counted_at(text, 0)
    }

    /// Returns the first match from the offset on, and the cost of the search for it.
    #[track_caller]
    pub fn find_counted_at<'h>(
        &self,
        text: &'h str,
        start: usize,
    ) -> (Option<(usize, Match<'h>)>, Cost) {
        unwrap(self.try_find_counted_at(text, start))
    }

    /// Returns the first match, and the cost of the search for it.
    pub fn try_find_counted<'h>(
        &self,
        text: &'h str,
    ) -> Result<(Option<(usize, Match<'h>)>, Cost), Error> {
        self.try_find_counted_at(text, 0)
    }

    /// Returns the first match from the offset on, and the cost of the search for it.
    pub fn try_find_counted_at<'h>(
        &self,
        text: &'h str,
        start: usize,
    ) -> Result<(Option<(usize, Match<'h>)>, Cost), Error> {
        let (span, cost) = self.shared.lock().find_counted(text, start)?;
        Ok((span.map(|span| Match::numbered(text, span)), cost))
    }

    /// Returns the groups of the first match, by their indices and names in its pattern.
    ///
    /// ```
    /// let list = regex_lite_proved::RegexList::new(["(?<key>[a-z]+)=", "#(?<note>.*)"])?;
    /// let (number, caps) = list.captures("80 # wide").unwrap();
    /// assert_eq!((number, &caps["note"]), (1, " wide"));
    /// # Ok::<(), regex_lite_proved::ListError>(())
    /// ```
    #[track_caller]
    pub fn captures<'h>(&self, text: &'h str) -> Option<(usize, Captures<'h>)> {
        self.captures_at(text, 0)
    }

    /// Returns the groups of the first match from the offset on.
    #[track_caller]
    pub fn captures_at<'h>(&self, text: &'h str, start: usize) -> Option<(usize, Captures<'h>)> {
        unwrap(self.try_captures_at(text, start))
    }

    /// Returns the groups of the first match.
    pub fn try_captures<'h>(&self, text: &'h str) -> Result<Option<(usize, Captures<'h>)>, Error> {
        self.try_captures_at(text, 0)
    }

    /// Returns the groups of the first match from the offset on.
    pub fn try_captures_at<'h>(
        &self,
        text: &'h str,
        start: usize,
    ) -> Result<Option<(usize, Captures<'h>)>, Error> {
        self.captures_by(text, Where::From(start))
    }

    /// Returns the groups of the first match.
    pub(super) fn captures_by<'h>(
        &self,
        text: &'h str,
        place: Where,
    ) -> Result<Option<(usize, Captures<'h>)>, Error> {
        let mut spans = self.room()?;
        let number = self.shared.lock().captures(text, place, &mut spans)?;
        Ok(number.map(|number| self.groups(text, number, spans)))
    }

    /// Returns room for the groups of a match, as many as some match had.
    pub(super) fn room(&self) -> Result<Vec<Span>, Error> {
        let mut spans = Vec::new();
        resize(&mut spans, self.width.load(Ordering::Relaxed))?;
        Ok(spans)
    }
}

/// These calls search for all matches, whichever patterns they are of. No two of them overlap. They
/// are fetched as those of [`Regex::find_iter`](crate::Regex::find_iter) are.
///
/// # Panics
///
/// If memory runs out, `next` of an iterator panics. Its `try_` form yields an error instead.
///
/// # Errors
///
/// An item of `try_find_iter` and `try_captures_iter` may be [`Error::OutOfMemory`]. It comes after
/// all items that were found before, and is the last.
impl RegexList {
    /// Returns all matches, from left to right.
    ///
    /// ```
    /// let tokens = regex_lite_proved::RegexList::new(["[0-9]+", "[a-z]+"])?;
    /// let found = tokens.find_iter("x1 + 40").map(|(number, token)| (number, token.as_str()));
    /// assert_eq!(found.collect::<Vec<_>>(), [(1, "x"), (0, "1"), (0, "40")]);
    /// # Ok::<(), regex_lite_proved::ListError>(())
    /// ```
    pub fn find_iter<'r, 'h>(&'r self, text: &'h str) -> ListMatches<'r, 'h> {
        Unwrapped(self.try_find_iter(text))
    }

    /// Returns all matches, from left to right.
    pub fn try_find_iter<'r, 'h>(&'r self, text: &'h str) -> TryListMatches<'r, 'h> {
        TryListMatches(Spans::new(&self.shared, text, usize::MAX))
    }

    /// Returns the groups of all matches, from left to right.
    pub fn captures_iter<'r, 'h>(&'r self, text: &'h str) -> ListCaptureMatches<'r, 'h> {
        Unwrapped(self.try_captures_iter(text))
    }

    /// Returns the groups of all matches, from left to right.
    pub fn try_captures_iter<'r, 'h>(&'r self, text: &'h str) -> TryListCaptureMatches<'r, 'h> {
        TryListCaptureMatches {
            groups: Groups::new(
                &self.shared,
                text,
                self.width.load(Ordering::Relaxed),
                usize::MAX,
            ),
            list: self,
        }
    }
}
