//! Searches for matches, and for the pieces between them.

use crate::batches::Spans;
use crate::error::{unwrap, Error};
use crate::iterators::{Matches, Split, SplitN, TryMatches, TrySplit, TrySplitN, Unwrapped};
use crate::raw::{self, Where};
use crate::{Cost, Match, Regex};

/// These calls search for the first match. A call whose name ends in `_at` begins at an offset.
/// There too the pattern's looks see the whole text: `^` matches at the offset only if that is 0.
///
/// # Panics
///
/// A call that returns no [`Result`] panics if memory runs out, or if the offset is above the
/// text's length or inside a character.
///
/// # Errors
///
/// A call that returns a [`Result`] returns [`Error::OutOfMemory`] or [`Error::BadOffset`] then.
impl Regex {
    /// Returns whether the pattern matches somewhere.
    ///
    /// ```
    /// let word = regex_lite_proved::Regex::new(r"\b[a-z]{5}\b")?;
    /// assert!(word.is_match("of mice and horses, of which one eats"));
    /// # Ok::<(), regex_lite_proved::Error>(())
    /// ```
    #[track_caller]
    pub fn is_match(&self, text: &str) -> bool {
        self.is_match_at(text, 0)
    }

    /// Returns whether the pattern matches from the offset on.
    #[track_caller]
    pub fn is_match_at(&self, text: &str, start: usize) -> bool {
        unwrap(self.try_is_match_at(text, start))
    }

    /// Returns whether the pattern matches somewhere.
    pub fn try_is_match(&self, text: &str) -> Result<bool, Error> {
        self.try_is_match_at(text, 0)
    }

    /// Returns whether the pattern matches from the offset on.
    pub fn try_is_match_at(&self, text: &str, start: usize) -> Result<bool, Error> {
        self.shared.lock().is_match(text, Where::From(start))
    }

    /// Returns the match that starts first and, of those that start there, the one that the pattern
    /// prefers.
    ///
    /// ```
    /// let regex = regex_lite_proved::Regex::new("sam|samwise")?;
    /// assert_eq!(regex.find("mr samwise").map(|found| found.range()), Some(3..6));
    /// # Ok::<(), regex_lite_proved::Error>(())
    /// ```
    #[track_caller]
    pub fn find<'h>(&self, text: &'h str) -> Option<Match<'h>> {
        self.find_at(text, 0)
    }

    /// Returns the first match from the offset on.
    #[track_caller]
    pub fn find_at<'h>(&self, text: &'h str, start: usize) -> Option<Match<'h>> {
        unwrap(self.try_find_at(text, start))
    }

    /// Returns the first match.
    pub fn try_find<'h>(&self, text: &'h str) -> Result<Option<Match<'h>>, Error> {
        self.try_find_at(text, 0)
    }

    /// Returns the first match from the offset on.
    pub fn try_find_at<'h>(&self, text: &'h str, start: usize) -> Result<Option<Match<'h>>, Error> {
        let span = self.shared.lock().find(text, Where::From(start))?;
        Ok(span.map(|span| Match::new(text, span)))
    }

    /// Returns the first match, and the cost of the search for it.
    #[track_caller]
    pub fn find_counted<'h>(&self, text: &'h str) -> (Option<Match<'h>>, Cost) {
        self.find_counted_at(text, 0)
    }

    /// Returns the first match from the offset on, and the cost of the search for it.
    #[track_caller]
    pub fn find_counted_at<'h>(&self, text: &'h str, start: usize) -> (Option<Match<'h>>, Cost) {
        unwrap(self.try_find_counted_at(text, start))
    }

    /// Returns the first match, and the cost of the search for it.
    pub fn try_find_counted<'h>(&self, text: &'h str) -> Result<(Option<Match<'h>>, Cost), Error> {
        self.try_find_counted_at(text, 0)
    }

    /// Returns the first match from the offset on, and the cost of the search for it.
    pub fn try_find_counted_at<'h>(
        &self,
        text: &'h str,
        start: usize,
    ) -> Result<(Option<Match<'h>>, Cost), Error> {
        let (span, cost) = self.shared.lock().find_counted(text, start)?;
        Ok((span.map(|span| Match::new(text, span)), cost))
    }

    /// Returns the least offset at which a match ends.
    ///
    /// ```
    /// let regex = regex_lite_proved::Regex::new("[0-9]{2,}")?;
    /// assert_eq!(regex.shortest_match("in 1969"), Some(5));
    /// # Ok::<(), regex_lite_proved::Error>(())
    /// ```
    #[track_caller]
    pub fn shortest_match(&self, text: &str) -> Option<usize> {
        self.shortest_match_at(text, 0)
    }

    /// Returns the least offset at which a match from the offset on ends.
    #[track_caller]
    pub fn shortest_match_at(&self, text: &str, start: usize) -> Option<usize> {
        unwrap(self.try_shortest_match_at(text, start))
    }

    /// Returns the least offset at which a match ends.
    pub fn try_shortest_match(&self, text: &str) -> Result<Option<usize>, Error> {
        self.try_shortest_match_at(text, 0)
    }

    /// Returns the least offset at which a match from the offset on ends.
    pub fn try_shortest_match_at(&self, text: &str, start: usize) -> Result<Option<usize>, Error> {
        self.shared.lock().shortest(text, start)
    }
}

/// These calls search for all matches. No two of them overlap: a search continues where the last
/// match ended, and no empty match comes directly after another match.
///
/// An iterator fetches 16 matches from the library at first, and then four times as many as before.
/// So its first item may take as long as 16 matches do; [`Regex::find`] searches for a single
/// match. A call that takes a limit fetches no more matches than that at a time.
///
/// # Panics
///
/// If memory runs out, `next` of an iterator panics. Its `try_` form yields an error instead.
///
/// # Errors
///
/// An item of `try_find_iter`, `try_split` and `try_splitn` may be [`Error::OutOfMemory`]. It comes
/// after all items that were found before, and is the last.
impl Regex {
    /// Returns all matches, from left to right.
    ///
    /// ```
    /// let number = regex_lite_proved::Regex::new("[0-9]+")?;
    /// let found: Vec<_> = number.find_iter("7 of 9, 1 of 12").map(|m| m.as_str()).collect();
    /// assert_eq!(found, ["7", "9", "1", "12"]);
    /// # Ok::<(), regex_lite_proved::Error>(())
    /// ```
    pub fn find_iter<'r, 'h>(&'r self, text: &'h str) -> Matches<'r, 'h> {
        Unwrapped(self.try_find_iter(text))
    }

    /// Returns all matches, from left to right.
    pub fn try_find_iter<'r, 'h>(&'r self, text: &'h str) -> TryMatches<'r, 'h> {
        self.first_matches(text, usize::MAX)
    }

    /// Returns all matches, of which at most `wanted` are wanted.
    pub(super) fn first_matches<'r, 'h>(
        &'r self,
        text: &'h str,
        wanted: usize,
    ) -> TryMatches<'r, 'h> {
        TryMatches(Spans::new(&self.shared, text, wanted))
    }

    /// Returns the pieces before the first match, between two consecutive matches, and after the
    /// last one: one more piece than matches. A piece may be empty.
    ///
    /// ```
    /// let comma = regex_lite_proved::Regex::new(", *")?;
    /// assert_eq!(comma.split("1,2,  3,").collect::<Vec<_>>(), ["1", "2", "3", ""]);
    /// # Ok::<(), regex_lite_proved::Error>(())
    /// ```
    pub fn split<'r, 'h>(&'r self, text: &'h str) -> Split<'r, 'h> {
        Unwrapped(self.try_split(text))
    }

    /// Returns the pieces before the first match, between two consecutive matches, and after the
    /// last one.
    pub fn try_split<'r, 'h>(&'r self, text: &'h str) -> TrySplit<'r, 'h> {
        TrySplit::new(self.try_find_iter(text))
    }

    /// Returns at most `limit` pieces, the last of which is the rest of the text. With a limit of 0
    /// there are none.
    ///
    /// ```
    /// let colon = regex_lite_proved::Regex::new(": *")?;
    /// let parts: Vec<_> = colon.splitn("time: 12:30", 2).collect();
    /// assert_eq!(parts, ["time", "12:30"]);
    /// # Ok::<(), regex_lite_proved::Error>(())
    /// ```
    pub fn splitn<'r, 'h>(&'r self, text: &'h str, limit: usize) -> SplitN<'r, 'h> {
        Unwrapped(self.try_splitn(text, limit))
    }

    /// Returns at most `limit` pieces, the last of which is the rest of the text.
    pub fn try_splitn<'r, 'h>(&'r self, text: &'h str, limit: usize) -> TrySplitN<'r, 'h> {
        let matches = self.first_matches(text, limit.saturating_sub(1));
        TrySplitN {
            split: TrySplit::new(matches),
            limit,
        }
    }

    /// Returns the first match in each of several texts, which are copied first. The searches share
    /// their memory and the transitions that they cache.
    ///
    /// # Panics
    ///
    /// If memory runs out.
    ///
    /// ```
    /// let level = regex_lite_proved::Regex::new("WARN|ERROR")?;
    /// let found = level.find_each(&["9:00 INFO up", "9:30 WARN full"]);
    /// assert_eq!(found[0], None);
    /// assert_eq!(found[1].map(|found| found.start()), Some(5));
    /// # Ok::<(), regex_lite_proved::Error>(())
    /// ```
    #[track_caller]
    pub fn find_each<'h>(&self, texts: &[&'h str]) -> Vec<Option<Match<'h>>> {
        unwrap(self.try_find_each(texts))
    }

    /// Returns the first match in each of several texts, or [`Error::OutOfMemory`].
    pub fn try_find_each<'h>(&self, texts: &[&'h str]) -> Result<Vec<Option<Match<'h>>>, Error> {
        let joined = texts.concat();
        let lens: Vec<_> = texts.iter().map(|text| text.len()).collect();
        let spans = self.shared.lock().find_each(&joined, &lens)?;
        let found =
            |(text, span): (&&'h str, raw::Span)| span.is_there.then(|| Match::new(text, span));
        Ok(texts.iter().zip(spans).map(found).collect())
    }
}
