//! Searches for matches with their groups.

use crate::batches::Groups;
use crate::error::{unwrap, Error};
use crate::iterators::{CaptureMatches, TryCaptureMatches, Unwrapped};
use crate::raw::{resize, Where};
use crate::{CaptureLocations, Captures, Match, Regex};

/// These calls search for matches with their groups. A call whose name ends in `_at` begins at an
/// offset, as [`Regex::find_at`] does.
///
/// # Panics
///
/// A call that returns no [`Result`] panics if memory runs out, or if the offset is above the
/// text's length or inside a character.
///
/// # Errors
///
/// A call that returns a [`Result`] returns [`Error::OutOfMemory`] or [`Error::BadOffset`] then.
impl Regex {
    /// Returns the groups of the match that [`Regex::find`] returns.
    ///
    /// ```
    /// let pair = regex_lite_proved::Regex::new("(?<key>[a-z]+)=([0-9]+)?")?;
    /// let caps = pair.captures("#width=").unwrap();
    /// assert_eq!((&caps[0], &caps["key"]), ("width=", "width"));
    /// assert_eq!(caps.get(2), None);
    /// # Ok::<(), regex_lite_proved::Error>(())
    /// ```
    #[track_caller]
    pub fn captures<'h>(&self, text: &'h str) -> Option<Captures<'h>> {
        self.captures_at(text, 0)
    }

    /// Returns the groups of the first match from the offset on.
    #[track_caller]
    pub fn captures_at<'h>(&self, text: &'h str, start: usize) -> Option<Captures<'h>> {
        unwrap(self.try_captures_at(text, start))
    }

    /// Returns the groups of the first match.
    pub fn try_captures<'h>(&self, text: &'h str) -> Result<Option<Captures<'h>>, Error> {
        self.try_captures_at(text, 0)
    }

    /// Returns the groups of the first match from the offset on.
    pub fn try_captures_at<'h>(
        &self,
        text: &'h str,
        start: usize,
    ) -> Result<Option<Captures<'h>>, Error> {
        self.captures_by(text, Where::From(start))
    }

    /// Returns the groups of the first match.
    pub(super) fn captures_by<'h>(
        &self,
        text: &'h str,
        place: Where,
    ) -> Result<Option<Captures<'h>>, Error> {
        let mut spans = Vec::new();
        resize(&mut spans, self.captures_len())?;
        let found = self.shared.lock().captures(text, place, &mut spans)?;
        Ok(found.map(|_| Captures::new(text, spans, &self.pattern)))
    }

    /// Returns the groups of all matches that [`Regex::find_iter`] yields. They too are fetched in
    /// batches.
    ///
    /// ```
    /// let pair = regex_lite_proved::Regex::new("([a-z]+)=([0-9]+)")?;
    /// let pairs = pair.captures_iter("width=80 height=24").map(|caps| caps.extract());
    /// let pairs: Vec<_> = pairs.map(|(_, [key, value])| (key, value)).collect();
    /// assert_eq!(pairs, [("width", "80"), ("height", "24")]);
    /// # Ok::<(), regex_lite_proved::Error>(())
    /// ```
    pub fn captures_iter<'r, 'h>(&'r self, text: &'h str) -> CaptureMatches<'r, 'h> {
        Unwrapped(self.try_captures_iter(text))
    }

    /// Returns the groups of all matches, from left to right. An error is the last item.
    pub fn try_captures_iter<'r, 'h>(&'r self, text: &'h str) -> TryCaptureMatches<'r, 'h> {
        self.first_captures(text, usize::MAX)
    }

    /// Returns the groups of all matches, of which at most `wanted` are wanted.
    pub(super) fn first_captures<'r, 'h>(
        &'r self,
        text: &'h str,
        wanted: usize,
    ) -> TryCaptureMatches<'r, 'h> {
        TryCaptureMatches {
            groups: Groups::new(&self.shared, text, self.captures_len(), wanted),
            pattern: &self.pattern,
        }
    }

    /// Makes locations for [`Regex::captures_read`], which writes to them for one match after
    /// another.
    pub fn capture_locations(&self) -> CaptureLocations {
        CaptureLocations::new(self.captures_len())
    }

    /// Writes the spans of the groups of the first match, and returns the match.
    ///
    /// ```
    /// let pair = regex_lite_proved::Regex::new("([a-z]+)=([0-9]+)?")?;
    /// let mut places = pair.capture_locations();
    /// assert!(pair.captures_read(&mut places, "#width=").is_some());
    /// assert_eq!((places.get(1), places.get(2)), (Some((1, 6)), None));
    /// # Ok::<(), regex_lite_proved::Error>(())
    /// ```
    #[track_caller]
    pub fn captures_read<'h>(
        &self,
        locations: &mut CaptureLocations,
        text: &'h str,
    ) -> Option<Match<'h>> {
        self.captures_read_at(locations, text, 0)
    }

    /// Writes the spans of the groups of the first match from the offset on, and returns the match.
    #[track_caller]
    pub fn captures_read_at<'h>(
        &self,
        locations: &mut CaptureLocations,
        text: &'h str,
        start: usize,
    ) -> Option<Match<'h>> {
        unwrap(self.try_captures_read_at(locations, text, start))
    }

    /// Writes the spans of the groups of the first match, and returns the match.
    pub fn try_captures_read<'h>(
        &self,
        locations: &mut CaptureLocations,
        text: &'h str,
    ) -> Result<Option<Match<'h>>, Error> {
        self.try_captures_read_at(locations, text, 0)
    }

    /// Writes the spans of the groups of the first match from the offset on, and returns the match.
    pub fn try_captures_read_at<'h>(
        &self,
        locations: &mut CaptureLocations,
        text: &'h str,
        start: usize,
    ) -> Result<Option<Match<'h>>, Error> {
        let spans = locations.blank(self.captures_len())?;
        let found = self
            .shared
            .lock()
            .captures(text, Where::From(start), spans)?;
        Ok(found.map(|_| Match::new(text, spans[0])))
    }
}
