//! Lists of patterns that are searched for in one pass.

mod anchored;
mod listed;
mod searches;
mod whole;

use std::fmt;
use std::sync::atomic::{AtomicUsize, Ordering};
use std::sync::Arc;

use crate::error::{unwrap, Error, ListError};
use crate::pattern::Pattern;
use crate::raw::{Handle, List, Span};
use crate::shared::Shared;
use crate::{Captures, Options};

/// A compiled list of patterns, numbered from 0 on.
///
/// A search makes one pass over the text for all of them. Of the matches that start first it finds
/// that of the pattern with the lowest number. The list may be empty, and a pattern may occur in it
/// more than once.
///
/// What [`Regex`](crate::Regex) says about memory, threads and clones holds for a list too.
///
/// ```
/// use regex_lite_proved::RegexList;
///
/// let list = RegexList::new(["if", "[a-z]+", "[0-9]+"])?;
/// let (number, found) = list.find("(iffy)").unwrap();
/// assert_eq!((number, found.as_str()), (0, "if"));
/// # Ok::<(), regex_lite_proved::ListError>(())
/// ```
pub struct RegexList {
    shared: Shared<List>,
    patterns: Vec<Arc<Pattern>>,
    /// The number of groups for which there is room at first: as many as some match had. If there
    /// are more, a search for one match is made twice.
    width: AtomicUsize,
}

/// The number of groups for which there is room before any match was found, and the greatest such
/// number.
const FIRST_WIDTH: usize = 4;
const MOST_WIDTH: usize = 64;

impl RegexList {
    /// Builds the list of these patterns, each under the default settings.
    ///
    /// # Errors
    ///
    /// The error of the first pattern that is rejected, with its number; or an error without a
    /// number, if memory runs out or the patterns are too large together.
    pub fn new<I, S>(patterns: I) -> Result<RegexList, ListError>
    where
        I: IntoIterator<Item = S>,
        S: AsRef<str>,
    {
        RegexList::with_options(patterns.into_iter().map(|text| (text, Options::default())))
    }

    /// Builds the list of these patterns, each under its own settings.
    ///
    /// # Errors
    ///
    /// Those of [`RegexList::new`].
    pub fn with_options<I, S>(patterns: I) -> Result<RegexList, ListError>
    where
        I: IntoIterator<Item = (S, Options)>,
        S: AsRef<str>,
    {
        let own = |(text, options): (S, Options)| Arc::new(Pattern::new(text.as_ref(), options));
        RegexList::of(patterns.into_iter().map(own).collect())
    }

    /// Builds the list of these patterns.
    fn of(patterns: Vec<Arc<Pattern>>) -> Result<RegexList, ListError> {
        let own: Vec<_> = patterns
            .iter()
            .map(|own| (&own.text[..], own.options))
            .collect();
        let shared = Shared::new(Handle::<List>::new(&own)?);
        Ok(RegexList {
            shared,
            patterns,
            width: AtomicUsize::new(FIRST_WIDTH),
        })
    }

    /// Builds a list of the same patterns and settings. [`Clone`] does the same, but panics instead
    /// of returning an error.
    ///
    /// # Errors
    ///
    /// [`Error::OutOfMemory`].
    pub fn try_clone(&self) -> Result<RegexList, Error> {
        RegexList::of(self.patterns.clone()).map_err(|refused| refused.error)
    }

    /// Returns the number of patterns.
    pub fn len(&self) -> usize {
        self.patterns.len()
    }

    /// Returns whether there is no pattern.
    pub fn is_empty(&self) -> bool {
        self.patterns.is_empty()
    }

    /// Returns the pattern with this number, if there is one.
    pub fn as_str(&self, number: usize) -> Option<&str> {
        Some(&self.patterns.get(number)?.text)
    }

    /// Returns the number of places of the patterns together: the states of their NFAs. A search of
    /// a text tries at most `(arrows + patterns) * (characters + 1)` places.
    pub fn places(&self) -> usize {
        self.shared.lock().places()
    }

    /// Returns the number of arrows: the transitions of the NFA.
    pub fn arrows(&self) -> usize {
        self.shared.lock().arrows()
    }

    /// Makes the groups of a match of the pattern with this number, and records their number.
    pub(crate) fn groups<'h>(
        &self,
        text: &'h str,
        number: usize,
        spans: Vec<Span>,
    ) -> (usize, Captures<'h>) {
        self.width
            .fetch_max(spans.len().min(MOST_WIDTH), Ordering::Relaxed);
        (number, Captures::new(text, spans, &self.patterns[number]))
    }

    /// Compiles each pattern by itself, so that the names of its groups are known. Otherwise that
    /// is done for a pattern when [`Captures`] first need the names.
    ///
    /// # Errors
    ///
    /// [`Error::OutOfMemory`].
    pub fn load_names(&self) -> Result<(), Error> {
        self.patterns
            .iter()
            .try_for_each(|own| own.groups().map(|_| ()))
    }
}

impl Clone for RegexList {
    #[track_caller]
    fn clone(&self) -> RegexList {
        unwrap(self.try_clone())
    }
}

/// The patterns, as a value of the type.
impl fmt::Debug for RegexList {
    fn fmt(&self, f: &mut fmt::Formatter<'_>) -> fmt::Result {
        let patterns: Vec<_> = self.patterns.iter().map(|own| &own.text).collect();
        f.debug_tuple("RegexList").field(&patterns).finish()
    }
}
