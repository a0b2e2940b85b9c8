//! Regexes.

mod anchored;
mod groups;
mod replacing;
mod searches;
mod whole;

use std::fmt;
use std::str::FromStr;
use std::sync::Arc;

use crate::error::{unwrap, Error};
use crate::pattern::{CaptureNames, Groups, Pattern};
use crate::raw::{Handle, One};
use crate::shared::Shared;
use crate::Options;

/// A compiled pattern.
///
/// Texts are `&str`, and offsets count bytes. A match begins and ends on character boundaries.
///
/// # Memory
///
/// A search needs memory of its own, which can run out: for the groups of a large pattern a search
/// requests much at once. The calls that have the names of the crate regex-lite return plain values
/// as there, and panic if memory runs out. Each has a form that returns a [`Result`], and whose
/// name begins with `try_`. What this crate itself allocates besides its buffers, such as the new
/// text of a replacement, behaves like any collection of Rust: the process ends if memory runs out.
///
/// # Threads
///
/// Several threads may search with one regex. They search one at a time, while the others wait. To
/// search in several threads at once, give each a clone.
///
/// # Clones
///
/// A clone compiles the pattern again, which takes as long as [`Regex::new`], and as much memory.
/// It panics if memory runs out; [`Regex::try_clone`] returns an error. If threads needn't search
/// at once, share a reference or an [`Arc`].
pub struct Regex {
    shared: Shared<One>,
    pattern: Arc<Pattern>,
}

impl Regex {
    /// Builds the regex of a pattern under the default settings. A
    /// [`RegexBuilder`](crate::RegexBuilder) takes others.
    ///
    /// ```
    /// use regex_lite_proved::{Error, Fault, Regex};
    ///
    /// let regex = Regex::new("sam(?:wise)?")?;
    /// assert!(regex.is_match("mr samwise"));
    /// let refused = Regex::new("sam[z-a]").unwrap_err();
    /// assert!(matches!(refused, Error::Pattern { fault: Some(Fault { start: 3, .. }), .. }));
    /// # Ok::<(), Error>(())
    /// ```
    ///
    /// # Errors
    ///
    /// [`Error::Pattern`] if the pattern is rejected, and [`Error::OutOfMemory`].
    pub fn new(pattern: &str) -> Result<Regex, Error> {
        Regex::with_options(pattern, Options::default())
    }

    /// Builds the regex of a pattern under these settings.
    ///
    /// # Errors
    ///
    /// [`Error::Pattern`] if the pattern is rejected, and [`Error::OutOfMemory`].
    pub fn with_options(pattern: &str, options: Options) -> Result<Regex, Error> {
        let (pattern, handle) = Pattern::build(pattern, options)?;
        Ok(Regex {
            shared: Shared::new(handle),
            pattern: Arc::new(pattern),
        })
    }

    /// Builds a regex of the same pattern and settings. [`Clone`] does the same, but panics instead
    /// of returning an error.
    ///
    /// # Errors
    ///
    /// [`Error::OutOfMemory`].
    pub fn try_clone(&self) -> Result<Regex, Error> {
        let handle = Handle::<One>::new(&self.pattern.text, &self.pattern.options)?;
        Ok(Regex {
            shared: Shared::new(handle),
            pattern: Arc::clone(&self.pattern),
        })
    }

    /// Returns the pattern.
    pub fn as_str(&self) -> &str {
        &self.pattern.text
    }

    /// Returns the names of the groups by index, beginning with the whole match, which has none.
    ///
    /// ```
    /// let size = regex_lite_proved::Regex::new(r"(?<width>\d+)(x)?")?;
    /// let names: Vec<_> = size.capture_names().collect();
    /// assert_eq!(names, [None, Some("width"), None]);
    /// # Ok::<(), regex_lite_proved::Error>(())
    /// ```
    pub fn capture_names(&self) -> CaptureNames<'_> {
        self.own_groups().names()
    }

    /// Returns the number of groups of a match, including the whole match.
    pub fn captures_len(&self) -> usize {
        self.own_groups().len()
    }

    /// Returns the least number of groups that take part in every match, including the whole match:
    /// `None` if it isn't known. It is one more than the groups that
    /// [`Captures::extract`](crate::Captures::extract) returns.
    pub fn static_captures_len(&self) -> Option<usize> {
        self.own_groups().static_len()
    }

    /// Returns whether the pattern may match the empty text if its looks, such as `^` and `\b`, are
    /// assumed to hold. If this is `false`, no match is empty.
    ///
    /// ```
    /// use regex_lite_proved::Regex;
    ///
    /// assert!(Regex::new("a*")?.may_be_empty());
    /// assert!(!Regex::new("a+$")?.may_be_empty());
    /// # Ok::<(), regex_lite_proved::Error>(())
    /// ```
    pub fn may_be_empty(&self) -> bool {
        self.shared.lock().may_be_empty()
    }

    /// Returns the number of places of the pattern: the states of its NFA. A search of a text tries
    /// at most `(arrows + 1) * (characters + 1)` places.
    pub fn places(&self) -> usize {
        self.shared.lock().places()
    }

    /// Returns the number of arrows: the transitions of the NFA.
    pub fn arrows(&self) -> usize {
        self.shared.lock().arrows()
    }

    /// Returns the groups of the pattern.
    fn own_groups(&self) -> &Groups {
        self.pattern
            .known_groups()
            .expect("the groups of a regex are known")
    }
}

impl Clone for Regex {
    #[track_caller]
    fn clone(&self) -> Regex {
        unwrap(self.try_clone())
    }
}

/// The pattern, as a value of the type.
impl fmt::Debug for Regex {
    fn fmt(&self, f: &mut fmt::Formatter<'_>) -> fmt::Result {
        f.debug_tuple("Regex").field(&self.as_str()).finish()
    }
}

/// The pattern.
impl fmt::Display for Regex {
    fn fmt(&self, f: &mut fmt::Formatter<'_>) -> fmt::Result {
        f.write_str(self.as_str())
    }
}

impl FromStr for Regex {
    type Err = Error;

    fn from_str(pattern: &str) -> Result<Regex, Error> {
        Regex::new(pattern)
    }
}

impl TryFrom<&str> for Regex {
    type Error = Error;

    fn try_from(pattern: &str) -> Result<Regex, Error> {
        Regex::new(pattern)
    }
}

impl TryFrom<String> for Regex {
    type Error = Error;

    fn try_from(pattern: String) -> Result<Regex, Error> {
        Regex::new(&pattern)
    }
}
