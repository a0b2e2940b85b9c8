//! Texts with their matches replaced.

use std::borrow::Cow;

use crate::error::{unwrap, Error};
use crate::{Regex, Replacer};

/// These calls replace the matches that [`Regex::find_iter`] yields by what a [`Replacer`] returns:
/// a template for [`Captures::expand`](crate::Captures::expand), a literal text in a
/// [`NoExpand`](crate::NoExpand), or a closure that is called with the groups of each match.
///
/// What they return borrows the text exactly if there is no match.
///
/// # Panics
///
/// A call that returns no [`Result`] panics if memory runs out for a search.
///
/// # Errors
///
/// A call that returns a [`Result`] returns [`Error::OutOfMemory`] then. The replacer may have been
/// called for some matches by then.
impl Regex {
    /// Returns the text with its first match replaced.
    #[track_caller]
    pub fn replace<'h, R: Replacer>(&self, text: &'h str, replacer: R) -> Cow<'h, str> {
        self.replacen(text, 1, replacer)
    }

    /// Returns the text with all its matches replaced.
    ///
    /// ```
    /// use regex_lite_proved::{NoExpand, Regex};
    ///
    /// let name = Regex::new(r"(?<first>\w+) (?<last>\w+)")?;
    /// assert_eq!(name.replace_all("ada lovelace", "$last, $first"), "lovelace, ada");
    /// assert_eq!(name.replace_all("ada lovelace", NoExpand("$last")), "$last");
    ///
    /// let number = Regex::new("[0-9]+")?;
    /// let twice = number.replace_all("7 of 9", |caps: &regex_lite_proved::Captures| {
    ///     (2 * caps[0].parse::<u64>().unwrap()).to_string()
    /// });
    /// assert_eq!(twice, "14 of 18");
    /// # Ok::<(), regex_lite_proved::Error>(())
    /// ```
    #[track_caller]
    pub fn replace_all<'h, R: Replacer>(&self, text: &'h str, replacer: R) -> Cow<'h, str> {
        self.replacen(text, 0, replacer)
    }

    /// Returns the text with its first `limit` matches replaced, or all if the limit is 0.
    #[track_caller]
    pub fn replacen<'h, R: Replacer>(
        &self,
        text: &'h str,
        limit: usize,
        replacer: R,
    ) -> Cow<'h, str> {
        unwrap(self.try_replacen(text, limit, replacer))
    }

    /// Returns the text with its first match replaced.
    pub fn try_replace<'h, R: Replacer>(
        &self,
        text: &'h str,
        replacer: R,
    ) -> Result<Cow<'h, str>, Error> {
        self.try_replacen(text, 1, replacer)
    }

    /// Returns the text with all its matches replaced.
    pub fn try_replace_all<'h, R: Replacer>(
        &self,
        text: &'h str,
        replacer: R,
    ) -> Result<Cow<'h, str>, Error> {
        self.try_replacen(text, 0, replacer)
    }

    /// Returns the text with its first `limit` matches replaced, or all if the limit is 0.
    pub fn try_replacen<'h, R: Replacer>(
        &self,
        text: &'h str,
        limit: usize,
        mut replacer: R,
    ) -> Result<Cow<'h, str>, Error> {
        let wanted = if limit == 0 { usize::MAX } else { limit };
        let mut written = Written::new(text);
        if let Some(fixed) = replacer.no_expansion() {
            for found in self.first_matches(text, wanted).take(wanted) {
                let found = found?;
                written.up_to(found.start(), found.end()).push_str(&fixed);
            }
        } else {
            for caps in self.first_captures(text, wanted).take(wanted) {
                let caps = caps?;
                let whole = caps.whole();
                replacer.replace_append(&caps, written.up_to(whole.start(), whole.end()));
            }
        }
        Ok(written.finish())
    }
}

/// The new text, as far as it is written.
struct Written<'h> {
    text: &'h str,
    new: Option<String>,
    /// The start of the text that hasn't been copied.
    rest: usize,
}

impl<'h> Written<'h> {
    /// Begins the new text for this one.
    fn new(text: &'h str) -> Written<'h> {
        Written {
            text,
            new: None,
            rest: 0,
        }
    }

    /// Copies the text up to the start of a match, and skips the match. Returns the text to append
    /// to.
    fn up_to(&mut self, start: usize, end: usize) -> &mut String {
        let new = self
            .new
            .get_or_insert_with(|| String::with_capacity(self.text.len()));
        new.push_str(&self.text[self.rest..start]);
        self.rest = end;
        new
    }

    /// Returns the new text with the rest, or the old one if nothing was replaced.
    fn finish(self) -> Cow<'h, str> {
        match self.new {
            Some(mut new) => {
                new.push_str(&self.text[self.rest..]);
                Cow::Owned(new)
            }
            None => Cow::Borrowed(self.text),
        }
    }
}
