//! The groups of a match.

use std::fmt;
use std::iter::FusedIterator;
use std::ops::Index;
use std::slice;
use std::sync::Arc;

use crate::error::{unwrap, Error};
use crate::pattern::{CaptureNames, Pattern};
use crate::raw::{resize, Span};
use crate::{template, Match};

/// The groups of a match. Group 0 is the whole match, so it always took part.
///
/// It borrows the text, and neither the regex nor the list that found it.
///
/// The groups of a match of a [`RegexList`] are known by their indices. The first call that needs
/// their names, and [`extract`](Captures::extract), build the pattern by itself, once for all its
/// matches, and panic if memory runs out for that. [`RegexList::load_names`] does it beforehand,
/// and returns an error.
///
/// [`RegexList`]: crate::RegexList
/// [`RegexList::load_names`]: crate::RegexList::load_names
#[derive(Clone)]
pub struct Captures<'h> {
    text: &'h str,
    spans: Vec<Span>,
    pattern: Arc<Pattern>,
}

impl<'h> Captures<'h> {
    /// Makes the groups of a match of this pattern from what the library has written.
    pub(crate) fn new(text: &'h str, spans: Vec<Span>, pattern: &Arc<Pattern>) -> Captures<'h> {
        Captures {
            text,
            spans,
            pattern: Arc::clone(pattern),
        }
    }

    /// Returns the whole match.
    pub(crate) fn whole(&self) -> Match<'h> {
        Match::new(self.text, self.spans[0])
    }

    /// Returns the group with this index, if there is one and it took part.
    pub fn get(&self, index: usize) -> Option<Match<'h>> {
        found(self.text, self.spans.get(index)?)
    }

    /// Returns the group with this name, if there is one and it took part.
    ///
    /// ```
    /// let size = regex_lite_proved::Regex::new(r"(?<width>\d+)x(?<height>\d+)")?;
    /// let caps = size.captures("size: 80x24").unwrap();
    /// assert_eq!(caps.name("height").unwrap().as_str(), "24");
    /// assert_eq!(&caps["width"], "80");
    /// assert_eq!(&caps[2], "24");
    /// # Ok::<(), regex_lite_proved::Error>(())
    /// ```
    #[track_caller]
    pub fn name(&self, name: &str) -> Option<Match<'h>> {
        self.get(unwrap(self.pattern.groups()).index_of(name)?)
    }

    /// Returns the text of the whole match, and those of the `N` groups that take part in every
    /// match.
    ///
    /// ```
    /// let date = regex_lite_proved::Regex::new("([0-9]{4})-([0-9]{2})")?;
    /// let (_, [year, month]) = date.captures("1969-07").unwrap().extract();
    /// assert_eq!((year, month), ("1969", "07"));
    /// # Ok::<(), regex_lite_proved::Error>(())
    /// ```
    ///
    /// # Panics
    ///
    /// If `N` isn't one less than [`Regex::static_captures_len`](crate::Regex::static_captures_len)
    /// returns, which counts the whole match, or if that is `None`.
    #[track_caller]
    pub fn extract<const N: usize>(&self) -> (&'h str, [&'h str; N]) {
        let known = unwrap(self.pattern.groups()).static_len();
        let len = known.expect("how many groups take part varies from match to match") - 1;
        assert_eq!(
            N, len,
            "{N} groups are asked for, and {len} take part in every match"
        );
        let mut groups = self.iter().skip(1).flatten().map(|group| group.as_str());
        let groups = [(); N].map(|()| groups.next().expect("as many groups took part"));
        (self.whole().as_str(), groups)
    }

    /// Appends the template with its references replaced by the texts of groups.
    ///
    /// `$name` and `${name}` refer to the group with this name, or with this index if it consists
    /// of digits. Without braces a name is the longest run of ASCII letters, digits and `_`, so
    /// `$1a` is the group `1a`. `$$` gives a `$`. A group that doesn't exist or took no part gives
    /// the empty text.
    ///
    /// ```
    /// let name = regex_lite_proved::Regex::new(r"(?<first>\w+) (?<last>\w+)")?;
    /// let mut text = String::from("by ");
    /// name.captures("Ada Lovelace").unwrap().expand("${last}, $1 ($$5)", &mut text);
    /// assert_eq!(text, "by Lovelace, Ada ($5)");
    /// # Ok::<(), regex_lite_proved::Error>(())
    /// ```
    #[track_caller]
    pub fn expand(&self, template: &str, dst: &mut String) {
        for piece in template::pieces(template) {
            let group = match piece {
                template::Piece::Text(text) => {
                    dst.push_str(text);
                    continue;
                }
                template::Piece::Index(index) => self.get(index),
                template::Piece::Name(name) => self.name(name),
            };
            dst.push_str(group.map_or("", |group| group.as_str()));
        }
    }

    /// Returns all groups by index, beginning with the whole match: `None` for a group that took no
    /// part.
    pub fn iter<'c>(&'c self) -> SubCaptureMatches<'c, 'h> {
        SubCaptureMatches {
            text: self.text,
            spans: self.spans.iter(),
        }
    }

    /// Returns the number of groups of the pattern, including the whole match.
    #[allow(clippy::len_without_is_empty)] // Group 0 is always there.
    pub fn len(&self) -> usize {
        self.spans.len()
    }
}

/// Returns the group with this span, if it took part.
fn found<'h>(text: &'h str, span: &Span) -> Option<Match<'h>> {
    span.is_there.then(|| Match::new(text, *span))
}

/// The text of the group with an index.
///
/// # Panics
///
/// If there is no such group, or it took no part.
impl Index<usize> for Captures<'_> {
    type Output = str;

    #[track_caller]
    fn index(&self, index: usize) -> &str {
        match self.get(index) {
            Some(group) => group.as_str(),
            None => panic!("no group {index} took part in the match"),
        }
    }
}

/// The text of the group with a name.
///
/// # Panics
///
/// If there is no such group, or it took no part.
impl<'n> Index<&'n str> for Captures<'_> {
    type Output = str;

    #[track_caller]
    fn index<'c>(&'c self, name: &'n str) -> &'c str {
        match self.name(name) {
            Some(group) => group.as_str(),
            None => panic!("no group '{name}' took part in the match"),
        }
    }
}

/// Each group by its index and, where it is known, its name.
impl fmt::Debug for Captures<'_> {
    fn fmt(&self, f: &mut fmt::Formatter<'_>) -> fmt::Result {
        f.debug_tuple("Captures").field(&Shown(self)).finish()
    }
}

/// Groups that are shown as a map.
struct Shown<'c, 'h>(&'c Captures<'h>);

impl fmt::Debug for Shown<'_, '_> {
    fn fmt(&self, f: &mut fmt::Formatter<'_>) -> fmt::Result {
        let mut names = self.0.pattern.known_groups().map(|groups| groups.names());
        let mut map = f.debug_map();
        for (index, group) in self.0.iter().enumerate() {
            match names.as_mut().and_then(CaptureNames::next).flatten() {
                Some(name) => map.key(&format_args!("{index}/{name:?}")),
                None => map.key(&index),
            };
            match group {
                Some(group) => map.value(&format_args!("{:?}/{:?}", group.range(), group.as_str())),
                None => map.value(&None::<()>),
            };
        }
        map.finish()
    }
}

/// The groups of a match by index: `None` for a group that took no part.
///
/// [`Captures::iter`] makes it.
#[derive(Clone, Debug)]
pub struct SubCaptureMatches<'c, 'h> {
    text: &'h str,
    spans: slice::Iter<'c, Span>,
}

impl<'h> Iterator for SubCaptureMatches<'_, 'h> {
    type Item = Option<Match<'h>>;

    fn next(&mut self) -> Option<Option<Match<'h>>> {
        Some(found(self.text, self.spans.next()?))
    }

    fn size_hint(&self) -> (usize, Option<usize>) {
        self.spans.size_hint()
    }
}

impl ExactSizeIterator for SubCaptureMatches<'_, '_> {}

impl FusedIterator for SubCaptureMatches<'_, '_> {}

/// The spans of the groups of a match, reusable for many searches.
///
/// [`Regex::capture_locations`](crate::Regex::capture_locations) makes it, and
/// [`Regex::captures_read`](crate::Regex::captures_read) writes to it.
#[derive(Clone, Debug)]
pub struct CaptureLocations(Vec<Span>);

impl CaptureLocations {
    /// Makes locations of this many groups, none of which takes part.
    pub(crate) fn new(groups: usize) -> CaptureLocations {
        CaptureLocations(vec![Span::default(); groups])
    }

    /// Makes these the locations of this many groups, none of which takes part, and lends them.
    pub(crate) fn blank(&mut self, groups: usize) -> Result<&mut Vec<Span>, Error> {
        self.0.clear();
        resize(&mut self.0, groups)?;
        Ok(&mut self.0)
    }

    /// Returns the two offsets of the group with this index, in bytes, if there is such a group and
    /// it took part. Before the first search, and after one that found nothing, no group took part.
    pub fn get(&self, index: usize) -> Option<(usize, usize)> {
        let span = self.0.get(index).filter(|span| span.is_there)?;
        Some((span.start, span.end))
    }

    /// Returns the number of groups of the regex, including the whole match.
    #[allow(clippy::len_without_is_empty)] // Group 0 is always there.
    pub fn len(&self) -> usize {
        self.0.len()
    }
}
