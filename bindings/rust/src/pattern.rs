//! Patterns, and what is known about their groups.

use std::fmt;
use std::iter::FusedIterator;
use std::slice;
use std::sync::OnceLock;

use crate::error::Error;
use crate::raw::{Handle, One};
use crate::Options;

/// A pattern with its settings. A regex or a list shares it with the matches that it finds.
pub(crate) struct Pattern {
    pub text: String,
    pub options: Options,
    groups: OnceLock<Groups>,
}

impl Pattern {
    /// Makes a pattern whose groups aren't known yet.
    pub fn new(text: &str, options: Options) -> Pattern {
        Pattern {
            text: text.to_string(),
            options,
            groups: OnceLock::new(),
        }
    }

    /// Makes a pattern whose groups are known, and the handle of its regex.
    pub fn build(text: &str, options: Options) -> Result<(Pattern, Handle<One>), Error> {
        let mut handle = Handle::<One>::new(text, &options)?;
        let pattern = Pattern::new(text, options);
        pattern.groups_by(&mut handle)?;
        Ok((pattern, handle))
    }

    /// Returns the groups of the pattern. If they aren't known yet, the regex is built to find
    /// them.
    pub fn groups(&self) -> Result<&Groups, Error> {
        match self.groups.get() {
            Some(groups) => Ok(groups),
            None => self.groups_by(&mut Handle::<One>::new(&self.text, &self.options)?),
        }
    }

    /// Returns the groups of the pattern, which are read from the handle of its regex.
    fn groups_by(&self, handle: &mut Handle<One>) -> Result<&Groups, Error> {
        let groups = Groups::of(handle)?;
        Ok(self.groups.get_or_init(|| groups))
    }

    /// Returns the groups of the pattern, if they are known.
    pub fn known_groups(&self) -> Option<&Groups> {
        self.groups.get()
    }
}

/// The groups of a pattern.
pub(crate) struct Groups {
    names: Vec<Option<String>>,
    /// The indices of the groups with names, in the order of the names.
    by_name: Vec<usize>,
    at_least: usize,
}

impl Groups {
    /// Reads the groups from the handle of a regex.
    fn of(handle: &mut Handle<One>) -> Result<Groups, Error> {
        let names = (0..handle.groups()).map(|index| handle.group_name(index));
        let names: Vec<_> = names.collect::<Result<_, _>>()?;
        let mut by_name: Vec<_> = (0..names.len())
            .filter(|index| names[*index].is_some())
            .collect();
        by_name.sort_by(|a, b| names[*a].cmp(&names[*b]));
        Ok(Groups {
            names,
            by_name,
            at_least: handle.static_groups(),
        })
    }

    /// Returns the number of groups, including the whole match.
    pub fn len(&self) -> usize {
        self.names.len()
    }

    /// Returns the least number of groups that take part in every match, if it is known.
    pub fn static_len(&self) -> Option<usize> {
        (self.at_least > 0).then_some(self.at_least)
    }

    /// Returns the index of the group with this name.
    pub fn index_of(&self, name: &str) -> Option<usize> {
        let own = |index: &usize| self.names[*index].as_deref().cmp(&Some(name));
        let found = self.by_name.binary_search_by(own).ok()?;
        Some(self.by_name[found])
    }

    /// The names of the groups, by index.
    pub fn names(&self) -> CaptureNames<'_> {
        CaptureNames(self.names.iter())
    }
}

/// The names of the groups of a regex, by index: `None` for a group without a name.
///
/// [`Regex::capture_names`](crate::Regex::capture_names) makes it.
#[derive(Clone)]
pub struct CaptureNames<'r>(slice::Iter<'r, Option<String>>);

impl<'r> Iterator for CaptureNames<'r> {
    type Item = Option<&'r str>;

    fn next(&mut self) -> Option<Option<&'r str>> {
        self.0.next().map(Option::as_deref)
    }

    fn size_hint(&self) -> (usize, Option<usize>) {
        self.0.size_hint()
    }
}

impl ExactSizeIterator for CaptureNames<'_> {}

impl FusedIterator for CaptureNames<'_> {}

impl fmt::Debug for CaptureNames<'_> {
    fn fmt(&self, f: &mut fmt::Formatter<'_>) -> fmt::Result {
        f.debug_tuple("CaptureNames")
            .field(&self.0.as_slice())
            .finish()
    }
}
