//! Iterators over the matches in a text, and over the pieces between them.

use std::fmt;
use std::iter::FusedIterator;
use std::sync::Arc;

use crate::batches::{Groups, Spans};
use crate::error::{unwrap, Error};
use crate::pattern::Pattern;
use crate::raw::{List, One};
use crate::{Captures, Match, RegexList};

/// An iterator over the items of another, none of which may be an error.
///
/// [`Regex::find_iter`](crate::Regex::find_iter) and the calls like it return one. Its `next`
/// panics if the other one yields an error, which is that memory ran out.
#[derive(Debug)]
pub struct Unwrapped<I>(pub(crate) I);

impl<T, I: Iterator<Item = Result<T, Error>>> Iterator for Unwrapped<I> {
    type Item = T;

    #[track_caller]
    fn next(&mut self) -> Option<T> {
        Some(unwrap(self.0.next()?))
    }
}

impl<T, I: FusedIterator<Item = Result<T, Error>>> FusedIterator for Unwrapped<I> {}

/// All matches of a text, from left to right: see [`Regex::find_iter`](crate::Regex::find_iter).
pub type Matches<'r, 'h> = Unwrapped<TryMatches<'r, 'h>>;

/// The groups of all matches: see [`Regex::captures_iter`](crate::Regex::captures_iter).
pub type CaptureMatches<'r, 'h> = Unwrapped<TryCaptureMatches<'r, 'h>>;

/// The pieces between all matches: see [`Regex::split`](crate::Regex::split).
pub type Split<'r, 'h> = Unwrapped<TrySplit<'r, 'h>>;

/// The first pieces between matches, and the rest: see [`Regex::splitn`](crate::Regex::splitn).
pub type SplitN<'r, 'h> = Unwrapped<TrySplitN<'r, 'h>>;

/// All matches with the numbers of their patterns: see
/// [`RegexList::find_iter`](crate::RegexList::find_iter).
pub type ListMatches<'r, 'h> = Unwrapped<TryListMatches<'r, 'h>>;

/// The groups of all matches with the numbers of their patterns: see
/// [`RegexList::captures_iter`](crate::RegexList::captures_iter).
pub type ListCaptureMatches<'r, 'h> = Unwrapped<TryListCaptureMatches<'r, 'h>>;

/// All matches of a text, from left to right. An error is the last item.
///
/// [`Regex::try_find_iter`](crate::Regex::try_find_iter) makes it.
pub struct TryMatches<'r, 'h>(pub(crate) Spans<'r, 'h, One>);

impl<'h> Iterator for TryMatches<'_, 'h> {
    type Item = Result<Match<'h>, Error>;

    fn next(&mut self) -> Option<Self::Item> {
        let item = self.0.next()?;
        Some(item.map(|span| Match::new(self.0.text(), span)))
    }
}

/// All matches of a text with the numbers of their patterns. An error is the last item.
///
/// [`RegexList::try_find_iter`](crate::RegexList::try_find_iter) makes it.
pub struct TryListMatches<'r, 'h>(pub(crate) Spans<'r, 'h, List>);

impl<'h> Iterator for TryListMatches<'_, 'h> {
    type Item = Result<(usize, Match<'h>), Error>;

    fn next(&mut self) -> Option<Self::Item> {
        let item = self.0.next()?;
        Some(item.map(|span| Match::numbered(self.0.text(), span)))
    }
}

/// The groups of all matches of a text, from left to right. An error is the last item.
///
/// [`Regex::try_captures_iter`](crate::Regex::try_captures_iter) makes it.
pub struct TryCaptureMatches<'r, 'h> {
    pub(crate) groups: Groups<'r, 'h, One>,
    pub(crate) pattern: &'r Arc<Pattern>,
}

impl<'h> Iterator for TryCaptureMatches<'_, 'h> {
    type Item = Result<Captures<'h>, Error>;

    fn next(&mut self) -> Option<Self::Item> {
        let item = self.groups.next()?;
        Some(item.map(|(_, spans)| Captures::new(self.groups.text(), spans, self.pattern)))
    }
}

/// The groups of all matches of a text with the numbers of their patterns. An error is the last
/// item.
///
/// [`RegexList::try_captures_iter`](crate::RegexList::try_captures_iter) makes it.
pub struct TryListCaptureMatches<'r, 'h> {
    pub(crate) groups: Groups<'r, 'h, List>,
    pub(crate) list: &'r RegexList,
}

impl<'h> Iterator for TryListCaptureMatches<'_, 'h> {
    type Item = Result<(usize, Captures<'h>), Error>;

    fn next(&mut self) -> Option<Self::Item> {
        let item = self.groups.next()?;
        Some(item.map(|(number, spans)| self.list.groups(self.groups.text(), number, spans)))
    }
}

/// The pieces before, between and after the matches in a text. An error is the last item.
///
/// [`Regex::try_split`](crate::Regex::try_split) makes it.
pub struct TrySplit<'r, 'h> {
    pub(crate) matches: TryMatches<'r, 'h>,
    /// The start of the last piece, until it is yielded.
    pub(crate) rest: Option<usize>,
}

impl<'r, 'h> TrySplit<'r, 'h> {
    /// Makes the iterator over the pieces between these matches, none of which was taken.
    pub(crate) fn new(matches: TryMatches<'r, 'h>) -> TrySplit<'r, 'h> {
        TrySplit {
            matches,
            rest: Some(0),
        }
    }

    /// Returns the last piece, which follows the last match.
    fn take_rest(&mut self) -> Option<&'h str> {
        let from = self.rest.take()?;
        Some(&self.matches.0.text()[from..])
    }
}

impl<'h> Iterator for TrySplit<'_, 'h> {
    type Item = Result<&'h str, Error>;

    fn next(&mut self) -> Option<Self::Item> {
        let from = self.rest?;
        match self.matches.next() {
            Some(Ok(found)) => {
                self.rest = Some(found.end());
                Some(Ok(&self.matches.0.text()[from..found.start()]))
            }
            Some(Err(error)) => {
                self.rest = None;
                Some(Err(error))
            }
            None => self.take_rest().map(Ok),
        }
    }
}

/// The first pieces of a text between matches, and the rest of the text as the last one. An error
/// is the last item.
///
/// [`Regex::try_splitn`](crate::Regex::try_splitn) makes it.
pub struct TrySplitN<'r, 'h> {
    pub(crate) split: TrySplit<'r, 'h>,
    pub(crate) limit: usize,
}

impl<'h> Iterator for TrySplitN<'_, 'h> {
    type Item = Result<&'h str, Error>;

    fn next(&mut self) -> Option<Self::Item> {
        self.limit = self.limit.checked_sub(1)?;
        if self.limit == 0 {
            return self.split.take_rest().map(Ok);
        }
        self.split.next()
    }
}

/// Marks iterators as fused, and makes `Debug` show the text that they scan.
macro_rules! iterators {
    ($($name:ident, $text:ident => $get:expr;)*) => {$(
        impl FusedIterator for $name<'_, '_> {}

        impl fmt::Debug for $name<'_, '_> {
            fn fmt(&self, f: &mut fmt::Formatter<'_>) -> fmt::Result {
                let $text = self;
                f.debug_struct(stringify!($name)).field("text", &$get).finish_non_exhaustive()
            }
        }
    )*};
}

iterators! {
    TryMatches, own => own.0.text();
    TryListMatches, own => own.0.text();
    TryCaptureMatches, own => own.groups.text();
    TryListCaptureMatches, own => own.groups.text();
    TrySplit, own => own.matches.0.text();
    TrySplitN, own => own.split.matches.0.text();
}
