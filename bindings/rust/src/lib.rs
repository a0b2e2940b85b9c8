//! Regular expressions for untrusted patterns and texts: a safe crate over the library for C, whose
//! calls are proved. It has the names and the calls of the crate regex-lite.
//!
//! ```
//! use regex_lite_proved::Regex;
//!
//! let regex = Regex::new(r"(?i)\bsam(?<rest>\w*)")?;
//! let caps = regex.captures("Mister Samwise").unwrap();
//! assert_eq!(&caps["rest"], "wise");
//! assert_eq!(regex.replace_all("Sam, Samwise", "<$0>"), "<Sam>, <Samwise>");
//! # Ok::<(), regex_lite_proved::Error>(())
//! ```
//!
//! [`Regex`] is a compiled pattern, and [`RegexList`] several that are searched for in one pass.
//! [`Regex`] says what happens if memory runs out, and what several threads may do.

#![deny(unsafe_code, missing_docs, missing_debug_implementations)]

mod batches;
mod captures;
mod error;
mod iterators;
mod lists;
mod matches;
mod options;
mod pattern;
mod raw;
mod regex;
mod replacer;
mod shared;
mod template;

pub use captures::{CaptureLocations, Captures, SubCaptureMatches};
pub use error::{Error, Fault, ListError};
pub use iterators::{
    CaptureMatches, ListCaptureMatches, ListMatches, Matches, Split, SplitN, TryCaptureMatches,
    TryListCaptureMatches, TryListMatches, TryMatches, TrySplit, TrySplitN, Unwrapped,
};
pub use lists::RegexList;
pub use matches::Match;
pub use options::{Cost, Options, RegexBuilder};
pub use pattern::CaptureNames;
pub use regex::Regex;
pub use replacer::{NoExpand, Replacer, ReplacerRef};

/// Returns the pattern that matches exactly this text, under the default settings.
///
/// ```
/// assert_eq!(regex_lite_proved::escape("3.5 (or so)"), r"3\.5 \(or so\)");
/// ```
///
/// # Panics
///
/// If memory runs out.
#[track_caller]
pub fn escape(text: &str) -> String {
    error::unwrap(try_escape(text))
}

/// Returns the pattern that matches exactly this text, under the default settings.
///
/// # Errors
///
/// [`Error::OutOfMemory`].
pub fn try_escape(text: &str) -> Result<String, Error> {
    raw::escape(text)
}

/// The examples of the page.
#[cfg(doctest)]
#[doc = include_str!("../README.md")]
struct Page;
