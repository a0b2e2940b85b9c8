//! The settings under which a pattern is built, and the cost of a search.

use crate::{Error, Regex};

/// The settings under which a pattern is built. The default has no flag, and the limits that the
/// crate regex-lite has.
#[repr(C)]
#[derive(Clone, Copy, Debug, PartialEq, Eq)]
pub struct Options {
    /// ASCII letters match in either case: the flag `i`.
    pub case_insensitive: bool,
    /// `^` and `$` match at every line: `m`.
    pub multi_line: bool,
    /// `.` matches every character: `s`.
    pub dot_matches_new_line: bool,
    /// A carriage return ends a line as well: `R`.
    pub crlf: bool,
    /// Greedy and lazy operators are swapped: `U`.
    pub swap_greed: bool,
    /// White space and comments in the pattern are ignored: `x`.
    pub ignore_whitespace: bool,
    /// How deeply the pattern may nest: 50 by default.
    pub nest_limit: u32,
    /// How large the pattern may become when it is compiled: 10 MiB by default.
    pub size_limit: usize,
}

impl Default for Options {
    fn default() -> Options {
        Options {
            case_insensitive: false,
            multi_line: false,
            dot_matches_new_line: false,
            crlf: false,
            swap_greed: false,
            ignore_whitespace: false,
            nest_limit: 50,
            size_limit: 10 << 20,
        }
    }
}

/// Builds a [`Regex`] under other settings than the default.
///
/// ```
/// use regex_lite_proved::RegexBuilder;
///
/// let key = RegexBuilder::new("^ [a-z]+ =").multi_line(true).ignore_whitespace(true).build()?;
/// assert!(key.is_match("# sizes\nwidth=72"));
/// # Ok::<(), regex_lite_proved::Error>(())
/// ```
#[derive(Clone, Debug)]
pub struct RegexBuilder {
    pattern: String,
    options: Options,
}

impl RegexBuilder {
    /// Makes a builder for this pattern, with the default settings.
    pub fn new(pattern: &str) -> RegexBuilder {
        RegexBuilder {
            pattern: pattern.to_string(),
            options: Options::default(),
        }
    }

    /// Builds the regex.
    ///
    /// # Errors
    ///
    /// [`Error::Pattern`] if the pattern is rejected, and [`Error::OutOfMemory`].
    pub fn build(&self) -> Result<Regex, Error> {
        Regex::with_options(&self.pattern, self.options)
    }

    /// Sets whether ASCII letters match in either case, as under the flag `i`.
    pub fn case_insensitive(&mut self, yes: bool) -> &mut RegexBuilder {
        self.options.case_insensitive = yes;
        self
    }

    /// Sets whether `^` and `$` match at every line, as under the flag `m`.
    pub fn multi_line(&mut self, yes: bool) -> &mut RegexBuilder {
        self.options.multi_line = yes;
        self
    }

    /// Sets whether `.` matches a line feed too, as under the flag `s`.
    pub fn dot_matches_new_line(&mut self, yes: bool) -> &mut RegexBuilder {
        self.options.dot_matches_new_line = yes;
        self
    }

    /// Sets whether a carriage return ends a line as well, as under the flag `R`.
    pub fn crlf(&mut self, yes: bool) -> &mut RegexBuilder {
        self.options.crlf = yes;
        self
    }

    /// Sets whether greedy and lazy operators are swapped, as under the flag `U`.
    pub fn swap_greed(&mut self, yes: bool) -> &mut RegexBuilder {
        self.options.swap_greed = yes;
        self
    }

    /// Sets whether white space and comments in the pattern are ignored, as under the flag `x`.
    pub fn ignore_whitespace(&mut self, yes: bool) -> &mut RegexBuilder {
        self.options.ignore_whitespace = yes;
        self
    }

    /// Sets how large the pattern may become when it is compiled, approximately in bytes.
    pub fn size_limit(&mut self, limit: usize) -> &mut RegexBuilder {
        self.options.size_limit = limit;
        self
    }

    /// Sets how deeply the pattern may nest.
    pub fn nest_limit(&mut self, limit: u32) -> &mut RegexBuilder {
        self.options.nest_limit = limit;
        self
    }
}

/// The cost of a search, in places of the pattern: the states of its NFA. A number above 2^64 - 1
/// is written as 2^64 - 1.
#[repr(C)]
#[derive(Clone, Copy, Debug, Default, PartialEq, Eq)]
pub struct Cost {
    /// The number of places that the search tried.
    pub tried: u64,
    /// The number of places that it entered.
    pub entered: u64,
    /// The number of places that it looked up.
    pub looked: u64,
}
