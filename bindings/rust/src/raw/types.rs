//! The types that the calls take, laid out as in C.

/// A part of a text. A group that took no part in a match has none.
#[repr(C)]
#[derive(Clone, Copy, Debug, Default)]
pub struct Span {
    pub is_there: bool,
    pub start: usize,
    pub end: usize,
}

/// A match of one of several patterns, with the number of the pattern.
#[repr(C)]
#[derive(Clone, Copy, Debug, Default)]
pub struct ListSpan {
    pub number: usize,
    pub start: usize,
    pub end: usize,
}

/// Where the match of a search may lie.
#[derive(Clone, Copy)]
pub enum Where {
    /// It starts at this offset or later.
    From(usize),
    /// It starts at this offset.
    At(usize),
    /// It is the whole text.
    Whole,
}

/// The number of a match's pattern, and the number of that pattern's groups. The former is 0 if
/// there is one pattern.
#[repr(C)]
#[derive(Clone, Copy, Debug, Default)]
pub struct GroupCount {
    pub number: usize,
    pub count: usize,
}

/// The position up to which the matches in a text have been fetched: the end of the last of them.
#[repr(C)]
#[derive(Clone, Copy, Debug, Default)]
pub struct Walk {
    is_begun: bool,
    end: usize,
}

impl Walk {
    /// Returns whether a match was fetched that ends here.
    pub fn ends_at(&self, end: usize) -> bool {
        self.is_begun && self.end == end
    }
}

/// The place of a pattern's first fault.
#[repr(C)]
#[derive(Default)]
pub struct RawFault {
    pub start: usize,
    pub end: usize,
    pub is_cut_short: bool,
}

/// One of several patterns, whose texts are concatenated.
#[repr(C)]
pub struct ListPattern {
    pub len: usize,
    pub options: crate::Options,
}

/// Which of several patterns is rejected, and the length of the message.
#[repr(C)]
#[derive(Default)]
pub struct ListRefusal {
    pub number: usize,
    pub message_len: usize,
}
