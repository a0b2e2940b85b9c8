//! Matches that the library writes to a buffer, in batches.

use std::mem::size_of;
use std::vec;

use crate::error::Error;
use crate::raw::{resize, GroupCount, Held, Span, Walk};
use crate::shared::Shared;

/// The number of matches for which the first buffer has room.
const FIRST: usize = 16;
/// The factor by which each buffer is larger than the last.
const GROWTH: usize = 4;
/// The number of spans for which a buffer may have room, however short the text is.
const MOST: usize = 4096;

/// The number of spans for which the next buffer has room.
///
/// Each call of the library reads the whole text, so a loop with a buffer of a fixed size would
/// take quadratic time. Each buffer is four times as large as the one before, up to the size of the
/// text in memory. So a loop takes time in proportion to the text and to its matches, and no more
/// memory than the text has.
#[derive(Clone, Copy)]
struct Capacity {
    next: usize,
    most: usize,
}

impl Capacity {
    /// Makes this for matches with `width` spans each, of which at most `wanted` are wanted.
    fn new(text: &str, width: usize, wanted: usize) -> Capacity {
        let wanted = wanted.saturating_mul(width);
        let most = MOST
            .max(text.len() / size_of::<Span>())
            .min(wanted)
            .max(width);
        let next = most.min(FIRST.saturating_mul(width));
        Capacity { next, most }
    }

    /// Returns the capacity of the next buffer, and makes the one after it larger.
    fn grow(&mut self) -> usize {
        let next = self.next;
        self.next = self.most.min(next.saturating_mul(GROWTH));
        next
    }
}

/// Batches of items that are fetched one after another.
struct Batches<B> {
    batch: B,
    capacity: Capacity,
    is_over: bool,
}

impl<B: Iterator + Default> Batches<B> {
    /// Makes batches with these capacities, none of which was fetched.
    fn new(capacity: Capacity) -> Batches<B> {
        Batches {
            batch: B::default(),
            capacity,
            is_over: false,
        }
    }

    /// Returns the next item, from this batch or from the next one. `fetch` takes the capacity of
    /// the next batch, and returns it with whether it is the last. An error is the last item.
    fn next(
        &mut self,
        fetch: impl FnOnce(usize) -> Result<(B, bool), Error>,
    ) -> Option<Result<B::Item, Error>> {
        if let Some(item) = self.batch.next() {
            return Some(Ok(item));
        }
        if self.is_over {
            return None;
        }
        match fetch(self.capacity.grow()) {
            Ok((batch, is_last)) => {
                self.is_over = is_last;
                self.batch = batch;
                self.batch.next().map(Ok)
            }
            Err(error) => {
                self.end();
                Some(Err(error))
            }
        }
    }

    /// Stops yielding items.
    fn end(&mut self) {
        self.batch = B::default();
        self.is_over = true;
    }
}

/// The matches in a text, as the library writes them.
pub(crate) struct Spans<'r, 'h, H: Held> {
    shared: &'r Shared<H>,
    text: &'h str,
    walk: Walk,
    batches: Batches<vec::IntoIter<H::Span>>,
}

impl<'r, 'h, H: Held> Spans<'r, 'h, H> {
    /// Goes over all matches of the text, of which at most `wanted` are wanted.
    pub fn new(shared: &'r Shared<H>, text: &'h str, wanted: usize) -> Spans<'r, 'h, H> {
        Spans {
            shared,
            text,
            walk: Walk::default(),
            batches: Batches::new(Capacity::new(text, 1, wanted)),
        }
    }

    /// Returns the text.
    pub fn text(&self) -> &'h str {
        self.text
    }
}

impl<H: Held> Iterator for Spans<'_, '_, H> {
    type Item = Result<H::Span, Error>;

    fn next(&mut self) -> Option<Result<H::Span, Error>> {
        let Spans {
            shared,
            text,
            walk,
            batches,
        } = self;
        batches.next(|capacity| {
            let mut spans = Vec::new();
            resize(&mut spans, capacity)?;
            let count = shared.lock().find_all(text, walk, &mut spans)?;
            spans.truncate(count);
            // The library writes as many matches as there is room for, so if there are fewer, these
            // are the last.
            Ok((
                spans.into_iter(),
                count < capacity || walk.ends_at(text.len()),
            ))
        })
    }
}

/// The groups of the matches in a text, as the library writes them.
pub(crate) struct Groups<'r, 'h, H: Held> {
    shared: &'r Shared<H>,
    text: &'h str,
    walk: Walk,
    width: usize,
    batches: Batches<GroupBatch>,
}

impl<'r, 'h, H: Held> Groups<'r, 'h, H> {
    /// Goes over all matches of the text, of which at most `wanted` are wanted. A match has `width`
    /// groups, as far as is known, which is above 0.
    pub fn new(
        shared: &'r Shared<H>,
        text: &'h str,
        width: usize,
        wanted: usize,
    ) -> Groups<'r, 'h, H> {
        Groups {
            shared,
            text,
            walk: Walk::default(),
            width,
            batches: Batches::new(Capacity::new(text, width, wanted)),
        }
    }

    /// Returns the text.
    pub fn text(&self) -> &'h str {
        self.text
    }
}

impl<H: Held> Iterator for Groups<'_, '_, H> {
    /// The number of the pattern, and the groups.
    type Item = Result<(usize, Vec<Span>), Error>;

    fn next(&mut self) -> Option<Self::Item> {
        let Groups {
            shared,
            text,
            walk,
            width,
            batches,
        } = self;
        let item = batches.next(|capacity| {
            let (mut told, mut spans) = (Vec::new(), Vec::new());
            resize(&mut told, capacity / *width)?;
            resize(&mut spans, capacity)?;
            let count = shared
                .lock()
                .captures_all(text, walk, &mut told, &mut spans)?;
            told.truncate(count);
            let batch = GroupBatch {
                told: told.into_iter(),
                spans,
                taken: 0,
            };
            // The library writes fewer matches than there is room for if memory runs out after
            // them, so only a batch without matches is known to be the last.
            Ok((batch, count == 0 || walk.ends_at(text.len())))
        })?;
        let own = item.and_then(|own| own);
        if own.is_err() {
            batches.end();
        }
        Some(own)
    }
}

/// The groups of some matches, one match after another.
#[derive(Default)]
struct GroupBatch {
    told: vec::IntoIter<GroupCount>,
    spans: Vec<Span>,
    taken: usize,
}

impl Iterator for GroupBatch {
    type Item = Result<(usize, Vec<Span>), Error>;

    fn next(&mut self) -> Option<Self::Item> {
        let own = self.told.next()?;
        let from = self.taken;
        self.taken += own.count;
        let mut groups = Vec::new();
        if groups.try_reserve_exact(own.count).is_err() {
            return Some(Err(Error::OutOfMemory));
        }
        groups.extend_from_slice(&self.spans[from..self.taken]);
        Some(Ok((own.number, groups)))
    }
}

#[cfg(test)]
mod tests;
