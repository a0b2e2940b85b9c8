//! Batches whose fetches are made up.

use std::ops::Range;

use super::{Batches, Capacity};
use crate::error::Error;

/// Items from 0 up to this number, fetched one batch after another, with how many fetches there
/// were and how many items each had room for.
fn fetched(text: &str, items: usize, wanted: usize) -> (Vec<usize>, Vec<usize>) {
    let mut batches = Batches::new(Capacity::new(text, 1, wanted));
    let (mut found, mut capacities) = (Vec::new(), Vec::new());
    let mut from = 0;
    while let Some(item) = batches.next(|capacity| {
        capacities.push(capacity);
        let to = items.min(from + capacity);
        let batch = from..to;
        from = to;
        Ok((batch, to == items))
    }) {
        found.push(item.unwrap());
    }
    (found, capacities)
}

#[test]
fn buffers_grow() {
    let short = "a".repeat(50);
    assert_eq!(fetched(&short, 0, usize::MAX).1, [16]);
    assert_eq!(fetched(&short, 16, usize::MAX).1, [16]);
    assert_eq!(fetched(&short, 17, usize::MAX).1, [16, 64]);
    assert_eq!(fetched(&short, 81, usize::MAX).1, [16, 64, 256]);
    for items in [0, 1, 15, 16, 17, 79, 80, 81, 10_000] {
        let (found, _) = fetched(&short, items, usize::MAX);
        assert_eq!(found, (0..items).collect::<Vec<_>>());
    }
}

#[test]
fn long_texts_are_read_a_few_times() {
    // As many matches as characters.
    let (found, capacities) = fetched(&"a".repeat(400_000), 400_000, usize::MAX);
    assert_eq!(found.len(), 400_000);
    assert!(capacities.len() < 35, "{}", capacities.len());
    // A buffer is no larger than the text, if that is long.
    assert!(*capacities.iter().max().unwrap() <= 400_000 / 24);
}

#[test]
fn a_limit_is_not_exceeded_at_first() {
    assert_eq!(Capacity::new("", 1, 1).grow(), 1);
    assert_eq!(Capacity::new("", 1, 15).grow(), 15);
    assert_eq!(Capacity::new("", 3, 2).grow(), 6);
    let mut some = Capacity::new("", 1, 20);
    assert_eq!([some.grow(), some.grow()], [16, 20]);
    // A buffer has room for a whole match, however many groups it has.
    let mut wide = Capacity::new("", 10_000, usize::MAX);
    assert_eq!([wide.grow(), wide.grow()], [10_000, 10_000]);
}

#[test]
fn an_error_comes_after_what_was_found_and_is_the_last_item() {
    let mut batches: Batches<Range<usize>> = Batches::new(Capacity::new("", 1, usize::MAX));
    let mut answers = vec![
        Err(Error::OutOfMemory),
        Ok((16..20, false)),
        Ok((0..16, false)),
    ];
    let mut next = || batches.next(|_| answers.pop().expect("nothing is fetched after an error"));
    for item in 0..20 {
        assert_eq!(next(), Some(Ok(item)));
    }
    assert_eq!(next(), Some(Err(Error::OutOfMemory)));
    assert_eq!(next(), None);
    assert_eq!(next(), None);
}

#[test]
fn nothing_is_yielded_after_an_end() {
    let mut batches: Batches<Range<usize>> = Batches::new(Capacity::new("", 1, usize::MAX));
    batches.next(|_| Ok((0..16, false)));
    batches.end();
    assert_eq!(batches.next(|_| panic!("nothing is fetched")), None);
}
