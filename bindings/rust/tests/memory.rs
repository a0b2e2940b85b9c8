//! Searches to which memory is refused, in a process of its own that may have little.

#![cfg(target_os = "linux")]

use std::env;
use std::panic::catch_unwind;
use std::process::Command;

use regex_lite_proved::{Captures, Error, Regex, RegexList};

/// How many KiB of addresses the process may have.
const LITTLE: &str = "200000";
const MEBIBYTE: usize = 1 << 20;

#[test]
fn memory_is_refused() {
    let limited = format!("ulimit -v {LITTLE} && exec \"$0\" \"$@\"");
    let own = [
        "--exact",
        "in_little_memory",
        "--ignored",
        "--test-threads",
        "1",
    ];
    let done = Command::new("sh")
        .args(["-c", &limited])
        .arg(env::current_exe().unwrap())
        .args(own)
        .output()
        .unwrap();
    let said = String::from_utf8_lossy(&done.stdout);
    assert!(
        done.status.success(),
        "{said}{}",
        String::from_utf8_lossy(&done.stderr)
    );
    assert!(said.contains("1 passed"), "{said}");
}

/// A pattern for whose groups a search asks for 600 MB, while a search without groups takes little.
fn large() -> String {
    "()".repeat(6000) + "a{2000}"
}

#[test]
#[ignore = "memory_is_refused runs it in little memory"]
fn in_little_memory() {
    let regex = Regex::new(&large()).unwrap();
    let list = RegexList::new([large()]).unwrap();
    let text = "-".repeat(100_000) + &"a".repeat(2000);
    forms_that_return_errors(&regex, &list, &text);
    forms_that_panic(&regex, &list, &text);
    // Both are as good as before.
    assert!(regex.is_match(&text) && list.is_match(&text));
    assert_eq!(regex.find_iter(&text).count(), 1);
    where_all_memory_is_taken(&regex, &list, &text);
}

fn forms_that_return_errors(regex: &Regex, list: &RegexList, text: &str) {
    let refused = Some(Error::OutOfMemory);
    assert_eq!(regex.try_captures(text).err(), refused);
    assert_eq!(regex.try_replace_all(text, "$0").err(), refused);
    let items: Vec<_> = regex
        .try_captures_iter(text)
        .map(|item| item.err())
        .collect();
    assert_eq!(items, [Some(Error::OutOfMemory)]);
    assert_eq!(list.try_captures(text).err(), refused);
    let items: Vec<_> = list
        .try_captures_iter(text)
        .map(|item| item.err())
        .collect();
    assert_eq!(items, [Some(Error::OutOfMemory)]);
}

fn forms_that_panic(regex: &Regex, list: &RegexList, text: &str) {
    let said = |panicking: &dyn Fn() -> bool| {
        let caught = catch_unwind(std::panic::AssertUnwindSafe(panicking));
        caught
            .unwrap_err()
            .downcast_ref::<String>()
            .cloned()
            .unwrap()
    };
    let refused = "out of memory; the try_ form of this call returns that as an error";
    assert_eq!(said(&|| regex.captures(text).is_some()), refused);
    assert_eq!(
        said(&|| regex.captures_iter(text).next().is_some()),
        refused
    );
    let new = |_: &Captures| String::new();
    assert_eq!(said(&|| regex.replace(text, new).is_empty()), refused);
    assert_eq!(said(&|| list.captures(text).is_some()), refused);
    assert_eq!(said(&|| list.captures_iter(text).next().is_some()), refused);
}

/// Clones, and searches without groups, are refused where all memory is taken, and aren't where it
/// is free again.
fn where_all_memory_is_taken(regex: &Regex, list: &RegexList, text: &str) {
    let mut taken: Vec<Vec<u8>> = Vec::with_capacity(1000);
    for size in [MEBIBYTE, MEBIBYTE / 8] {
        let mut room = Vec::new();
        while room.try_reserve_exact(size).is_ok() {
            taken.push(std::mem::take(&mut room));
        }
    }
    let clones = (regex.try_clone().err(), list.try_clone().err());
    let whether = (regex.try_is_match(text), list.try_is_match(text));
    let mut matches = regex.try_find_iter(text);
    let matches = (matches.next(), matches.next());
    let mut pieces = regex.try_split(text);
    let pieces = (pieces.next(), pieces.next());
    let mut first_pieces = regex.try_splitn(text, 2);
    let first_pieces = (first_pieces.next(), first_pieces.next());
    drop(taken);
    let refused = Error::OutOfMemory;
    assert_eq!(clones, (Some(refused.clone()), Some(refused.clone())));
    assert_eq!(whether, (Err(refused.clone()), Err(refused.clone())));
    assert_eq!(matches, (Some(Err(refused.clone())), None));
    assert_eq!(pieces, (Some(Err(refused.clone())), None));
    assert_eq!(first_pieces, (Some(Err(refused)), None));
    assert!(regex.try_clone().is_ok() && list.try_clone().is_ok());
    assert_eq!(regex.split(text).count(), 2);
}
