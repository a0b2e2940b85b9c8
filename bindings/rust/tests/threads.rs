//! One regex in several threads.

use std::sync::OnceLock;
use std::thread;

use regex_lite_proved::{Error, ListError, Regex, RegexList};

/// How many threads there are, and how often each searches.
const THREADS: usize = 4;
const SEARCHES: usize = 2_000;

#[test]
fn threads_share_a_regex() -> Result<(), Error> {
    let regex = Regex::new("([a-z]+)=([0-9]+)")?;
    thread::scope(|scope| {
        for own in 0..THREADS {
            let regex = &regex;
            scope.spawn(move || {
                for k in 0..SEARCHES {
                    let text = format!("#{own} width={k}");
                    let caps = regex.captures(&text).unwrap();
                    assert_eq!((&caps[1], &caps[2]), ("width", &k.to_string()[..]));
                }
            });
        }
    });
    Ok(())
}

#[test]
fn iterators_of_threads_go_on_one_beside_the_other() -> Result<(), Error> {
    let regex = Regex::new("[a-z]+")?;
    thread::scope(|scope| {
        for own in 1..=THREADS {
            let regex = &regex;
            scope.spawn(move || {
                let text = "ab ".repeat(1_000 * own);
                assert_eq!(regex.find_iter(&text).count(), 1_000 * own);
            });
        }
    });
    Ok(())
}

#[test]
fn threads_share_a_list() -> Result<(), ListError> {
    let list = RegexList::new(["(?<key>[a-z]+)=", "([0-9])([0-9])?"])?;
    thread::scope(|scope| {
        for _ in 0..THREADS {
            scope.spawn(|| {
                for (k, (number, caps)) in list.captures_iter(&"a=17".repeat(500)).enumerate() {
                    assert_eq!(number, k % 2);
                    assert_eq!(caps.name("key").is_some(), number == 0);
                }
            });
        }
    });
    Ok(())
}

#[test]
fn a_regex_can_be_global() {
    static WORD: OnceLock<Regex> = OnceLock::new();
    let word = || WORD.get_or_init(|| Regex::new(r"\w+").unwrap());
    assert_eq!(
        thread::spawn(move || word().find_iter("a b").count())
            .join()
            .unwrap(),
        2
    );
    assert!(word().is_match("a"));
}

#[test]
fn a_regex_moves_to_another_thread() -> Result<(), Error> {
    let regex = Regex::new("a")?;
    assert!(regex.is_match("a"));
    let regex = thread::spawn(move || regex.is_match("b").then_some(regex))
        .join()
        .unwrap();
    assert!(regex.is_none());
    Ok(())
}
