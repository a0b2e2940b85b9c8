//! Iterators over all matches. The values that are expected are those of the Rust crate.

use std::ops::Range;
use std::time::{Duration, Instant};

use regex_lite_proved::{Error, Regex};

/// Numbers of matches at which one more buffer is fetched, and those beside them.
const NUMBERS: [usize; 14] = [0, 1, 2, 14, 15, 16, 17, 79, 80, 81, 335, 336, 337, 10_000];

fn ranges(pattern: &str, text: &str) -> Result<Vec<Range<usize>>, Error> {
    Ok(Regex::new(pattern)?
        .find_iter(text)
        .map(|m| m.range())
        .collect())
}

fn pieces<'t>(pattern: &str, text: &'t str) -> Result<Vec<&'t str>, Error> {
    Ok(Regex::new(pattern)?.split(text).collect())
}

#[test]
fn empty_matches() -> Result<(), Error> {
    assert_eq!(ranges("a*", "baac")?, [0..0, 1..3, 4..4]);
    assert_eq!(ranges("", "abc")?, [0..0, 1..1, 2..2, 3..3]);
    assert_eq!(Regex::new("")?.find_iter("").count(), 1);
    assert_eq!(ranges("(?m)^", "a\nb\n")?, [0..0, 2..2, 4..4]);
    assert_eq!(ranges(r"\b", "ab c")?, [0..0, 2..2, 3..3, 4..4]);
    assert_eq!(ranges("a|", "aab")?, [0..1, 1..2, 3..3]);
    assert_eq!(ranges("x", "abc")?, []);
    Ok(())
}

#[test]
fn characters_of_several_bytes() -> Result<(), Error> {
    // They take 2, 3 and 4 bytes.
    assert_eq!(ranges("", "ü€💩")?, [0..0, 2..2, 5..5, 9..9]);
    assert_eq!(ranges(".", "ü€💩")?, [0..2, 2..5, 5..9]);
    assert_eq!(ranges("€?", "ü€💩")?, [0..0, 2..5, 9..9]);
    assert_eq!(pieces("€", "ü€💩")?, ["ü", "💩"]);
    assert_eq!(pieces("", "ü€")?, ["", "ü", "€", ""]);
    Ok(())
}

#[test]
fn numbers_of_matches() -> Result<(), Error> {
    let regex = Regex::new("(a)(b)?")?;
    for number in NUMBERS {
        // The text ends in a match, and then it doesn't.
        for end in ["", "--"] {
            let text = "-a".repeat(number) + end;
            let whole: Vec<_> = (0..number).map(|k| 2 * k + 1..2 * k + 2).collect();
            let found: Vec<_> = regex.find_iter(&text).map(|m| m.range()).collect();
            assert_eq!(found, whole, "{number} matches");
            let groups: Vec<_> = regex.captures_iter(&text).collect();
            let first = groups.iter().map(|caps| caps.get(1).unwrap().range());
            assert_eq!(first.collect::<Vec<_>>(), whole, "{number} matches");
            assert!(groups
                .iter()
                .all(|caps| caps.len() == 3 && caps.get(2).is_none()));
        }
    }
    Ok(())
}

#[test]
fn numbers_of_pieces() -> Result<(), Error> {
    let comma = Regex::new(",")?;
    for number in NUMBERS {
        let text = "a,".repeat(number);
        let mut whole = vec!["a"; number];
        whole.push("");
        assert_eq!(comma.split(&text).collect::<Vec<_>>(), whole);
        for limit in [1, 2, 15, 16, 17, 18, number, number + 1, number + 2] {
            let found: Vec<_> = comma.splitn(&text, limit).collect();
            assert_eq!(
                found.len(),
                limit.min(number + 1),
                "{number} matches, {limit} pieces"
            );
            assert_eq!(found.join(","), if limit == 0 { "" } else { &text });
        }
        assert_eq!(comma.splitn(&text, 0).next(), None);
    }
    Ok(())
}

#[test]
fn splits() -> Result<(), Error> {
    assert_eq!(
        pieces(r"[ \t]+", "a b \t  c\td    e")?,
        ["a", "b", "c", "d", "e"]
    );
    assert_eq!(pieces("X", "XaXbX")?, ["", "a", "b", ""]);
    assert_eq!(pieces("a*", "baac")?, ["", "b", "c", ""]);
    assert_eq!(pieces("X", "")?, [""]);
    let comma = Regex::new(r"\W+")?;
    let some = |limit| comma.splitn("Hey! How are you?", limit).collect::<Vec<_>>();
    assert_eq!(some(3), ["Hey", "How", "are you?"]);
    assert_eq!(some(1), ["Hey! How are you?"]);
    assert_eq!(some(9), ["Hey", "How", "are", "you", ""]);
    Ok(())
}

#[test]
fn iterators_end_once() -> Result<(), Error> {
    let regex = Regex::new("a")?;
    let mut matches = regex.find_iter("a");
    assert_eq!(
        (matches.next().is_some(), matches.next(), matches.next()),
        (true, None, None)
    );
    let mut pieces = regex.split("a");
    let rest = [pieces.next(), pieces.next(), pieces.next(), pieces.next()];
    assert_eq!(rest, [Some(""), Some(""), None, None]);
    let mut some = regex.splitn("xayaz", 2);
    assert_eq!(
        [some.next(), some.next(), some.next()],
        [Some("x"), Some("yaz"), None]
    );
    Ok(())
}

#[test]
fn items_that_may_be_errors() -> Result<(), Error> {
    let regex = Regex::new("(a)|b")?;
    let found: Result<Vec<_>, _> = regex.try_find_iter("ab").collect();
    assert_eq!(found?.len(), 2);
    let groups: Result<Vec<_>, _> = regex.try_captures_iter("ab").collect();
    assert_eq!(groups?[1].get(1), None);
    let pieces: Result<Vec<_>, _> = regex.try_split("1a2").collect();
    assert_eq!(pieces?, ["1", "2"]);
    let pieces: Result<Vec<_>, _> = regex.try_splitn("1a2b3", 2).collect();
    assert_eq!(pieces?, ["1", "2b3"]);
    Ok(())
}

#[test]
fn groups_outlive_the_regex() -> Result<(), Error> {
    let text = String::from("width=80 height=24");
    let groups: Vec<_> = {
        let pair = Regex::new("(?<key>[a-z]+)=([0-9]+)")?;
        pair.captures_iter(&text).collect()
    };
    let keys: Vec<_> = groups.iter().map(|caps| &caps["key"]).collect();
    assert_eq!(keys, ["width", "height"]);
    let value = groups[1].get(2).unwrap();
    drop(groups);
    assert_eq!(value.as_str(), "24");
    Ok(())
}

/// How many matches the long text has.
const MANY: usize = 200_000;

/// Runs a loop over all matches of a long text. One that reads the text once for each match takes
/// over 30 seconds.
fn in_time(run: impl FnOnce(&Regex, &str) -> usize) -> Result<usize, Error> {
    let text = "ab, ".repeat(MANY);
    let regex = Regex::new(r"(\w)(\w)")?;
    let begun = Instant::now();
    let number = run(&regex, &text);
    let taken = begun.elapsed();
    assert!(taken < Duration::from_secs(10), "{taken:?}");
    Ok(number)
}

#[test]
fn loops_over_long_texts_do_not_read_them_again_and_again() -> Result<(), Error> {
    assert_eq!(
        in_time(|regex, text| regex.captures_iter(text).count())?,
        MANY
    );
    assert_eq!(in_time(|regex, text| regex.find_iter(text).count())?, MANY);
    assert_eq!(in_time(|regex, text| regex.split(text).count())?, MANY + 1);
    assert_eq!(
        in_time(|regex, text| regex.splitn(text, MANY).count())?,
        MANY
    );
    let swapped = in_time(|regex, text| regex.replace_all(text, "$2$1").len())?;
    assert_eq!(swapped, 4 * MANY);
    Ok(())
}
