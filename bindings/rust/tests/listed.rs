//! The calls for one pattern of a list, which have to return what its own regex returns, and
//! whether patterns may be empty.

use std::panic::catch_unwind;

use regex_lite_proved::{Error, ListError, Options, Regex, RegexList};

const PATTERNS: [&str; 5] = ["^a", "(?<x>b)(c)?", "a|(d)", r"x*\b", "(a)?(b)(c)(d)(e)?"];
const TEXTS: [&str; 6] = ["", "abcb", "ad", "ba", "xx", "éabcde"];

#[test]
fn as_a_regex_of_the_pattern() -> Result<(), Box<dyn std::error::Error>> {
    let list = RegexList::new(PATTERNS)?;
    let mut found = 0;
    for (number, pattern) in PATTERNS.iter().enumerate() {
        let regex = Regex::new(pattern)?;
        assert_eq!(list.may_be_empty(number), regex.may_be_empty());
        for (text, start) in TEXTS
            .iter()
            .flat_map(|text| (0..=text.len()).map(move |start| (text, start)))
            .filter(|(text, start)| text.is_char_boundary(*start))
        {
            let own = regex.find_at(text, start);
            found += usize::from(own.is_some());
            assert_eq!(list.find_of_at(number, text, start), own);
            assert_eq!(list.is_match_of_at(number, text, start), own.is_some());
            let groups = regex
                .captures_at(text, start)
                .map(|caps| format!("{caps:?}"));
            let listed = list.captures_of_at(number, text, start).map(|caps| {
                let _ = caps.name("x"); // so that the names are known
                format!("{caps:?}")
            });
            assert_eq!(listed, groups);
        }
    }
    assert!(found > 40);
    Ok(())
}

#[test]
fn from_the_start() -> Result<(), ListError> {
    let list = RegexList::new(PATTERNS)?;
    assert!(list.is_match_of(2, "xd") && !list.is_match_of(0, "xd"));
    assert_eq!(list.find_of(2, "xd").map(|found| found.range()), Some(1..2));
    assert_eq!(&list.captures_of(1, "abc").unwrap()["x"], "b");
    assert!(list.captures_of(1, "ac").is_none());
    Ok(())
}

#[test]
fn own_settings() -> Result<(), ListError> {
    let no_case = Options {
        case_insensitive: true,
        ..Options::default()
    };
    let list = RegexList::with_options([("(a)b", Options::default()), ("(a)b", no_case)])?;
    let start = |number| list.find_of(number, "xAB ab").map(|found| found.start());
    assert_eq!((start(0), start(1)), (Some(4), Some(1)));
    Ok(())
}

#[test]
fn forms_that_return_errors() -> Result<(), Box<dyn std::error::Error>> {
    let list = RegexList::new(["a", "(ü)"])?;
    assert_eq!(list.try_is_match_of(1, "ü"), Ok(true));
    assert_eq!(list.try_find_of(1, "aü"), Ok(list.find_of(1, "aü")));
    assert!(list.try_captures_of(1, "aü")?.is_some());
    for start in [1, 3] {
        assert_eq!(
            list.try_is_match_of_at(1, "ü", start),
            Err(Error::BadOffset)
        );
        assert_eq!(list.try_find_of_at(1, "ü", start), Err(Error::BadOffset));
        assert_eq!(
            list.try_captures_of_at(1, "ü", start).err(),
            Some(Error::BadOffset)
        );
    }
    Ok(())
}

#[test]
fn no_such_pattern() -> Result<(), ListError> {
    let list = RegexList::new(["a", "b"])?;
    assert!(catch_unwind(|| list.is_match_of(2, "a")).is_err());
    assert!(catch_unwind(|| list.try_find_of(usize::MAX, "a")).is_err());
    assert!(catch_unwind(|| list.captures_of(2, "a").is_some()).is_err());
    assert!(catch_unwind(|| list.may_be_empty(2)).is_err());
    assert!(list.is_match_of(1, "ab"));
    Ok(())
}

#[test]
fn emptiness() -> Result<(), Error> {
    for (pattern, may) in [
        ("a*", true),
        ("a+$", false),
        (r"\b\B", true),
        ("", true),
        ("(|a)b", false),
    ] {
        assert_eq!(Regex::new(pattern)?.may_be_empty(), may, "{pattern}");
    }
    Ok(())
}
