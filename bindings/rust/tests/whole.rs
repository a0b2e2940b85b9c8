//! The calls for whole matches. The values that are expected are those of the Rust crate for
//! `\A(?:..)\z`.

use regex_lite_proved::{Error, ListError, Regex, RegexList};

/// Whether the pattern matches the whole text, as all calls say, which have to agree.
fn is_whole(pattern: &str, text: &str) -> Result<bool, Error> {
    let regex = Regex::new(pattern)?;
    let found = regex.full_match(text);
    let caps = regex.full_captures(text);
    assert!(found.map_or(true, |found| found.as_str() == text));
    assert_eq!(caps.and_then(|caps| caps.get(0)), found);
    assert_eq!(regex.is_full_match(text), found.is_some());
    Ok(found.is_some())
}

#[test]
fn matches_of_the_whole_text() -> Result<(), Error> {
    assert!(is_whole("[0-9]+", "72")?);
    assert!(!is_whole("[0-9]+", "72px")?);
    assert!(!is_whole("[0-9]+", " 72")?);
    assert!(is_whole("sam|samwise", "samwise")?);
    assert!(is_whole("a*?", "aaa")?);
    assert!(is_whole("", "")?);
    assert!(!is_whole("", "a")?);
    assert!(is_whole("é+", "éé")?);
    assert!(!is_whole("(?m)a$", "a\nb")?);
    assert!(!is_whole(r"a\B", "a")?);
    Ok(())
}

#[test]
fn groups() -> Result<(), Error> {
    let regex = Regex::new("(?<first>a|ab)(c|bcd)?")?;
    let told = |text| {
        let caps = regex.full_captures(text)?;
        Some((caps["first"].to_string(), caps.get(2).map(|m| m.as_str())))
    };
    assert_eq!(told("abc"), Some(("ab".to_string(), Some("c"))));
    assert_eq!(told("abcd"), Some(("a".to_string(), Some("bcd"))));
    assert_eq!(told("ab"), Some(("ab".to_string(), None)));
    assert_eq!(told("abd"), None);
    Ok(())
}

#[test]
fn lists() -> Result<(), ListError> {
    let list = RegexList::new(["b(c)?", "[a-z](b)?(c)?(d)?"])?;
    let told = |text| {
        let found = list.full_match(text);
        let caps = list.full_captures(text);
        let of_caps = caps.map(|(number, caps)| (number, caps.get(0).unwrap()));
        assert_eq!(of_caps, found);
        assert_eq!(list.is_full_match(text), found.is_some());
        found.map(|(number, found)| (number, found.range()))
    };
    assert_eq!(told("bc"), Some((0, 0..2)));
    assert_eq!(told("bcd"), Some((1, 0..3)));
    assert_eq!(told("bc "), None);
    let (number, caps) = list.full_captures("abcd").unwrap();
    assert_eq!((number, caps.len(), &caps[3]), (1, 4, "d"));
    assert!(!RegexList::new([""; 0])?.is_full_match(""));
    Ok(())
}

#[test]
fn forms_that_return_errors() -> Result<(), Box<dyn std::error::Error>> {
    let (regex, list) = (Regex::new("(ü)")?, RegexList::new(["a", "(ü)"])?);
    assert_eq!(regex.try_is_full_match("ü"), Ok(true));
    assert_eq!(regex.try_full_match("ü"), Ok(regex.full_match("ü")));
    assert!(regex.try_full_captures("ü")?.is_some());
    assert_eq!(list.try_is_full_match("ü"), Ok(true));
    assert_eq!(list.try_full_match("ü"), Ok(list.full_match("ü")));
    assert!(list.try_full_captures("ü")?.is_some());
    Ok(())
}
