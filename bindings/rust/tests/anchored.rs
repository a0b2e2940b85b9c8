//! The anchored calls. The values that are expected are those of the Rust crate for `\A(?:..)` in
//! the text from the offset on, but where looks see what stands before it.

use regex_lite_proved::{Error, ListError, Regex, RegexList};

/// Where the match that starts at the offset ends, as all calls say, which have to agree.
fn end_at(pattern: &str, text: &str, start: usize) -> Result<Option<usize>, Error> {
    let regex = Regex::new(pattern)?;
    let found = regex.find_anchored_at(text, start);
    let caps = regex.captures_anchored_at(text, start);
    assert!(found.map_or(true, |found| found.start() == start));
    assert_eq!(caps.and_then(|caps| caps.get(0)), found);
    assert_eq!(regex.is_match_anchored_at(text, start), found.is_some());
    Ok(found.map(|found| found.end()))
}

#[test]
fn matches_that_start_there() -> Result<(), Error> {
    assert_eq!(end_at("[0-9]+", "width=72", 6)?, Some(8));
    assert_eq!(end_at("[0-9]+", "width=72", 5)?, None);
    assert_eq!(end_at("sam|samwise", "mr samwise", 3)?, Some(6));
    assert_eq!(end_at("samwise|sam", "mr samwise", 3)?, Some(10));
    assert_eq!(end_at("a*", "baa", 0)?, Some(0));
    assert_eq!(end_at("a*", "baa", 3)?, Some(3));
    assert_eq!(end_at("a", "baa", 3)?, None);
    assert_eq!(end_at("[^a]*b", "aéb", 1)?, Some(4));
    Ok(())
}

#[test]
fn looks_see_the_whole_text() -> Result<(), Error> {
    assert_eq!(end_at("^b", "ab", 1)?, None);
    assert_eq!(end_at("(?m)^b", "a\nb", 2)?, Some(3));
    assert_eq!(end_at(r"\bb", "ab", 1)?, None);
    assert_eq!(end_at(r"\bb", "a b", 2)?, Some(3));
    assert_eq!(end_at("a$", "ab", 0)?, None);
    Ok(())
}

#[test]
fn groups() -> Result<(), Error> {
    let pair = Regex::new("(?<key>[a-z]+)=([0-9]+)?")?;
    let caps = pair.captures_anchored_at("#width=,", 1).unwrap();
    assert_eq!((caps.len(), &caps["key"], caps.get(2)), (3, "width", None));
    assert!(pair.captures_anchored_at("#width=,", 0).is_none());
    Ok(())
}

#[test]
fn lists() -> Result<(), ListError> {
    let list = RegexList::new(["b(c)?", "a?(b)(c)(d)?(e)?(f)?"])?;
    let told = |start| {
        let found = list.find_anchored_at("abcdef", start);
        let caps = list.captures_anchored_at("abcdef", start);
        let of_caps = caps.map(|(number, caps)| (number, caps.get(0).unwrap()));
        assert_eq!(of_caps, found);
        assert_eq!(list.is_match_anchored_at("abcdef", start), found.is_some());
        found.map(|(number, found)| (number, found.range()))
    };
    assert_eq!(told(0), Some((1, 0..6)));
    assert_eq!(told(1), Some((0, 1..3)));
    assert_eq!(told(2), None);
    // More groups than there is room for at first.
    let (number, caps) = list.captures_anchored_at("abcdef", 0).unwrap();
    assert_eq!((number, caps.len(), &caps[5]), (1, 6, "f"));
    assert!(!RegexList::new([""; 0])?.is_match_anchored_at("", 0));
    Ok(())
}

#[test]
fn forms_that_return_errors() -> Result<(), Box<dyn std::error::Error>> {
    let (regex, list) = (Regex::new("(ü)")?, RegexList::new(["a", "(ü)"])?);
    assert_eq!(regex.try_is_match_anchored_at("ü", 0), Ok(true));
    assert_eq!(
        regex.try_find_anchored_at("ü", 0),
        Ok(regex.find_anchored_at("ü", 0))
    );
    assert!(regex.try_captures_anchored_at("ü", 0)?.is_some());
    assert_eq!(list.try_is_match_anchored_at("ü", 0), Ok(true));
    assert_eq!(
        list.try_find_anchored_at("ü", 0),
        Ok(list.find_anchored_at("ü", 0))
    );
    assert!(list.try_captures_anchored_at("ü", 0)?.is_some());
    let bad = Error::BadOffset;
    for start in [1, 3] {
        assert_eq!(regex.try_is_match_anchored_at("ü", start), Err(bad.clone()));
        assert_eq!(regex.try_find_anchored_at("ü", start), Err(bad.clone()));
        assert_eq!(
            regex.try_captures_anchored_at("ü", start).err(),
            Some(bad.clone())
        );
        assert_eq!(list.try_is_match_anchored_at("ü", start), Err(bad.clone()));
        assert_eq!(list.try_find_anchored_at("ü", start), Err(bad.clone()));
        assert_eq!(
            list.try_captures_anchored_at("ü", start).err(),
            Some(bad.clone())
        );
    }
    Ok(())
}
