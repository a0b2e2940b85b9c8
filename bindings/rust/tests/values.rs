//! What types of the crate can do: conversions, texts for people, accesses, and what panics.

use std::ops::Range;
use std::panic::{catch_unwind, RefUnwindSafe, UnwindSafe};

use regex_lite_proved::{Captures, Error, Match, Options, Regex, RegexList};

#[test]
fn a_regex_shows_its_pattern() -> Result<(), Error> {
    let regex: Regex = r"\d+".parse()?;
    assert_eq!(regex.as_str(), r"\d+");
    assert_eq!(regex.to_string(), r"\d+");
    assert_eq!(format!("{regex:?}"), r#"Regex("\\d+")"#);
    assert_eq!(Regex::try_from("a")?.as_str(), "a");
    assert_eq!(Regex::try_from(String::from("a"))?.as_str(), "a");
    assert!("a(".parse::<Regex>().is_err());
    assert_eq!(
        Regex::new("a(").unwrap_err().to_string(),
        "found open group without closing ')'"
    );
    Ok(())
}

#[test]
fn a_clone_has_the_settings() -> Result<(), Error> {
    let any_case = Options {
        case_insensitive: true,
        ..Options::default()
    };
    let regex = Regex::with_options("(?<who>sam)", any_case)?;
    let clone = regex.clone();
    drop(regex);
    assert_eq!(clone.as_str(), "(?<who>sam)");
    assert_eq!(&clone.captures("SAM").unwrap()["who"], "SAM");
    assert!(clone.try_clone()?.is_match("Sam"));
    Ok(())
}

#[test]
fn matches() -> Result<(), Error> {
    let found = Regex::new("€+")?.find("ü€€").unwrap();
    assert_eq!(
        (found.start(), found.end(), found.len(), found.is_empty()),
        (2, 8, 6, false)
    );
    assert_eq!((found.range(), found.as_str()), (2..8, "€€"));
    assert_eq!(<&str>::from(found), "€€");
    assert_eq!(Range::from(found), 2..8);
    assert_eq!(
        format!("{found:?}"),
        r#"Match { start: 2, end: 8, string: "€€" }"#
    );
    assert!(Regex::new("")?.find("a").unwrap().is_empty());
    Ok(())
}

#[test]
fn groups() -> Result<(), Error> {
    let regex = Regex::new("(?<key>[a-z]+)=([0-9]+)?")?;
    let caps = regex.captures("#width=").unwrap();
    assert_eq!((caps.len(), regex.captures_len()), (3, 3));
    assert_eq!(caps.get(0).map(|m| m.as_str()), Some("width="));
    assert_eq!(caps.name("key").map(|m| m.range()), Some(1..6));
    assert_eq!(
        (caps.name("value"), caps.get(2), caps.get(3)),
        (None, None, None)
    );
    assert_eq!((&caps[1], &caps["key"]), ("width", "width"));
    let all: Vec<_> = caps.iter().map(|m| m.map(|m| m.as_str())).collect();
    assert_eq!(all, [Some("width="), Some("width"), None]);
    assert_eq!(caps.iter().len(), 3);
    let shown = r#"Captures({0: 1..7/"width=", 1/"key": 1..6/"width", 2: None})"#;
    assert_eq!(format!("{caps:?}"), shown);
    assert!(regex.captures("width").is_none());
    Ok(())
}

#[test]
fn names() -> Result<(), Error> {
    let regex = Regex::new("(?<b>.)(.)(?<a>.)(?:.)(?<ü>.)")?;
    let names: Vec<_> = regex.capture_names().collect();
    assert_eq!(names, [None, Some("b"), None, Some("a"), Some("ü")]);
    assert_eq!(regex.capture_names().len(), 5);
    let caps = regex.captures("12345").unwrap();
    assert_eq!((&caps["a"], &caps["b"], &caps["ü"]), ("3", "1", "5"));
    assert_eq!(
        (caps.name(""), caps.name("c"), caps.name("1")),
        (None, None, None)
    );
    // Ten thousand names, each of which is found.
    let pattern: String = (0..10_000).map(|k| format!("(?<n{k}>)")).collect();
    let caps = Regex::new(&pattern)?.captures("").unwrap();
    assert!((0..10_000).all(|k| caps.name(&format!("n{k}")).is_some()));
    Ok(())
}

#[test]
fn groups_of_every_match() -> Result<(), Error> {
    let len =
        |pattern: &str| -> Result<_, Error> { Ok(Regex::new(pattern)?.static_captures_len()) };
    assert_eq!(len("a")?, Some(1));
    assert_eq!(len("(a)(b)")?, Some(3));
    assert_eq!(len("(a)|(b)")?, Some(2));
    assert_eq!(len("(a)?")?, None);
    let caps = Regex::new("(a)|(b)")?.captures("b").unwrap();
    let (whole, [group]) = caps.extract();
    assert_eq!((whole, group), ("b", "b"));
    let (whole, []) = Regex::new("a")?.captures("a").unwrap().extract();
    assert_eq!(whole, "a");
    Ok(())
}

#[test]
fn locations() -> Result<(), Error> {
    let regex = Regex::new("(a)|(b)")?;
    let mut locations = regex.capture_locations();
    assert_eq!((locations.len(), locations.get(0)), (3, None));
    let found = regex.captures_read(&mut locations, "xb");
    assert_eq!(found.map(|m| m.range()), Some(1..2));
    assert_eq!(
        [0, 1, 2, 3].map(|k| locations.get(k)),
        [Some((1, 2)), None, Some((1, 2)), None]
    );
    assert_eq!(regex.captures_read(&mut locations, "x"), None);
    assert_eq!([0, 1, 2].map(|k| locations.get(k)), [None; 3]);
    // Those of another regex are made to fit.
    let mut other = Regex::new("(((((c)))))")?.capture_locations();
    assert!(regex.captures_read_at(&mut other, "ba", 1).is_some());
    assert_eq!(
        (other.len(), other.get(1), other.get(2)),
        (3, Some((1, 2)), None)
    );
    Ok(())
}

#[test]
fn what_has_no_value_panics_and_says_why() -> Result<(), Error> {
    let regex = Regex::new("(?<first>a)|(b)?")?;
    let caps = regex.captures("b").unwrap();
    let said = |panicking: &(dyn Fn() + RefUnwindSafe)| {
        let payload = catch_unwind(panicking).unwrap_err();
        payload
            .downcast_ref::<String>()
            .cloned()
            .unwrap_or_default()
    };
    assert_eq!(
        said(&|| _ = caps[1].len()),
        "no group 1 took part in the match"
    );
    assert_eq!(
        said(&|| _ = caps["first"].len()),
        "no group 'first' took part in the match"
    );
    let offset = "the offset is not between two characters; \
                  the try_ form of this call returns that as an error";
    assert_eq!(said(&|| _ = regex.find_at("ü", 1)), offset);
    assert_eq!(said(&|| _ = regex.is_match_at("ü", 3)), offset);
    let both = Regex::new("(a)(b)")?.captures("ab").unwrap();
    let extract = said(&|| _ = both.extract::<1>());
    assert!(extract.contains("1 groups are asked for, and 2 take part in every match"));
    assert!(catch_unwind(|| caps.extract::<1>()).is_err());
    // A regex is as good as before.
    assert!(regex.is_match("a"));
    Ok(())
}

#[test]
fn what_threads_may_share() {
    fn is_shared<T: Send + Sync + UnwindSafe + RefUnwindSafe>() {}
    is_shared::<Regex>();
    is_shared::<RegexList>();
    is_shared::<Captures<'_>>();
    is_shared::<Match<'_>>();
    is_shared::<Error>();
    is_shared::<regex_lite_proved::Matches<'_, '_>>();
    is_shared::<regex_lite_proved::CaptureMatches<'_, '_>>();
}

#[test]
fn iterators_show_their_text() -> Result<(), Error> {
    let regex = Regex::new("a")?;
    let shown = r#"Unwrapped(TryMatches { text: "ab", .. })"#;
    assert_eq!(format!("{:?}", regex.find_iter("ab")), shown);
    assert!(format!("{:?}", regex.splitn("ab", 2)).contains(r#""ab""#));
    assert_eq!(
        format!("{:?}", regex.capture_names()),
        "CaptureNames([None])"
    );
    Ok(())
}
