//! Single searches, and settings. The values that are expected are those of the Rust crate.

use regex_lite_proved::{escape, try_escape, Error, Fault, Options, Regex, RegexBuilder};

#[test]
fn searches() -> Result<(), Error> {
    let regex = Regex::new("sam|samwise")?;
    assert!(regex.is_match("mr samwise"));
    assert!(!regex.is_match("frodo"));
    assert_eq!(regex.find("mr samwise").map(|m| m.range()), Some(3..6));
    assert_eq!(regex.find_at("mr samwise", 4), None);
    assert_eq!(regex.find_at("sam sam", 1).map(|m| m.range()), Some(4..7));
    assert!(regex.is_match_at("sam sam", 4) && !regex.is_match_at("sam sam", 5));
    assert_eq!(regex.find(""), None);
    Ok(())
}

#[test]
fn looks_see_the_text_before_a_start() -> Result<(), Error> {
    let start = Regex::new("^sam")?;
    assert!(start.is_match("sam") && !start.is_match_at("sam sam", 4));
    let word = Regex::new(r"\bsam\b")?;
    assert_eq!(word.find_at("samsam sam", 3).map(|m| m.start()), Some(7));
    assert_eq!(word.shortest_match_at("samsam sam", 3), Some(10));
    assert_eq!(
        word.captures_at("samsam sam", 3)
            .map(|caps| caps.get(0).unwrap().start()),
        Some(7)
    );
    Ok(())
}

#[test]
fn shortest_matches() -> Result<(), Error> {
    let regex = Regex::new("a+")?;
    assert_eq!(regex.shortest_match("baaa"), Some(2));
    assert_eq!(regex.shortest_match("b"), None);
    assert_eq!(regex.shortest_match_at("baaa", 3), Some(4));
    Ok(())
}

#[test]
fn forms_that_return_errors() -> Result<(), Error> {
    let regex = Regex::new("(a)b")?;
    assert_eq!(regex.try_is_match("ab"), Ok(true));
    assert_eq!(regex.try_find("ab")?.map(|m| m.range()), Some(0..2));
    assert_eq!(regex.try_captures("ab")?.map(|caps| caps.len()), Some(2));
    assert_eq!(regex.try_shortest_match("cab"), Ok(Some(3)));
    assert_eq!(regex.try_find_counted("ab")?, regex.find_counted("ab"));
    let mut locations = regex.capture_locations();
    assert!(regex.try_captures_read(&mut locations, "ab")?.is_some());
    for start in [1, 3] {
        assert_eq!(regex.try_is_match_at("ü", start), Err(Error::BadOffset));
        assert_eq!(regex.try_find_at("ü", start), Err(Error::BadOffset));
        assert_eq!(
            regex.try_captures_at("ü", start).err(),
            Some(Error::BadOffset)
        );
        assert_eq!(
            regex.try_shortest_match_at("ü", start),
            Err(Error::BadOffset)
        );
        assert_eq!(regex.try_find_counted_at("ü", start), Err(Error::BadOffset));
        let read = regex.try_captures_read_at(&mut locations, "ü", start);
        assert_eq!(read, Err(Error::BadOffset));
    }
    assert_eq!(regex.try_find_at("ü", 2), Ok(None));
    assert_eq!(try_escape("a.b"), Ok(r"a\.b".to_string()));
    Ok(())
}

#[test]
fn many_texts() -> Result<(), Error> {
    let regex = Regex::new("^(warn|error)|n$")?;
    let found = regex.find_each(&["warn 1", "", "ok", "ü warn", "error"]);
    let ranges: Vec<_> = found.iter().map(|m| m.map(|m| m.range())).collect();
    assert_eq!(ranges, [Some(0..4), None, None, Some(6..7), Some(0..5)]);
    assert_eq!(found[3].map(|m| m.as_str()), Some("n"));
    assert_eq!(regex.try_find_each(&[])?, []);
    Ok(())
}

#[test]
fn costs() -> Result<(), Error> {
    assert_eq!(Regex::new("a")?.places(), 4);
    let regex = Regex::new("(?:a|b)*[cd]")?;
    let text = "b".repeat(100);
    let (found, cost) = regex.find_counted(&text);
    assert_eq!(found, None);
    // Whoever counts a search gets the promise of its cost.
    let most = (regex.arrows() as u64 + 1) * 101;
    assert!(
        cost.tried > 0 && cost.tried <= most,
        "{cost:?} above {most}"
    );
    let (found, cost) = regex.find_counted_at("abc", 1);
    assert_eq!(found.map(|m| m.range()), Some(1..3));
    assert!(cost.entered > 0);
    Ok(())
}

#[test]
fn escaped() -> Result<(), Error> {
    assert_eq!(escape("3.5 (or so)"), r"3\.5 \(or so\)");
    let text = r"^[a-z]$ \d ü {2} #&-~";
    assert_eq!(
        Regex::new(&escape(text))?.find(text).map(|m| m.len()),
        Some(text.len())
    );
    Ok(())
}

#[test]
fn settings() -> Result<(), Error> {
    let build = |pattern: &str, set: fn(&mut RegexBuilder) -> &mut RegexBuilder| {
        set(&mut RegexBuilder::new(pattern)).build()
    };
    assert!(build("SAM", |b| b.case_insensitive(true))?.is_match("sam"));
    assert!(build("^b$", |b| b.multi_line(true))?.is_match("a\nb\nc"));
    assert!(build("a.b", |b| b.dot_matches_new_line(true))?.is_match("a\nb"));
    assert!(build("^b$", |b| b.multi_line(true).crlf(true))?.is_match("a\r\nb\r\nc"));
    assert_eq!(
        build("a+", |b| b.swap_greed(true))?
            .find("aa")
            .map(|m| m.len()),
        Some(1)
    );
    assert!(build("a b # c", |b| b.ignore_whitespace(true))?.is_match("ab"));
    assert!(build("((a))", |b| b.nest_limit(1)).is_err());
    assert!(build("a", |b| b.size_limit(143)).is_err());
    let options = Options {
        case_insensitive: true,
        ..Options::default()
    };
    assert!(Regex::with_options("SAM", options)?.is_match("sam"));
    Ok(())
}

#[test]
fn faults() {
    let message = "found open group without closing ')'".to_string();
    let fault = Some(Fault {
        start: 2,
        end: None,
    });
    let open = Error::Pattern {
        number: 10,
        message,
        fault,
    };
    assert_eq!(open.to_string(), "found open group without closing ')'");
    assert_eq!(Regex::new("ü(b").unwrap_err(), open);
    let end = |end| Some(Fault { start: 4, end });
    assert_eq!(fault_of("ü(b[d-c])", Options::default()), end(Some(8)));
    let verbose = Options {
        ignore_whitespace: true,
        ..Options::default()
    };
    let at = |start, end| Some(Fault { start, end });
    assert_eq!(fault_of("a # )\n )", verbose), at(7, Some(8)));
    assert_eq!(fault_of("a # )\n )", Options::default()), at(4, Some(5)));
    assert_eq!(fault_of("(a # )", verbose), at(0, None));
    let shallow = Options {
        nest_limit: 1,
        ..Options::default()
    };
    assert_eq!(fault_of("((a))", shallow), None);
}

/// Where a pattern is at fault, which is refused under these settings.
fn fault_of(pattern: &str, options: Options) -> Option<Fault> {
    match Regex::with_options(pattern, options) {
        Err(Error::Pattern { fault, .. }) => fault,
        _ => panic!("{pattern} is not refused"),
    }
}
