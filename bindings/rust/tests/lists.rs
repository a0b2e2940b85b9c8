//! The calls for several patterns. The values that are expected are those of the Rust crate.

use regex_lite_proved::{Error, Fault, ListError, Options, RegexList};

/// Numbers of matches at which one more buffer is fetched, and those beside them.
const NUMBERS: [usize; 12] = [0, 1, 2, 15, 16, 17, 79, 80, 81, 336, 337, 10_000];

#[test]
fn searches() -> Result<(), ListError> {
    let list = RegexList::new(["if", "[a-z]+", "[0-9]+"])?;
    assert_eq!((list.len(), list.is_empty()), (3, false));
    let told = |text: &str, start| {
        list.find_at(text, start)
            .map(|(number, m)| (number, m.range()))
    };
    assert_eq!(told("(iffy)", 0), Some((0, 1..3)));
    assert_eq!(told("(iffy)", 2), Some((1, 2..5)));
    assert_eq!(told("52 if", 0), Some((2, 0..2)));
    assert_eq!(told("()", 0), None);
    assert_eq!(
        list.find("52").map(|(number, m)| (number, m.as_str())),
        Some((2, "52"))
    );
    assert!(list.is_match("...7") && !list.is_match("..."));
    assert!(list.is_match_at("7...7", 1) && !list.is_match_at("7...", 1));
    let empty = RegexList::new([""; 0])?;
    assert!(empty.is_empty() && !empty.is_match("") && empty.find_iter("a").next().is_none());
    assert!(empty.captures_iter("a").next().is_none());
    Ok(())
}

#[test]
fn forms_that_return_errors() -> Result<(), Box<dyn std::error::Error>> {
    let list = RegexList::new(["(a)", "b"])?;
    assert_eq!(list.try_is_match("b"), Ok(true));
    assert_eq!(list.try_matches("b"), Ok(vec![false, true]));
    assert_eq!(list.try_find("b")?.map(|(number, _)| number), Some(1));
    assert_eq!(
        list.try_captures("a")?
            .map(|(number, caps)| (number, caps.len())),
        Some((0, 2))
    );
    assert_eq!(list.try_find_counted("a")?, list.find_counted("a"));
    assert_eq!(
        list.try_find_iter("ab")
            .collect::<Result<Vec<_>, _>>()?
            .len(),
        2
    );
    assert_eq!(
        list.try_captures_iter("ab")
            .collect::<Result<Vec<_>, _>>()?
            .len(),
        2
    );
    for start in [1, 3] {
        assert_eq!(list.try_is_match_at("ü", start), Err(Error::BadOffset));
        assert_eq!(list.try_matches_at("ü", start), Err(Error::BadOffset));
        assert_eq!(list.try_find_at("ü", start), Err(Error::BadOffset));
        assert_eq!(list.try_find_counted_at("ü", start), Err(Error::BadOffset));
        assert_eq!(
            list.try_captures_at("ü", start).err(),
            Some(Error::BadOffset)
        );
    }
    Ok(())
}

#[test]
fn groups() -> Result<(), ListError> {
    let list = RegexList::new(["([a-z]+)=([0-9]+)?", "#(.*)", "(A)(B)(C)(D)(E)"])?;
    let (number, caps) = list.captures("width=").unwrap();
    assert_eq!((number, caps.len()), (0, 3));
    assert_eq!(caps.get(0).map(|m| m.as_str()), Some("width="));
    assert_eq!(caps.get(1).map(|m| m.as_str()), Some("width"));
    assert_eq!((caps.get(2), caps.get(3)), (None, None));
    let (number, caps) = list.captures("ü#note").unwrap();
    assert_eq!((number, caps.len()), (1, 2));
    assert_eq!(caps.get(1).map(|m| m.range()), Some(3..7));
    // More groups than there is room for at first.
    let (number, caps) = list.captures_at("#ABCDE", 1).unwrap();
    assert_eq!((number, caps.len()), (2, 6));
    assert_eq!(&caps[5], "E");
    assert!(list.captures("width").is_none());
    Ok(())
}

#[test]
fn names() -> Result<(), ListError> {
    let list = RegexList::new(["(?<key>[a-z]+)=", "#(?<note>.)(?<rest>.*)"])?;
    let (_, caps) = list.captures("#note").unwrap();
    let nameless = r##"Captures({0: 0..5/"#note", 1: 1..2/"n", 2: 2..5/"ote"})"##;
    assert_eq!(format!("{caps:?}"), nameless);
    assert_eq!(
        (&caps["note"], &caps["rest"], caps.name("key")),
        ("n", "ote", None)
    );
    let named = r##"Captures({0: 0..5/"#note", 1/"note": 1..2/"n", 2/"rest": 2..5/"ote"})"##;
    assert_eq!(format!("{caps:?}"), named);
    let (_, [note, rest]) = caps.extract();
    assert_eq!((note, rest), ("n", "ote"));
    let mut text = String::new();
    caps.expand("$rest$note", &mut text);
    assert_eq!(text, "oten");
    assert_eq!(list.load_names(), Ok(()));
    let (_, caps) = list.captures("width=").unwrap();
    drop(list);
    assert_eq!(&caps["key"], "width");
    Ok(())
}

#[test]
fn all_matches() -> Result<(), ListError> {
    let all = |patterns: &[&str], text: &str| -> Result<Vec<_>, ListError> {
        let list = RegexList::new(patterns)?;
        let found: Vec<_> = list
            .find_iter(text)
            .map(|(number, m)| (number, m.range()))
            .collect();
        let groups = list.captures_iter(text).map(|(number, caps)| {
            let whole = caps.get(0).unwrap().range();
            (number, whole)
        });
        assert_eq!(groups.collect::<Vec<_>>(), found);
        Ok(found)
    };
    let words = ["if", "[a-z]+", "[0-9]+"];
    assert_eq!(all(&words, "if x1")?, [(0, 0..2), (1, 3..4), (2, 4..5)]);
    assert_eq!(
        all(&["a*", "b"], "baac")?,
        [(0, 0..0), (0, 1..3), (0, 4..4)]
    );
    assert_eq!(all(&["", "b"], "ü€")?, [(0, 0..0), (0, 2..2), (0, 5..5)]);
    assert_eq!(all(&["x"], "abc")?, []);
    for number in NUMBERS {
        for end in ["", "--"] {
            let whole: Vec<_> = (0..number).map(|k| (k % 2, k..k + 1)).collect();
            let text = "a1".repeat(number)[..number].to_string() + end;
            assert_eq!(
                all(&["[a-z]", "([0-9])"], &text)?,
                whole,
                "{number} matches"
            );
        }
    }
    Ok(())
}

#[test]
fn all_groups() -> Result<(), ListError> {
    let list = RegexList::new([
        "(?<key>[a-z]+)=([0-9]+)?",
        "#(?<note>.)",
        "(?:(A)){2}(B)(C)(D)",
    ])?;
    let told: Vec<_> = list.captures_iter("a=1 #x b= AABCD").collect();
    let numbers: Vec<_> = told.iter().map(|(number, _)| *number).collect();
    assert_eq!(numbers, [0, 1, 0, 2]);
    assert_eq!((&told[0].1["key"], &told[0].1[2]), ("a", "1"));
    assert_eq!((&told[1].1["note"], told[1].1.name("key")), ("x", None));
    assert_eq!(
        (told[2].1.get(1).map(|m| m.range()), told[2].1.get(2)),
        (Some(7..8), None)
    );
    assert_eq!(
        (told[3].1.len(), told[3].1.get(1).map(|m| m.range())),
        (5, Some(11..12))
    );
    assert!(list.captures_iter("...").next().is_none());
    // More groups than there is room for at first, and more matches.
    let wide = format!("{}|(x)", "(a)".repeat(100));
    let list = RegexList::new(["[0-9]", &wide])?;
    let text = "a".repeat(100) + &"7x".repeat(2000);
    let told: Vec<_> = list.captures_iter(&text).collect();
    assert_eq!(told.len(), 4001);
    assert_eq!(told[0].1.get(100).map(|m| m.range()), Some(99..100));
    assert_eq!(told[4000].1.get(101).map(|m| m.as_str()), Some("x"));
    assert_eq!((told[3999].0, told[3999].1.len()), (0, 1));
    Ok(())
}

#[test]
fn which() -> Result<(), ListError> {
    let list = RegexList::new(["[0-9]+", "[a-z]+", "sam"])?;
    assert_eq!(list.matches("frodo 7"), [true, true, false]);
    assert_eq!(list.matches("sam"), [false, true, true]);
    assert_eq!(list.matches(""), [false, false, false]);
    assert_eq!(list.matches_at("7 sam", 3), [false, true, false]);
    assert_eq!(RegexList::new([""; 0])?.matches("sam"), []);
    Ok(())
}

#[test]
fn costs() -> Result<(), ListError> {
    let list = RegexList::new(["(?:a|b)*[cx]", "(?:b|a)*[dx]"])?;
    let text = "ab".repeat(50);
    let (found, cost) = list.find_counted(&text);
    assert_eq!(found, None);
    let most = (list.arrows() as u64 + 2) * 101;
    assert!(
        cost.tried > 0 && cost.tried <= most,
        "{cost:?} above {most}"
    );
    assert!(list.places() > 8);
    let (found, cost) = list.find_counted_at("cabd", 1);
    assert_eq!(
        found.map(|(number, m)| (number, m.range())),
        Some((1, 1..4))
    );
    assert!(cost.entered > 0);
    Ok(())
}

#[test]
fn values() -> Result<(), ListError> {
    let list = RegexList::new(vec![String::from("a+"), String::from("b")])?;
    assert_eq!(format!("{list:?}"), r#"RegexList(["a+", "b"])"#);
    assert_eq!(
        (list.as_str(0), list.as_str(1), list.as_str(2)),
        (Some("a+"), Some("b"), None)
    );
    let clone = list.clone();
    drop(list);
    assert_eq!(clone.find("b").map(|(number, _)| number), Some(1));
    assert_eq!(clone.try_clone().unwrap().as_str(1), Some("b"));
    Ok(())
}

#[test]
fn settings_and_refusals() -> Result<(), ListError> {
    let any_case = Options {
        case_insensitive: true,
        ..Options::default()
    };
    let list = RegexList::with_options([("frodo", any_case), ("sam", Options::default())])?;
    assert!(list.is_match("FRODO") && !list.is_match("SAM"));
    assert!(list.clone().is_match("FRODO"));
    let refused = RegexList::new(["a", "b(c", "d)"]).unwrap_err();
    let message = "found open group without closing ')'".to_string();
    assert_eq!(refused.number, Some(1));
    let fault = Some(Fault {
        start: 1,
        end: None,
    });
    let number = 10;
    assert_eq!(
        refused.error,
        Error::Pattern {
            number,
            message,
            fault
        }
    );
    assert_eq!(
        refused.to_string(),
        "pattern 1: found open group without closing ')'"
    );
    Ok(())
}

#[test]
fn more_groups_than_there_ever_is_room_for_at_first() -> Result<(), ListError> {
    let wide = "(a)".repeat(100);
    let list = RegexList::new(["b", &wide])?;
    let text = "a".repeat(100) + "b";
    for _ in 0..2 {
        let (number, caps) = list.captures(&text).unwrap();
        assert_eq!((number, caps.len(), &caps[100]), (1, 101, "a"));
        let (number, caps) = list.captures_at(&text, 1).unwrap();
        assert_eq!((number, caps.len()), (0, 1));
        let told: Vec<_> = list
            .captures_iter(&text)
            .map(|(_, caps)| caps.len())
            .collect();
        assert_eq!(told, [101, 1]);
    }
    Ok(())
}
