//! Replacements. The values that are expected are those of the Rust crate.

use std::borrow::Cow;

use regex_lite_proved::{Captures, Error, NoExpand, Regex, Replacer};

#[test]
fn templates() -> Result<(), Error> {
    let name = Regex::new("(?<first>[a-z]+) (?<last>[a-z]+)( x)?")?;
    let new = |template: &str| name.replace_all("ada lovelace", template).into_owned();
    assert_eq!(new("$last, $1"), "lovelace, ada");
    assert_eq!(new("${last}s, $0"), "lovelaces, ada lovelace");
    // A name without braces is as long as it can be.
    assert_eq!(new("[$lasts]"), "[]");
    assert_eq!(new("[$1_$2]"), "[lovelace]");
    assert_eq!(new("[${1}_$2]"), "[ada_lovelace]");
    // Groups that took no part, or that don't exist.
    assert_eq!(new("[$3$4$none${none}${}]"), "[]");
    assert_eq!(new("$$1 $$$1"), "$1 $ada");
    assert_eq!(new("$ $- ${1 $"), "$ $- ${1 $");
    assert_eq!(new("$1ü$2"), "adaülovelace");
    assert_eq!(new("$18446744073709551617-${007}${1}"), "-ada");
    // Here a name is an index only if it consists of digits.
    assert_eq!(new("[${+1}]"), "[]");
    Ok(())
}

#[test]
fn how_many_are_replaced() -> Result<(), Error> {
    let letters = Regex::new("[a-z]")?;
    assert_eq!(letters.replace("abc", "<$0>"), "<a>bc");
    assert_eq!(letters.replacen("abc", 2, "<$0>"), "<a><b>c");
    assert_eq!(letters.replacen("abc", 0, "<$0>"), "<a><b><c>");
    assert_eq!(letters.replacen("abc", 9, "wide"), "widewidewide");
    assert_eq!(letters.replacen("abc", 2, "x"), "xxc");
    for limit in [15, 16, 17, 18, 80, 81] {
        let new = letters
            .replacen(&"a".repeat(100), limit, "${0}b")
            .into_owned();
        assert_eq!(new, "ab".repeat(limit) + &"a".repeat(100 - limit));
    }
    assert_eq!(Regex::new("a*")?.replace_all("baac", "-"), "-b-c-");
    assert_eq!(Regex::new("")?.replace_all("ü€", "-"), "-ü-€-");
    Ok(())
}

#[test]
fn a_text_is_borrowed_exactly_if_there_is_no_match() -> Result<(), Error> {
    let a = Regex::new("a")?;
    assert!(matches!(a.replace_all("b", "c"), Cow::Borrowed("b")));
    assert!(matches!(a.replace_all("b", "$0"), Cow::Borrowed("b")));
    assert!(matches!(a.replace_all("a", "a"), Cow::Owned(_)));
    assert_eq!(a.try_replace_all("aa", "c")?, "cc");
    assert_eq!(a.try_replace("aa", "c")?, "ca");
    assert_eq!(a.try_replacen("aaa", 2, "c")?, "cca");
    Ok(())
}

#[test]
fn replacers() -> Result<(), Error> {
    let word = Regex::new(r"(\w)(\w*)")?;
    let owned = String::from("$1.");
    assert_eq!(word.replace_all("to be", &owned), "t. b.");
    assert_eq!(word.replace_all("to be", owned.clone()), "t. b.");
    assert_eq!(word.replace_all("to be", Cow::from("$2$1")), "ot eb");
    assert_eq!(word.replace_all("to be", &Cow::from("$2$1")), "ot eb");
    assert_eq!(word.replace_all("to be", NoExpand("$1")), "$1 $1");
    let upper = |caps: &Captures| caps[1].to_uppercase() + &caps[2];
    assert_eq!(word.replace_all("to be", upper), "To Be");
    assert_eq!(word.replace_all("to be", |_: &Captures<'_>| "x"), "x x");
    Ok(())
}

#[test]
fn replacers_by_reference() -> Result<(), Error> {
    let word = Regex::new(r"\w+")?;
    let mut count = 0;
    let mut numbered = |_: &Captures| {
        count += 1;
        count.to_string()
    };
    assert_eq!(word.replace_all("a b", numbered.by_ref()), "1 2");
    assert_eq!(word.replace_all("c d", numbered.by_ref()), "3 4");
    assert_eq!(count, 4);
    assert_eq!(word.replace_all("a b", NoExpand("$0").by_ref()), "$0 $0");
    Ok(())
}

#[test]
fn a_closure_may_search_with_the_same_regex() -> Result<(), Error> {
    let word = Regex::new(r"\w+")?;
    let counted = word.replace_all("a b", |caps: &Captures| {
        format!("{}{}", &caps[0], word.find_iter("x y z").count())
    });
    assert_eq!(counted, "a3 b3");
    Ok(())
}

#[test]
fn expanded_groups_are_appended() -> Result<(), Error> {
    let caps = Regex::new("(?<a>.)(?<b>.)")?.captures("xy").unwrap();
    let mut text = String::from("0");
    caps.expand("$b${a}1", &mut text);
    caps.expand("", &mut text);
    assert_eq!(text, "0yx1");
    Ok(())
}
