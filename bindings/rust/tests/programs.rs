//! Lines as programs for regex-lite have them: each compiles with the name of that crate too.

use std::borrow::Cow;

use regex_lite_proved::{Captures, Error, NoExpand, Regex, RegexBuilder, Replacer};

#[test]
fn lines_of_a_log() -> Result<(), Box<dyn std::error::Error>> {
    let re = Regex::new(r"(?m)^(\w+)\[([0-9]+)\]: (.+)$").unwrap();
    let hay = "sshd[71]: accepted\ncron[8]: job: nightly\nno line\ninit[1]: up\n";
    let mut found = vec![];
    for (_, [name, id, text]) in re.captures_iter(hay).map(|caps| caps.extract()) {
        found.push((name, id.parse::<u64>()?, text));
    }
    assert_eq!(
        found,
        vec![
            ("sshd", 71, "accepted"),
            ("cron", 8, "job: nightly"),
            ("init", 1, "up")
        ]
    );
    Ok(())
}

#[test]
fn groups_by_let_else() {
    let re = Regex::new(r"port (?<port>[0-9]+) (on|off)").unwrap();
    let Some(caps) = re.captures("port 8080 on") else {
        panic!("no match");
    };
    assert_eq!("8080", &caps["port"]);
    assert_eq!("on", &caps[2]);
    let port: &str = caps.name("port").map_or("", |m| m.as_str());
    assert_eq!(port, "8080");
}

#[test]
fn a_whole_text() {
    let re = Regex::new(r"^[0-9a-f]{2}(:[0-9a-f]{2}){5}$").unwrap();
    assert!(re.is_match("00:1b:44:11:3a:b7"));
    assert!(!re.is_match("00:1b:44:11:3a"));
}

#[test]
fn all_parts_that_match() {
    let re = Regex::new(r"#\w+").unwrap();
    let hay = "see #12, #wip and #done";
    let tags: Vec<&str> = re.find_iter(hay).map(|m| m.as_str()).collect();
    assert_eq!(tags, vec!["#12", "#wip", "#done"]);
    let ranges: Vec<std::ops::Range<usize>> = re.find_iter(hay).map(|m| m.range()).collect();
    assert_eq!(ranges, vec![4..7, 9..13, 18..23]);
}

#[test]
fn names_of_groups_that_outlive_an_iteration() {
    let re = Regex::new(r"(?P<key>\w+)=(?P<value>\w+)").unwrap();
    let hay = "a=1 b=2 c=3";
    let pairs: Vec<(&str, &str)> = re
        .captures_iter(hay)
        .map(|caps| {
            let key = caps.name("key").unwrap().as_str();
            let value = caps.name("value").unwrap().as_str();
            (key, value)
        })
        .collect();
    assert_eq!(pairs, vec![("a", "1"), ("b", "2"), ("c", "3")]);
}

#[test]
fn templates_and_closures() {
    let re = Regex::new(r"(?<h>\d\d):(?<m>\d\d)").unwrap();
    let before = "from 08:30 to 17:45";
    assert_eq!(re.replace_all(before, "${h}h$m"), "from 08h30 to 17h45");
    assert_eq!(re.replace(before, NoExpand("$h")), "from $h to 17:45");
    let after = re.replacen(before, 1, |caps: &Captures<'_>| {
        let hour: u32 = caps["h"].parse().unwrap();
        format!("{}:{}", hour + 1, &caps["m"])
    });
    assert_eq!(after, "from 9:30 to 17:45");
    let after: Cow<str> = re.replace_all("never", "$m");
    assert_eq!(after, "never");
}

/// A replacer of a program's own.
struct Numbers(usize);

impl Replacer for Numbers {
    fn replace_append(&mut self, caps: &Captures<'_>, dst: &mut String) {
        self.0 += 1;
        dst.push_str(&format!("{}={}", self.0, &caps[0]));
    }
}

#[test]
fn replacers_of_a_program() {
    let re = Regex::new("[a-z]+").unwrap();
    assert_eq!(re.replace_all("ab cd", Numbers(0)), "1=ab 2=cd");
    let mut numbers = Numbers(5);
    assert_eq!(re.replace_all("ab", numbers.by_ref()), "6=ab");
    assert_eq!(re.replace_all("cd", numbers.by_ref()), "7=cd");
}

#[test]
fn a_verbose_pattern() {
    let re = Regex::new(
        r"(?x)
        (?P<user>[a-z.]+)  # before the sign
        @
        (?P<host>[a-z.]+)  # after it
        ",
    )
    .unwrap();
    let caps = re.captures("to ada.l@math.org").unwrap();
    assert_eq!((&caps["user"], &caps["host"]), ("ada.l", "math.org"));
}

#[test]
fn which_alternative_is_preferred() {
    let re = Regex::new(r"for|foreach").unwrap();
    assert_eq!("for", re.find("foreach").unwrap().as_str());
    let re = Regex::new(r"foreach|for").unwrap();
    assert_eq!("foreach", re.find("foreach").unwrap().as_str());
}

#[test]
fn empty_matches_stand_between_characters() {
    let re = regex_lite_proved::Regex::new(r"").unwrap();
    let ranges: Vec<_> = re.find_iter("🦀").map(|m| m.range()).collect();
    assert_eq!(ranges, vec![0..0, 4..4]);
}

#[test]
fn flags() {
    let re = Regex::new(r"(?i)get(?-i) /[a-z]+").unwrap();
    assert_eq!(re.find("GeT /indexHTML").unwrap().as_str(), "GeT /index");
    let re = Regex::new(r"(?m)^\d+$").unwrap();
    assert_eq!(re.find("one\n22\nthree").unwrap().as_str(), "22");
    let re = Regex::new(r"(?m)$").unwrap();
    let last = re.find_iter("a\nb\n").last().unwrap();
    assert_eq!((last.start(), last.end()), (4, 4));
    let re = Regex::new(r"(?mR)^ok$").unwrap();
    assert_eq!(re.find("a\r\nok\r\nb").unwrap().range(), 3..5);
}

#[test]
fn a_builder() {
    let re = RegexBuilder::new("^end$")
        .case_insensitive(true)
        .multi_line(true)
        .build()
        .unwrap();
    assert!(re.is_match("begin\nEND\n"));
    assert!(RegexBuilder::new("a{1000}")
        .size_limit(1000)
        .build()
        .is_err());
}

#[test]
fn pieces() {
    let re = Regex::new(r"\s*[,;]\s*").unwrap();
    let fields: Vec<&str> = re.split("a , b;c").collect();
    assert_eq!(fields, vec!["a", "b", "c"]);
    let fields: Vec<String> = re.splitn("a , b;c", 2).map(String::from).collect();
    assert_eq!(fields, vec!["a", "b;c"]);
}

#[test]
fn locations_that_are_kept() {
    let re = Regex::new(r"(\w)(\d)?").unwrap();
    let mut locs = re.capture_locations();
    assert_eq!(re.captures_read(&mut locs, "-x").unwrap().range(), 1..2);
    assert_eq!(
        (locs.get(0), locs.get(1), locs.get(2)),
        (Some((1, 2)), Some((1, 2)), None)
    );
    assert!(re.captures_read_at(&mut locs, "-x", 2).is_none());
}

#[test]
fn errors_are_values() {
    let build = |pattern: &str| -> Result<Regex, Error> { pattern.parse() };
    let error = build("x{2,1}").unwrap_err();
    assert_eq!(error, build("y{2,1}").unwrap_err());
    let error: Box<dyn std::error::Error + Send + Sync> = error.into();
    assert!(!error.to_string().is_empty());
}
