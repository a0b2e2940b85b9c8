//! The program of main.rt.txt over the Rust crate.

use regex_lite::{Match, Regex};
use std::error::Error;
use std::{env, io};

/// The call that finds a match.
#[derive(Clone, Copy)]
enum Call {
    Find,
    Captures,
}

/// What the searches have found.
struct Tally {
    matches: u64,
    spans: u64,
}

fn main() -> Result<(), Box<dyn Error>> {
    let mut words = env::args().skip(1);
    let (Some(call), Some(unit), Some(rounds)) = (words.next(), words.next(), words.next()) else {
        return Err("usage: searcher find|captures text|lines ROUNDS PATTERN..".into());
    };
    let call = if call == "captures" {
        Call::Captures
    } else {
        Call::Find
    };
    let rounds = rounds.parse::<u32>()?;
    let mut regexes = Vec::new();
    for pattern in words {
        regexes.push(Regex::new(&pattern)?);
    }
    // Read last: the text takes more memory than building a pattern needs temporarily.
    let text = io::read_to_string(io::stdin())?;
    let haystacks = if unit == "lines" {
        text.lines().collect()
    } else {
        vec![text.as_str()]
    };
    let mut tally = Tally {
        matches: 0,
        spans: 0,
    };
    for _ in 0..rounds {
        for haystack in &haystacks {
            for regex in &regexes {
                tally.add_all(call, regex, haystack);
            }
        }
    }
    println!("{} {}", tally.matches, tally.spans);
    Ok(())
}

impl Tally {
    /// Adds all matches in the haystack: each search goes on where the last match ends, or after
    /// the next character if that is empty.
    fn add_all(&mut self, call: Call, regex: &Regex, haystack: &str) {
        let mut at = 0;
        while at <= haystack.len() {
            if !haystack.is_char_boundary(at) {
                at += 1;
                continue;
            }
            let found = match call {
                Call::Find => self.add_match(regex, haystack, at),
                Call::Captures => self.add_groups(regex, haystack, at),
            };
            let Some(found) = found else {
                break;
            };
            at = found.end();
            if found.range().is_empty() {
                at += 1;
            }
        }
    }

    /// Adds the match from the index on and returns it.
    fn add_match<'h>(&mut self, regex: &Regex, haystack: &'h str, at: usize) -> Option<Match<'h>> {
        let found = regex.find_at(haystack, at)?;
        self.matches += 1;
        self.add_span(found.start(), found.end());
        Some(found)
    }

    /// The same with the spans of all groups.
    fn add_groups<'h>(&mut self, regex: &Regex, haystack: &'h str, at: usize) -> Option<Match<'h>> {
        let mut groups = regex.capture_locations();
        let found = regex.captures_read_at(&mut groups, haystack, at)?;
        self.matches += 1;
        for i in 0..groups.len() {
            if let Some((start, end)) = groups.get(i) {
                self.add_span(start, end);
            }
        }
        Some(found)
    }

    fn add_span(&mut self, start: usize, end: usize) {
        for offset in [start, end] {
            self.spans = self.spans.wrapping_mul(31).wrapping_add(offset as u64);
        }
    }
}
