//! The program of main.rt.txt over the Rust crate. It has no searcher, so each call is its own.

use regex_lite::{CaptureLocations, Match, Regex};
use std::error::Error;
use std::{env, io};

/// What the calls have returned.
struct Tally {
    matches: u64,
    spans: u64,
}

fn main() -> Result<(), Box<dyn Error>> {
    let mut words = env::args().skip(1);
    let (Some(call), Some(unit), Some(rounds)) = (words.next(), words.next(), words.next()) else {
        return Err("usage: seeker CALL text|lines ROUNDS PATTERN..".into());
    };
    let rounds = rounds.parse::<u32>()?;
    let mut regexes = Vec::new();
    for pattern in words {
        regexes.push(Regex::new(&pattern)?);
    }
    let text = io::read_to_string(io::stdin())?;
    let haystacks = if unit == "lines" {
        text.lines().collect()
    } else {
        vec![text.as_str()]
    };
    let mut tally = Tally {
        matches: 0,
        spans: 0,
    };
    for _ in 0..rounds {
        for regex in &regexes {
            tally.add_round(call.trim_start_matches("kept-"), regex, &haystacks);
        }
    }
    println!("{} {}", tally.matches, tally.spans);
    Ok(())
}

impl Tally {
    /// Calls this once for each haystack.
    fn add_round(&mut self, call: &str, regex: &Regex, haystacks: &[&str]) {
        match call {
            "is-match" => self.add_is_match(regex, haystacks),
            "shortest" => self.add_ends(regex, haystacks),
            "find" => self.add_matches(regex, haystacks),
            _ => self.add_groups(regex, haystacks),
        }
    }

    fn add_is_match(&mut self, regex: &Regex, haystacks: &[&str]) {
        for haystack in haystacks {
            self.count(regex.is_match(haystack));
        }
    }

    fn add_ends(&mut self, regex: &Regex, haystacks: &[&str]) {
        for haystack in haystacks {
            if let Some(end) = regex.shortest_match(haystack) {
                self.count(true);
                self.add(end);
            }
        }
    }

    fn add_matches(&mut self, regex: &Regex, haystacks: &[&str]) {
        for haystack in haystacks {
            self.add_match(regex.find(haystack));
        }
    }

    fn add_groups(&mut self, regex: &Regex, haystacks: &[&str]) {
        for haystack in haystacks {
            let mut locations = regex.capture_locations();
            if regex.captures_read(&mut locations, haystack).is_some() {
                self.add_locations(&locations);
            }
        }
    }

    fn count(&mut self, found: bool) {
        self.matches = self.matches.wrapping_add(u64::from(found));
    }

    fn add_match(&mut self, found: Option<Match<'_>>) {
        if let Some(found) = found {
            self.count(true);
            self.add(found.start());
            self.add(found.end());
        }
    }

    fn add_locations(&mut self, locations: &CaptureLocations) {
        self.count(true);
        for i in 0..locations.len() {
            if let Some((start, end)) = locations.get(i) {
                self.add(start);
                self.add(end);
            }
        }
    }

    fn add(&mut self, offset: usize) {
        self.spans = self.spans.wrapping_mul(31).wrapping_add(offset as u64);
    }
}
