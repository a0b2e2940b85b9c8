//! The program of main.rt.txt over the crate regex-lite or, with the feature `regex`, over the
//! crate of that name, whose sets tell which patterns match. Neither has a searcher.

use regex_lite::{CaptureLocations, Match, Regex};
use std::error::Error;
use std::{env, io};

/// What the calls have returned.
struct Tally {
    found: u64,
    sum: u64,
}

fn main() -> Result<(), Box<dyn Error>> {
    let mut words = env::args().skip(1);
    let (Some(call), Some(unit), Some(rounds)) = (words.next(), words.next(), words.next()) else {
        return Err("usage: peer CALL text|lines ROUNDS PATTERN..".into());
    };
    let rounds = rounds.parse()?;
    let patterns: Vec<String> = words.collect();
    let text = io::read_to_string(io::stdin())?;
    let haystacks = if unit == "lines" {
        text.lines().collect()
    } else {
        vec![text.as_str()]
    };
    let mut tally = Tally { found: 0, sum: 0 };
    match call.as_str() {
        "compile" => tally.add_built(rounds, &patterns)?,
        "which" => tally.add_which(rounds, &patterns, &haystacks)?,
        "tokens" => {
            let branches: Vec<_> = patterns.iter().map(|one| format!("(?:{one})")).collect();
            let regex = Regex::new(&branches.join("|"))?;
            tally.add_calls("all", rounds, &regex, &haystacks);
        }
        _ => {
            let pattern = patterns.first().map_or("", String::as_str);
            let regex = Regex::new(pattern)?;
            tally.add_calls(call.trim_start_matches("kept-"), rounds, &regex, &haystacks);
        }
    }
    println!("{} {}", tally.found, tally.sum);
    Ok(())
}

impl Tally {
    /// The calls of a regex, in each round.
    fn add_calls(&mut self, call: &str, rounds: u32, regex: &Regex, haystacks: &[&str]) {
        let kept = env::args().nth(1).is_some_and(|call| call == "kept-groups");
        let mut locations = regex.capture_locations();
        for _ in 0..rounds {
            for haystack in haystacks {
                match call {
                    "all" => regex.find_iter(haystack).for_each(|m| self.add_match(Some(m))),
                    "groups" if kept => {
                        if regex.captures_read(&mut locations, haystack).is_some() {
                            self.add_locations(&locations);
                        }
                    }
                    "groups" => {
                        for groups in regex.captures_iter(haystack) {
                            (0..groups.len()).for_each(|i| self.add_match(groups.get(i)));
                        }
                    }
                    "split" => regex.split(haystack).for_each(|piece| self.add_length(piece.len())),
                    "replace" => self.add_length(regex.replace_all(haystack, "<>").len()),
                    "is-match" => self.found += u64::from(regex.is_match(haystack)),
                    _ => self.add_match(regex.find(haystack)),
                }
            }
        }
    }

    #[cfg(feature = "regex")]
    fn add_which(
        &mut self,
        rounds: u32,
        patterns: &[String],
        haystacks: &[&str],
    ) -> Result<(), Box<dyn Error>> {
        let set = regex_lite::RegexSet::new(patterns)?;
        for _ in 0..rounds {
            for haystack in haystacks {
                for number in set.matches(haystack).iter() {
                    self.found += 1;
                    self.add(number);
                }
            }
        }
        Ok(())
    }

    #[cfg(not(feature = "regex"))]
    fn add_which(
        &mut self,
        rounds: u32,
        patterns: &[String],
        haystacks: &[&str],
    ) -> Result<(), Box<dyn Error>> {
        let regexes = patterns.iter().map(|one| Regex::new(one)).collect::<Result<Vec<_>, _>>()?;
        for _ in 0..rounds {
            for haystack in haystacks {
                for (number, regex) in regexes.iter().enumerate() {
                    if regex.is_match(haystack) {
                        self.found += 1;
                        self.add(number);
                    }
                }
            }
        }
        Ok(())
    }

    fn add_built(&mut self, rounds: u32, patterns: &[String]) -> Result<(), Box<dyn Error>> {
        for _ in 0..rounds {
            for pattern in patterns {
                self.add_length(Regex::new(pattern)?.captures_len());
            }
        }
        Ok(())
    }

    fn add_match(&mut self, found: Option<Match<'_>>) {
        if let Some(found) = found {
            self.found += 1;
            self.add(found.start());
            self.add(found.end());
        }
    }

    fn add_locations(&mut self, locations: &CaptureLocations) {
        for i in 0..locations.len() {
            if let Some((start, end)) = locations.get(i) {
                self.found += 1;
                self.add(start);
                self.add(end);
            }
        }
    }

    fn add_length(&mut self, length: usize) {
        self.found += 1;
        self.add(length);
    }

    fn add(&mut self, number: usize) {
        self.sum = self.sum.wrapping_mul(31).wrapping_add(number as u64);
    }
}
