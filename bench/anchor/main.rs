//! The tokeniser of main.rt.txt and its checks of whole lines over the Rust crate, which has no
//! list, no searcher, no anchored search and no call for whole matches. An alternation with a group
//! for each pattern stands for the list, each call is its own, an anchored one searches the rest of
//! the text for a pattern that begins with `\A`, and a check is for one between `\A` and `\z`. By
//! `tokens-each` tokens are found by such searches for each pattern in turn, without groups.

use regex_lite::{CaptureLocations, Regex};
use std::error::Error;
use std::{env, io};

/// What the calls have returned.
struct Tally {
    matches: u64,
    spans: u64,
    numbers: u64,
}

fn main() -> Result<(), Box<dyn Error>> {
    let mut words = env::args().skip(1);
    let (Some(call), Some(_), Some(rounds)) = (words.next(), words.next(), words.next()) else {
        return Err("usage: anchor CALL text|lines ROUNDS PATTERN..".into());
    };
    let rounds = rounds.parse::<u32>()?;
    let text = io::read_to_string(io::stdin())?;
    let mut tally = Tally {
        matches: 0,
        spans: 0,
        numbers: 0,
    };
    match call.trim_start_matches("kept-") {
        "tokens-iter" | "tokens-at" => {
            let regex = Regex::new(&any_of(words))?;
            for _ in 0..rounds {
                tally.add_tokens(&regex, false, &text);
            }
        }
        "tokens-anchored" => {
            let regex = Regex::new(&format!(r"\A(?:{})", any_of(words)))?;
            for _ in 0..rounds {
                tally.add_tokens(&regex, true, &text);
            }
        }
        "tokens-each" => {
            let regexes = anchored(words, "")?;
            for _ in 0..rounds {
                tally.add_tokens_of_each(&regexes, &text);
            }
        }
        "is-full-match" => {
            for regex in anchored(words, r"\z")? {
                for _ in 0..rounds {
                    tally.matches +=
                        text.lines().filter(|line| regex.is_match(line)).count() as u64;
                }
            }
        }
        "full-match" => {
            for regex in anchored(words, r"\z")? {
                for _ in 0..rounds {
                    for found in text.lines().filter_map(|line| regex.find(line)) {
                        tally.add_match(found.start(), found.end());
                    }
                }
            }
        }
        _ => return Err("this program only finds tokens and whole lines".into()),
    }
    println!("{} {} {}", tally.matches, tally.spans, tally.numbers);
    Ok(())
}

/// An alternation with a group for each pattern.
fn any_of(patterns: impl Iterator<Item = String>) -> String {
    let branches: Vec<String> = patterns.map(|pattern| format!("({pattern})")).collect();
    branches.join("|")
}

/// Each pattern between `\A` and this end.
fn anchored(
    patterns: impl Iterator<Item = String>,
    end: &str,
) -> Result<Vec<Regex>, regex_lite::Error> {
    patterns
        .map(|pattern| Regex::new(&format!(r"\A(?:{pattern}){end}")))
        .collect()
}

impl Tally {
    /// The tokens that follow each other, each by a search from the end of the last one on. The
    /// group that takes part tells which pattern it is.
    fn add_tokens(&mut self, regex: &Regex, is_anchored: bool, text: &str) {
        let mut locs = regex.capture_locations();
        let mut at = 0;
        while let Some((start, end)) = span(regex, &mut locs, is_anchored, text, at) {
            if start != at || start == end {
                break;
            }
            let number = (1..locs.len()).position(|i| locs.get(i).is_some());
            self.add_token(number.unwrap_or(0), start, end);
            at = end;
        }
    }

    /// The same by searches of the rest of the text for each pattern in turn.
    fn add_tokens_of_each(&mut self, regexes: &[Regex], text: &str) {
        let mut at = 0;
        loop {
            let rest = &text[at..];
            let found = regexes.iter().enumerate().find_map(|(number, regex)| {
                let token = regex.find(rest)?;
                Some((number, token.end()))
            });
            match found {
                Some((number, length)) if length > 0 => {
                    self.add_token(number, at, at + length);
                    at += length;
                }
                _ => break,
            }
        }
    }

    fn add_token(&mut self, number: usize, start: usize, end: usize) {
        self.numbers = self.numbers.wrapping_mul(31).wrapping_add(number as u64);
        self.add_match(start, end);
    }

    fn add_match(&mut self, start: usize, end: usize) {
        self.matches += 1;
        for offset in [start, end] {
            self.spans = self.spans.wrapping_mul(31).wrapping_add(offset as u64);
        }
    }
}

/// The span of the next match. The locations of an anchored search count from its start.
fn span(
    regex: &Regex,
    locs: &mut CaptureLocations,
    is_anchored: bool,
    text: &str,
    at: usize,
) -> Option<(usize, usize)> {
    if is_anchored {
        let found = regex.captures_read(locs, &text[at..])?;
        Some((at + found.start(), at + found.end()))
    } else {
        let found = regex.captures_read_at(locs, text, at)?;
        Some((found.start(), found.end()))
    }
}
