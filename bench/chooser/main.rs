//! The program of main.rt.txt over the Rust crate, which has no list.

use regex_lite::{Match, Regex};
use std::error::Error;
use std::{env, io};

/// What is built from the patterns.
enum Built {
    Nothing,
    Loop(Vec<Regex>),
    Alternation(Regex),
}

/// What the searches have found.
struct Tally {
    matches: u64,
    spans: u64,
    numbers: u64,
}

fn main() -> Result<(), Box<dyn Error>> {
    let mut words = env::args().skip(1);
    let (Some(how), Some(unit), Some(rounds)) = (words.next(), words.next(), words.next()) else {
        return Err("usage: chooser none|loop|alternation text|lines ROUNDS PATTERN..".into());
    };
    let rounds = rounds.parse::<u32>()?;
    let patterns: Vec<String> = words.collect();
    let built = build(&how, &patterns)?;
    // Read last: the text takes more memory than building the patterns needs temporarily.
    let text = io::read_to_string(io::stdin())?;
    let haystacks = if unit == "lines" {
        text.lines().collect()
    } else {
        vec![text.as_str()]
    };
    let mut tally = Tally {
        matches: 0,
        spans: 0,
        numbers: 0,
    };
    for _ in 0..rounds {
        for haystack in &haystacks {
            tally.add_all(&built, haystack);
        }
    }
    println!("{} {} {}", tally.matches, tally.spans, tally.numbers);
    Ok(())
}

/// Builds from the patterns what the word says.
fn build(how: &str, patterns: &[String]) -> Result<Built, Box<dyn Error>> {
    match how {
        "none" => Ok(Built::Nothing),
        "loop" => {
            let mut regexes = Vec::new();
            for pattern in patterns {
                regexes.push(Regex::new(pattern)?);
            }
            Ok(Built::Loop(regexes))
        }
        "alternation" => {
            let branches: Vec<String> = patterns.iter().map(|one| format!("(?:{one})")).collect();
            Ok(Built::Alternation(Regex::new(&branches.join("|"))?))
        }
        _ => Err("the crate has no list".into()),
    }
}

impl Tally {
    /// Adds all matches in the haystack: each search goes on where the last match ends, or after
    /// the next character if that is empty.
    fn add_all(&mut self, built: &Built, haystack: &str) {
        let mut coming = Vec::new();
        if let Built::Loop(regexes) = built {
            coming.extend(regexes.iter().map(|regex| regex.find(haystack)));
        }
        let mut at = 0;
        while at <= haystack.len() {
            if !haystack.is_char_boundary(at) {
                at += 1;
                continue;
            }
            let found = match built {
                Built::Nothing => None,
                Built::Loop(regexes) => least(regexes, &mut coming, haystack, at),
                Built::Alternation(regex) => regex.find_at(haystack, at).map(|found| (0, found)),
            };
            let Some((number, found)) = found else {
                break;
            };
            self.add_match(number, found);
            at = found.end();
            if found.range().is_empty() {
                at += 1;
            }
        }
    }

    fn add_match(&mut self, number: usize, found: Match<'_>) {
        self.matches += 1;
        self.numbers = self.numbers.wrapping_mul(31).wrapping_add(number as u64);
        for offset in [found.start(), found.end()] {
            self.spans = self.spans.wrapping_mul(31).wrapping_add(offset as u64);
        }
    }
}

/// The match with the least start, of the lowest regex that has one there. The next match of each
/// regex is kept, and a regex is searched again only if that begins before the offset.
fn least<'h>(
    regexes: &[Regex],
    coming: &mut [Option<Match<'h>>],
    haystack: &'h str,
    at: usize,
) -> Option<(usize, Match<'h>)> {
    let mut least: Option<(usize, Match<'h>)> = None;
    for (number, (regex, next)) in regexes.iter().zip(coming).enumerate() {
        if next.is_some_and(|found| found.start() < at) {
            *next = regex.find_at(haystack, at);
        }
        let Some(found) = *next else {
            continue;
        };
        if least.is_none_or(|(_, least)| found.start() < least.start()) {
            least = Some((number, found));
        }
    }
    least
}
