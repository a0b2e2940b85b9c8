//! The program of main.rt.txt over the Rust crate.

use regex_lite::Regex;
use std::error::Error;
use std::{env, io};

/// The distance between the bytes of a replaced text that are sampled.
const APART: usize = 61;

/// What the calls have returned.
struct Tally {
    items: u64,
    sum: u64,
}

fn main() -> Result<(), Box<dyn Error>> {
    let mut words = env::args().skip(1);
    let (Some(call), Some(rounds), Some(pattern)) = (words.next(), words.next(), words.next())
    else {
        return Err("usage: lister all|captures|split|replace ROUNDS PATTERN [TEMPLATE]".into());
    };
    let template = words.next().unwrap_or_default();
    let rounds = rounds.parse::<u32>()?;
    let regex = Regex::new(&pattern)?;
    let text = io::read_to_string(io::stdin())?;
    let mut tally = Tally { items: 0, sum: 0 };
    for _ in 0..rounds {
        match call.as_str() {
            "all" => tally.add_matches(&regex, &text),
            "captures" => tally.add_groups(&regex, &text),
            "split" => tally.add_pieces(&regex, &text),
            _ => tally.add_replaced(&regex, &text, &template),
        }
    }
    println!("{} {}", tally.items, tally.sum);
    Ok(())
}

impl Tally {
    fn add_matches(&mut self, regex: &Regex, text: &str) {
        for found in regex.find_iter(text) {
            self.items += 1;
            self.add(found.start());
            self.add(found.end());
        }
    }

    fn add_groups(&mut self, regex: &Regex, text: &str) {
        for caps in regex.captures_iter(text) {
            self.items += 1;
            for group in caps.iter().flatten() {
                self.add(group.start());
                self.add(group.end());
            }
        }
    }

    fn add_pieces(&mut self, regex: &Regex, text: &str) {
        for piece in regex.split(text) {
            self.items += 1;
            self.add(piece.len());
        }
    }

    fn add_replaced(&mut self, regex: &Regex, text: &str, template: &str) {
        let new = regex.replace_all(text, template);
        self.items += 1;
        self.add(new.len());
        for byte in new.as_bytes().iter().step_by(APART) {
            self.add(usize::from(*byte));
        }
    }

    fn add(&mut self, number: usize) {
        self.sum = self.sum.wrapping_mul(31).wrapping_add(number as u64);
    }
}
