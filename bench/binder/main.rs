//! The same as main.c, over the crate that is named `engine`: ours, or the Rust crate.
use std::io::Read;
use std::time::Instant;

use engine::Regex;

fn main() {
    let arguments: Vec<String> = std::env::args().collect();
    let mut text = String::new();
    std::io::stdin().read_to_string(&mut text).unwrap();
    let regex = Regex::new(&arguments[1]).unwrap();
    let rounds: u32 = arguments[3].parse().unwrap();
    let mut found = 0;
    let begun = Instant::now();
    for _ in 0..rounds {
        found = match arguments[2].as_str() {
            "is_match" => regex.is_match(&text).into(),
            _ => regex.find_iter(&text).count(),
        };
    }
    let nanoseconds = begun.elapsed().as_nanos() as f64 / f64::from(rounds);
    println!("{nanoseconds} {found}");
}
