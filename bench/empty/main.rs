//! The program of main.rt.txt in Rust.

fn main() {}
