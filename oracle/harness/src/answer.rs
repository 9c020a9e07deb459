//! The original's answers to a script from standard input.
use std::io::{Read, Write};
use std::process::exit;

use crate::original::Original;
use crate::script;

fn stop(line: usize, why: &str) -> ! {
    std::io::stdout().flush().unwrap();
    eprintln!("line {line}: no answer of the original: {why}");
    exit(1)
}

/// Prints an answer for each call, up to the first line to which the original has none.
pub fn run() {
    let mut input = Vec::new();
    std::io::stdin().read_to_end(&mut input).unwrap();
    let mut original = Original::default();
    for (index, line) in input.split_inclusive(|c| *c == b'\n').enumerate() {
        let Some(line) = line.strip_suffix(b"\n") else { stop(index + 1, "the line has no end") };
        if script::is_silent(line) {
            continue;
        }
        let Some(command) = script::parse(line) else { stop(index + 1, "not a command (the format's own ?)") };
        let mut out = Vec::new();
        if let Err(outside) = original.answer(&command, &mut out) {
            stop(index + 1, outside.0);
        }
        std::io::stdout().write_all(&out).unwrap();
    }
}
