//! Times of bringing in a list of 128 lines, on both sides.
use std::hint::black_box;

use crate::bench::{least, proved, show};
use crate::bench_sets::{ASCII, GREEK, JAPANESE};
use crate::processor;
use crate::terms::{import, Numbers};

const LINES: u64 = 128;
const TERMS: [&str; 4] =
    ["Saugventil = suction valve", "Förderhöhe = delivery head", "Fahrkorb = lift car", "Türverriegelung = door lock"];
const TEXTS: [&str; 3] = [ASCII, GREEK, JAPANESE];

fn list(texts: &[&str]) -> Vec<u8> {
    (1..=LINES).map(|key| format!("{key}\t{}\n", texts[key as usize % texts.len()])).collect::<String>().into_bytes()
}

/// 128 terms, or 128 texts of three scripts.
pub fn named(name: &str) -> Vec<u8> {
    match name {
        "terms" => list(&TERMS),
        _ => list(&TEXTS),
    }
}

/// The list brought in so many times, each under another sequence. Gives the length of the set.
pub fn import_often(times: u64, list: &[u8]) -> usize {
    let mut out = vec![0; 32_768];
    let mut last = 0;
    for sequence in 1..=times {
        let numbers =
            Numbers { id: 1, stream: 1, document: 1, surface: None, previous: 0, revision: 1, epoch: 1, sequence };
        last = import(black_box(list), 9, black_box(&numbers), black_box(&mut out)).expect("the list is brought in");
    }
    last
}

/// Bringing in, beside plain Rust with std.
pub fn importing(program: &str) {
    const CALLS: u64 = 1_000;
    for name in ["terms", "texts"] {
        let list = named(name);
        let ours = proved(program, 'i', &list);
        let theirs = least(|| {
            let start = processor::own();
            black_box(import_often(CALLS, &list));
            (processor::own() - start) / CALLS as f64 * 1e9
        });
        show(&format!("import {LINES} {name}, {} bytes", list.len()), ours, theirs);
        println!(
            "{:40} {:12.0} MB/s {:10.0} MB/s",
            "",
            list.len() as f64 / ours * 1e3,
            list.len() as f64 / theirs * 1e3
        );
    }
}
