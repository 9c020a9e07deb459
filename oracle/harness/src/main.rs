//! The original beside the proved code: see the oracle's README.
mod answer;
mod bench;
mod bench_panels;
mod bench_sessions;
mod bench_sets;
mod bench_terms;
mod codes;
mod compare;
mod decode;
mod generate;
mod hex;
mod listing;
mod original;
mod panel;
mod printing;
mod processor;
mod rng;
mod script;
mod set_calls;
mod sets;
mod shrink;
mod tally;
mod terms;
mod vectors;

use std::io::Write;
use std::process::exit;

use bench_panels::Layout;
use prom_ui::shell_bridge::glue::RawPatch;

const USAGE: &str = "\
oracle answer < SCRIPT
oracle count SESSIONS SEED
oracle compare SESSIONS SEED --replay PROGRAM...
oracle vectors ANSWERS SEED FOLDER [SCRIPT_BYTES]
oracle sets COUNT SEED
oracle rewrite COUNT SEED PROGRAM...
oracle bench-read PROGRAM | bench-check PROGRAM | bench-sizes PROGRAM
oracle bench-depends PROGRAM | bench-keys ORDER
oracle bench-original build|check TIMES PATCHES OPERATIONS | bench-original build|check TIMES found OPERATIONS
oracle bench-original page TIMES
oracle bench-set texts | bench-set PATCHES OPERATIONS | bench-set found OPERATIONS
oracle bench-session PROGRAM COLLECTIONS | bench-lent PROGRAM COLLECTIONS | bench-lent-call PROGRAM C_PROGRAM COLLECTIONS
oracle bench-operation PROGRAM COLLECTIONS
oracle bench-lookup PROGRAM | bench-page PROGRAM | bench-text PROGRAM | bench-write PROGRAM
oracle bench-import PROGRAM | bench-import-plain TIMES terms|texts | bench-terms terms|texts
oracle bench-panel full | bench-panel ENTRIES COLLECTIONS OPERATIONS";

fn main() {
    let arguments: Vec<String> = std::env::args().skip(1).collect();
    let words: Vec<&str> = arguments.iter().map(String::as_str).collect();
    match words.as_slice() {
        ["answer"] => answer::run(),
        ["count", sessions, seed] | ["compare", sessions, seed] => compare::count(number(sessions), number(seed)),
        ["compare", sessions, seed, "--replay", program @ ..] if !program.is_empty() => {
            exit(!compare::compare(number(sessions), number(seed), program) as i32)
        }
        ["vectors", answers, seed, folder] => vectors::write(number(answers), number(seed), folder, None),
        ["vectors", answers, seed, folder, longest] => {
            vectors::write(number(answers), number(seed), folder, Some(number(longest)))
        }
        ["sets", count, seed] => vectors::sets(number(count), number(seed)),
        ["rewrite", count, seed, program @ ..] if !program.is_empty() => {
            exit(!vectors::rewrite(number(count), number(seed), program) as i32)
        }
        ["bench-read", program] => bench::reading(program),
        ["bench-check", program] => bench::checking(program),
        ["bench-sizes", program] => bench::sizes(program),
        ["bench-depends", program] => bench::depending(program),
        ["bench-keys", order] if bench_sets::ORDERS.contains(order) => put(&sets::encode(&bench_sets::keys(order))),
        ["bench-original", way @ ("build" | "check"), times, patches, operations] => {
            bench::checking_often(*way == "check", number(times), &benchmark_list(patches, number(operations)))
        }
        ["bench-original", "page", times] => bench_sessions::pages_often(number(times)),
        ["bench-session", program, collections] => bench_sessions::batches(program, number(collections)),
        ["bench-lent", program, collections] => bench_sessions::lent(program, number(collections)),
        ["bench-lent-call", program, c, collections] => bench_sessions::lent_calls(program, c, number(collections)),
        ["bench-operation", program, collections] => bench_sessions::operation(program, number(collections)),
        ["bench-lookup", program] => bench_sessions::lookups(program),
        ["bench-page", program] => bench_sessions::pages(program),
        ["bench-text", program] => bench_sessions::texts(program),
        ["bench-write", program] => bench_sessions::writing(program),
        ["bench-import", program] => bench_terms::importing(program),
        ["bench-import-plain", times, name @ ("terms" | "texts")] => {
            println!("{}", bench_terms::import_often(number(times), &bench_terms::named(name)))
        }
        ["bench-terms", name @ ("terms" | "texts")] => put(&bench_terms::named(name)),
        ["bench-panel", "full"] => put(&bench_panels::data(&bench_panels::full())),
        ["bench-panel", entries, collections, operations] => {
            let layout = Layout { entries: number(entries), collections: number(collections) };
            put(&bench_panels::data(&layout.panel(number(operations))))
        }
        ["bench-set", "texts"] => put(&sets::encode(&bench_sets::texts(32_768))),
        ["bench-set", patches, operations] => put(&sets::encode(&benchmark_list(patches, number(operations)))),
        _ => eprintln!("{USAGE}"),
    }
}

/// So many patches without findings, or one that has some.
fn benchmark_list(patches: &str, operations: u64) -> Vec<RawPatch> {
    match patches {
        "found" => bench_sets::found(operations),
        _ => bench_sets::grid(number(patches), operations),
    }
}

fn number(word: &str) -> u64 {
    word.parse().unwrap_or_else(|_| {
        eprintln!("not a number: {word}");
        exit(2)
    })
}

fn put(bytes: &[u8]) {
    std::io::stdout().write_all(bytes).unwrap();
}
