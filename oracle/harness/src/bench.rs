//! Times of both sides on the same sets. The proved program is timed as a process at two repeat counts, and the
//! difference is taken; the original is timed in this process, without what it takes to copy its arguments.
use std::hint::black_box;
use std::io::Write;
use std::process::{Command, Stdio};

use prom_ui::shell_bridge::glue::{self, BuiltPatch, Checked, RawPatch};

use crate::{bench_sets, processor, sets};

const RUNS: usize = 7;

/// Seconds that the program takes for so many repeats of one way of using a set.
fn process_seconds(program: &str, way: char, count: u64, set: &[u8]) -> f64 {
    let start = processor::children();
    let mut child =
        Command::new(program).stdin(Stdio::piped()).stdout(Stdio::null()).spawn().expect("the program starts");
    let mut input = format!("{way} {count}\n").into_bytes();
    input.extend(set);
    child.stdin.take().unwrap().write_all(&input).unwrap();
    assert!(child.wait().unwrap().success());
    processor::children() - start
}

pub fn least(runs: impl Fn() -> f64) -> f64 {
    (0..RUNS).map(|_| runs()).fold(f64::INFINITY, f64::min)
}

/// Nanoseconds of each program for one repeat. The programs run in turn, so that what else the machine does falls on all of them.
pub fn proved_in_turn<const N: usize>(programs: [&str; N], way: char, set: &[u8]) -> [f64; N] {
    let mut count = 50;
    while process_seconds(programs[0], way, count, set) < 0.06 {
        count *= 4;
    }
    let mut least = [[f64::INFINITY; 2]; N];
    for _ in 0..RUNS {
        for (program, [long, short]) in programs.iter().zip(&mut least) {
            *long = long.min(process_seconds(program, way, 5 * count, set));
            *short = short.min(process_seconds(program, way, count, set));
        }
    }
    least.map(|[long, short]| (long - short) / (4 * count) as f64 * 1e9)
}

/// Nanoseconds of the proved program for one repeat.
pub fn proved(program: &str, way: char, set: &[u8]) -> f64 {
    let [nanoseconds] = proved_in_turn([program], way, set);
    nanoseconds
}

/// Nanoseconds of one call, over arguments that were made before.
pub fn original<A, B>(make: impl Fn() -> A, call: impl Fn(A) -> B) -> f64 {
    const CALLS: usize = 1_000;
    least(|| {
        let arguments: Vec<A> = (0..CALLS).map(|_| make()).collect();
        let mut answers = Vec::with_capacity(CALLS);
        let start = processor::own();
        for argument in arguments {
            answers.push(call(black_box(argument)));
        }
        let seconds = processor::own() - start;
        black_box(answers);
        seconds / CALLS as f64 * 1e9
    })
}

pub fn built(patches: &[RawPatch]) -> Vec<BuiltPatch> {
    patches.iter().map(|p| glue::build(p).expect("ids above 0")).collect()
}

pub fn admitted(checked: Checked) -> prom_ui::shell_bridge::AdmittedProjectionPatchBatch {
    match checked {
        Checked::Admitted(batch) => batch,
        _ => panic!("the benchmark sets have no findings"),
    }
}

pub fn show(what: &str, proved: f64, original: f64) {
    println!("{what:40} {proved:12.0} ns {original:12.0} ns {:8.2}", proved / original);
}

/// Reading, beside building the same list from values and giving its canonical bytes.
pub fn reading(program: &str) {
    let patches = bench_sets::texts(32_768);
    let set = sets::encode(&patches);
    let ours = proved(program, 'r', &set);
    let theirs = original(|| (), |_| glue::canonical_bytes(&admitted(glue::check(built(&patches)))));
    show(&format!("read {} bytes", set.len()), ours, theirs);
    println!("{:40} {:12.0} MB/s {:10.0} MB/s", "", set.len() as f64 / ours * 1e3, set.len() as f64 / theirs * 1e3);
}

/// The patch checks (with reading; with and without a list of findings), beside the constructors of patches and sets.
pub fn checking(program: &str) {
    for patches in [1, 20] {
        for operations in [1, 16, 128] {
            let list = bench_sets::grid(patches, operations);
            let set = sets::encode(&list);
            let theirs = original(|| built(&list), |b| admitted(glue::check(b)));
            for (way, name) in [('q', "quick check"), ('k', "check")] {
                show(&format!("{name} {patches} x {operations}"), proved(program, way, &set), theirs);
            }
        }
    }
}

/// What the set with the most keys depends on, in each order of its keys; the original has no such call.
pub fn depending(program: &str) {
    for order in bench_sets::ORDERS {
        let set = sets::encode(&bench_sets::keys(order));
        println!("{:40} {:12.0} ns", format!("{order}, {} bytes", set.len()), proved(program, 'd', &set));
    }
}

/// A list built so many times, and checked where that is asked, so that the difference counts the instructions of the checks.
pub fn checking_often(check: bool, times: u64, list: &[RawPatch]) {
    for _ in 0..times {
        let argument = black_box(built(list));
        if check {
            black_box(&glue::check(argument));
        }
    }
}

/// Reading and the quick check of texts, beside the constructors, for a small and a large set.
pub fn sizes(program: &str) {
    for most in [1_024, 32_768] {
        let list = bench_sets::texts(most);
        let set = sets::encode(&list);
        let theirs = original(|| built(&list), |b| admitted(glue::check(b)));
        show(&format!("read and check {} bytes", set.len()), proved(program, 'q', &set), theirs);
    }
}
