//! Fixed samples: a script and the original's answers to it, and sets that a writer must give back.
use std::fs;
use std::io::Write;
use std::path::Path;

use crate::compare;
use crate::generate::recorder::Recorded;
use crate::generate::{edges, faults, sessions, Scale};
use crate::hex;
use crate::rng::Rng;
use crate::tally::Tally;

/// The most bytes that the rewriting program reads, and the most of a line.
const REWRITTEN_AT_ONCE: usize = 1 << 20;
const LONGEST_LINE: usize = 2 * 32_768 + 1;

/// One script and its answers.
#[derive(Default)]
struct Sample {
    script: Vec<u8>,
    answers: Vec<u8>,
}

/// The fixed scripts, then random sessions until there are so many answers.
fn recorded(count: u64, seed: u64, tally: &mut Tally) -> Vec<Recorded> {
    let mut recorded = edges::edges(Scale::Compact, tally);
    for index in 0.. {
        if tally.calls() >= count {
            break;
        }
        recorded.push(sessions::session(&mut Rng::of_session(seed, index), Scale::Compact, tally));
        tally.note_session();
    }
    recorded
}

/// Whole sessions together, so many as a script of that length holds.
fn samples(recorded: &[Recorded], longest: usize) -> Vec<Sample> {
    let mut samples = vec![Sample::default()];
    for session in recorded {
        let mut script = Vec::new();
        session.print(&mut script);
        if samples.last().is_some_and(|last| !last.script.is_empty() && last.script.len() + script.len() > longest) {
            samples.push(Sample::default());
        }
        let last = samples.last_mut().unwrap();
        last.script.extend(script);
        last.answers.extend_from_slice(&session.answers);
    }
    samples
}

/// Writes a script of at least so many answers, and the answers; into several pairs of files, if scripts may not be
/// longer than a number of bytes.
pub fn write(count: u64, seed: u64, folder: &str, longest: Option<u64>) {
    let mut tally = Tally::default();
    let recorded = recorded(count, seed, &mut tally);
    fs::create_dir_all(folder).unwrap();
    for (index, sample) in samples(&recorded, longest.map_or(usize::MAX, |l| l as usize)).iter().enumerate() {
        let name = longest.map_or("vectors".to_string(), |_| format!("vectors_{index:03}"));
        fs::write(Path::new(folder).join(format!("{name}.script")), &sample.script).unwrap();
        fs::write(Path::new(folder).join(format!("{name}.answers")), &sample.answers).unwrap();
    }
    tally.print();
}

/// A line of a run: a set without findings as the original writes it, in hex.
fn set_line(seed: u64, index: u64) -> Vec<u8> {
    let mut line = Vec::new();
    hex::write(&faults::set_to_list(&mut Rng::of_session(seed, index), Scale::Full), &mut line);
    line.push(b'\n');
    line
}

/// Prints sets without findings, as the original writes them, one in each line. A program that reads each line's set and
/// writes it with the writer must print the same lines.
pub fn sets(count: u64, seed: u64) {
    let mut out = std::io::BufWriter::new(std::io::stdout());
    for index in 0..count {
        out.write_all(&set_line(seed, index)).unwrap();
    }
}

/// Sends so many such lines to a program that rewrites them, as many at a time as it takes at once, and compares what it
/// prints. Says at which set they first differ, and how many bytes were compared otherwise.
pub fn rewrite(count: u64, seed: u64, program: &[&str]) -> bool {
    let mut lines: Vec<Vec<u8>> = Vec::new();
    let mut bytes = 0;
    for index in 0..count {
        lines.push(set_line(seed, index));
        if index + 1 == count || lines.iter().map(Vec::len).sum::<usize>() + LONGEST_LINE > REWRITTEN_AT_ONCE {
            let printed = compare::replay(program, lines.concat());
            let mut printed = printed.split_inclusive(|byte| *byte == b'\n');
            for (place, line) in lines.iter().enumerate() {
                if printed.next() != Some(line.as_slice()) {
                    println!("set {} of seed {seed} differs", index + 1 - (lines.len() - place) as u64);
                    return false;
                }
                bytes += line.len() / 2;
            }
            lines.clear();
        }
    }
    println!("{count} sets of seed {seed}, {bytes} bytes, no difference");
    true
}
