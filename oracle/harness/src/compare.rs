//! The original's answers beside those of a replay program, which runs as a process of its own.
use std::io::{Read, Write};
use std::process::{Command as Process, Stdio};

use crate::generate::recorder::Recorded;
use crate::generate::{edges, sessions, Scale};
use crate::original::Original;
use crate::rng::Rng;
use crate::script::Command;
use crate::shrink::shrink;
use crate::tally::Tally;

/// Scripts are sent to one process until they have so many bytes.
const CHUNK: usize = 8 << 20;

/// What the program prints for a script, and how it ended if not well. A thread feeds it, so that neither side waits
/// for the other.
pub fn replay(program: &[&str], script: Vec<u8>) -> Vec<u8> {
    let mut child = Process::new(program[0])
        .args(&program[1..])
        .stdin(Stdio::piped())
        .stdout(Stdio::piped())
        .spawn()
        .expect("the program starts");
    let mut input = child.stdin.take().unwrap();
    // A program that ends early leaves the pipe broken; its answers then end early too, which is a difference.
    let feeder = std::thread::spawn(move || drop(input.write_all(&script)));
    let mut answers = Vec::new();
    child.stdout.take().unwrap().read_to_end(&mut answers).unwrap();
    feeder.join().unwrap();
    let status = child.wait().unwrap();
    if !status.success() {
        writeln!(answers, "({status})").unwrap();
    }
    answers
}

fn printed(script: &[Command]) -> Vec<u8> {
    let mut out = Vec::new();
    script.iter().for_each(|command| command.print(&mut out));
    out
}

/// The original's answers to a whole script, or none if it leaves the domain.
fn original_answers(script: &[Command]) -> Option<Vec<u8>> {
    let (mut original, mut out) = (Original::default(), Vec::new());
    for command in script {
        original.answer(command, &mut out).ok()?;
    }
    Some(out)
}

/// Sessions that one process answers.
#[derive(Default)]
struct Chunk {
    script: Vec<u8>,
    sessions: Vec<Recorded>,
}

impl Chunk {
    fn add(&mut self, session: Recorded) {
        session.print(&mut self.script);
        self.sessions.push(session);
    }

    /// The script of the first session whose answers differ, together with those before it if it does not differ alone.
    fn first_difference(&mut self, program: &[&str]) -> Option<Vec<Command>> {
        let answers = replay(program, std::mem::take(&mut self.script));
        let mut rest = answers.as_slice();
        for (index, session) in self.sessions.iter().enumerate() {
            match rest.strip_prefix(session.answers.as_slice()) {
                Some(more) => rest = more,
                None => {
                    let alone = up_to_difference(session, rest);
                    let whole = [self.commands(index), alone.clone()].concat();
                    return Some(if differs(program, &alone) { alone } else { whole });
                }
            }
        }
        (!rest.is_empty()).then(|| self.commands(self.sessions.len()))
    }

    /// The commands of the first sessions.
    fn commands(&self, sessions: usize) -> Vec<Command> {
        self.sessions[..sessions].iter().flat_map(|session| session.commands.iter().cloned()).collect()
    }
}

fn differs(program: &[&str], script: &[Command]) -> bool {
    original_answers(script).is_some_and(|answers| answers != replay(program, printed(script)))
}

/// The commands up to the first whose answer differs.
fn up_to_difference(session: &Recorded, answers: &[u8]) -> Vec<Command> {
    let agreed = session.answers.iter().zip(answers).take_while(|(ours, theirs)| ours == theirs).count();
    let last = session.ends.iter().position(|end| *end > agreed).unwrap_or(session.ends.len() - 1);
    session.commands[..=last].to_vec()
}

/// Prints the smallest differing script with both sides' answers.
fn report(program: &[&str], script: Vec<Command>) {
    let small = shrink(script, |script| differs(program, script));
    let text = printed(&small);
    println!("# a script that differs\n{}", String::from_utf8_lossy(&text));
    println!("# the original\n{}", String::from_utf8_lossy(&original_answers(&small).unwrap_or_default()));
    println!("# {}\n{}", program.join(" "), String::from_utf8_lossy(&replay(program, text)));
}

/// Hands on the fixed scripts, then so many random sessions, until one is not taken.
fn all_sessions(count: u64, seed: u64, tally: &mut Tally, mut take: impl FnMut(Recorded) -> bool) {
    if !edges::edges(Scale::Full, tally).into_iter().all(&mut take) {
        return;
    }
    for index in 0..count {
        let session = sessions::session(&mut Rng::of_session(seed, index), Scale::Full, tally);
        tally.note_session();
        if !take(session) {
            return;
        }
    }
}

/// The table of the original alone.
pub fn count(sessions: u64, seed: u64) {
    let mut tally = Tally::default();
    all_sessions(sessions, seed, &mut tally, |_| true);
    tally.print();
}

/// Whether both sides gave the same answers throughout; prints the table, and the smallest difference.
pub fn compare(sessions: u64, seed: u64, program: &[&str]) -> bool {
    let (mut tally, mut chunk, mut found, mut chunks) = (Tally::default(), Chunk::default(), None, 0);
    all_sessions(sessions, seed, &mut tally, |session| {
        chunk.add(session);
        if chunk.script.len() >= CHUNK {
            found = std::mem::take(&mut chunk).first_difference(program);
            chunks += 1;
            eprint!("\r{} MB of scripts compared", chunks * CHUNK >> 20);
        }
        found.is_none()
    });
    eprintln!();
    let found = found.or_else(|| chunk.first_difference(program));
    tally.print();
    match found {
        None => println!("all answers agree"),
        Some(script) => {
            report(program, script);
            return false;
        }
    }
    true
}
