//! How often each kind of call and answer came.
use std::collections::BTreeMap;

use crate::script::Command;

const LARGE_PANEL: usize = 32;

#[derive(Default)]
pub struct Tally {
    calls: u64,
    sessions: u64,
    outside: u64,
    rows: BTreeMap<Vec<u8>, u64>,
    batches: u64,
    applied_on_large_panels: u64,
}

/// The parts of an answer's first line that the table tells apart.
fn row(command: &Command, answer: &[u8]) -> Vec<u8> {
    let line = answer.split(|c| *c == b'\n').next().unwrap();
    let fields: Vec<&[u8]> = line.split(|c| *c == b'\t').collect();
    match command {
        Command::Create => [b"create ", fields[1]].concat(),
        Command::Apply(..) => [b"apply ", fields[1], b" ", fields[2]].concat(),
        Command::Batch(_) => [b"batch ", fields[1], b" ", fields[2]].concat(),
        Command::Check(_) if fields[3] == b"0" => b"check nothing found".to_vec(),
        Command::Check(_) if fields[2] == b"set" => b"check found in the set".to_vec(),
        Command::Check(_) => b"check found in a patch".to_vec(),
        Command::List(_) if fields[0] == b"P" => b"list".to_vec(),
        Command::List(_) => [b"list refused ", fields[1]].concat(),
        Command::Show => b"show".to_vec(),
        Command::ValueBinding(..) => [b"value binding ", fields[1]].concat(),
        Command::ValueNode(_) if fields[1] == b"A" => [b"value node A ", fields[2]].concat(),
        Command::ValueNode(_) => b"value node -".to_vec(),
        Command::ValueEntry(..) => [b"value entry ", fields[1]].concat(),
        _ => unreachable!("set-up lines have no answer"),
    }
}

/// The kinds of an answer's findings, each once.
fn kinds(answer: &[u8]) -> Vec<u64> {
    let kind = |line: &[u8]| {
        let field = line.split(|c| *c == b'\t').nth(1)?;
        std::str::from_utf8(field).ok()?.parse().ok()
    };
    let lines = answer.split(|c| *c == b'\n').filter(|line| line.starts_with(b"F\t"));
    let mut kinds: Vec<u64> = lines.filter_map(kind).collect();
    kinds.dedup();
    kinds
}

impl Tally {
    fn count(&mut self, row: Vec<u8>) {
        *self.rows.entry(row).or_default() += 1;
    }

    /// Counts a call, its answer, and the entries of the panel before it.
    pub fn note(&mut self, command: &Command, answer: &[u8], entries: usize) {
        self.calls += 1;
        self.count(row(command, answer));
        match command {
            Command::Batch(_) => {
                self.batches += 1;
                let large = entries >= LARGE_PANEL && answer.starts_with(b"R\tapplied");
                self.applied_on_large_panels += large as u64;
            }
            Command::Check(_) => self.note_findings(&kinds(answer)),
            _ => {}
        }
    }

    fn note_findings(&mut self, kinds: &[u64]) {
        for kind in kinds {
            self.count(format!("check kind {kind:2}").into_bytes());
        }
        if let [kind] = kinds {
            self.count(format!("check kind {kind:2} alone").into_bytes());
        }
    }

    pub fn note_session(&mut self) {
        self.sessions += 1;
    }

    pub fn note_outside(&mut self) {
        self.outside += 1;
    }

    pub fn calls(&self) -> u64 {
        self.calls
    }

    /// How often a row of the table came.
    #[cfg(test)]
    pub fn of(&self, row: &str) -> u64 {
        self.rows.get(row.as_bytes()).copied().unwrap_or(0)
    }

    /// The share of the batches that applied on panels of 32 entries or more.
    pub fn large_share(&self) -> f64 {
        self.applied_on_large_panels as f64 / self.batches.max(1) as f64
    }

    pub fn print(&self) {
        println!("{:32} {:>12}", "calls", self.calls);
        println!("{:32} {:>12}", "sessions", self.sessions);
        for (row, count) in &self.rows {
            println!("{:32} {count:>12}", String::from_utf8_lossy(row));
        }
        println!("{:32} {:>12}", "batches", self.batches);
        println!("{:32} {:>12}", "applied on 32 entries or more", self.applied_on_large_panels);
        println!("{:32} {:>11.1}%", "their share of the batches", 100.0 * self.large_share());
        println!("{:32} {:>12}", "left out, outside the domain", self.outside);
    }
}
