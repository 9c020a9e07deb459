//! A script in the making: each command goes to the original at once, so that the next can follow from its state.
use prom_ui_runtime::shell_player::ProjectionReplayCursor;

use super::setups;
use crate::original::{Current, Original, Setup};
use crate::script::Command;
use crate::tally::Tally;

/// The script of one session, or of a few that belong together, with the answer to each command.
#[derive(Default)]
pub struct Recorded {
    pub commands: Vec<Command>,
    /// The answers, one after the other, and where the answer to each command ends.
    pub answers: Vec<u8>,
    pub ends: Vec<usize>,
}

impl Recorded {
    pub fn print(&self, out: &mut Vec<u8>) {
        self.commands.iter().for_each(|command| command.print(out));
    }
}

pub struct Recorder<'a> {
    original: Original,
    pub recorded: Recorded,
    tally: &'a mut Tally,
}

impl<'a> Recorder<'a> {
    pub fn new(tally: &'a mut Tally) -> Self {
        Recorder { original: Original::default(), recorded: Recorded::default(), tally }
    }

    /// A script that starts with a session of this set-up.
    pub fn started(setup: &Setup, tally: &'a mut Tally) -> Self {
        let mut recorder = Recorder::new(tally);
        setups::commands(setup).into_iter().for_each(|command| recorder.add(command));
        recorder
    }

    /// The number that the cursor takes next, from 0.
    pub fn next_sequence(&self) -> u64 {
        match self.session().session.replay_cursor() {
            ProjectionReplayCursor::Uninitialized => 0,
            ProjectionReplayCursor::At(number) => number.wrapping_add(1),
        }
    }

    /// Adds a command, unless the original has no answer to it: a refusal under a cap of 0 hides whether a batch
    /// that finds no room came so far.
    pub fn add(&mut self, command: Command) {
        let entries = self.original.current().map_or(0, |current| current.panel.entries);
        let from = self.recorded.answers.len();
        if self.original.answer(&command, &mut self.recorded.answers).is_err() {
            self.tally.note_outside();
            return;
        }
        if command.is_call() {
            self.tally.note(&command, &self.recorded.answers[from..], entries);
        }
        self.recorded.ends.push(self.recorded.answers.len());
        self.recorded.commands.push(command);
    }

    pub fn session(&self) -> &Current {
        self.original.current().expect("a session was created")
    }
}
