//! Whole random sessions: a set-up, a first fill, then calls of all kinds.
use prom_ui_runtime::shell_player::{ShellLifecycle, ShellLifecycleCommand, ShellLifecycleStimulus};

use super::operations::{self, Steering};
use super::recorder::{Recorded, Recorder};
use super::{batches, faults, numbers, setups, Scale};
use crate::rng::Rng;
use crate::script::{Command, STIMULI};
use crate::tally::Tally;

#[derive(Clone, Copy)]
enum Call {
    Batch,
    Empty,
    Lifecycle,
    Value,
    Check,
    Show,
    List,
}

const FULL: [(u64, Call); 7] = [
    (46, Call::Batch),
    (2, Call::Empty),
    (13, Call::Lifecycle),
    (24, Call::Value),
    (11, Call::Check),
    (2, Call::Show),
    (2, Call::List),
];

const COMPACT: [(u64, Call); 7] = [
    (30, Call::Batch),
    (2, Call::Empty),
    (15, Call::Lifecycle),
    (42, Call::Value),
    (9, Call::Check),
    (1, Call::Show),
    (1, Call::List),
];

/// One session in the making: where its batches tend to, and its first sequence number.
struct Session<'a, 'b> {
    rng: &'a mut Rng,
    recorder: Recorder<'b>,
    steering: Steering,
    start: u64,
}

/// A first sequence number: mostly with room above it, sometimes at the end of its numbers.
fn first_sequence(rng: &mut Rng) -> u64 {
    match rng.below(20) {
        0 => u64::MAX,
        1 => u64::MAX - rng.below(6),
        2..=6 => 0,
        _ => numbers::any(rng).min(u64::MAX - 1_000),
    }
}

/// The command that leads on from a state, so that closing stays rare.
fn usual_command(rng: &mut Rng, lifecycle: ShellLifecycle) -> ShellLifecycleStimulus {
    let command = match lifecycle {
        ShellLifecycle::Created => ShellLifecycleCommand::Activate,
        ShellLifecycle::Active => ShellLifecycleCommand::Suspend,
        ShellLifecycle::Suspended => ShellLifecycleCommand::Resume,
        ShellLifecycle::Closed => return rng.pick(&STIMULI).1,
    };
    ShellLifecycleStimulus::Command(command)
}

impl Session<'_, '_> {
    fn lifecycle(&mut self, may_close: bool) {
        let lifecycle = self.recorder.session().session.lifecycle();
        let mut stimulus = usual_command(self.rng, lifecycle);
        if self.rng.percent(50) {
            stimulus = self.rng.pick(&STIMULI).1;
        }
        let limit = self.recorder.session().setup.limits.bytes;
        let mut bytes = numbers::within(self.rng, limit);
        if self.rng.percent(20) {
            bytes = numbers::over(self.rng, limit).unwrap_or(bytes);
        }
        if stimulus == STIMULI[3].1 && !may_close && bytes <= limit {
            stimulus = STIMULI[4].1;
        }
        self.recorder.add(Command::Apply(stimulus, bytes));
    }

    fn batch(&mut self, sound: u64) {
        let faults = batches::faults(self.rng, sound);
        let batch = batches::batch(self.rng, self.recorder.session(), &self.steering, self.start, &faults);
        self.recorder.add(Command::Batch(batch));
    }

    /// A look-up at an anchor, at an entry that is set, or anywhere.
    fn value(&mut self) {
        let (panel, targets) = (&self.recorder.session().panel, &self.steering.targets);
        let rng = &mut *self.rng;
        let (anywhere, (node, slot)) = (rng.percent(12), operations::stray(rng, targets));
        let command = match rng.below(4) {
            0 if anywhere => Command::ValueBinding(node, slot),
            1 if anywhere => Command::ValueNode(if rng.percent(3) { 0 } else { node }),
            _ if anywhere => Command::ValueEntry(node, numbers::any(rng)),
            0 if !targets.bindings.is_empty() => {
                let (node, slot) = rng.pick(&targets.bindings);
                Command::ValueBinding(node, slot)
            }
            1 if !targets.nodes.is_empty() => Command::ValueNode(rng.pick(&targets.nodes)),
            _ if panel.entries > 0 => {
                let (collection, key) = panel.entry(rng.index(panel.entries));
                Command::ValueEntry(collection, key)
            }
            _ => Command::ValueEntry(numbers::any(rng), numbers::any(rng)),
        };
        self.recorder.add(command);
    }

    fn call(&mut self, may_close: bool) {
        let scale = self.steering.scale;
        let calls = if scale == Scale::Full { &FULL } else { &COMPACT };
        match self.rng.weighted(calls) {
            Call::Batch => self.batch(66),
            Call::Empty => {
                let batch = batches::empty(self.rng, self.recorder.session());
                self.recorder.add(Command::Batch(batch));
            }
            Call::Lifecycle => self.lifecycle(may_close),
            Call::Value => self.value(),
            Call::Check => self.recorder.add(Command::Check(faults::set_to_check(self.rng, scale))),
            Call::Show => self.recorder.add(Command::Show),
            Call::List => self.recorder.add(Command::List(faults::set_to_list(self.rng, scale))),
        }
    }

    /// Batches without faults until the panel is near its aim, so long as they help.
    fn fill(&mut self) {
        for _ in 0..6 {
            let entries = self.recorder.session().panel.entries;
            if entries + 8 >= self.steering.aim {
                return;
            }
            let missing = (self.steering.aim - entries) as u64;
            let batch = batches::fill(self.rng, self.recorder.session(), &self.steering, self.start, missing);
            self.recorder.add(Command::Batch(batch));
        }
    }
}

/// One random session with the original's answers.
pub fn session(rng: &mut Rng, scale: Scale, tally: &mut Tally) -> Recorded {
    let setup = setups::setup(rng, scale);
    let steering = setups::steering(rng, &setup, scale);
    let start = first_sequence(rng);
    let mut session = Session { rng, recorder: Recorder::started(&setup, tally), steering, start };
    session.fill();
    let calls = session.rng.between(60, if scale == Scale::Full { 140 } else { 240 });
    for call in 0..calls {
        session.call(call + 12 > calls);
    }
    session.recorder.add(Command::Show);
    session.recorder.recorded
}

#[cfg(test)]
mod tests {
    use super::session;
    use crate::generate::{edges, Scale};
    use crate::rng::Rng;
    use crate::tally::Tally;

    /// Every answer that is possible inside the domain.
    fn rows() -> Vec<String> {
        let mut rows: Vec<String> =
            ["create 0", "show", "list", "list refused 8", "check nothing found"].map(String::from).to_vec();
        rows.extend(["applied 0", "no-change 0"].map(|row| format!("apply {row}")));
        rows.extend(["applied 0", "no-change 0"].map(|row| format!("batch {row}")));
        rows.extend([0, 2, 3, 4].map(|number| format!("apply rejected {number}")));
        rows.extend([0, 1, 2, 4, 5, 6, 7, 8].map(|number| format!("batch rejected {number}")));
        rows.extend((1..=12).flat_map(|kind| [format!("check kind {kind:2}"), format!("check kind {kind:2} alone")]));
        rows.extend(["Q", "S", "T", "U", "-"].map(|kind| format!("value entry {kind}")));
        rows.extend(["Q", "S", "T", "U", "-"].map(|kind| format!("value binding {kind}")));
        rows.extend(["A 0", "A 1", "A 2", "A 3", "A 4", "-"].map(|kind| format!("value node {kind}")));
        rows
    }

    fn spreads(scale: Scale) {
        let mut tally = Tally::default();
        edges::edges(scale, &mut tally);
        for index in 0..200 {
            session(&mut Rng::of_session(1, index), scale, &mut tally);
        }
        // One call in ten thousand, as a run of ten million asks; a small run is held to more.
        let least = tally.calls() / 5_000;
        let rare: Vec<String> = rows().into_iter().filter(|row| tally.of(row) < least).collect();
        assert!(rare.is_empty(), "{rare:?}");
        assert!(tally.large_share() > 1.0 / 3.0);
    }

    #[test]
    fn spreads_over_all_answers() {
        spreads(Scale::Full);
        spreads(Scale::Compact);
    }

    #[test]
    fn repeats_by_seed() {
        let script = || session(&mut Rng::of_session(9, 3), Scale::Full, &mut Tally::default());
        let (first, second) = (script(), script());
        assert!(first.commands == second.commands && first.answers == second.answers);
    }
}
