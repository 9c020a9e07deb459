//! Fixed scripts: every lifecycle input, and every limit of a batch met and passed by one.
use prom_ui::shell_bridge::BridgePatchOperation as Operation;
use prom_ui_runtime::shell_player::ShellLifecycleStimulus;

use super::recorder::{Recorded, Recorder};
use super::{batches, capacities, patches, setups, Scale};
use crate::original::Setup;
use crate::rng::Rng;
use crate::script::{Batch, Command, Limits, STIMULI};
use crate::sets;
use crate::tally::Tally;

/// The commands that lead to each of the four states.
fn paths() -> [Vec<ShellLifecycleStimulus>; 4] {
    let [activate, suspend, _, close, _] = STIMULI.map(|(_, stimulus)| stimulus);
    [vec![], vec![activate], vec![activate, suspend], vec![close]]
}

/// Figures around a limit, and both ends.
fn around(limit: u64) -> Vec<u64> {
    let mut figures = vec![0, limit.saturating_sub(1), limit, limit.saturating_add(1), u64::MAX];
    figures.sort();
    figures.dedup();
    figures
}

/// Every state, command and byte figure around a limit, under one limit and one cap.
fn lifecycle_table(bytes: u64, diagnostics: u64, tally: &mut Tally) -> Recorded {
    let mut recorder = Recorder::new(tally);
    recorder.add(Command::Session(7, Limits { bytes, diagnostics, patches: 1, references: 1 }));
    for path in paths() {
        for (_, stimulus) in STIMULI {
            for figure in around(bytes) {
                recorder.add(Command::Create);
                path.iter().for_each(|step| recorder.add(Command::Apply(*step, 0)));
                recorder.add(Command::Apply(stimulus, figure));
            }
        }
    }
    recorder.recorded
}

fn availabilities(rng: &mut Rng, nodes: impl Iterator<Item = u64>, patch_count: usize) -> Vec<u8> {
    let one = |node| Operation::SetNodeAvailability { node, availability: sets::availability(3) };
    let all: Vec<Operation> = nodes.map(one).collect();
    let size = all.len().div_ceil(patch_count).max(1);
    let mut list = patches::chain(rng, all.chunks(size).map(<[_]>::to_vec).collect());
    patches::canonical(&mut list)
}

/// Patch, byte and reference limits, each met and passed by one.
fn limit_table(limit: u64, diagnostics: u64, tally: &mut Tally) -> Recorded {
    let rng = &mut Rng::new(limit ^ diagnostics);
    let limits = Limits { bytes: limit, diagnostics, patches: limit, references: limit };
    let setup = Setup { id: u64::MAX, limits, nodes: (1..=12).collect(), ..Setup::default() };
    let mut recorder = Recorder::started(&setup, tally);
    for patches in 0..=limit + 1 {
        for references in [patches, patches + 1] {
            for bytes in around(limit) {
                let set = availabilities(rng, 1..=references, patches.max(1) as usize);
                let (id, sequence) = (setup.id, recorder.next_sequence());
                recorder.add(Command::Batch(Batch { id, sequence, patches, bytes, references, set }));
            }
        }
    }
    recorder.add(Command::Show);
    recorder.recorded
}

/// Absent targets below, at and above the cap, in one patch to three.
fn target_table(cap: u64, many: &[u64], tally: &mut Tally) -> Recorded {
    let rng = &mut Rng::new(cap);
    let limits = Limits { bytes: 0, diagnostics: cap, patches: 64, references: 400 };
    let setup = Setup { id: 0, limits, nodes: (1..=8).collect(), ..Setup::default() };
    let mut recorder = Recorder::started(&setup, tally);
    for absent in (0..=6).chain(many.iter().copied()) {
        for patch_count in [1, 2, 3].into_iter().filter(|count| absent < 100 || *count == 3) {
            let nodes = (1..=4).chain(9..9 + absent);
            let set = availabilities(rng, nodes, patch_count);
            let patches = (4 + absent).div_ceil((4 + absent).div_ceil(patch_count as u64));
            let (sequence, references) = (recorder.next_sequence(), 4 + absent);
            recorder.add(Command::Batch(Batch { id: 0, sequence, patches, bytes: 0, references, set }));
        }
    }
    recorder.recorded
}

/// Sequence numbers at both ends, from every cursor near them, and no patches with any number.
fn cursor_table(first: u64, tally: &mut Tally) -> Recorded {
    let rng = &mut Rng::new(first);
    let limits = Limits { bytes: 0, diagnostics: 1, patches: 1, references: 1 };
    let setup = Setup { id: 1, limits, nodes: vec![1], ..Setup::default() };
    let mut recorder = Recorder::new(tally);
    for second in around(first).into_iter().chain([first.wrapping_add(1), first.wrapping_add(2)]) {
        setups::commands(&setup).into_iter().for_each(|command| recorder.add(command));
        for sequence in [first, second, second.wrapping_add(1)] {
            for patches in [0, 1] {
                let (set, references) = (availabilities(rng, 1..=patches, 1), patches);
                recorder.add(Command::Batch(Batch { id: 1, sequence, patches, bytes: 0, references, set }));
            }
        }
    }
    recorder.recorded
}

/// Every two faults of a batch together, in every state of the session, on a panel with a few entries.
fn fault_table(diagnostics: u64, tally: &mut Tally) -> Recorded {
    let rng = &mut Rng::new(diagnostics);
    let limits = Limits { bytes: 10, diagnostics, patches: 5, references: 9 };
    let (nodes, bindings) = (vec![1, 2], vec![(1, 0), (2, 9)]);
    let setup = Setup { id: 77, limits, nodes, bindings, collections: vec![4, 5] };
    let mut steering = setups::steering(rng, &setup, Scale::Compact);
    steering.aim = 6;
    let mut recorder = Recorder::new(tally);
    for path in paths() {
        setups::commands(&setup).into_iter().for_each(|command| recorder.add(command));
        let first = batches::fill(rng, recorder.session(), &steering, 3, 6);
        recorder.add(Command::Batch(first));
        path.iter().for_each(|step| recorder.add(Command::Apply(*step, 10)));
        for (one, (_, fault)) in batches::FAULTS.into_iter().enumerate() {
            for (_, other) in &batches::FAULTS[..=one] {
                let batch = batches::batch(rng, recorder.session(), &steering, 3, &[fault, *other]);
                recorder.add(Command::Batch(batch));
            }
        }
        recorder.add(Command::Show);
    }
    recorder.recorded
}

/// All fixed scripts.
pub fn edges(scale: Scale, tally: &mut Tally) -> Vec<Recorded> {
    type Figures<'a> = &'a [u64];
    let (limits, caps, many): (Figures, Figures, Figures) = match scale {
        Scale::Full => (
            &[0, 1, 2, 5, 4_096, u64::MAX - 1, u64::MAX],
            &[0, 1, 2, u64::MAX],
            &[63, 64, 65, 127, 128, 129, 255, 256, 257, 300],
        ),
        Scale::Compact => (&[0, 2, u64::MAX], &[0, 1], &[65, 256]),
    };
    let mut all = Vec::new();
    for cap in caps {
        all.extend(limits.iter().map(|limit| lifecycle_table(*limit, *cap, tally)));
        all.extend([0, 1, 4].map(|limit| limit_table(limit, *cap, tally)));
        all.push(fault_table(*cap, tally));
    }
    all.extend([0, 1, 2, 3, 6, 7, 64, 256, u64::MAX].map(|cap| target_table(cap, many, tally)));
    all.extend([0, 1, 1 << 63, u64::MAX - 1, u64::MAX].map(|first| cursor_table(first, tally)));
    all.push(capacities::full_panel(tally));
    all.push(capacities::longest_set(tally));
    all
}
