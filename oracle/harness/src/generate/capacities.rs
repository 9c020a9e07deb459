//! Fixed scripts at the capacities: a full panel, 64 patches, and the longest set.
use prom_ui::shell_bridge::glue::RawPatch;
use prom_ui::shell_bridge::{BridgePatchOperation as Operation, BridgeValue};

use super::patches;
use super::recorder::{Recorded, Recorder};
use crate::decode::{SET_BYTES, TEXT_BYTES};
use crate::original::Setup;
use crate::rng::Rng;
use crate::script::{Batch, Command, Limits};
use crate::sets;
use crate::tally::Tally;

/// Adds a batch with true counts and the sequence number that the cursor takes.
fn add_sound(recorder: &mut Recorder, mut list: Vec<RawPatch>) {
    let set = patches::canonical(&mut list);
    let references = list.iter().map(|p| p.operations.len() as u64).sum();
    let (id, sequence, patches) = (recorder.session().setup.id, recorder.next_sequence(), list.len() as u64);
    recorder.add(Command::Batch(Batch { id, sequence, patches, bytes: 0, references, set }));
}

fn bind(i: u64) -> Operation {
    Operation::SetBindingValue { node: 65 - i, slot: i as u32, value: BridgeValue::Unsigned(i) }
}

fn mark(i: u64) -> Operation {
    Operation::SetNodeAvailability { node: i, availability: sets::availability((i % 5) as u8) }
}

/// Entries of three collections in turn, each before its collection's first one.
fn insert(i: u64, value: BridgeValue) -> Operation {
    Operation::CollectionInsert { collection: 3 + i % 3, key: 1 + i / 3, before: (i > 2).then_some(1), value }
}

fn update(i: u64, value: BridgeValue) -> Operation {
    Operation::CollectionUpdate { collection: 3 + i % 3, key: 1 + i / 3, value }
}

fn wide_setup() -> Setup {
    let limits = Limits { bytes: 0, diagnostics: 3, patches: 64, references: 400 };
    let bindings = (1..=64).map(|i| (65 - i, i as u32)).collect();
    Setup { id: 5, limits, nodes: (1..=64).collect(), bindings, collections: vec![5, 3, 4] }
}

/// All bindings, availabilities and entries that fit, set twice over; then a place is freed and taken again.
pub fn full_panel(tally: &mut Tally) -> Recorded {
    let (mut recorder, rng) = (Recorder::started(&wide_setup(), tally), &mut Rng::new(9));
    let number = BridgeValue::Unsigned;
    let all: fn(u64, BridgeValue) -> Operation = insert;
    for (more, entry) in [(1, all), (2, update)] {
        let entries = (0..128).map(|i| entry(i, number(i + more))).collect();
        let groups = vec![(1..=64).map(bind).collect(), entries, (1..=64).map(mark).collect()];
        add_sound(&mut recorder, patches::chain(rng, groups));
        recorder.add(Command::Show);
    }
    let remove = Operation::CollectionRemove { collection: 4, key: 1 };
    let (again, twice) = (insert(1, number(7)), insert(0, number(8)));
    for group in [vec![remove], vec![again.clone(), twice], vec![again]] {
        add_sound(&mut recorder, patches::chain(rng, vec![group]));
        recorder.add(Command::Show);
    }
    add_sound(&mut recorder, patches::chain(rng, (1..=64).map(|i| vec![bind(i)]).collect()));
    recorder.recorded
}

/// A set of exactly 32,768 bytes, checked, listed and applied.
pub fn longest_set(tally: &mut Tally) -> Recorded {
    let (mut recorder, rng) = (Recorder::started(&wide_setup(), tally), &mut Rng::new(9));
    let long = || BridgeValue::Text("é".repeat(TEXT_BYTES as usize / 2));
    let inserts = (0..99).map(|i| insert(i, long())).collect();
    let updates = (0..23).map(|i| update(i, if i == 22 { BridgeValue::Text(String::new()) } else { long() })).collect();
    let mut list = patches::chain(rng, vec![inserts, updates]);
    let missing = SET_BYTES - sets::encode(&list).len();
    *list[1].operations.last_mut().unwrap() = update(22, BridgeValue::Text("e".repeat(missing)));
    let set = patches::canonical(&mut list);
    assert!(set.len() == SET_BYTES && list.len() == 2);
    recorder.add(Command::Check(set.clone()));
    recorder.add(Command::List(set));
    add_sound(&mut recorder, list);
    recorder.add(Command::Show);
    recorder.recorded
}
