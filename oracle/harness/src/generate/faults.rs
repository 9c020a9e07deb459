//! Sets for the patch checks: without findings, with one kind, or with several at once. All ids are above 0.
use prom_ui::shell_bridge::glue::{self, RawPatch};
use prom_ui::shell_bridge::BridgePatchOperation as Operation;

use super::operations::{self, Steering, Targets};
use super::{numbers, patches, values, Scale};
use crate::decode::decode;
use crate::panel::Panel;
use crate::rng::Rng;

/// Targets of a set that no session takes.
fn loose_targets(rng: &mut Rng) -> Targets {
    let node = |rng: &mut Rng| numbers::id(rng);
    Targets {
        nodes: (0..rng.between(1, 8)).map(|_| node(rng)).collect(),
        bindings: (0..rng.between(1, 8)).map(|_| (numbers::id(rng), numbers::slot(rng))).collect(),
        collections: (0..rng.between(1, 4)).map(|_| node(rng)).collect(),
    }
}

fn counts(rng: &mut Rng, scale: Scale) -> (usize, usize) {
    let shapes: &[(u64, (u64, u64))] = match scale {
        Scale::Full => &[(30, (1, 4)), (50, (5, 12)), (15, (30, 20)), (3, (64, 8)), (2, (4, 128))],
        Scale::Compact => &[(70, (3, 2)), (29, (5, 3)), (1, (64, 1))],
    };
    let (patches, operations) = rng.weighted(shapes);
    (rng.between(1, patches) as usize, rng.between(1, operations) as usize)
}

/// Patches without findings that an empty panel takes, and the panel after them.
fn sound(rng: &mut Rng, scale: Scale) -> (Steering, Panel, Vec<Vec<Operation>>) {
    let (patch_count, operations) = counts(rng, scale);
    let steering = Steering { targets: loose_targets(rng), aim: rng.between(0, 128) as usize, scale };
    let sizes = patches::sizes(rng, patch_count, patch_count * operations);
    let mut panel = Panel::default();
    let groups = patches::fitting_groups(rng, &steering, &mut panel, &sizes);
    (steering, panel, groups)
}

/// Any place but the first, where there is one.
fn later(rng: &mut Rng, list: &[RawPatch]) -> usize {
    match list.len() {
        0 | 1 => 0,
        n => 1 + rng.index(n - 1),
    }
}

/// An operation that names its own key as neighbour.
fn before_self(rng: &mut Rng, patch: &mut RawPatch) {
    let (collection, key) = (numbers::id(rng), numbers::id(rng));
    let value = values::value(rng, Scale::Compact);
    let operation = match rng.below(2) {
        0 => Operation::CollectionInsert { collection, key, before: Some(key), value },
        _ => Operation::CollectionMove { collection, key, before: Some(key) },
    };
    put(rng, patch, operation);
}

/// One of the patch's operations once more, with another value where it has one.
fn repeat_target(rng: &mut Rng, patch: &mut RawPatch) {
    if patch.operations.is_empty() {
        return;
    }
    let mut operation = patch.operations[rng.index(patch.operations.len())].clone();
    if let Operation::SetBindingValue { value, .. } | Operation::CollectionUpdate { value, .. } = &mut operation {
        *value = values::value(rng, Scale::Compact);
    }
    put(rng, patch, operation);
}

fn put(rng: &mut Rng, patch: &mut RawPatch, operation: Operation) {
    let at = rng.index(patch.operations.len() + 1);
    patch.operations.insert(at, operation);
    patch.operations.truncate(128);
}

/// Two patches alike, or three: one finding for each kind, however often.
fn repeat_patch(rng: &mut Rng, list: &mut Vec<RawPatch>, at: usize) {
    for _ in 0..rng.between(1, 2) {
        if list.len() < 64 {
            list.insert(at, list[at].clone());
        }
    }
}

/// Makes the revision no higher than the one before.
fn lower_revision(rng: &mut Rng, patch: &mut RawPatch) {
    let envelope = &mut patch.envelope;
    envelope.revision = match rng.below(2) {
        0 => envelope.previous_revision,
        _ => rng.between(0, envelope.previous_revision),
    };
}

/// Another revision before, still below the patch's own.
fn break_chain(rng: &mut Rng, patch: &mut RawPatch) {
    let envelope = &mut patch.envelope;
    let wrong = numbers::other(rng, envelope.previous_revision);
    match wrong < envelope.revision {
        true => envelope.previous_revision = wrong,
        false if envelope.previous_revision > 0 => envelope.previous_revision -= 1,
        false if envelope.revision > 1 => envelope.previous_revision += 1,
        false => (envelope.previous_revision, envelope.revision) = (1, 2),
    }
}

/// A sequence that stands at the end of its numbers; the patches behind it go on from anywhere.
fn overflow(rng: &mut Rng, list: &mut [RawPatch], at: usize) {
    list[at.saturating_sub(1)].envelope.sequence = u64::MAX;
    if rng.percent(50) {
        list[at].envelope.sequence = numbers::any(rng);
    }
}

/// Another number above 0 from a patch on, or in that patch only.
fn mix(rng: &mut Rng, list: &mut [RawPatch], at: usize, field: impl Fn(&mut RawPatch) -> &mut u64) {
    let wrong = numbers::other(rng, *field(&mut list[at])).max(1);
    let end = if rng.percent(50) { list.len() } else { at + 1 };
    list[at..end].iter_mut().for_each(|patch| *field(patch) = wrong);
}

/// Numbers from a few in every patch, so that most pairs have several findings, many of them alike.
fn scramble(rng: &mut Rng, list: &mut [RawPatch]) {
    for patch in list {
        let envelope = &mut patch.envelope;
        (envelope.patch_id, envelope.stream_id) = (rng.between(1, 9), rng.between(1, 2));
        (envelope.document_id, envelope.epoch) = (rng.between(1, 2), rng.below(2));
        envelope.previous_revision = rng.below(3);
        envelope.revision = envelope.previous_revision + rng.between(1, 2);
        envelope.sequence = rng.pick(&[0, 1, 2, u64::MAX - 1, u64::MAX]);
    }
}

/// A patch full of operations on a few keys, many before themselves.
fn crowd(rng: &mut Rng, patch: &mut RawPatch, scale: Scale) {
    let most = if scale == Scale::Full { 128 } else { 12 };
    for _ in 0..rng.between(2, most) {
        let (collection, key) = (rng.between(1, 2), rng.between(1, 4));
        let before = rng.percent(70).then(|| rng.between(1, 4));
        let operation = match rng.below(4) {
            0 => Operation::CollectionRemove { collection, key },
            1 => Operation::CollectionInsert { collection, key, before, value: values::value(rng, Scale::Compact) },
            2 => Operation::CollectionUpdate { collection, key, value: values::value(rng, Scale::Compact) },
            _ => Operation::CollectionMove { collection, key, before },
        };
        put(rng, patch, operation);
    }
}

/// Puts a finding of this kind into a list that has patches, so far as the list allows it; above 12 stand many at once.
fn put_finding(rng: &mut Rng, list: &mut Vec<RawPatch>, kind: u64, scale: Scale) {
    let (any, at) = (rng.index(list.len()), later(rng, list));
    match kind {
        1 => break_chain(rng, &mut list[at]),
        2 => before_self(rng, &mut list[any]),
        3 => repeat_target(rng, &mut list[any]),
        4 => list[at].envelope.patch_id = list[rng.index(at.max(1))].envelope.patch_id,
        5 => list[at].envelope.sequence = list[at.saturating_sub(1)].envelope.sequence,
        6 => list[any].operations.clear(),
        7 => mix(rng, list, at, |p| &mut p.envelope.document_id),
        8 => mix(rng, list, at, |p| &mut p.envelope.epoch),
        9 => mix(rng, list, at, |p| &mut p.envelope.stream_id),
        10 => lower_revision(rng, &mut list[any]),
        11 => list[at].envelope.sequence = numbers::other(rng, list[at].envelope.sequence),
        12 => overflow(rng, list, at),
        13 => repeat_patch(rng, list, any),
        14 => scramble(rng, list),
        _ => crowd(rng, &mut list[any], scale),
    }
}

/// A copy with some bytes changed, if it is still readable and inside the domain.
fn damaged(rng: &mut Rng, set: &[u8]) -> Option<Vec<u8>> {
    let mut copy = set.to_vec();
    for _ in 0..rng.pick(&[1, 1, 2, 5]) {
        let at = rng.index(copy.len());
        copy[at] = match rng.below(2) {
            0 => rng.next() as u8,
            _ => rng.pick(&[0, 1, 2, 3, 4, 255]),
        };
    }
    let patches = decode(&copy)?;
    patches.iter().all(|patch| glue::build(patch).is_some()).then_some(copy)
}

/// A set for `check`: made for its findings, or a damaged copy of such a set.
pub fn set_to_check(rng: &mut Rng, scale: Scale) -> Vec<u8> {
    let set = made_set(rng, scale);
    let copy = rng.percent(15).then(|| damaged(rng, &set)).flatten();
    copy.unwrap_or(set)
}

fn made_set(rng: &mut Rng, scale: Scale) -> Vec<u8> {
    let groups = sound(rng, scale).2;
    let mut list = patches::chain(rng, groups);
    if !list.is_empty() && !rng.percent(12) {
        for _ in 0..rng.weighted(&[(60, 1), (20, 2), (10, 3), (8, 5), (2, 12)]) {
            let kind = rng.between(1, 15);
            put_finding(rng, &mut list, kind, scale);
        }
    }
    patches::canonical(&mut list)
}

/// A set for `list`: without findings, and mostly such that an empty panel takes it.
pub fn set_to_list(rng: &mut Rng, scale: Scale) -> Vec<u8> {
    let (steering, panel, mut groups) = sound(rng, scale);
    if rng.percent(30) && groups.len() < 64 {
        groups.extend(operations::breaking(rng, &steering, &panel).map(|operation| vec![operation]));
    }
    let mut list = patches::chain(rng, groups);
    patches::canonical(&mut list)
}
