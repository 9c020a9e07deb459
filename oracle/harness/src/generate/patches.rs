//! Patches around operations, without findings: one chain of sequences and revisions.
use prom_ui::shell_bridge::glue::{self, Checked, RawPatch};
use prom_ui::shell_bridge::{BridgePatchEnvelope, BridgePatchOperation as Operation};

use super::numbers;
use super::operations::{self, Steering};
use crate::decode::{OPERATIONS, SET_BYTES};
use crate::panel::{Panel, Step};
use crate::rng::Rng;
use crate::sets;

/// Different numbers above 0.
fn different(rng: &mut Rng, count: usize) -> Vec<u64> {
    let first = numbers::id(rng).min(u64::MAX - count as u64);
    let mut ids: Vec<u64> = Vec::with_capacity(count);
    for i in 0..count as u64 {
        let free = numbers::id(rng);
        let taken = ids.contains(&free) || (first..first + count as u64).contains(&free);
        ids.push(if taken || rng.percent(70) { first + i } else { free });
    }
    ids
}

/// The first of so many numbers in a row, at both ends or anywhere.
fn row_start(rng: &mut Rng, count: u64) -> u64 {
    let last_start = u64::MAX - count.saturating_sub(1);
    match rng.below(4) {
        0 => 0,
        1 => last_start,
        _ => numbers::any(rng).min(last_start),
    }
}

/// So many revisions, each above the one before.
fn revisions(rng: &mut Rng, count: usize) -> Vec<u64> {
    let steps: Vec<u64> = (0..count).map(|_| if rng.percent(80) { 1 } else { rng.between(1, 1 << 40) }).collect();
    let start = row_start(rng, steps.iter().sum::<u64>());
    let mut all = vec![start];
    for step in &steps[1.min(count)..] {
        all.push(all[all.len() - 1] + step);
    }
    all
}

/// Patches with these operations, in one chain.
pub fn chain(rng: &mut Rng, groups: Vec<Vec<Operation>>) -> Vec<RawPatch> {
    let count = groups.len();
    let (ids, revisions) = (different(rng, count), revisions(rng, count + 1));
    let (stream_id, document_id, epoch) = (numbers::id(rng), numbers::id(rng), numbers::any(rng));
    let first = row_start(rng, count as u64);
    let surfaces = rng.below(3);
    let one = |(i, operations): (usize, Vec<Operation>)| RawPatch {
        envelope: BridgePatchEnvelope {
            patch_id: ids[i],
            stream_id,
            document_id,
            previous_revision: revisions[i],
            revision: revisions[i + 1],
            epoch,
            sequence: first + i as u64,
        },
        surface: (surfaces == 0 || surfaces == 1 && rng.percent(50)).then(|| numbers::id(rng)),
        operations,
    };
    groups.into_iter().enumerate().map(one).collect()
}

/// The canonical bytes of a list, from whose end patches are taken until the set is not too long. They come from the
/// original where it has them: for lists without findings.
pub fn canonical(patches: &mut Vec<RawPatch>) -> Vec<u8> {
    let mut set = sets::encode(patches);
    while set.len() > SET_BYTES {
        patches.pop();
        set = sets::encode(patches);
    }
    let built = patches.iter().map(|p| glue::build(p).expect("ids above 0")).collect();
    match glue::check(built) {
        Checked::Admitted(batch) => glue::canonical_bytes(&batch),
        _ => set,
    }
}

/// How many operations each patch gets, one at least.
pub fn sizes(rng: &mut Rng, patches: usize, operations: usize) -> Vec<usize> {
    let mut sizes = vec![1; patches];
    for _ in patches..operations {
        let at = rng.index(patches);
        if sizes[at] < OPERATIONS as usize {
            sizes[at] += 1;
        }
    }
    sizes
}

/// Whether a patch with these operations may take one more.
pub fn is_new_target(group: &[Operation], operation: &Operation) -> bool {
    group.iter().all(|o| operations::target(o) != operations::target(operation))
}

/// Groups of operations that the panel takes one after the other; a group may come out shorter, but never empty.
pub fn fitting_groups(rng: &mut Rng, steering: &Steering, panel: &mut Panel, sizes: &[usize]) -> Vec<Vec<Operation>> {
    let mut groups = Vec::with_capacity(sizes.len());
    for size in sizes {
        let mut group: Vec<Operation> = Vec::with_capacity(*size);
        for _ in 0..2 * size + 4 {
            if group.len() == *size {
                break;
            }
            let next = operations::fitting(rng, steering, panel).filter(|o| is_new_target(&group, o));
            if let Some(operation) = next {
                assert_eq!(panel.apply(&operation), Step::Fits);
                group.push(operation);
            }
        }
        if !group.is_empty() {
            groups.push(group);
        }
    }
    groups
}
