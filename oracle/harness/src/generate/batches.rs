//! Batches for a session as it stands: such that apply, and such that fail in one or two of the steps.
use prom_ui::shell_bridge::glue::RawPatch;
use prom_ui::shell_bridge::BridgePatchOperation as Operation;
use prom_ui_runtime::shell_player::ProjectionReplayCursor;

use super::operations::{self, Steering};
use super::{numbers, patches, Scale};
use crate::decode::{OPERATIONS, PATCHES};
use crate::original::Current;
use crate::panel::Panel;
use crate::rng::Rng;
use crate::script::Batch;

/// What is wrong with a batch, by the step that sees it.
#[derive(Debug, Clone, Copy, PartialEq, Eq)]
pub enum Fault {
    Session,
    PatchLimit,
    ByteLimit,
    Counts,
    ReferenceLimit,
    Targets,
    Cursor,
    Operation,
}

pub const FAULTS: [(u64, Fault); 8] = [
    (4, Fault::Session),
    (4, Fault::PatchLimit),
    (4, Fault::ByteLimit),
    (7, Fault::Counts),
    (6, Fault::ReferenceLimit),
    (8, Fault::Targets),
    (7, Fault::Cursor),
    (12, Fault::Operation),
];

fn operation_count(rng: &mut Rng, scale: Scale) -> u64 {
    let ranges: &[(u64, (u64, u64))] = match scale {
        Scale::Full => &[(50, (1, 3)), (30, (4, 12)), (14, (13, 40)), (4, (41, 127)), (2, (128, 300))],
        Scale::Compact => &[(90, (1, 2)), (9, (3, 6)), (1, (7, 20))],
    };
    let (least, most) = rng.weighted(ranges);
    rng.between(least, most)
}

/// How many operations name a target that is absent, before repeats.
fn absent_count(rng: &mut Rng, scale: Scale) -> u64 {
    let counts = [(20, 1), (10, 2), (10, 3), (10, 5), (5, 9), (2, 40), (1, 100), (1, 260)];
    rng.weighted(if scale == Scale::Full { &counts } else { &counts[..5] })
}

fn patch_count(rng: &mut Rng, operations: u64) -> u64 {
    let (least, most) = rng.weighted(&[(60, (1, 1)), (30, (2, 4)), (8, (5, 16)), (2, (17, 64))]);
    let least_patches = operations.div_ceil(OPERATIONS as u64);
    rng.between(least, most).min(operations).max(least_patches)
}

/// How many operations each patch of a batch gets that stays inside the limits; none where only the empty set does.
fn sizes(rng: &mut Rng, session: &Current, operations: u64) -> Vec<usize> {
    let limits = session.setup.limits;
    let operations = operations.min(limits.references).min(limits.patches.saturating_mul(OPERATIONS as u64));
    if operations == 0 {
        return Vec::new();
    }
    let patches = patch_count(rng, operations).min(limits.patches);
    patches::sizes(rng, patches as usize, operations as usize)
}

/// Puts an operation into one of the groups at any place where its patch may take it, or into a patch of its own.
fn put_anywhere(rng: &mut Rng, groups: &mut Vec<Vec<Operation>>, operation: Operation) {
    if !groups.is_empty() && (rng.percent(80) || groups.len() == PATCHES as usize) {
        let at = rng.index(groups.len());
        let group = &mut groups[at];
        if group.len() < OPERATIONS as usize && patches::is_new_target(group, &operation) {
            group.insert(rng.index(group.len() + 1), operation);
        }
    } else {
        groups.push(vec![operation]);
    }
}

/// Ends the groups with an operation that breaks a rule, and sometimes with more behind it that are never reached.
fn put_breaking(rng: &mut Rng, steering: &Steering, panel: &Panel, groups: &mut Vec<Vec<Operation>>) {
    let Some(operation) = operations::breaking(rng, steering, panel) else { return };
    let full = groups.len() == PATCHES as usize;
    match groups.last_mut() {
        Some(last) if last.len() < OPERATIONS as usize && patches::is_new_target(last, &operation) => {
            last.push(operation)
        }
        _ if full => {}
        _ => groups.push(vec![operation]),
    }
    if rng.percent(50) && groups.len() < PATCHES as usize {
        groups.extend(operations::fitting(rng, steering, panel).map(|operation| vec![operation]));
    }
}

/// The operations of a batch, in patches.
fn groups(rng: &mut Rng, session: &Current, steering: &Steering, faults: &[Fault]) -> Vec<Vec<Operation>> {
    let limits = session.setup.limits;
    let mut panel = session.panel.clone();
    let sizes = match faults.contains(&Fault::ReferenceLimit) && limits.references < 400 {
        false => {
            let operations = operation_count(rng, steering.scale);
            sizes(rng, session, operations)
        }
        true => {
            let operations = limits.references + rng.pick(&[1, 1, 2, 10]);
            let patches = patch_count(rng, operations);
            patches::sizes(rng, patches as usize, operations as usize)
        }
    };
    let mut groups = patches::fitting_groups(rng, steering, &mut panel, &sizes);
    if faults.contains(&Fault::Targets) {
        for _ in 0..absent_count(rng, steering.scale) {
            let operation = operations::foreign(rng, steering);
            put_anywhere(rng, &mut groups, operation.clone());
            if rng.percent(40) {
                put_anywhere(rng, &mut groups, operation);
            }
        }
    }
    if faults.contains(&Fault::Operation) {
        put_breaking(rng, steering, &panel, &mut groups);
    }
    groups
}

/// A number that the cursor takes, if there is one.
fn next_sequence(rng: &mut Rng, cursor: ProjectionReplayCursor, start: u64) -> u64 {
    match cursor {
        ProjectionReplayCursor::Uninitialized => start,
        ProjectionReplayCursor::At(number) => number.checked_add(1).unwrap_or_else(|| numbers::any(rng)),
    }
}

/// A batch with true counts that the session takes, as far as its operations go.
fn truthful(rng: &mut Rng, session: &Current, start: u64, mut list: Vec<RawPatch>) -> Batch {
    let set = patches::canonical(&mut list);
    Batch {
        id: session.setup.id,
        sequence: next_sequence(rng, session.session.replay_cursor(), start),
        patches: list.len() as u64,
        bytes: numbers::within(rng, session.setup.limits.bytes),
        references: list.iter().map(|p| p.operations.len() as u64).sum(),
        set,
    }
}

/// Counts that are not the true ones; the patch count stays inside its limit, if it can.
fn miscount(rng: &mut Rng, batch: &mut Batch, limit: u64) {
    let way = rng.below(3);
    if way != 0 {
        batch.references = numbers::other(rng, batch.references);
    }
    if way != 1 {
        let near = [batch.patches.wrapping_sub(1), batch.patches.wrapping_add(1), 0, limit];
        let wrong = rng.pick(&near);
        if wrong != batch.patches && wrong <= limit {
            batch.patches = wrong;
        } else {
            batch.references = numbers::other(rng, batch.references);
        }
    }
}

fn spoil(rng: &mut Rng, session: &Current, batch: &mut Batch, fault: Fault) {
    let limits = session.setup.limits;
    match fault {
        Fault::Session => batch.id = numbers::other(rng, batch.id),
        Fault::PatchLimit => batch.patches = numbers::over(rng, limits.patches).unwrap_or(batch.patches),
        Fault::ByteLimit => batch.bytes = numbers::over(rng, limits.bytes).unwrap_or(batch.bytes),
        Fault::Counts => miscount(rng, batch, limits.patches),
        Fault::Cursor => batch.sequence = numbers::other(rng, batch.sequence),
        Fault::ReferenceLimit | Fault::Targets | Fault::Operation => {}
    }
}

/// A batch with these faults, so far as limits, anchors and panel allow them.
pub fn batch(rng: &mut Rng, session: &Current, steering: &Steering, start: u64, faults: &[Fault]) -> Batch {
    let groups = groups(rng, session, steering, faults);
    let list = patches::chain(rng, groups);
    let mut batch = truthful(rng, session, start, list);
    for fault in faults {
        spoil(rng, session, &mut batch, *fault);
    }
    batch
}

/// A batch of so many operations without faults.
pub fn fill(rng: &mut Rng, session: &Current, steering: &Steering, start: u64, operations: u64) -> Batch {
    let sizes = sizes(rng, session, operations);
    let groups = patches::fitting_groups(rng, steering, &mut session.panel.clone(), &sizes);
    let list = patches::chain(rng, groups);
    truthful(rng, session, start, list)
}

/// No patches, and any sequence number.
pub fn empty(rng: &mut Rng, session: &Current) -> Batch {
    let sequence = numbers::any(rng);
    let mut batch = truthful(rng, session, sequence, Vec::new());
    batch.sequence = sequence;
    batch
}

/// The faults of the next batch: mostly none, sometimes two.
pub fn faults(rng: &mut Rng, sound: u64) -> Vec<Fault> {
    let mut faults = Vec::new();
    if !rng.percent(sound) {
        faults.push(rng.weighted(&FAULTS));
        if rng.percent(15) {
            faults.push(rng.weighted(&FAULTS));
        }
    }
    faults
}
