//! Operations that a panel takes, and such that break one rule of the projection.
use prom_ui::shell_bridge::BridgePatchOperation as Operation;

use super::{numbers, values, Scale};
use crate::panel::{Panel, AVAILABILITIES, BINDINGS, ENTRIES};
use crate::rng::Rng;
use crate::sets;

/// The anchors that operations may name, ids above 0.
#[derive(Debug, Clone, Default)]
pub struct Targets {
    pub nodes: Vec<u64>,
    pub bindings: Vec<(u64, u32)>,
    pub collections: Vec<u64>,
}

/// What new operations start from: the anchors, the number of entries that they tend to, and the scale.
#[derive(Debug, Clone)]
pub struct Steering {
    pub targets: Targets,
    pub aim: usize,
    pub scale: Scale,
}

#[derive(Clone, Copy)]
enum Kind {
    Binding,
    Availability,
    Insert,
    Update,
    Remove,
    Move,
}

/// What a patch may name only once: the kind of operation, and two numbers.
pub fn target(operation: &Operation) -> (u8, u64, u64) {
    match *operation {
        Operation::SetBindingValue { node, slot, .. } => (1, node, slot as u64),
        Operation::SetNodeAvailability { node, .. } => (2, node, 0),
        Operation::CollectionInsert { collection, key, .. } => (3, collection, key),
        Operation::CollectionUpdate { collection, key, .. } => (4, collection, key),
        Operation::CollectionRemove { collection, key } => (5, collection, key),
        Operation::CollectionMove { collection, key, .. } => (6, collection, key),
    }
}

/// One of the places, or of those that are set already once no more fit.
fn place<T: Copy>(rng: &mut Rng, anchors: &[T], set: &[T], most: usize) -> Option<T> {
    let from = if set.len() < most { anchors } else { set };
    (!from.is_empty()).then(|| rng.pick(from))
}

/// The place of a bit in a number of so many bits, often the lowest, the middle or the highest.
fn bit(rng: &mut Rng, width: u64) -> u64 {
    let anywhere = rng.below(width);
    rng.pick(&[0, width / 2, width - 1, anywhere])
}

/// The number with one bit changed, above 0.
fn flipped(rng: &mut Rng, number: u64) -> u64 {
    (number ^ (1 << bit(rng, 64))).max(1)
}

/// A node and a slot: often an anchor of one kind, or one bit away from it.
pub fn stray(rng: &mut Rng, targets: &Targets) -> (u64, u32) {
    let slot = numbers::slot(rng);
    let (node, slot) = match rng.below(4) {
        0 if !targets.bindings.is_empty() => rng.pick(&targets.bindings),
        1 if !targets.nodes.is_empty() => (rng.pick(&targets.nodes), slot),
        2 if !targets.collections.is_empty() => (rng.pick(&targets.collections), slot),
        _ => return (numbers::id(rng), slot),
    };
    match rng.below(3) {
        0 => (node, slot),
        1 => (flipped(rng, node), slot),
        _ => (node, slot ^ (1 << bit(rng, 32))),
    }
}

/// A key that the collection does not hold.
fn absent_key(rng: &mut Rng, panel: &Panel, collection: u64) -> u64 {
    loop {
        let key = match rng.below(10) {
            0 => numbers::id(rng),
            1 if panel.entries > 0 => {
                let (_, present) = panel.entry(rng.index(panel.entries));
                flipped(rng, present)
            }
            _ => rng.between(1, 400),
        };
        if !panel.holds(collection, key) {
            return key;
        }
    }
}

/// None, or a key of the collection other than the given one.
fn neighbour(rng: &mut Rng, panel: &Panel, collection: u64, key: u64) -> Option<u64> {
    let keys = panel.keys(collection);
    if keys.is_empty() || rng.percent(30) {
        return None;
    }
    Some(rng.pick(keys)).filter(|k| *k != key)
}

fn kind(rng: &mut Rng, panel: &Panel, aim: usize) -> Kind {
    let (insert, remove) = match panel.entries {
        n if n + 8 < aim => (60, 2),
        n if n < aim => (20, 6),
        _ => (8, 14),
    };
    rng.weighted(&[
        (10, Kind::Binding),
        (8, Kind::Availability),
        (insert, Kind::Insert),
        (16, Kind::Update),
        (remove, Kind::Remove),
        (14, Kind::Move),
    ])
}

fn set_place(rng: &mut Rng, steering: &Steering, panel: &Panel, kind: Kind) -> Option<Operation> {
    let targets = &steering.targets;
    if let Kind::Binding = kind {
        let (node, slot) = place(rng, &targets.bindings, &panel.bindings, BINDINGS)?;
        return Some(Operation::SetBindingValue { node, slot, value: values::value(rng, steering.scale) });
    }
    let node = place(rng, &targets.nodes, &panel.nodes, AVAILABILITIES)?;
    Some(Operation::SetNodeAvailability { node, availability: sets::availability(rng.below(5) as u8) })
}

fn insert(rng: &mut Rng, steering: &Steering, panel: &Panel) -> Option<Operation> {
    if panel.entries == ENTRIES || steering.targets.collections.is_empty() {
        return None;
    }
    let collection = rng.pick(&steering.targets.collections);
    let key = absent_key(rng, panel, collection);
    let before = neighbour(rng, panel, collection, key);
    Some(Operation::CollectionInsert { collection, key, before, value: values::value(rng, steering.scale) })
}

/// An operation that the panel takes, if one of a kind chosen at random can be made.
pub fn fitting(rng: &mut Rng, steering: &Steering, panel: &Panel) -> Option<Operation> {
    let kind = kind(rng, panel, steering.aim);
    match kind {
        Kind::Binding | Kind::Availability => return set_place(rng, steering, panel, kind),
        Kind::Insert => return insert(rng, steering, panel),
        _ if panel.entries == 0 => return None,
        _ => {}
    }
    let (collection, key) = panel.entry(rng.index(panel.entries));
    Some(match kind {
        Kind::Update => Operation::CollectionUpdate { collection, key, value: values::value(rng, steering.scale) },
        Kind::Remove => Operation::CollectionRemove { collection, key },
        _ => Operation::CollectionMove { collection, key, before: neighbour(rng, panel, collection, key) },
    })
}

/// An operation on a present key that breaks a rule: an insert, or a move before an absent neighbour.
fn breaking_present(rng: &mut Rng, scale: Scale, panel: &Panel) -> Operation {
    let (collection, key) = panel.entry(rng.index(panel.entries));
    let value = values::value(rng, scale);
    match rng.below(2) {
        0 => Operation::CollectionInsert { collection, key, before: neighbour(rng, panel, collection, key), value },
        _ => Operation::CollectionMove { collection, key, before: Some(absent_key(rng, panel, collection)) },
    }
}

/// An operation that breaks a rule of the projection: 8.
pub fn breaking(rng: &mut Rng, steering: &Steering, panel: &Panel) -> Option<Operation> {
    let scale = steering.scale;
    if panel.entries > 0 && rng.percent(50) {
        return Some(breaking_present(rng, scale, panel));
    }
    if steering.targets.collections.is_empty() {
        return None;
    }
    let collection = rng.pick(&steering.targets.collections);
    let (key, other) = (absent_key(rng, panel, collection), absent_key(rng, panel, collection));
    let value = values::value(rng, scale);
    Some(match rng.below(4) {
        0 if other != key => Operation::CollectionInsert { collection, key, before: Some(other), value },
        1 => Operation::CollectionUpdate { collection, key, value },
        2 => Operation::CollectionMove { collection, key, before: neighbour(rng, panel, collection, key) },
        _ => Operation::CollectionRemove { collection, key },
    })
}

/// An operation of any kind whose target is none of the anchors.
pub fn foreign(rng: &mut Rng, steering: &Steering) -> Operation {
    let targets = &steering.targets;
    loop {
        let ((node, slot), key) = (stray(rng, targets), numbers::id(rng));
        let (collection, value) = (node, values::value(rng, Scale::Compact));
        let (operation, known) = match rng.below(6) {
            0 => (Operation::SetBindingValue { node, slot, value }, targets.bindings.contains(&(node, slot))),
            1 => (
                Operation::SetNodeAvailability { node, availability: sets::availability(rng.below(5) as u8) },
                targets.nodes.contains(&node),
            ),
            2 => (
                Operation::CollectionInsert { collection, key, before: None, value },
                targets.collections.contains(&node),
            ),
            3 => (Operation::CollectionUpdate { collection, key, value }, targets.collections.contains(&node)),
            4 => (Operation::CollectionRemove { collection, key }, targets.collections.contains(&node)),
            _ => (Operation::CollectionMove { collection, key, before: None }, targets.collections.contains(&node)),
        };
        if !known {
            return operation;
        }
    }
}
