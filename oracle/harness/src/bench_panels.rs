//! A panel and two sets that are applied to it in turn: the second takes back what the first does.
use prom_ui::shell_bridge::glue::RawPatch;
use prom_ui::shell_bridge::{BridgePatchOperation as Operation, BridgeValue};

use crate::bench_sets::{patch, text};
use crate::panel::{Panel, Step};
use crate::sets;

pub const COLLECTIONS: u64 = 4;
pub const NODES: u64 = 64;

/// The most operations of a patch that has its inverse beside it: a panel of 32 entries has so many targets.
const HALF: u64 = 64;

pub struct PanelSets {
    pub fill: Vec<RawPatch>,
    pub forth: Vec<RawPatch>,
    pub back: Vec<RawPatch>,
}

/// How many entries a panel has, and in how many collections.
#[derive(Clone, Copy)]
pub struct Layout {
    pub entries: u64,
    pub collections: u64,
}

/// Texts of all three scripts, and numbers, one of each in turn.
fn value(i: u64) -> BridgeValue {
    match i % 4 {
        3 => BridgeValue::Unsigned(i),
        _ => text(i),
    }
}

fn binding(node: u64, x: u64) -> Operation {
    Operation::SetBindingValue { node, slot: 1, value: BridgeValue::Unsigned(x) }
}

fn availability(node: u64, tag: u8) -> Operation {
    Operation::SetNodeAvailability { node, availability: sets::availability(tag) }
}

/// The middle key of a collection.
fn middle(panel: &Panel, collection: u64) -> Option<u64> {
    let keys = panel.keys(collection);
    keys.get(keys.len() / 2).copied()
}

/// The key behind a key.
fn follower(panel: &Panel, collection: u64, key: u64) -> Option<u64> {
    let keys = panel.keys(collection);
    let at = keys.iter().position(|k| *k == key).expect("the key is present");
    keys.get(at + 1).copied()
}

impl Layout {
    fn collection(self, key: u64) -> u64 {
        1 + key % self.collections
    }

    fn insert(self, key: u64, before: Option<u64>) -> Operation {
        Operation::CollectionInsert { collection: self.collection(key), key, before, value: value(key) }
    }

    fn inserts(self) -> Vec<Operation> {
        (1..=self.entries).map(|key| self.insert(key, None)).collect()
    }

    /// Number i of a mix of the six kinds, each with a target of its own.
    fn mixed(self, panel: &Panel, i: u64) -> Operation {
        let (round, spread) = (i / 6, self.entries / 32);
        let target = |kind: u64| {
            let key = 1 + (3 * round + kind) * spread;
            (self.collection(key), key)
        };
        let ((updated_in, updated), (removed_from, removed), (moved_in, moved)) = (target(0), target(1), target(2));
        match i % 6 {
            0 => self.insert(1000 + round, middle(panel, self.collection(1000 + round))),
            1 => Operation::CollectionUpdate { collection: updated_in, key: updated, value: value(i) },
            2 => binding(1 + round, i),
            3 => availability(1 + round, (i % 5) as u8),
            4 => Operation::CollectionRemove { collection: removed_from, key: removed },
            _ => {
                let before = panel.keys(moved_in).first().copied().filter(|first| *first != moved);
                Operation::CollectionMove { collection: moved_in, key: moved, before }
            }
        }
    }

    /// So many operations, and those that take them back.
    fn pair(self, operations: u64) -> (Vec<Operation>, Vec<Operation>) {
        let mut panel = Panel::default();
        self.inserts().iter().for_each(|o| assert_eq!(panel.apply(o), Step::Fits));
        let (mut forth, mut back) = (Vec::new(), Vec::new());
        for i in 0..operations {
            let operation = if self.entries == 0 { plain(i) } else { self.mixed(&panel, i) };
            back.insert(0, inverse(&panel, &operation));
            assert_eq!(panel.apply(&operation), Step::Fits);
            forth.push(operation);
        }
        (forth, back)
    }

    fn fill(self) -> RawPatch {
        let mut operations = self.inserts();
        operations.push(availability(1, 0));
        patch(0, operations)
    }

    /// The panel, and sets of so many operations, or without patches. Where a set has more than 64 on a panel with
    /// entries, its second half takes back the first, and both sets are the same.
    pub fn panel(self, operations: u64) -> PanelSets {
        let fill = vec![self.fill()];
        if operations == 0 {
            return PanelSets { fill, forth: Vec::new(), back: Vec::new() };
        }
        if self.entries == 0 || operations <= HALF {
            let (forth, back) = self.pair(operations);
            return PanelSets { fill, forth: vec![patch(0, forth)], back: vec![patch(0, back)] };
        }
        let (forth, back) = self.pair(operations / 2);
        let both = vec![patch(0, forth), patch(1, back)];
        PanelSets { fill, forth: both.clone(), back: both }
    }
}

/// Number i of a panel without entries.
fn plain(i: u64) -> Operation {
    let node = 1 + i / 2;
    if i % 2 == 0 {
        binding(node, i)
    } else {
        availability(node, (i % 5) as u8)
    }
}

/// What takes an operation back.
fn inverse(panel: &Panel, operation: &Operation) -> Operation {
    match operation.clone() {
        Operation::CollectionInsert { collection, key, .. } => Operation::CollectionRemove { collection, key },
        Operation::CollectionRemove { collection, key } => {
            let before = follower(panel, collection, key);
            Operation::CollectionInsert { collection, key, before, value: value(key) }
        }
        Operation::CollectionMove { collection, key, .. } => {
            Operation::CollectionMove { collection, key, before: follower(panel, collection, key) }
        }
        Operation::CollectionUpdate { collection, key, .. } => {
            Operation::CollectionUpdate { collection, key, value: value(key) }
        }
        replaced => replaced,
    }
}

/// A panel of 120 entries, 64 bindings and 64 availabilities, for look-ups.
pub fn full() -> PanelSets {
    let layout = Layout { entries: 120, collections: COLLECTIONS };
    let others = (0..2 * NODES).map(plain).collect();
    PanelSets { fill: vec![layout.fill(), patch(1, others)], forth: Vec::new(), back: Vec::new() }
}

/// The data of the benchmark program: each set after its length.
pub fn data(panel: &PanelSets) -> Vec<u8> {
    let mut out = Vec::new();
    for list in [&panel.fill, &panel.forth, &panel.back] {
        let set = sets::encode(list);
        out.extend((set.len() as u32).to_le_bytes());
        out.extend(set);
    }
    out
}

#[cfg(test)]
mod tests {
    use super::{Layout, Panel, RawPatch, Step};

    fn applied(panel: &mut Panel, list: &[RawPatch]) {
        list.iter().flat_map(|p| &p.operations).for_each(|o| assert_eq!(panel.apply(o), Step::Fits));
    }

    #[test]
    fn the_second_set_takes_back_the_first() {
        for entries in [32, 120] {
            for (collections, operations) in [(1, 1), (4, 10), (1, 50), (4, 128)] {
                let sets = Layout { entries, collections }.panel(operations);
                let mut panel = Panel::default();
                applied(&mut panel, &sets.fill);
                let before = panel.collections.clone();
                applied(&mut panel, &sets.forth);
                applied(&mut panel, &sets.back);
                assert_eq!(panel.collections, before);
            }
        }
    }
}
