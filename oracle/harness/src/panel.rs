//! Which places a panel has filled, without their values. It steers the generators and says whether a batch stays
//! inside the capacities; no answer is made from it.
use std::collections::BTreeMap;

use prom_ui::shell_bridge::BridgePatchOperation as Operation;

pub const ENTRIES: usize = 128;
pub const BINDINGS: usize = 64;
pub const AVAILABILITIES: usize = 64;

#[derive(Debug, Clone, Default)]
pub struct Panel {
    pub bindings: Vec<(u64, u32)>,
    pub nodes: Vec<u64>,
    pub collections: BTreeMap<u64, Vec<u64>>,
    pub entries: usize,
}

#[derive(Debug, Clone, Copy, PartialEq, Eq)]
pub enum Step {
    Fits,
    Breaks,
    Overfull,
}

fn add<T: PartialEq>(list: &mut Vec<T>, place: T, most: usize) -> Step {
    if list.contains(&place) {
        return Step::Fits;
    }
    if list.len() == most {
        return Step::Overfull;
    }
    list.push(place);
    Step::Fits
}

/// The place before a neighbour, or the end.
fn place(keys: &[u64], before: Option<u64>) -> Option<usize> {
    match before {
        None => Some(keys.len()),
        Some(neighbour) => keys.iter().position(|k| *k == neighbour),
    }
}

impl Panel {
    pub fn keys(&self, collection: u64) -> &[u64] {
        self.collections.get(&collection).map_or(&[], Vec::as_slice)
    }

    pub fn holds(&self, collection: u64, key: u64) -> bool {
        self.keys(collection).contains(&key)
    }

    /// Collection and key of the entry with this number, counted over all collections.
    pub fn entry(&self, mut number: usize) -> (u64, u64) {
        for (collection, keys) in &self.collections {
            if number < keys.len() {
                return (*collection, keys[number]);
            }
            number -= keys.len();
        }
        unreachable!("the number is below the count of entries")
    }

    /// What an operation does here; after a break or at a full panel the places may be half changed.
    pub fn apply(&mut self, operation: &Operation) -> Step {
        match *operation {
            Operation::SetBindingValue { node, slot, .. } => add(&mut self.bindings, (node, slot), BINDINGS),
            Operation::SetNodeAvailability { node, .. } => add(&mut self.nodes, node, AVAILABILITIES),
            Operation::CollectionInsert { collection, key, before, .. } => self.insert(collection, key, before),
            Operation::CollectionUpdate { collection, key, .. } if self.holds(collection, key) => Step::Fits,
            Operation::CollectionUpdate { .. } => Step::Breaks,
            Operation::CollectionRemove { collection, key } => self.remove(collection, key),
            Operation::CollectionMove { collection, key, before } => match self.remove(collection, key) {
                Step::Fits => self.insert(collection, key, before),
                step => step,
            },
        }
    }

    fn insert(&mut self, collection: u64, key: u64, before: Option<u64>) -> Step {
        let keys = self.collections.entry(collection).or_default();
        let at = match place(keys, before) {
            Some(at) if !keys.contains(&key) => at,
            _ => return Step::Breaks,
        };
        if self.entries == ENTRIES {
            return Step::Overfull;
        }
        keys.insert(at, key);
        self.entries += 1;
        Step::Fits
    }

    fn remove(&mut self, collection: u64, key: u64) -> Step {
        let keys = self.collections.entry(collection).or_default();
        match keys.iter().position(|k| *k == key) {
            None => Step::Breaks,
            Some(at) => {
                keys.remove(at);
                self.entries -= 1;
                Step::Fits
            }
        }
    }
}
