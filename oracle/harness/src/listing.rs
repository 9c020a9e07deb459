//! A projection of the original printed as the listing prints it, by its own look-ups at every place that may be set.
use std::collections::BTreeSet;
use std::io::Write;

use prom_ui::shell_bridge::glue::RawPatch;
use prom_ui::shell_bridge::{
    binding_value, collection_entries, node_availability, BridgeAvailability, BridgePatchOperation as Operation,
    BridgeValue, LocalProjectionStateHandle,
};
use prom_ui_runtime::shell_player::ShellSession;

use crate::sets;

/// The places that operations may set: ids ascending, each once.
#[derive(Debug, Clone, Default)]
pub struct Places {
    pub nodes: BTreeSet<u64>,
    pub bindings: BTreeSet<(u64, u32)>,
    pub collections: BTreeSet<u64>,
}

impl Places {
    /// The places that the operations of a set name.
    pub fn of(patches: &[RawPatch]) -> Self {
        let mut places = Places::default();
        for operation in patches.iter().flat_map(|p| &p.operations) {
            match *operation {
                Operation::SetBindingValue { node, slot, .. } => places.bindings.insert((node, slot)),
                Operation::SetNodeAvailability { node, .. } => places.nodes.insert(node),
                Operation::CollectionInsert { collection, .. }
                | Operation::CollectionUpdate { collection, .. }
                | Operation::CollectionRemove { collection, .. }
                | Operation::CollectionMove { collection, .. } => places.collections.insert(collection),
            };
        }
        places
    }
}

/// The original's look-ups, of a session or of a projection without one.
pub trait Lookups {
    fn binding(&self, node: u64, slot: u32) -> Option<BridgeValue>;
    fn node(&self, node: u64) -> Option<BridgeAvailability>;
    fn entries(&self, collection: u64) -> Vec<(u64, BridgeValue)>;
}

impl Lookups for ShellSession {
    fn binding(&self, node: u64, slot: u32) -> Option<BridgeValue> {
        self.binding_value(node, slot)
    }

    fn node(&self, node: u64) -> Option<BridgeAvailability> {
        self.node_availability(node)
    }

    fn entries(&self, collection: u64) -> Vec<(u64, BridgeValue)> {
        self.collection_entries(collection)
    }
}

impl Lookups for LocalProjectionStateHandle {
    fn binding(&self, node: u64, slot: u32) -> Option<BridgeValue> {
        binding_value(self, node, slot)
    }

    fn node(&self, node: u64) -> Option<BridgeAvailability> {
        node_availability(self, node)
    }

    fn entries(&self, collection: u64) -> Vec<(u64, BridgeValue)> {
        collection_entries(self, collection)
    }
}

/// A text within a line: document 02, Job 2. The original's look-ups give it as it is.
fn escaped(text: &str) -> String {
    let mut shown = String::new();
    for character in text.chars() {
        match character {
            '\\' => shown.push_str("\\\\"),
            '\t' => shown.push_str("\\t"),
            '\n' => shown.push_str("\\n"),
            '\r' => shown.push_str("\\r"),
            other => shown.push(other),
        }
    }
    shown
}

/// A value's kind and the value, with the line's end.
pub fn print_value(value: &BridgeValue, out: &mut Vec<u8>) {
    match value {
        BridgeValue::Quad(quad) => writeln!(out, "Q\t{}", sets::quad_tag(*quad)),
        BridgeValue::Signed(number) => writeln!(out, "S\t{number}"),
        BridgeValue::Text(text) => writeln!(out, "T\t{}", escaped(text)),
        BridgeValue::Unsigned(number) => writeln!(out, "U\t{number}"),
    }
    .unwrap();
}

/// The listing's lines, and how many records they show.
pub fn print(projection: &impl Lookups, places: &Places, out: &mut Vec<u8>) -> usize {
    let (mut lines, mut count) = (Vec::new(), 0);
    for (node, slot) in &places.bindings {
        if let Some(value) = projection.binding(*node, *slot) {
            write!(lines, "B\t{node}\t{slot}\t").unwrap();
            print_value(&value, &mut lines);
            count += 1;
        }
    }
    for node in &places.nodes {
        if let Some(availability) = projection.node(*node) {
            writeln!(lines, "A\t{node}\t{}", sets::availability_tag(availability)).unwrap();
            count += 1;
        }
    }
    for collection in &places.collections {
        for (key, value) in projection.entries(*collection) {
            write!(lines, "C\t{collection}\t{key}\t").unwrap();
            print_value(&value, &mut lines);
            count += 1;
        }
    }
    writeln!(out, "P\t{count}").unwrap();
    out.extend(lines);
    count
}
