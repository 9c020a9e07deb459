//! The sets that the benchmarks use: all readable and without findings, the first patch with a surface.
use prom_ui::shell_bridge::glue::RawPatch;
use prom_ui::shell_bridge::{BridgePatchEnvelope, BridgePatchOperation, BridgeValue};

use crate::sets;

pub const ASCII: &str =
    "Tighten the four hexagon bolts of the pump cover crosswise to 45 Nm; replace the sealing ring each time.";
pub const GREEK: &str = "Σφίξτε τα τέσσερα μπουλόνια του καλύμματος της αντλίας σταυρωτά.";
pub const JAPANESE: &str = "ポンプカバーの六角ボルト四本を対角線の順に締め付けてください。";

fn envelope(index: u64) -> BridgePatchEnvelope {
    BridgePatchEnvelope {
        patch_id: 100 + index,
        stream_id: 1,
        document_id: 1,
        previous_revision: index,
        revision: index + 1,
        epoch: 1,
        sequence: index,
    }
}

pub fn patch(index: u64, operations: Vec<BridgePatchOperation>) -> RawPatch {
    RawPatch { envelope: envelope(index), surface: (index == 0).then_some(1), operations }
}

pub fn text(i: u64) -> BridgeValue {
    BridgeValue::Text([ASCII, GREEK, JAPANESE][(i % 3) as usize].to_string())
}

/// A set of patches of ten inserts with texts, as near below so many bytes as they come; the last patch may have fewer.
pub fn texts(most: usize) -> Vec<RawPatch> {
    let insert =
        |key: u64| BridgePatchOperation::CollectionInsert { collection: 9, key, before: None, value: text(key) };
    let list = |inserts: u64| -> Vec<RawPatch> {
        let keys: Vec<u64> = (1..=inserts).collect();
        keys.chunks(10)
            .enumerate()
            .map(|(p, keys)| patch(p as u64, keys.iter().map(|k| insert(*k)).collect()))
            .collect()
    };
    let fits = |inserts: &u64| sets::encode(&list(*inserts)).len() <= most;
    list((1..).take_while(fits).last().unwrap_or(0))
}

fn mixed(i: u64) -> BridgePatchOperation {
    let (collection, key, before) = (9, i + 1, Some(i + 2));
    match i % 6 {
        0 => BridgePatchOperation::SetBindingValue { node: i, slot: 1, value: BridgeValue::Unsigned(i) },
        1 => BridgePatchOperation::SetNodeAvailability { node: i, availability: sets::availability((i % 5) as u8) },
        2 => BridgePatchOperation::CollectionInsert { collection, key, before, value: BridgeValue::Signed(-1) },
        3 => BridgePatchOperation::CollectionUpdate { collection, key, value: BridgeValue::Quad(sets::quad(2)) },
        4 => BridgePatchOperation::CollectionRemove { collection, key },
        _ => BridgePatchOperation::CollectionMove { collection, key, before },
    }
}

/// So many patches of so many operations with different targets; of all six kinds where 32,768 bytes suffice, else
/// availabilities alone.
pub fn grid(patches: u64, operations: u64) -> Vec<RawPatch> {
    let of = |make: &dyn Fn(u64) -> BridgePatchOperation| -> Vec<RawPatch> {
        (0..patches).map(|p| patch(p, (1..=operations).map(|i| make(i)).collect())).collect()
    };
    let all = of(&mixed);
    if sets::encode(&all).len() <= 32_768 {
        return all;
    }
    of(&|i| BridgePatchOperation::SetNodeAvailability { node: i, availability: sets::availability(0) })
}

/// One patch of so many operations with different targets, whose revision does not go up: its findings are listed.
pub fn found(operations: u64) -> Vec<RawPatch> {
    let mut list = grid(1, operations);
    list.iter_mut().for_each(|p| p.envelope.revision = p.envelope.previous_revision);
    list
}

/// The orders in which keys come.
pub const ORDERS: [&str; 5] = ["ascending", "descending", "inward", "outward", "scattered"];

/// The key at a position among so many; inward they come from both ends in turn, outward from the middle.
fn key(order: &str, i: u64, count: u64) -> u64 {
    match order {
        "ascending" => i + 1,
        "descending" => count - i,
        "inward" if i % 2 == 0 => i / 2 + 1,
        "inward" => count - i / 2,
        "outward" => key("inward", count - 1 - i, count),
        _ => (i + 1).wrapping_mul(0x9e37_79b9_7f4a_7c15),
    }
}

/// As many moves before a neighbour as 32,768 bytes hold, 128 to a patch, each of two keys of its own: no set has more keys.
pub fn keys(order: &str) -> Vec<RawPatch> {
    let list = |moves: u64| -> Vec<RawPatch> {
        let key = |i: u64| key(order, i, 2 * moves);
        let all: Vec<BridgePatchOperation> = (0..moves)
            .map(|i| BridgePatchOperation::CollectionMove {
                collection: 9,
                key: key(2 * i),
                before: Some(key(2 * i + 1)),
            })
            .collect();
        all.chunks(128).enumerate().map(|(p, moves)| patch(p as u64, moves.to_vec())).collect()
    };
    let fits = |moves: &u64| sets::encode(&list(*moves)).len() <= 32_768;
    list((1_000..).take_while(fits).last().unwrap_or(0))
}

/// One patch of 128 bindings with a text each.
pub fn bindings() -> Vec<RawPatch> {
    let binding = |node: u64| BridgePatchOperation::SetBindingValue {
        node,
        slot: 1,
        value: BridgeValue::Text(ASCII.to_string()),
    };
    vec![RawPatch { surface: None, ..patch(0, (1..=128).map(binding).collect()) }]
}
