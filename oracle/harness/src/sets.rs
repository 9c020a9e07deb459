//! Canonical bytes of raw patch lists, written by the rules of document 01. Lists with findings have no bytes
//! in the original, so the harness has an encoder of its own; where the original gives bytes, both are compared.
use prom_ui::shell_bridge::glue::RawPatch;
use prom_ui::shell_bridge::{BridgeAvailability, BridgePatchOperation, BridgeQuad, BridgeValue};

pub const HEADING: &[u8] = b"UI_DNA2_PROJECTION_PATCH_V1";
const QUADS: [BridgeQuad; 4] = [BridgeQuad::N, BridgeQuad::F, BridgeQuad::T, BridgeQuad::S];
const AVAILABILITIES: [BridgeAvailability; 5] = [
    BridgeAvailability::Available,
    BridgeAvailability::Unavailable,
    BridgeAvailability::Hidden,
    BridgeAvailability::Pending,
    BridgeAvailability::Stale,
];

pub fn quad(tag: u8) -> BridgeQuad {
    QUADS[tag as usize]
}

pub fn quad_tag(quad: BridgeQuad) -> u8 {
    QUADS.iter().position(|q| *q == quad).unwrap() as u8
}

pub fn availability(tag: u8) -> BridgeAvailability {
    AVAILABILITIES[tag as usize]
}

pub fn availability_tag(a: BridgeAvailability) -> u8 {
    AVAILABILITIES.iter().position(|b| *b == a).unwrap() as u8
}

struct Output(Vec<u8>);

impl Output {
    fn u8(&mut self, x: u8) {
        self.0.push(x);
    }

    fn u32(&mut self, x: u32) {
        self.0.extend(x.to_le_bytes());
    }

    fn u64(&mut self, x: u64) {
        self.0.extend(x.to_le_bytes());
    }

    fn optional(&mut self, x: Option<u64>) {
        self.u8(x.is_some() as u8);
        x.into_iter().for_each(|x| self.u64(x));
    }

    fn text(&mut self, text: &[u8]) {
        self.u32(text.len() as u32);
        self.0.extend(text);
    }

    fn value(&mut self, value: &BridgeValue) {
        match value {
            BridgeValue::Quad(q) => self.0.extend([1, quad_tag(*q)]),
            BridgeValue::Signed(x) => {
                self.u8(2);
                self.0.extend(x.to_le_bytes());
            }
            BridgeValue::Text(text) => {
                self.u8(3);
                self.text(text.as_bytes());
            }
            BridgeValue::Unsigned(x) => {
                self.u8(4);
                self.u64(*x);
            }
        }
    }

    fn tagged(&mut self, tag: u8, first: u64) {
        self.u8(tag);
        self.u64(first);
    }

    fn operation(&mut self, operation: &BridgePatchOperation) {
        match operation {
            BridgePatchOperation::SetBindingValue { node, slot, value } => {
                self.tagged(1, *node);
                self.u32(*slot);
                self.value(value);
            }
            BridgePatchOperation::SetNodeAvailability { node, availability } => {
                self.tagged(2, *node);
                self.u8(availability_tag(*availability));
            }
            BridgePatchOperation::CollectionInsert { collection, key, before, value } => {
                self.tagged(3, *collection);
                self.u64(*key);
                self.optional(*before);
                self.value(value);
            }
            BridgePatchOperation::CollectionUpdate { collection, key, value } => {
                self.tagged(4, *collection);
                self.u64(*key);
                self.value(value);
            }
            BridgePatchOperation::CollectionRemove { collection, key } => {
                self.tagged(5, *collection);
                self.u64(*key);
            }
            BridgePatchOperation::CollectionMove { collection, key, before } => {
                self.tagged(6, *collection);
                self.u64(*key);
                self.optional(*before);
            }
        }
    }

    fn patch(&mut self, patch: &RawPatch) {
        let e = patch.envelope;
        [e.patch_id, e.stream_id, e.document_id].into_iter().for_each(|x| self.u64(x));
        self.optional(patch.surface);
        [e.previous_revision, e.revision, e.epoch, e.sequence].into_iter().for_each(|x| self.u64(x));
        self.u32(patch.operations.len() as u32);
        patch.operations.iter().for_each(|o| self.operation(o));
    }
}

pub fn encode(patches: &[RawPatch]) -> Vec<u8> {
    let mut out = Output(Vec::new());
    out.text(HEADING);
    out.u32(patches.len() as u32);
    patches.iter().for_each(|p| out.patch(p));
    out.0
}

#[cfg(test)]
mod tests {
    use super::encode;
    use crate::bench_sets;
    use prom_ui::shell_bridge::glue::{self, Checked, RawPatch};

    fn agrees(patches: &[RawPatch]) -> bool {
        let built = patches.iter().map(|p| glue::build(p).unwrap()).collect();
        match glue::check(built) {
            Checked::Admitted(batch) => glue::canonical_bytes(&batch) == encode(patches),
            _ => false,
        }
    }

    #[test]
    fn encodes_as_the_original() {
        assert!(agrees(&[]));
        assert!(agrees(&bench_sets::texts(32_768)));
        assert!(agrees(&bench_sets::grid(20, 16)));
    }
}
