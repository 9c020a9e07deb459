//! Raw patch lists from canonical bytes: the inverse of the encoder, for sets inside the capacities of documents 01 and 02.
//! The original has no reader; whoever decodes asks its `canonical_bytes` whether the same bytes come out.
use prom_ui::shell_bridge::glue::RawPatch;
use prom_ui::shell_bridge::{BridgePatchEnvelope, BridgePatchOperation, BridgeValue};

use crate::sets;

pub const SET_BYTES: usize = 32_768;
pub const PATCHES: u32 = 64;
pub const OPERATIONS: u32 = 128;
pub const TEXT_BYTES: u32 = 240;
pub const TEXT_CHARACTERS: usize = 160;

struct Input<'a>(&'a [u8]);

impl<'a> Input<'a> {
    fn take(&mut self, length: usize) -> Option<&'a [u8]> {
        let (part, rest) = self.0.split_at_checked(length)?;
        self.0 = rest;
        Some(part)
    }

    fn u8(&mut self) -> Option<u8> {
        Some(self.take(1)?[0])
    }

    fn u32(&mut self) -> Option<u32> {
        Some(u32::from_le_bytes(self.take(4)?.try_into().unwrap()))
    }

    fn u64(&mut self) -> Option<u64> {
        Some(u64::from_le_bytes(self.take(8)?.try_into().unwrap()))
    }

    /// A tag below the number of its values.
    fn tag(&mut self, values: u8) -> Option<u8> {
        self.u8().filter(|tag| *tag < values)
    }

    fn count(&mut self, most: u32) -> Option<u32> {
        self.u32().filter(|count| *count <= most)
    }

    fn optional(&mut self) -> Option<Option<u64>> {
        match self.tag(2)? {
            0 => Some(None),
            _ => Some(Some(self.u64()?)),
        }
    }

    fn text(&mut self) -> Option<String> {
        let length = self.count(TEXT_BYTES)?;
        let text = String::from_utf8(self.take(length as usize)?.to_vec()).ok()?;
        Some(text).filter(|text| text.chars().count() <= TEXT_CHARACTERS)
    }

    fn value(&mut self) -> Option<BridgeValue> {
        Some(match self.u8()? {
            1 => BridgeValue::Quad(sets::quad(self.tag(4)?)),
            2 => BridgeValue::Signed(self.u64()? as i64),
            3 => BridgeValue::Text(self.text()?),
            4 => BridgeValue::Unsigned(self.u64()?),
            _ => return None,
        })
    }

    fn operation(&mut self) -> Option<BridgePatchOperation> {
        let (tag, first) = (self.u8()?, self.u64()?);
        let (node, collection) = (first, first);
        Some(match tag {
            1 => BridgePatchOperation::SetBindingValue { node, slot: self.u32()?, value: self.value()? },
            2 => BridgePatchOperation::SetNodeAvailability { node, availability: sets::availability(self.tag(5)?) },
            3 => {
                let (key, before) = (self.u64()?, self.optional()?);
                BridgePatchOperation::CollectionInsert { collection, key, before, value: self.value()? }
            }
            4 => BridgePatchOperation::CollectionUpdate { collection, key: self.u64()?, value: self.value()? },
            5 => BridgePatchOperation::CollectionRemove { collection, key: self.u64()? },
            6 => BridgePatchOperation::CollectionMove { collection, key: self.u64()?, before: self.optional()? },
            _ => return None,
        })
    }

    fn patch(&mut self) -> Option<RawPatch> {
        let (patch_id, stream_id, document_id) = (self.u64()?, self.u64()?, self.u64()?);
        let surface = self.optional()?;
        let (previous_revision, revision) = (self.u64()?, self.u64()?);
        let (epoch, sequence) = (self.u64()?, self.u64()?);
        let envelope =
            BridgePatchEnvelope { patch_id, stream_id, document_id, previous_revision, revision, epoch, sequence };
        let operations = (0..self.count(OPERATIONS)?).map(|_| self.operation()).collect::<Option<_>>()?;
        Some(RawPatch { envelope, surface, operations })
    }
}

/// The patches of a set, or none where document 01 gives 10 or 12.
pub fn decode(set: &[u8]) -> Option<Vec<RawPatch>> {
    if set.len() > SET_BYTES {
        return None;
    }
    let mut input = Input(set);
    let heading = input.u32()? as usize == sets::HEADING.len() && input.take(sets::HEADING.len())? == sets::HEADING;
    if !heading {
        return None;
    }
    let patches = (0..input.count(PATCHES)?).map(|_| input.patch()).collect::<Option<_>>()?;
    input.0.is_empty().then_some(patches)
}

#[cfg(test)]
mod tests {
    use super::decode;
    use crate::generate::{faults, Scale};
    use crate::rng::Rng;
    use crate::sets;
    use prom_ui::shell_bridge::glue::{self, Checked};

    #[test]
    fn inverts_the_encoder() {
        let rng = &mut Rng::new(5);
        for _ in 0..500 {
            let set = faults::set_to_check(rng, Scale::Full);
            assert_eq!(sets::encode(&decode(&set).unwrap()), set);
        }
    }

    #[test]
    fn inverts_the_original() {
        let rng = &mut Rng::new(6);
        for _ in 0..500 {
            let set = faults::set_to_list(rng, Scale::Full);
            let built = decode(&set).unwrap().iter().map(|p| glue::build(p).unwrap()).collect();
            let Checked::Admitted(batch) = glue::check(built) else { panic!("a listed set has no findings") };
            assert_eq!(glue::canonical_bytes(&batch), set);
        }
    }

    #[test]
    fn refuses_parts_and_more() {
        let rng = &mut Rng::new(7);
        let set = faults::set_to_list(rng, Scale::Compact);
        assert!((0..set.len()).all(|length| decode(&set[..length]).is_none()));
        assert!(decode(&[set.as_slice(), &[0]].concat()).is_none());
    }
}
