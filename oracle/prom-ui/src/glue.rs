//! What the bridge does not offer: sets of several patches with surfaces, their findings, their canonical bytes, and
//! anchors given as plain numbers.
use super::*;
use crate::contract_primitives::StaticSurfaceId;

#[derive(Debug, Clone, PartialEq)]
pub struct RawPatch {
    pub envelope: BridgePatchEnvelope,
    pub surface: Option<u64>,
    pub operations: Vec<BridgePatchOperation>,
}

/// A finding by its code text, with domain and secondary.
pub type RawFinding = (&'static str, u64, u64);

/// What the constructors of patches and sets say.
pub enum Checked {
    Admitted(AdmittedProjectionPatchBatch),
    InPatch(usize, Vec<RawFinding>),
    InSet(Vec<RawFinding>),
}

/// A patch's parts as values of the original, before its constructor is asked.
pub struct BuiltPatch {
    envelope: ProjectionPatchEnvelope,
    operations: Vec<ProjectionPatchOperation>,
}

fn listed(diagnostics: ProjectionPatchDiagnostics) -> Vec<RawFinding> {
    let one = |d: &ProjectionPatchDiagnostic| {
        let at = d.coordinate();
        (at.code().as_str(), at.domain(), at.secondary())
    };
    diagnostics.iter().map(one).collect()
}

/// The values of a patch, or none where a constructor of an id refuses a number.
pub fn build(patch: &RawPatch) -> Option<BuiltPatch> {
    let plain = build_envelope(patch.envelope).ok()?;
    let surface = match patch.surface {
        None => None,
        Some(raw) => Some(StaticSurfaceId::new(raw).ok()?),
    };
    let envelope = ProjectionPatchEnvelope::new(
        plain.patch_id(),
        plain.stream_id(),
        plain.document_id(),
        surface,
        plain.previous_projection_revision(),
        plain.projection_revision(),
        plain.epoch(),
        plain.sequence(),
    );
    let operations = patch.operations.iter().cloned().map(build_operation).collect::<Result<Vec<_>, _>>().ok()?;
    Some(BuiltPatch { envelope, operations })
}

/// The constructor of each patch in order, then that of the set.
pub fn check(built: Vec<BuiltPatch>) -> Checked {
    let mut patches = Vec::with_capacity(built.len());
    for (index, patch) in built.into_iter().enumerate() {
        match ProjectionPatch::new(patch.envelope, patch.operations) {
            Ok(patch) => patches.push(patch),
            Err(found) => return Checked::InPatch(index, listed(found)),
        }
    }
    match ProjectionPatchSet::new(patches) {
        Ok(inner) => Checked::Admitted(AdmittedProjectionPatchBatch { inner }),
        Err(found) => Checked::InSet(listed(found)),
    }
}

pub fn canonical_bytes(batch: &AdmittedProjectionPatchBatch) -> Vec<u8> {
    batch.inner.canonical_bytes().expect("lengths fit a u32")
}

/// The projection after a batch, without a session.
pub fn apply_batch(
    previous: &LocalProjectionStateHandle,
    batch: &AdmittedProjectionPatchBatch,
) -> Option<LocalProjectionStateHandle> {
    let inner = apply_projection_patch_set(&previous.inner, &batch.inner).ok()?;
    Some(LocalProjectionStateHandle { inner })
}

pub fn snapshot(nodes: &[u64], bindings: &[(u64, u32)], collections: &[u64]) -> ActivationTargetSnapshot {
    ActivationTargetSnapshot {
        node_anchor_ids: nodes.to_vec(),
        binding_anchor_ids: bindings.to_vec(),
        collection_anchor_ids: collections.to_vec(),
    }
}
