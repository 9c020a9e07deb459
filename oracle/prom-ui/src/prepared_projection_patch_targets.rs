//! Stand-in by document 01 for the manifest's builder: one target for each operation, in order.
use crate::projection_patch::{
    ProjectionPatchOperation, ProjectionPatchReplayCoordinate, ProjectionPatchReplayError, ProjectionPatchSet,
};
use crate::target_anchor::{BindingAnchor, CollectionAnchor, NodeAnchor, TargetAnchor};

pub(crate) struct PreparedEntry {
    coordinate: ProjectionPatchReplayCoordinate,
    anchor: TargetAnchor,
}

impl PreparedEntry {
    pub(crate) fn coordinate(&self) -> ProjectionPatchReplayCoordinate {
        self.coordinate
    }

    pub(crate) fn anchor(&self) -> TargetAnchor {
        self.anchor
    }
}

pub(crate) struct PreparedProjectionPatchTargets {
    entries: Vec<PreparedEntry>,
}

impl PreparedProjectionPatchTargets {
    pub(crate) fn entries(&self) -> &[PreparedEntry] {
        &self.entries
    }

    pub(crate) fn target_reference_count(&self) -> usize {
        self.entries.len()
    }
}

fn anchor(operation: &ProjectionPatchOperation) -> TargetAnchor {
    match operation {
        ProjectionPatchOperation::SetBindingValue { target, .. } => {
            TargetAnchor::Binding(BindingAnchor::new(target.node, target.slot))
        }
        ProjectionPatchOperation::SetNodeAvailability { node, .. } => TargetAnchor::Node(NodeAnchor::new(*node)),
        ProjectionPatchOperation::CollectionInsert { collection, .. }
        | ProjectionPatchOperation::CollectionUpdate { collection, .. }
        | ProjectionPatchOperation::CollectionRemove { collection, .. }
        | ProjectionPatchOperation::CollectionMove { collection, .. } => {
            TargetAnchor::Collection(CollectionAnchor::new(*collection))
        }
    }
}

pub(crate) fn derive_prepared_projection_patch_targets(
    set: &ProjectionPatchSet,
) -> Result<PreparedProjectionPatchTargets, ProjectionPatchReplayError> {
    let entries = set
        .replay_trace()?
        .steps()
        .iter()
        .map(|step| PreparedEntry { coordinate: step.coordinate(), anchor: anchor(step.operation()) })
        .collect();
    Ok(PreparedProjectionPatchTargets { entries })
}
