//! Stand-in: a reference that bindings may carry; nothing here uses it.
#[derive(Debug, Clone, Copy, PartialEq, Eq, PartialOrd, Ord, Hash)]
pub(crate) struct SemanticValueRef(pub(crate) u64);
