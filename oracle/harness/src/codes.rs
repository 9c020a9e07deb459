//! The original's code texts by document 01's numbers.

const SESSION_CODES: [&str; 8] = [
    "SPV0_SESSION_MISMATCH",
    "SPV0_SESSION_CLOSED",
    "SPV0_INVALID_LIFECYCLE",
    "SPV0_RESOURCE_LIMIT_EXCEEDED",
    "SPV0_INVALID_STIMULUS",
    "SPV0_INVALID_TARGET",
    "SPV0_REPLAY_CURSOR_MISMATCH",
    "SPV0_STATE_INVARIANT_VIOLATION",
];

const FINDING_CODES: [&str; 12] = [
    "PP_BROKEN_REVISION_CHAIN",
    "PP_COLLECTION_BEFORE_SELF",
    "PP_DUP_MUTATION_TARGET",
    "PP_DUP_PATCH_ID",
    "PP_DUP_SEQUENCE",
    "PP_EMPTY_OPERATIONS",
    "PP_MIXED_DOCUMENT",
    "PP_MIXED_EPOCH",
    "PP_MIXED_STREAM",
    "PP_NON_INCREASING_REVISION",
    "PP_OUT_OF_ORDER_SEQUENCE",
    "PP_SEQUENCE_OVERFLOW",
];

/// From 1, in the order above.
fn number_of(codes: &[&str], text: &str) -> usize {
    1 + codes.iter().position(|code| *code == text).expect("a code of document 01")
}

pub fn session_number(text: &str) -> usize {
    number_of(&SESSION_CODES, text)
}

pub fn finding_number(text: &str) -> usize {
    number_of(&FINDING_CODES, text)
}
