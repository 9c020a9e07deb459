//! Random and edge scripts inside the original's domain, each line with the original's answer.
pub mod batches;
pub mod capacities;
pub mod edges;
pub mod faults;
pub mod numbers;
pub mod operations;
pub mod patches;
pub mod recorder;
pub mod sessions;
pub mod setups;
pub mod values;

/// How large sets and texts come: as the capacities allow, or small, for a sample that is kept in a repository.
#[derive(Debug, Clone, Copy, PartialEq, Eq)]
pub enum Scale {
    Full,
    Compact,
}
