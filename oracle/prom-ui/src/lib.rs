//! The original's patch rules and projection, built from the published files, with the smallest stand-ins for modules
//! that were not published.
#![allow(dead_code, unused_imports)]
extern crate alloc;

mod prepared_projection_patch_targets;
mod semantic_refs;

include!(concat!(env!("OUT_DIR"), "/modules.rs"));
