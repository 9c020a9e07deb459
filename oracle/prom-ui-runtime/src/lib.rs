//! The original's session, built from the published files.
#![allow(dead_code)]
extern crate alloc;

include!(concat!(env!("OUT_DIR"), "/modules.rs"));
