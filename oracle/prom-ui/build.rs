//! Puts the original's modules together. Four stand as they are; two are cut here, where they name modules that were
//! not published.
use std::{env, fs, path::Path, path::PathBuf};

const BRIDGE_IMPORTS: &str = "\
use alloc::string::String;
use alloc::vec;
use alloc::vec::Vec;
use crate::binding_graph::{BindingSlot, BindingTarget};
use crate::contract_primitives::{CollectionKey, Epoch, Revision, StaticDocumentId, StaticNodeId};
use crate::local_projection_state::{
    apply_projection_patch_set, LocalProjectionApplicationError, LocalProjectionState,
};
use crate::prepared_projection_patch_targets::derive_prepared_projection_patch_targets;
use crate::projection_patch::*;
use crate::target_anchor::TargetAnchor;
";

/// The position of a text that must occur exactly once.
fn once(text: &str, mark: &str) -> usize {
    assert_eq!(text.matches(mark).count(), 1, "expected once: {mark}");
    text.find(mark).unwrap()
}

/// From one mark up to another.
fn part<'a>(text: &'a str, from: &str, to: &str) -> &'a str {
    &text[once(text, from)..once(text, to)]
}

/// The identities and diagnostics of the binding graph, without the document that is built over an unpublished one.
fn binding_graph(text: &str) -> String {
    text[..once(text, "#[derive(Debug, Clone, PartialEq, Eq, Hash)]\npub(crate) struct BindingGraphDocument")].to_string()
}

/// The bridge without its fixture and its activation of bundles, and with the glue as a child, which may see its fields.
fn shell_bridge(text: &str, glue: &Path) -> String {
    let values_to_snapshot = part(
        text,
        "// ---- Bridge-safe raw value types",
        "/// Returns a small, fixed, deterministic projection-owned structural",
    );
    let projection = part(
        text,
        "// ---- Local projection state (read-only egress",
        "// ---- Gate D bounded ProjectionBundle activation",
    );
    format!("{BRIDGE_IMPORTS}\n{values_to_snapshot}\n{projection}\n#[path = {glue:?}]\npub mod glue;\n")
}

fn main() {
    println!("cargo:rerun-if-env-changed=PROM_SOURCE");
    println!("cargo:rerun-if-changed=build.rs");
    let root = env::var("PROM_SOURCE").expect("PROM_SOURCE names the folder that holds crates/prom-ui/src of the original");
    let source = PathBuf::from(root).join("crates/prom-ui/src").canonicalize().expect("PROM_SOURCE/crates/prom-ui/src");
    let out = PathBuf::from(env::var("OUT_DIR").unwrap());
    let glue = PathBuf::from(env::var("CARGO_MANIFEST_DIR").unwrap()).join("src/glue.rs");
    let read = |name: &str| fs::read_to_string(source.join(name)).unwrap();
    fs::write(out.join("binding_graph.rs"), binding_graph(&read("binding_graph.rs"))).unwrap();
    fs::write(out.join("shell_bridge.rs"), shell_bridge(&read("shell_bridge.rs"), &glue)).unwrap();
    let mut modules = String::new();
    for name in ["contract_primitives", "projection_patch", "local_projection_state", "target_anchor"] {
        let path = source.join(format!("{name}.rs"));
        println!("cargo:rerun-if-changed={}", path.display());
        modules += &format!("#[path = {path:?}]\nmod {name};\n");
    }
    modules += &format!("#[path = {:?}]\nmod binding_graph;\n", out.join("binding_graph.rs"));
    modules += &format!("#[path = {:?}]\npub mod shell_bridge;\n", out.join("shell_bridge.rs"));
    fs::write(out.join("modules.rs"), modules).unwrap();
}
