//! Names the original's modules, which stand as they are.
use std::{env, fs, path::PathBuf};

fn main() {
    println!("cargo:rerun-if-env-changed=PROM_SOURCE");
    let root = env::var("PROM_SOURCE").expect("PROM_SOURCE names the folder that holds crates/prom-ui-runtime/src of the original");
    let source = PathBuf::from(root).join("crates/prom-ui-runtime/src").canonicalize().expect("PROM_SOURCE/crates/prom-ui-runtime/src");
    let out = PathBuf::from(env::var("OUT_DIR").unwrap());
    let mut modules = String::new();
    for (name, mark) in [("active_projection_target_catalog", "mod"), ("shell_player", "pub mod")] {
        let path = source.join(format!("{name}.rs"));
        println!("cargo:rerun-if-changed={}", path.display());
        modules += &format!("#[path = {path:?}]\n{mark} {name};\n");
    }
    fs::write(out.join("modules.rs"), modules).unwrap();
}
