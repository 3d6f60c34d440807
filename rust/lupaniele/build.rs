//! Links the proved libraries, which `tools/build` writes. Every crate that depends on this one gets them with it.

use std::path::Path;

fn main() {
    let folder = Path::new(env!("CARGO_MANIFEST_DIR")).join("../../target/staticlib");
    println!("cargo:rustc-link-search=native={}", folder.display());
    for name in ["exports_v1", "exports_v2", "exports_desks", "exports_logs"] {
        let archive = folder.join(format!("lib{name}.a"));
        println!("cargo:rerun-if-changed={}", archive.display());
        if !archive.exists() {
            println!(
                "cargo:error=target/staticlib/lib{name}.a is missing: run `tools/build` at the repository's top first"
            );
            std::process::exit(1);
        }
        println!("cargo:rustc-link-lib=static={name}");
    }
}
