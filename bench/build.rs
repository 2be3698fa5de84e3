//! Links two archives beside the border's, which the wrapper links: the calls without judging, and, where BEFORE_LIB is set, the calls of
//! an earlier state.

use std::path::{Path, PathBuf};

/// Links an archive, and is run again when it has changed.
fn link(name: &str, folder: &Path) {
    let archive = folder.join(format!("lib{name}.a"));
    if !archive.is_file() {
        eprintln!("bench: there is no {}; README.md says how to make it", archive.display());
        std::process::exit(1);
    }
    println!("cargo:rerun-if-changed={}", archive.display());
    println!("cargo:rustc-link-search=native={}", folder.display());
    println!("cargo:rustc-link-lib=static={name}");
}

fn folder_in(variable: &str) -> Option<PathBuf> {
    println!("cargo:rerun-if-env-changed={variable}");
    std::env::var_os(variable).map(PathBuf::from)
}

fn main() {
    println!("cargo:rerun-if-changed=build.rs");
    println!("cargo:rustc-check-cfg=cfg(before)");
    let made = Path::new(env!("CARGO_MANIFEST_DIR")).join("../crates/within/out");
    link("within", &folder_in("WITHIN_LIB").unwrap_or(made));
    if let Some(folder) = folder_in("BEFORE_LIB") {
        link("before", &folder);
        println!("cargo:rustc-cfg=before");
    }
}
