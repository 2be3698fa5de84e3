//! Links the engine's static library, whose folder BORDER_LIB names.

use std::path::PathBuf;

fn main() {
    println!("cargo:rerun-if-changed=build.rs");
    println!("cargo:rerun-if-env-changed=BORDER_LIB");
    if std::env::var_os("CARGO_FEATURE_STAND_IN").is_some() {
        return;
    }
    let folder = folder_of_library().unwrap_or_else(|message| {
        eprintln!("compare: {message}");
        std::process::exit(1)
    });
    println!("cargo:rerun-if-changed={}", folder.join("libborder.a").display());
    println!("cargo:rustc-link-search=native={}", folder.display());
    println!("cargo:rustc-link-lib=static=border");
}

/// The folder, or what is wrong with it.
fn folder_of_library() -> Result<PathBuf, String> {
    let folder = std::env::var_os("BORDER_LIB").map(PathBuf::from).ok_or(
        "BORDER_LIB is not set: it names the folder of libborder.a, the engine's static library",
    )?;
    let folder = folder
        .canonicalize()
        .map_err(|error| format!("BORDER_LIB is {}: {error}", folder.display()))?;
    if !folder.join("libborder.a").is_file() {
        return Err(format!("BORDER_LIB is {}, where there is no libborder.a", folder.display()));
    }
    Ok(folder)
}
