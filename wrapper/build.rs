//! Links the archive that `bin/ship FOLDER` made; BORDER_LIB is that folder.

fn main() {
    println!("cargo:rerun-if-env-changed=BORDER_LIB");
    let Ok(folder) = std::env::var("BORDER_LIB") else {
        eprintln!("BORDER_LIB is not set: run bin/ship FOLDER and set it to that folder");
        std::process::exit(1);
    };
    println!("cargo:rerun-if-changed={folder}/libborder.a");
    println!("cargo:rustc-link-search=native={folder}");
    println!("cargo:rustc-link-lib=static=border");
}
