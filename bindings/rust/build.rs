//! Links the proved library: libgateway.a of the folder that PENG_ROBINSON_BOARD_LIB names, else of the checkout's
//! target/staticlib.

use std::path::{absolute, Path, PathBuf};

const VARIABLE: &str = "PENG_ROBINSON_BOARD_LIB";

/// The folder of the archive. An empty variable counts as none; a path that is not absolute begins at this package.
fn folder() -> PathBuf {
    if let Some(folder) = std::env::var_os(VARIABLE).filter(|folder| !folder.is_empty()) {
        return absolute(&folder).unwrap_or(folder.into());
    }
    let root = Path::new(env!("CARGO_MANIFEST_DIR")).join("../..");
    root.canonicalize().unwrap_or(root).join("target/staticlib")
}

fn main() {
    let folder = folder();
    let archive = folder.join("libgateway.a");
    println!("cargo::rerun-if-env-changed={VARIABLE}");
    println!("cargo::rerun-if-changed=build.rs");
    println!("cargo::rerun-if-changed={}", archive.display());
    if archive.is_file() {
        println!("cargo::rustc-link-search=native={}", folder.display());
        println!("cargo::rustc-link-lib=static=gateway");
    } else {
        // cargo prints this line and fails; an exit status of our own would add the script's whole output
        println!(
            "cargo::error={} is missing: `tools/build gateway` at the project's root writes it",
            archive.display()
        );
    }
}
