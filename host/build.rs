//! Links libvoldrekka.a from the folder that VOLDREKKA_LIB names, else from crates/voldrekka/out, where `rt lib` in crates/voldrekka writes it. A file UNPROVED
//! beside it says that it is the library of host/unproved.

use std::env::var;
use std::fs::canonicalize;
use std::path::PathBuf;

/// EDITOR_LIB is the oracle's name for the same folder.
const FOLDERS: [&str; 2] = ["VOLDREKKA_LIB", "EDITOR_LIB"];

fn main() {
    for name in FOLDERS {
        println!("cargo:rerun-if-env-changed={name}");
    }
    let folder = FOLDERS
        .iter()
        .find_map(|name| var(name).ok())
        .unwrap_or_else(|| format!("{}/../crates/voldrekka/out", env!("CARGO_MANIFEST_DIR")));
    let folder = canonicalize(&folder).unwrap_or(PathBuf::from(folder));
    let library = folder.join("libvoldrekka.a");
    println!("cargo:rerun-if-changed={}", library.display());
    if !library.exists() {
        println!("cargo:warning={} is not there: `rt lib` in crates/voldrekka makes it", library.display());
    }
    if folder.join("UNPROVED").exists() {
        println!("cargo:rustc-env=VOLDREKKA_UNPROVED=1");
    }
    println!("cargo:rustc-link-search=native={}", folder.display());
    println!("cargo:rustc-link-lib=static=voldrekka");
}
