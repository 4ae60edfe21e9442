//! Links the library: the two archives that `bindings/build` makes.

use std::{env, path::PathBuf};

fn main() {
    println!("cargo::rerun-if-env-changed=NOTES_TREE_LIB");
    let folder = match env::var_os("NOTES_TREE_LIB") {
        Some(folder) => PathBuf::from(folder),
        None => PathBuf::from(env!("CARGO_MANIFEST_DIR")).join("../../target/staticlib"),
    };
    println!("cargo::rustc-link-search=native={}", folder.display());
    for archive in ["notes_tree_ffi", "cursor_ffi"] {
        println!("cargo::rerun-if-changed={}/lib{archive}.a", folder.display());
        println!("cargo::rustc-link-lib=static={archive}");
    }
}
