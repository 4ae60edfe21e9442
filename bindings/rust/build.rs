//! Links the proved library: two archives, made by `bindings/build`.

use std::{env, path::PathBuf};

const ARCHIVES: [&str; 2] = ["notes_tree_ffi", "cursor_ffi"];

fn main() {
    println!("cargo::rerun-if-env-changed=NOTES_TREE_LIB");
    let target = |name: &str| env::var(format!("CARGO_CFG_TARGET_{name}")).unwrap_or_default();
    if (target("ARCH").as_str(), target("OS").as_str()) != ("x86_64", "linux") {
        println!("cargo::error=the library is compiled for x86-64 and Linux alone");
    }
    let folder = match env::var_os("NOTES_TREE_LIB") {
        Some(folder) => PathBuf::from(folder),
        None => PathBuf::from(env!("CARGO_MANIFEST_DIR")).join("../../target/staticlib"),
    };
    println!("cargo::rustc-link-search=native={}", folder.display());
    for archive in ARCHIVES {
        let file = folder.join(format!("lib{archive}.a"));
        if !file.is_file() {
            println!(
                "cargo::error=no {}: run bindings/build, or set NOTES_TREE_LIB to the archives' folder",
                file.display()
            );
        }
        println!("cargo::rerun-if-changed={}", file.display());
        println!("cargo::rustc-link-lib=static={archive}");
    }
}
