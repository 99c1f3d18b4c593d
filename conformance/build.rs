//! Links the proved library, ../target/staticlib/libgawherino.a, or says how to make it.

use std::path::PathBuf;

fn main() {
    println!("cargo:rerun-if-env-changed=GAWHERINO_STATICLIB");
    if std::env::var_os("CARGO_FEATURE_LIBRARY").is_none() {
        return;
    }
    let here = PathBuf::from(std::env::var("CARGO_MANIFEST_DIR").expect("cargo sets it"));
    let folder = match std::env::var_os("GAWHERINO_STATICLIB") {
        Some(folder) => PathBuf::from(folder),
        None => here.join("../target/staticlib"),
    };
    let archive = folder.join("libgawherino.a");
    println!("cargo:rerun-if-changed={}", archive.display());
    if !archive.exists() {
        eprintln!("\nthere is no {}: run `bash tools/build.sh gawherino` in the repository first", archive.display());
        eprintln!("(or compare the reference with plain.rs alone: --no-default-features)\n");
        std::process::exit(1);
    }
    println!("cargo:rustc-link-search=native={}", folder.display());
    println!("cargo:rustc-link-lib=static=gawherino");
}
