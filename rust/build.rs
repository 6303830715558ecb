//! Links libstaplehorn.a: from the folder in STAPLEHORN_LIB, or from where the repository builds it.

use std::path::PathBuf;

fn main() {
    println!("cargo:rerun-if-env-changed=STAPLEHORN_LIB");
    let folder = match std::env::var_os("STAPLEHORN_LIB") {
        Some(folder) => PathBuf::from(folder),
        None => PathBuf::from(env!("CARGO_MANIFEST_DIR")).join("../target/staticlib"),
    };
    println!("cargo:rustc-link-search=native={}", folder.display());
    println!("cargo:rustc-link-lib=static=staplehorn");
    println!("cargo:rerun-if-changed={}", folder.join("libstaplehorn.a").display());
}
