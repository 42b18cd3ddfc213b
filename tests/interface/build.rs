//! Links the archives: libaxle.a and libword_exports.a of the folder AXLE_LIB_DIR, or of target/staticlib of the repository.

use std::path::{Path, PathBuf};

fn main() {
    println!("cargo:rerun-if-env-changed=AXLE_LIB_DIR");
    let root = Path::new(env!("CARGO_MANIFEST_DIR")).join("../..");
    let folder = std::env::var_os("AXLE_LIB_DIR").map_or(root.join("target/staticlib"), PathBuf::from);
    println!("cargo:rustc-link-search=native={}", folder.display());
    for name in ["axle", "word_exports"] {
        println!("cargo:rerun-if-changed={}", folder.join(format!("lib{name}.a")).display());
        println!("cargo:rustc-link-lib=static={name}");
    }
}
