//! Where the archives of the library and of its read are: in the folder AXLE_LIB_DIR, or where the repository has them.

use std::path::PathBuf;
use std::process::Command;
use std::{env, str};

fn main() {
    let here = PathBuf::from(env::var_os("CARGO_MANIFEST_DIR").expect("the package's folder"));
    let folder = env::var_os("AXLE_LIB_DIR").map_or(here.join("../target/staticlib"), PathBuf::from);
    let archive = folder.join("libaxle.a");
    let rustc = Command::new(env::var_os("RUSTC").expect("the compiler")).arg("--version").output().expect("its version");
    println!("cargo:rerun-if-env-changed=AXLE_LIB_DIR");
    println!("cargo:rerun-if-changed={}", archive.display());
    println!("cargo:rerun-if-changed={}", folder.join("libword_exports.a").display());
    println!("cargo:rustc-link-search=native={}", folder.display());
    println!("cargo:rustc-env=AXLE_ARCHIVE={}", archive.display());
    println!("cargo:rustc-env=RUSTC_VERSION={}", str::from_utf8(&rustc.stdout).expect("a line of text").trim());
}
