//! Links the archive that `tools/archive tridexel` writes; TRIDEXEL_LIB names another folder.
use std::{env, path::PathBuf};

fn main() {
    let here = PathBuf::from(env::var("CARGO_MANIFEST_DIR").unwrap());
    let folder = env::var("TRIDEXEL_LIB").map_or_else(|_| here.join("../../target/staticlib"), PathBuf::from);
    println!("cargo:rerun-if-env-changed=TRIDEXEL_LIB");
    println!("cargo:rustc-link-search=native={}", folder.display());
    println!("cargo:rerun-if-changed={}", folder.join("libtridexel.a").display());
    println!("cargo:rustc-link-lib=static=tridexel");
}
