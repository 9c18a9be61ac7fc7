//! Links the archives of inner functions that `tools/archive` writes to target/staticlib; package `tridexel` links the entries.
fn main() {
    let dir = std::path::Path::new(&std::env::var("CARGO_MANIFEST_DIR").unwrap()).join("../../target/staticlib");
    let dir = dir.canonicalize().expect("target/staticlib: run oracle/build first");
    println!("cargo::rustc-link-search=native={}", dir.display());
    for name in ["inner"] {
        println!("cargo::rustc-link-lib=static={name}");
        println!("cargo::rerun-if-changed={}/lib{name}.a", dir.display());
    }
}
