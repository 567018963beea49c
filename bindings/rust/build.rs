//! Links the static library that `tools/build supervisor` proves and writes; LAURELSNAP_LIB names another folder that has it.

use std::path::PathBuf;

fn main() {
    println!("cargo:rerun-if-env-changed=LAURELSNAP_LIB");
    let folder = std::env::var_os("LAURELSNAP_LIB").map_or_else(
        || PathBuf::from(std::env::var_os("CARGO_MANIFEST_DIR").expect("cargo sets it")).join("../../target/staticlib"),
        PathBuf::from,
    );
    let library = folder.join("libsupervisor.a");
    println!("cargo:rerun-if-changed={}", library.display());
    if !library.exists() {
        panic!("{} is missing; `tools/build supervisor` proves and writes it", library.display());
    }
    println!("cargo:rustc-link-search=native={}", folder.display());
    println!("cargo:rustc-link-lib=static=supervisor");
}
