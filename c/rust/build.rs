//! Links liblojarnek_map.a, which `make` in the folder above writes to c/out; LOJARNEK_LIB_DIR names another folder.
fn main() {
    let here = std::env::var("CARGO_MANIFEST_DIR").unwrap();
    let folder = std::env::var("LOJARNEK_LIB_DIR").unwrap_or(format!("{here}/../out"));
    println!("cargo:rerun-if-env-changed=LOJARNEK_LIB_DIR");
    println!("cargo:rerun-if-changed={folder}/liblojarnek_map.a");
    println!("cargo:rustc-link-search=native={folder}");
    println!("cargo:rustc-link-lib=static=lojarnek_map");
}
