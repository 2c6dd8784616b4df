// Links libpirozhkan.a, which bindings/build makes; PIROZHKAN_LIB names another folder that has it.
use std::env;
use std::path::PathBuf;

fn main() {
    println!("cargo:rerun-if-env-changed=PIROZHKAN_LIB");
    let folder = env::var_os("PIROZHKAN_LIB").map(PathBuf::from).unwrap_or_else(|| {
        PathBuf::from(env::var_os("CARGO_MANIFEST_DIR").expect("cargo names the crate's folder")).join("../../target/lib")
    });
    let library = folder.join("libpirozhkan.a");
    println!("cargo:rerun-if-changed={}", library.display());
    if !library.exists() {
        println!("cargo:warning=there is no {}: bindings/build makes it", library.display());
    }
    println!("cargo:rustc-link-search=native={}", folder.display());
    println!("cargo:rustc-link-lib=static=pirozhkan");
}
