//! Links the static library that `tools/build library` writes; BIXTOGAN_LIB names another folder that holds it.
use std::env;
use std::path::PathBuf;

fn main() {
    let folder = match env::var_os("BIXTOGAN_LIB") {
        Some(folder) => PathBuf::from(folder),
        None => PathBuf::from(env::var_os("CARGO_MANIFEST_DIR").unwrap()).join("../../target/staticlib"),
    };
    let library = folder.join("libcapi.a");
    if !library.exists() {
        println!("cargo:warning={} is not there; `tools/build library` writes it", library.display());
    }
    println!("cargo:rerun-if-env-changed=BIXTOGAN_LIB");
    println!("cargo:rerun-if-changed={}", library.display());
    println!("cargo:rustc-link-search=native={}", folder.display());
    println!("cargo:rustc-link-lib=static=capi");
}
