//! Links libhobbit.a from the folder that HOBBIT_LIB names; without the library only the board mode works.
use std::env;
use std::path::PathBuf;

fn main() {
    let package = PathBuf::from(env::var("CARGO_MANIFEST_DIR").unwrap());
    // an absolute HOBBIT_LIB replaces the package's path, a relative one counts from it
    let folder = package.join(env::var("HOBBIT_LIB").unwrap_or("../../target/staticlib".into()));
    let library = folder.join("libhobbit.a");
    println!("cargo:rerun-if-env-changed=HOBBIT_LIB");
    println!("cargo:rerun-if-changed={}", library.display());
    println!("cargo:rustc-check-cfg=cfg(linked)");
    if library.exists() {
        println!("cargo:rustc-cfg=linked");
        println!("cargo:rustc-link-search=native={}", folder.display());
        println!("cargo:rustc-link-lib=static=hobbit");
    }
}
