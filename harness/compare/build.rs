//! Links the archive `libkozempil.a` from the folder that KOZEMPIL_LIB names, else
//! from `target/staticlib` of the project. A relative folder is relative to this
//! package.

use std::env;
use std::path::Path;

fn main() {
    let package = env::var("CARGO_MANIFEST_DIR").expect("cargo names the package's folder");
    let named = env::var("KOZEMPIL_LIB").unwrap_or_else(|_| "../../target/staticlib".to_string());
    let folder = Path::new(&package).join(named);
    let archive = folder.join("libkozempil.a");
    println!("cargo:rerun-if-env-changed=KOZEMPIL_LIB");
    println!("cargo:rerun-if-changed={}", archive.display());
    println!("cargo:rustc-link-search=native={}", folder.display());
    println!("cargo:rustc-link-lib=static=kozempil");
}
