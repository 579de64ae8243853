//! Links the proved library that `tools/staticlib` writes under the repository's `target/`.

use std::env;
use std::path::Path;

fn main() {
    let package = env::var("CARGO_MANIFEST_DIR").expect("cargo names the package's folder");
    let folder = Path::new(&package).join("../../target/staticlib");
    let archive = folder.join("librx.a");
    println!("cargo:rerun-if-changed={}", archive.display());
    assert!(
        archive.exists(),
        "target/staticlib/librx.a is missing: run `tools/staticlib` in the repository first"
    );
    println!("cargo:rustc-link-search=native={}", folder.display());
    println!("cargo:rustc-link-lib=static=rx");
}
