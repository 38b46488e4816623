//! Links the proved library, which `tools/staticlib` writes.

use std::env;
use std::path::Path;

fn main() {
    let here = env::var("CARGO_MANIFEST_DIR").expect("cargo names the manifest's folder");
    let folder = Path::new(&here).join("../../target/staticlib");
    let library = folder.join("libviertompu.a");
    assert!(
        library.exists(),
        "{} is missing: make it with `tools/staticlib`",
        library.display()
    );
    println!("cargo:rerun-if-changed={}", library.display());
    println!("cargo:rustc-link-search=native={}", folder.display());
    println!("cargo:rustc-link-lib=static=viertompu");
}
