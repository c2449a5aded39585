//! Links the static libraries of the proved code, which `tools/libraries NAME..` writes.

use std::path::Path;

fn main() {
    let root = Path::new(env!("CARGO_MANIFEST_DIR")).join("../..");
    let folder = root.join("target/staticlib");
    println!("cargo:rustc-link-search=native={}", folder.display());
    for name in ["phone", "operator", "test_exports"] {
        let library = folder.join(format!("lib{name}.a"));
        println!("cargo:rerun-if-changed={}", library.display());
        assert!(
            library.exists(),
            "no {}: run `tools/libraries {name}` first",
            library.display()
        );
        println!("cargo:rustc-link-lib=static={name}");
    }
}
