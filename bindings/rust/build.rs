//! Links the static libraries of the proved code, which `tools/libraries NAME..` writes. They are
//! looked for in `target/staticlib` of this repository, or in the folder that the environment's
//! `CELLFACET_STATICLIB` names.

use std::env;
use std::path::{Path, PathBuf};

fn main() {
    println!("cargo:rerun-if-env-changed=CELLFACET_STATICLIB");
    let folder = env::var_os("CELLFACET_STATICLIB").map_or_else(
        || Path::new(env!("CARGO_MANIFEST_DIR")).join("../../target/staticlib"),
        PathBuf::from,
    );
    println!("cargo:rustc-link-search=native={}", folder.display());
    for name in ["phone", "operator"] {
        let library = folder.join(format!("lib{name}.a"));
        println!("cargo:rerun-if-changed={}", library.display());
        assert!(
            library.exists(),
            "no {}: run `tools/libraries {name}` first",
            library.display()
        );
        println!("cargo:rustc-link-lib=static={name}");
    }
}
