//! Links the static library that `rt lib` builds in crates/ratlinery.

use std::path::{Path, PathBuf};

fn main() {
    println!("cargo::rerun-if-env-changed=RATLINERY_LIB_DIR");
    let folder = match std::env::var_os("RATLINERY_LIB_DIR") {
        Some(folder) => PathBuf::from(folder),
        None => Path::new(env!("CARGO_MANIFEST_DIR")).join("../../crates/ratlinery/out"),
    };
    let library = folder.join("libratlinery.a");
    println!("cargo::rerun-if-changed={}", library.display());
    if !library.is_file() {
        println!(
            "cargo::error={} is missing: run `rt lib` in the repository's folder crates/ratlinery first, or set \
             RATLINERY_LIB_DIR to the folder that holds libratlinery.a",
            library.display()
        );
        return;
    }
    println!("cargo::rustc-link-search=native={}", folder.display());
    println!("cargo::rustc-link-lib=static=ratlinery");
}
