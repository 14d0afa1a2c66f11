//! Links the proved replay: `liblinked.a` as `rt lib` makes it in crates/linked, or of the folder that LINKED_LIB names.
use std::env;
use std::path::{Path, PathBuf};

fn main() {
    println!("cargo:rerun-if-env-changed=LINKED_LIB");
    println!("cargo:rerun-if-changed=build.rs");
    let folder = match env::var_os("LINKED_LIB") {
        Some(given) => PathBuf::from(given),
        None => Path::new(&env::var_os("CARGO_MANIFEST_DIR").unwrap()).join("../crates/linked/out"),
    };
    println!("cargo:rerun-if-changed={}", folder.join("liblinked.a").display());
    println!("cargo:rustc-link-search=native={}", folder.display());
    println!("cargo:rustc-link-lib=static=linked");
}
