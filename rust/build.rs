//! Links the proved libraries: `libpoqewan.a`, `libpoqewan_archives.a` and `libpoqewan_corrections.a`
//! from the folder that `POQEWAN_LIB_DIR` names, or each from where the repository builds it.

use std::env;
use std::path::{Path, PathBuf};

fn main() {
    let named = env::var_os("POQEWAN_LIB_DIR").map(PathBuf::from);
    println!("cargo:rerun-if-env-changed=POQEWAN_LIB_DIR");
    for name in ["poqewan", "poqewan_archives", "poqewan_corrections"] {
        let folder = named.clone().unwrap_or_else(|| built_by_the_repository(name));
        println!("cargo:rustc-link-search=native={}", folder.display());
        let library = folder.join(format!("lib{name}.a"));
        assert!(
            library.is_file(),
            "{} is missing: build the crate `{name}` first, or name the library's folder in POQEWAN_LIB_DIR",
            library.display()
        );
        println!("cargo:rerun-if-changed={}", library.display());
        println!("cargo:rustc-link-lib=static={name}");
    }
}

fn built_by_the_repository(name: &str) -> PathBuf {
    Path::new(env!("CARGO_MANIFEST_DIR")).join("../crates").join(name).join("out")
}
