//! Links the proved library, where the feature `proved` asks for it.

use std::env;
use std::path::Path;

fn main() {
    println!("cargo:rerun-if-changed=build.rs");
    println!("cargo:rerun-if-env-changed=PROVED_LIBRARY_DIR");
    println!("cargo:rerun-if-env-changed=PROVED_LINK_ARGS");
    if env::var_os("CARGO_FEATURE_PROVED").is_none() {
        return;
    }

    let folder = env::var("PROVED_LIBRARY_DIR").unwrap_or_else(|_| {
        let here = env::var("CARGO_MANIFEST_DIR").expect("cargo sets CARGO_MANIFEST_DIR");
        format!("{here}/../crates/exports_c/out")
    });
    let library = Path::new(&folder).join("libexports_c.a");
    println!("cargo:rerun-if-changed={}", library.display());
    if !library.exists() {
        println!("cargo:warning={} is not there: `rt lib` in crates/exports_c makes it", library.display());
    }
    println!("cargo:rustc-link-search=native={folder}");
    println!("cargo:rustc-link-lib=static=exports_c");

    for argument in env::var("PROVED_LINK_ARGS").unwrap_or_default().split_whitespace() {
        println!("cargo:rustc-link-arg={argument}");
    }
}
