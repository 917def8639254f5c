//! Links the archive target/staticlib/libhartley.a.

use std::env;
use std::path::Path;

fn main() {
    let here = env::var("CARGO_MANIFEST_DIR").expect("cargo names the package's folder");
    let folder = Path::new(&here).join("../../target/staticlib");
    println!("cargo:rustc-link-search=native={}", folder.display());
    println!("cargo:rustc-link-lib=static=hartley");
    println!("cargo:rerun-if-changed={}", folder.join("libhartley.a").display());
    println!("cargo:rerun-if-changed=build.rs");
}
