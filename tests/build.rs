//! Tells cargo where the static library stands, for the binaries that are built with `linked`.

use std::env;

fn main() {
    println!("cargo:rerun-if-changed=build.rs");
    if env::var_os("CARGO_FEATURE_LINKED").is_none() {
        return;
    }
    let here = env::var("CARGO_MANIFEST_DIR").expect("cargo names the package's folder");
    let folder = format!("{here}/../crates/line_c/out");
    println!("cargo:rerun-if-changed={folder}/libline_c.a");
    println!("cargo:rustc-link-search=native={folder}");
    println!("cargo:rustc-link-lib=static=line_c");
}
