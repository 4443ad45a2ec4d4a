//! Links libline_c.a: from the folder that ORDER_LINE_FOLDER names in the environment, by an absolute path, or else from
//! where `rt lib` in crates/line_c puts it in the order line's own tree.

use std::env;
use std::path::PathBuf;

fn main() {
    println!("cargo::rerun-if-env-changed=ORDER_LINE_FOLDER");
    let package = env::var_os("CARGO_MANIFEST_DIR").expect("cargo names the package's folder");
    let folder = match env::var_os("ORDER_LINE_FOLDER") {
        Some(folder) => PathBuf::from(folder),
        None => PathBuf::from(package).join("../../crates/line_c/out"),
    };
    let library = folder.join("libline_c.a");
    println!("cargo::rerun-if-changed={}", library.display());
    if !library.exists() {
        println!(
            "cargo::error=no {}: rt lib in crates/line_c makes it, ORDER_LINE_FOLDER names its folder",
            library.display()
        );
        return;
    }
    println!("cargo::rustc-link-search=native={}", folder.display());
    println!("cargo::rustc-link-lib=static=line_c");
}
