//! Links the archive that `rt lib` writes in `crates/exported`, or the one in the folder that
//! KIRSODZA_LIBRARY names.

use std::env;
use std::path::{Path, PathBuf};

const OTHER_FOLDER: &str = "KIRSODZA_LIBRARY";

fn main() {
    println!("cargo:rerun-if-env-changed={OTHER_FOLDER}");
    let folder = env::var_os(OTHER_FOLDER).map_or_else(usual_folder, PathBuf::from);
    println!("cargo:rustc-link-search=native={}", folder.display());
    println!("cargo:rustc-link-lib=static=exported");
    println!("cargo:rerun-if-changed={}", folder.join("libexported.a").display());
}

fn usual_folder() -> PathBuf {
    let package = env::var_os("CARGO_MANIFEST_DIR").expect("cargo names the package's folder");
    Path::new(&package).join("../crates/exported/out")
}
