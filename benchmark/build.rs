//! Links the archive that `rt lib` writes in `crates/exported`.

use std::env;
use std::path::Path;

fn main() {
    let package = env::var("CARGO_MANIFEST_DIR").expect("cargo names the package's folder");
    let folder = Path::new(&package).join("../crates/exported/out");
    println!("cargo:rustc-link-search=native={}", folder.display());
    println!("cargo:rustc-link-lib=static=exported");
    println!("cargo:rerun-if-changed={}", folder.join("libexported.a").display());
}
