//! Links target/staticlib/libhost.a, which `library host` of library.sh makes.

use std::env;
use std::path::Path;

fn main() {
    let package = env::var("CARGO_MANIFEST_DIR").unwrap();
    let folder = Path::new(&package).join("../target/staticlib");
    let archive = folder.join("libhost.a");
    println!("cargo:rustc-link-search=native={}", folder.display());
    println!("cargo:rustc-link-lib=static=host");
    println!("cargo:rerun-if-changed={}", archive.display());
}
