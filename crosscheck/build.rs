//! Says where the product's static library lies: in the folder that `BOUNDARY_LIB` names, or else where `rt lib` puts it.

use std::env;
use std::path::PathBuf;

fn main() {
    let here = PathBuf::from(env::var_os("CARGO_MANIFEST_DIR").expect("cargo sets it"));
    let usual = here.join("../crates/boundary/out");
    let folder = env::var_os("BOUNDARY_LIB").map_or(usual, PathBuf::from);
    let library = folder.join("libboundary.a");
    println!("cargo:rerun-if-env-changed=BOUNDARY_LIB");
    println!("cargo:rerun-if-changed={}", library.display());
    println!("cargo:rustc-link-search=native={}", folder.display());
    println!("cargo:rustc-link-lib=static=boundary");
}
