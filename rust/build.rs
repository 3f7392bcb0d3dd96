//! Says where the static library is: crates/capi/out, once `rt lib` has built it there.

use std::env;
use std::path::Path;

fn main() {
    let here = env::var("CARGO_MANIFEST_DIR").expect("cargo says where the manifest is");
    let out = Path::new(&here).join("../crates/capi/out");
    let library = out.join("libcapi.a");
    println!("cargo:rerun-if-changed={}", library.display());
    if !library.is_file() {
        println!("cargo:warning=crates/capi/out/libcapi.a is not there: `rt lib` in crates/capi builds it");
    }
    println!("cargo:rustc-link-search=native={}", out.display());
}
