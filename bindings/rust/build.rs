//! Links libmahqurith.a from the folder named by MAHQURITH_LIB, or from target/mahqurith of the repository, where ./build puts it.

use std::env;
use std::path::PathBuf;

fn main() {
    println!("cargo:rerun-if-env-changed=MAHQURITH_LIB");
    let here = PathBuf::from(env::var("CARGO_MANIFEST_DIR").expect("cargo names the folder"));
    let folder = env::var("MAHQURITH_LIB").map_or(here.join("../../target/mahqurith"), PathBuf::from);
    let archive = folder.join("libmahqurith.a");
    if !archive.exists() {
        panic!("{} is not there: run ./build at the repository's root, or set MAHQURITH_LIB", archive.display());
    }
    println!("cargo:rerun-if-changed={}", archive.display());
    println!("cargo:rustc-link-search=native={}", folder.display());
    println!("cargo:rustc-link-lib=static=mahqurith");
}
