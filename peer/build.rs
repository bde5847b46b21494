//! Links the library's archive, where MAHQURITH_LIB names its folder, and turns on the party that calls it.

use std::env;

fn main() {
    println!("cargo:rustc-check-cfg=cfg(library)");
    println!("cargo:rerun-if-env-changed=MAHQURITH_LIB");
    let Ok(folder) = env::var("MAHQURITH_LIB") else { return };
    println!("cargo:rerun-if-changed={folder}/libmahqurith.a");
    println!("cargo:rustc-link-search=native={folder}");
    println!("cargo:rustc-link-lib=static=mahqurith");
    println!("cargo:rustc-cfg=library");
}
