//! Tells cargo where the proved library is: `MESHPIGEON_LIB_DIR`, else the place where scripts/prove writes it.

use std::env;
use std::path::PathBuf;

fn main() {
    let here = PathBuf::from(env::var_os("CARGO_MANIFEST_DIR").expect("cargo sets the manifest's folder"));
    let folder = match env::var_os("MESHPIGEON_LIB_DIR") {
        Some(folder) => PathBuf::from(folder),
        None => here.join("../../target/staticlib"),
    };
    println!("cargo:rerun-if-env-changed=MESHPIGEON_LIB_DIR");
    println!("cargo:rerun-if-changed={}", folder.join("libmeshpigeon.a").display());
    println!("cargo:rustc-link-search=native={}", folder.display());
    println!("cargo:rustc-link-lib=static=meshpigeon");
}
