//! Links libchangeforest_c.a from the folder named by CHANGEFOREST_LIB, or from where `native/build changeforest_c` writes it.
use std::{env, path::PathBuf};

fn main() {
    let folder = match env::var_os("CHANGEFOREST_LIB") {
        Some(folder) => PathBuf::from(folder),
        None => PathBuf::from(env::var_os("CARGO_MANIFEST_DIR").expect("cargo sets it")).join("../target/native"),
    };
    println!("cargo:rustc-link-search=native={}", folder.display());
    println!("cargo:rustc-link-lib=static=changeforest_c");
    println!("cargo:rerun-if-changed={}", folder.join("libchangeforest_c.a").display());
    println!("cargo:rerun-if-env-changed=CHANGEFOREST_LIB");
}
