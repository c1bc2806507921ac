//! Links libheal.a: from the folder that HEAL_LIB_DIR names, else from ../../c/out.
use std::env;
use std::path::PathBuf;

fn main() {
    let default = PathBuf::from(env!("CARGO_MANIFEST_DIR")).join("../../c/out");
    let folder = env::var_os("HEAL_LIB_DIR").map_or(default, PathBuf::from);
    println!("cargo:rerun-if-env-changed=HEAL_LIB_DIR");
    println!(
        "cargo:rerun-if-changed={}",
        folder.join("libheal.a").display()
    );
    println!("cargo:rustc-link-search=native={}", folder.display());
    println!("cargo:rustc-link-lib=static=heal");
}
