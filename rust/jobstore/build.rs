//! Links libjobstore.a: from the folder that JOBSTORE_LIB_DIR names, else from the repository's, where `./build` puts it.
use std::env::var;

fn main() {
    let here = var("CARGO_MANIFEST_DIR").unwrap();
    let folder = var("JOBSTORE_LIB_DIR").unwrap_or_else(|_| format!("{here}/../../target/lib"));
    println!("cargo:rerun-if-env-changed=JOBSTORE_LIB_DIR");
    println!("cargo:rerun-if-changed={folder}/libjobstore.a");
    println!("cargo:rustc-link-search=native={folder}");
    println!("cargo:rustc-link-lib=static=jobstore");
}
