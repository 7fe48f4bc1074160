//! Links libwhistlaurel.a from the folder WHISTLAUREL_LIB, which is taken from this folder on; by default ../crates/whistlaurel/out.
use std::{env, path::Path, process};

fn main() {
    println!("cargo:rerun-if-env-changed=WHISTLAUREL_LIB");
    let named = env::var("WHISTLAUREL_LIB").unwrap_or_else(|_| "../crates/whistlaurel/out".to_string());
    let folder = Path::new(&env::var("CARGO_MANIFEST_DIR").unwrap()).join(named);
    let library = folder.join("libwhistlaurel.a");
    println!("cargo:rerun-if-changed={}", library.display());
    if !library.exists() {
        eprintln!("{} is missing: run `rt lib` in crates/whistlaurel, or name its folder in WHISTLAUREL_LIB", library.display());
        process::exit(1);
    }
    println!("cargo:rustc-link-search=native={}", folder.display());
    println!("cargo:rustc-link-lib=static=whistlaurel");
}
