//! Links the archive of the proved engine, from the folder that CIRCUIT_LIB names, else from target/staticlib.
use std::env;
use std::path::Path;

fn main() {
    println!("cargo::rerun-if-env-changed=CIRCUIT_LIB");
    let named = env::var("CIRCUIT_LIB").unwrap_or_else(|_| "../../target/staticlib".into());
    let folder = Path::new(&named).canonicalize().unwrap_or_default();
    let archive = folder.join("libcircuit.a");
    println!("cargo::rerun-if-changed={}", archive.display());
    if !archive.is_file() {
        println!("cargo::error={named}/libcircuit.a is missing: run `tools/build archive` in the repository first");
        return;
    }
    println!("cargo::rustc-link-search=native={}", folder.display());
    println!("cargo::rustc-link-lib=static=circuit");
}
