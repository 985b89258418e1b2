//! Says where `bindings/archives` left the archives, of one tier and of two: UNIVMON_LIB, or target/staticlib of the
//! repository that this crate stands in.
use std::path::PathBuf;

fn main() {
    let folder = match std::env::var_os("UNIVMON_LIB") {
        Some(folder) => PathBuf::from(folder),
        None => PathBuf::from(env!("CARGO_MANIFEST_DIR")).join("../../target/staticlib"),
    };
    println!("cargo:rerun-if-env-changed=UNIVMON_LIB");
    println!("cargo:rustc-link-search=native={}", folder.display());
    for name in ["univmon_c", "univmon_two_tier"] {
        let archive = folder.join(format!("lib{name}.a"));
        if !archive.exists() {
            panic!("{} is missing: run `bindings/archives {name}` first", archive.display());
        }
        println!("cargo:rerun-if-changed={}", archive.display());
        println!("cargo:rustc-link-lib=static={name}");
    }
}
