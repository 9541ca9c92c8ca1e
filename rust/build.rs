//! Finds libzorpedi.a: in ZORPEDI_LIB_DIR, else in the repository's target/staticlib, where `tools/archive` puts it.
use std::env;
use std::path::PathBuf;
use std::process::exit;

fn main() {
    println!("cargo:rerun-if-env-changed=ZORPEDI_LIB_DIR");
    let here = PathBuf::from(env::var_os("CARGO_MANIFEST_DIR").unwrap_or_default());
    let dir = match env::var_os("ZORPEDI_LIB_DIR") {
        Some(dir) => PathBuf::from(dir),
        None => here.join("../target/staticlib"),
    };
    let archive = dir.join("libzorpedi.a");
    println!("cargo:rerun-if-changed={}", archive.display());
    if !archive.is_file() {
        eprintln!(
            "{} is not there. Run `tools/archive` in the repository, or set ZORPEDI_LIB_DIR to its folder.",
            archive.display()
        );
        exit(1);
    }
    println!("cargo:rustc-link-search=native={}", dir.display());
    println!("cargo:rustc-link-lib=static=zorpedi");
}
