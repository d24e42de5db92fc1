//! Finds the proved library's archive: in `SKAVELDRO_LIB_DIR`, or where `scripts/staticlib` writes it.

#![forbid(unsafe_code)]

use std::env;
use std::path::{Path, PathBuf};

const ARCHIVE: &str = "libskaveldro.a";

fn main() {
    println!("cargo::rerun-if-env-changed=SKAVELDRO_LIB_DIR");
    let directory = match env::var_os("SKAVELDRO_LIB_DIR") {
        Some(directory) => PathBuf::from(directory),
        None => Path::new(env!("CARGO_MANIFEST_DIR")).join("../../crates/skaveldro/out"),
    };
    let archive = directory.join(ARCHIVE);
    println!("cargo::rerun-if-changed={}", archive.display());
    match directory.canonicalize() {
        Ok(directory) if archive.is_file() => {
            println!("cargo::rustc-link-search=native={}", directory.display());
            println!("cargo::rustc-link-lib=static=skaveldro");
        }
        _ => println!(
            "cargo::error=there is no {}: run scripts/staticlib first, or set SKAVELDRO_LIB_DIR to the directory that has {ARCHIVE}",
            archive.display()
        ),
    }
}
