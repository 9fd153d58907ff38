//! Links liboven.a from the folder that OVEN_LIBRARY names.

use std::path::Path;
use std::{env, process};

fn main() {
    println!("cargo:rerun-if-env-changed=OVEN_LIBRARY");
    let folder = env::var("OVEN_LIBRARY")
        .unwrap_or_else(|_| missing("OVEN_LIBRARY is not set. It names the folder, by its whole path, that has liboven.a in it."));
    let archive = Path::new(&folder).join("liboven.a");
    if !archive.is_absolute() || !archive.is_file() {
        missing(&format!("There is no file {}. OVEN_LIBRARY names the folder, by its whole path, that has liboven.a in it.", archive.display()));
    }
    println!("cargo:rerun-if-changed={}", archive.display());
    println!("cargo:rustc-link-search=native={folder}");
    println!("cargo:rustc-link-lib=static=oven");
}

/// Says what is missing, and ends the build.
fn missing(what: &str) -> ! {
    eprintln!("{what}");
    process::exit(1)
}
