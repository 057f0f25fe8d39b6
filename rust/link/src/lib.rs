//! For build scripts: links a static library of the Rattle side, which `rt lib` makes in the folder of its crate.
#![forbid(unsafe_code)]

use std::env;
use std::path::{Path, PathBuf};
use std::process::exit;

/// Names another directory for the libraries, to try some that were made elsewhere.
const DIRECTORY: &str = "ORDER_STATICLIB";

/// Links `libNAME.a` into the crate of the build script, and says where it stands. Without it the build ends here.
pub fn link(name: &str) -> PathBuf {
    let root = Path::new(env!("CARGO_MANIFEST_DIR")).ancestors().nth(2).expect("the crate stands in rust/");
    let directory = env::var_os(DIRECTORY).map_or(root.join("crates").join(name).join("out"), PathBuf::from);
    let archive = directory.join(format!("lib{name}.a"));
    println!("cargo:rerun-if-env-changed={DIRECTORY}");
    println!("cargo:rerun-if-changed={}", archive.display());
    if !archive.is_file() {
        eprintln!(
            "{} is missing: run `rt lib` in the folder crates/{name} of the repository",
            archive.display()
        );
        exit(1);
    }
    println!("cargo:rustc-link-search=native={}", directory.display());
    println!("cargo:rustc-link-lib=static={name}");
    archive
}
