//! Links the static library that `tools/archive.py` writes.

use std::env;
use std::path::PathBuf;

fn main() {
    println!("cargo::rerun-if-env-changed=CELLANG_LIBRARY_FOLDER");
    let target = env::var("TARGET").unwrap_or_default();
    if !target.starts_with("x86_64-") || !target.contains("linux") {
        println!("cargo::error=the static library is for x86-64 Linux, and the target is {target}");
        return;
    }
    let folder = match env::var_os("CELLANG_LIBRARY_FOLDER") {
        Some(folder) => PathBuf::from(folder),
        None => {
            let here = PathBuf::from(env::var_os("CARGO_MANIFEST_DIR").unwrap_or_default());
            here.join("../../target/staticlib")
        }
    };
    let library = folder.join("libcellang.a");
    println!("cargo::rerun-if-changed={}", library.display());
    if !library.is_file() {
        println!("cargo::error=target/staticlib/libcellang.a is missing: run `tools/archive.py` first");
        return;
    }
    println!("cargo::rustc-link-search=native={}", folder.display());
    println!("cargo::rustc-link-lib=static=cellang");
}
