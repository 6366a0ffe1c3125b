//! Links the proved store: `YK_LIB_DIR` is the folder of libembed.a, which `./archive` writes.

use std::path::PathBuf;
use std::{env, process};

fn main() {
    println!("cargo:rerun-if-env-changed=YK_LIB_DIR");
    let folder = env::var_os("YK_LIB_DIR").map(PathBuf::from).unwrap_or_default();
    let archive = folder.join("libembed.a");
    if !folder.is_absolute() || !archive.is_file() {
        eprintln!(
            "YK_LIB_DIR must be the full path of the folder of libembed.a, which `./archive` writes"
        );
        process::exit(1);
    }
    println!("cargo:rerun-if-changed={}", archive.display());
    println!("cargo:rustc-link-search=native={}", folder.display());
    println!("cargo:rustc-link-lib=static=embed");
}
