//! Links `libdigest.a` and `libcutting.a`, which `tools/staticlibs` builds. The
//! environment's `STATICLIB_FOLDER` names another folder that has them.

use std::env;
use std::path::{Path, PathBuf};

fn main() {
    let folder = match env::var_os("STATICLIB_FOLDER") {
        Some(folder) => PathBuf::from(folder),
        None => Path::new(env!("CARGO_MANIFEST_DIR")).join("../target/staticlib"),
    };
    println!("cargo:rerun-if-env-changed=STATICLIB_FOLDER");
    println!("cargo:rustc-link-search=native={}", folder.display());
    for library in ["cutting", "digest"] {
        println!(
            "cargo:rerun-if-changed={}",
            folder.join(format!("lib{library}.a")).display()
        );
        println!("cargo:rustc-link-lib=static={library}");
    }
}
