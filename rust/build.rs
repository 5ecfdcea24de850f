//! Links the archive that the repository builds, or the one in the folder that WULFRENDA_LIB_DIR names (a relative path begins at this folder).

use std::path::PathBuf;
use std::{env, process};

fn main() {
    println!("cargo:rerun-if-env-changed=WULFRENDA_LIB_DIR");
    let here = PathBuf::from(env!("CARGO_MANIFEST_DIR"));
    let folder = match env::var_os("WULFRENDA_LIB_DIR") {
        Some(folder) => here.join(folder),
        None => here.join("../target/staticlib"),
    };
    let archive = folder.join("libwulfrenda.a");
    println!("cargo:rerun-if-changed={}", archive.display());
    if !archive.is_file() {
        eprintln!("{} is missing: run tools/archive in the repository's root, or set WULFRENDA_LIB_DIR to the folder of libwulfrenda.a", archive.display());
        process::exit(1);
    }
    println!("cargo:rustc-link-search=native={}", folder.display());
    println!("cargo:rustc-link-lib=static=wulfrenda");
}
