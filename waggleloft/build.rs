//! Links the archive libwaggleloft.a: from the folder that WAGGLELOFT_ARCHIVE_DIR names, or from this
//! repository's target/staticlib.

use std::path::{Path, PathBuf};

fn main() {
    println!("cargo:rerun-if-env-changed=WAGGLELOFT_ARCHIVE_DIR");
    let folder = match std::env::var_os("WAGGLELOFT_ARCHIVE_DIR") {
        Some(folder) => PathBuf::from(folder),
        None => {
            let package =
                std::env::var("CARGO_MANIFEST_DIR").expect("cargo sets CARGO_MANIFEST_DIR");
            Path::new(&package).join("../target/staticlib")
        }
    };
    let archive = folder.join("libwaggleloft.a");
    println!("cargo:rerun-if-changed={}", archive.display());
    if !archive.is_file() {
        eprintln!("{} is missing: run `./archive` first", archive.display());
        std::process::exit(1);
    }
    println!("cargo:rustc-link-search=native={}", folder.display());
    println!("cargo:rustc-link-lib=static=waggleloft");
}
