//! Links libclubcard.a: that of the folder that the variable CLUBCARD_LIBRARY names (or the folder of the file that it
//! names, as the module for Python reads it), else that of `release/` of the project.

use std::env;
use std::path::{Path, PathBuf};

/// The folder of the library.
fn folder() -> PathBuf {
    match env::var_os("CLUBCARD_LIBRARY").map(PathBuf::from) {
        Some(file) if file.is_file() => file.parent().map(Path::to_path_buf).unwrap_or_default(),
        Some(folder) => folder,
        None => Path::new(env!("CARGO_MANIFEST_DIR")).join("../../release"),
    }
}

fn main() {
    let folder = folder();
    let library = folder.join("libclubcard.a");
    println!("cargo:rerun-if-env-changed=CLUBCARD_LIBRARY");
    println!("cargo:rerun-if-changed={}", library.display());
    assert!(library.is_file(), "{} isn't there; CLUBCARD_LIBRARY may name its folder", library.display());
    println!("cargo:rustc-link-search=native={}", folder.display());
    println!("cargo:rustc-link-lib=static=clubcard");
}
