//! Links libamv.a, from the folder that AMV_LIB_DIR names or from where build-library.sh puts it.
use std::path::{Path, PathBuf};

fn main() {
    println!("cargo:rerun-if-env-changed=AMV_LIB_DIR");
    let root = Path::new(env!("CARGO_MANIFEST_DIR")).join("../..");
    let named = std::env::var_os("AMV_LIB_DIR").filter(|dir| !dir.is_empty());
    let dir = named.map_or_else(|| root.join("target/lib"), PathBuf::from);
    let library = dir.join("libamv.a");
    println!("cargo:rerun-if-changed={}", library.display());
    if !library.is_file() {
        eprintln!("amv: there is no {}", library.display());
        eprintln!(
            "amv: run {}/build-library.sh, which makes it, or set AMV_LIB_DIR to the folder of an installed libamv.a",
            root.canonicalize().unwrap_or(root).display()
        );
        std::process::exit(1);
    }
    println!("cargo:rustc-link-search=native={}", dir.display());
    println!("cargo:rustc-link-lib=static=amv");
}
