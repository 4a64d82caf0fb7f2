//! Names the three published files to the compiler. Their text is taken as it stands, from the directory in AMV_ORIGINAL; it is
//! never written into the repository. After the text of demuxer.rs and muxer.rs, in the same module, come a few functions of our
//! own (src/reach), because the states that are compared are private fields there.

use std::path::{Path, PathBuf};
use std::{env, fs};

fn main() {
    println!("cargo:rerun-if-env-changed=AMV_ORIGINAL");
    let dir = PathBuf::from(env::var("AMV_ORIGINAL").expect("AMV_ORIGINAL names no directory"));
    let modules = ["parse", "demuxer", "muxer"]
        .map(|name| module(&dir, name))
        .concat();
    let out = PathBuf::from(env::var("OUT_DIR").unwrap());
    fs::write(out.join("modules.rs"), modules).unwrap();
}

fn module(dir: &Path, name: &str) -> String {
    let file = dir.join(name).with_extension("rs");
    println!("cargo:rerun-if-changed={}", file.display());
    let text = fs::read_to_string(&file).unwrap_or_else(|e| panic!("{}: {e}", file.display()));
    let ours = Path::new(&env::var("CARGO_MANIFEST_DIR").unwrap())
        .join("src/reach")
        .join(name)
        .with_extension("rs");
    format!("pub mod {name} {{\n{text}\ninclude!({ours:?});\n}}\n")
}
