//! Links libcedunmi_c.a, which `make` makes. The folder is
//! `target/staticlib` of the repository, or CEDUNMI_LIB_DIR where that is set.

use std::env;
use std::path::{Path, PathBuf};

fn main() {
    let made = Path::new(env!("CARGO_MANIFEST_DIR")).join("../../../target/staticlib");
    let folder = env::var_os("CEDUNMI_LIB_DIR").map_or(made, PathBuf::from);
    let archive = folder.join("libcedunmi_c.a");
    if !archive.is_file() {
        eprintln!("{} is missing: run `make`", archive.display());
        std::process::exit(1);
    }
    println!("cargo:rustc-link-search=native={}", folder.display());
    println!("cargo:rustc-link-lib=static=cedunmi_c");
    println!("cargo:rerun-if-changed={}", archive.display());
    println!("cargo:rerun-if-env-changed=CEDUNMI_LIB_DIR");
}
