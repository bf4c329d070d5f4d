//! Links the archive librig.a: from the folder that BERZULKA_LIB names, else from target/staticlib of the repository,
//! where `tests/boundary/librig.sh` writes it.

use std::env;
use std::path::{Path, PathBuf};
use std::process::exit;

/// The folder that the archive is in.
fn folder() -> PathBuf {
    let rust = PathBuf::from(env::var_os("CARGO_MANIFEST_DIR").expect("cargo says where the package is"));
    match env::var_os("BERZULKA_LIB") {
        // a relative path counts from rust/
        Some(named) => rust.join(named),
        None => rust.parent().unwrap_or(Path::new("..")).join("target/staticlib"),
    }
}

fn main() {
    let folder = folder();
    let archive = folder.join("librig.a");
    println!("cargo:rerun-if-env-changed=BERZULKA_LIB");
    println!("cargo:rerun-if-changed={}", archive.display());
    if !archive.is_file() {
        eprintln!("{} is not there.", archive.display());
        eprintln!("Make it at the top of the repository:  tests/boundary/librig.sh");
        eprintln!("or name the folder that it is in:      BERZULKA_LIB=FOLDER");
        exit(1);
    }
    println!("cargo:rustc-link-search=native={}", folder.display());
    println!("cargo:rustc-link-lib=static=rig");
}
