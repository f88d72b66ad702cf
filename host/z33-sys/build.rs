//! Links libz33.a from the folder in Z33_LIB_DIR, or from where `./install` puts the one that it builds.

use std::env;
use std::path::{Path, PathBuf};

fn main() {
    println!("cargo::rerun-if-env-changed=Z33_LIB_DIR");
    let folder = given_or_written();
    let library = folder.join("libz33.a");
    println!("cargo::rerun-if-changed={}", library.display());
    if library.is_file() {
        println!("cargo::rustc-link-search=native={}", folder.display());
        println!("cargo::rustc-link-lib=static=z33");
    } else {
        println!(
            "cargo::error=libz33.a is not in {}: ./install builds it, Z33_LIB_DIR names another folder",
            folder.display()
        );
    }
}

/// The repository is two folders up from this crate.
fn given_or_written() -> PathBuf {
    match env::var_os("Z33_LIB_DIR") {
        Some(given) => PathBuf::from(given),
        None => {
            let repository = Path::new(env!("CARGO_MANIFEST_DIR")).ancestors().nth(2);
            repository.expect("host/z33 lies in the repository").join("target/staticlib")
        }
    }
}
