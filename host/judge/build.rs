//! Finds the Rust original and writes the module declarations that compile it where it lies.
//! Nothing is copied: `#[path]` names the files themselves.

use std::path::{Path, PathBuf};
use std::{env, fs};

const FILES: [&str; 8] = [
    "constants.rs",
    "runtime/arguments.rs",
    "runtime/exception.rs",
    "runtime/instructions.rs",
    "runtime/io.rs",
    "runtime/memory.rs",
    "runtime/mod.rs",
    "runtime/registers.rs",
];

/// What the stand-ins leave unused in the original. Our own modules are not under it.
const ALLOWED: &str = "#[allow(dead_code, unused_imports, unused_variables, private_interfaces)]";

fn main() {
    println!("cargo::rerun-if-env-changed=Z33_RUST_SRC");
    let root = given_or_beside();
    let Some(folder) = folder_of(&root) else {
        println!(
            "cargo::error=the Rust original is not at {} (Z33_RUST_SRC names another folder)",
            root.display()
        );
        return;
    };
    for file in FILES {
        println!("cargo::rerun-if-changed={}", folder.join(file).display());
    }
    let modules = format!(
        "{ALLOWED}\n#[path = {:?}]\npub mod constants;\n{ALLOWED}\n#[path = {:?}]\npub mod runtime;\n",
        folder.join("constants.rs"),
        folder.join("runtime/mod.rs"),
    );
    let out = PathBuf::from(env::var_os("OUT_DIR").expect("cargo sets OUT_DIR"));
    fs::write(out.join("original.rs"), modules).expect("OUT_DIR can be written");
}

/// The folder of the variable, or the shared folder beside the repository.
fn given_or_beside() -> PathBuf {
    match env::var_os("Z33_RUST_SRC") {
        Some(given) => PathBuf::from(given),
        None => Path::new(env!("CARGO_MANIFEST_DIR")).join("../../../shared/docs/src"),
    }
}

/// The folder with the eight files: the one named, or the crate's own place under it.
fn folder_of(root: &Path) -> Option<PathBuf> {
    [root.to_path_buf(), root.join("crates/emulator/src")]
        .into_iter()
        .find(|folder| FILES.iter().all(|file| folder.join(file).is_file()))
        .and_then(|folder| folder.canonicalize().ok())
}
