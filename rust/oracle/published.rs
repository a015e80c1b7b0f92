//! For the build scripts of the oracle's crates: finds the folder of the published files and writes the module
//! declarations that compile them from where they stand.
//!
//! The folder's place is known only when the build runs, and `#[path]` takes nothing but a literal. So a build
//! script writes the declarations into its output folder, with the literal filled in, and the crate includes them.

use std::env;
use std::fs;
use std::path::{Path, PathBuf};

/// Names the folder that holds `crypto/`, if it is not beside the project.
const VARIABLE: &str = "LAMBDA_VM_SRC";

/// Where that folder is beside the project, seen from the project's root.
const BESIDE_PROJECT: &str = "../shared/docs/src";

/// A published file to compile as a module.
pub struct Module {
    /// The name that other published files use for it.
    pub name: &'static str,
    /// The file, seen from the folder that holds `crypto/`.
    pub file: &'static str,
}

/// Writes `pub mod` declarations for `modules` into the file `declarations` of the build's output folder, or tells
/// Cargo to stop where a file is absent. `root` leads from the crate to the project's root.
pub fn declare(modules: &[Module], root: &str, declarations: &str) {
    println!("cargo::rerun-if-env-changed={VARIABLE}");
    let folder = folder(root);
    let mut text = String::new();
    for module in modules {
        let file = folder.join(module.file);
        println!("cargo::rerun-if-changed={}", file.display());
        if !file.is_file() {
            stop(&file);
            return;
        }
        // Debug formatting writes the path as a string literal, with its escapes.
        text += &format!("#[path = {file:?}]\npub mod {};\n", module.name);
    }
    let out = env::var_os("OUT_DIR").expect("Cargo sets OUT_DIR for a build script");
    fs::write(Path::new(&out).join(declarations), text).expect("the build's output folder is writable");
}

fn folder(root: &str) -> PathBuf {
    // A set but empty variable counts as unset: that is how a shell clears one for a single command.
    let given = env::var_os(VARIABLE).filter(|value| !value.is_empty());
    let package = env::var_os("CARGO_MANIFEST_DIR").expect("Cargo sets CARGO_MANIFEST_DIR");
    absolute(match given {
        Some(value) => PathBuf::from(value),
        None => absolute(Path::new(&package).join(root)).join(BESIDE_PROJECT),
    })
}

/// `#[path]` reads a relative path from the including file's folder, so the literal has to be absolute. A folder that
/// is absent has no absolute form; it is named as it was given in the message that follows.
fn absolute(folder: PathBuf) -> PathBuf {
    folder.canonicalize().unwrap_or(folder)
}

fn stop(file: &Path) {
    println!(
        "cargo::error=the published Rust is not there: {} is no file",
        file.display()
    );
    println!(
        "cargo::error=set {VARIABLE} to the absolute path of the folder that holds \
         crypto/math/src/field/goldilocks.rs, or put that folder at {BESIDE_PROJECT}, seen from the project's root"
    );
}
