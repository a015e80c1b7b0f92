//! Links the project's static libraries.

use std::env;
use std::path::{Path, PathBuf};

/// What include/cir.h declares: the field's calls, the builder's on words and on bytes, those on stored
/// files, and those on programs and blobs on words and on bytes.
const LIBRARIES: [&str; 6] = [
    "host_field",
    "host_builder",
    "host_builder_bytes",
    "host_stored",
    "host",
    "host_bytes",
];

/// Names the folder that holds them, if it is not where the toolchain puts them.
const VARIABLE: &str = "HOST_LIB_DIR";

/// The project's root, seen from this crate, and the folder in it where the toolchain puts them.
const ROOT: &str = "../..";
const BUILT: &str = "target/staticlib";

fn main() {
    println!("cargo::rerun-if-env-changed={VARIABLE}");
    // For the test that holds the declarations to each other.
    println!("cargo::rustc-env=HOST_LIBRARIES={}", LIBRARIES.join(" "));
    // A set but empty variable counts as unset: that is how a shell clears one for a single command.
    let given = env::var_os(VARIABLE).filter(|value| !value.is_empty());
    let package = env::var_os("CARGO_MANIFEST_DIR").expect("Cargo sets CARGO_MANIFEST_DIR");
    let folder = absolute(match given {
        Some(value) => PathBuf::from(value),
        None => absolute(Path::new(&package).join(ROOT)).join(BUILT),
    });
    println!("cargo::rustc-link-search=native={}", folder.display());
    for library in LIBRARIES {
        let archive = folder.join(format!("lib{library}.a"));
        println!("cargo::rerun-if-changed={}", archive.display());
        if !archive.is_file() {
            println!(
                "cargo::error=a static library is not there: {} is no file",
                archive.display()
            );
            println!(
                "cargo::error=run `./libraries` in the project's root first, \
                 or set {VARIABLE} to the absolute path of the folder that holds the six libraries"
            );
            return;
        }
        println!("cargo::rustc-link-lib=static={library}");
    }
}

/// The linker runs in another folder, so a relative path would be read from there. A folder that is absent has no
/// absolute form; it is named as it was given in the message that follows.
fn absolute(folder: PathBuf) -> PathBuf {
    folder.canonicalize().unwrap_or(folder)
}
