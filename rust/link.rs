// SPDX-License-Identifier: MIT
//! Build script of every package that calls the sealing layer. It links the
//! static library that the package names under `links`.
//!
//! The archive is taken from the folder that SFRAME_LIB_DIR names; else from
//! `target/staticlib` (for 64-bit Arm `target/aarch64`) of the repository that
//! the package is in; else, for this machine's own target, from where `make
//! install` has put it, by pkg-config. Where it is in none of them, all goes on
//! but linking.

use std::env;
use std::path::{Path, PathBuf};
use std::process::Command;

fn main() {
    println!("cargo::rerun-if-changed=build.rs");
    let library = variable("CARGO_MANIFEST_LINKS");
    let archive = format!("lib{library}.a");
    match folder(&library, &archive) {
        Some(folder) => {
            println!("cargo::rerun-if-changed={}", folder.join(archive).display());
            println!("cargo::rustc-link-search=native={}", folder.display());
            println!("cargo::rustc-link-lib=static={library}");
        }
        // The linker looks for a library of this name, and says that there is none.
        None => println!(
            "cargo::rustc-link-lib=static:+verbatim={archive} (`make install` of a release installs it, \
             `scripts/libraries {library}` in the repository builds it; {})",
            match env::var("SFRAME_LIB_DIR") {
                Ok(folder) => format!(
                    "it is not in SFRAME_LIB_DIR, {}",
                    folder.replace([':', '='], "?")
                ),
                Err(_) if crossing() => "for another target SFRAME_LIB_DIR names its folder".into(),
                Err(_) => "or SFRAME_LIB_DIR names its folder".into(),
            }
        ),
    }
}

/// The folder that has the archive.
fn folder(library: &str, archive: &str) -> Option<PathBuf> {
    println!("cargo::rerun-if-env-changed=SFRAME_LIB_DIR");
    let folders = match env::var_os("SFRAME_LIB_DIR") {
        Some(folder) => named(Path::new(&folder)),
        None => built().chain(installed(library)).collect(),
    };
    for folder in &folders {
        if let Ok(archive) = folder.join(archive).canonicalize() {
            return archive.parent().map(Path::to_path_buf);
        }
        // It may be there later.
        println!("cargo::rerun-if-changed={}", folder.join(archive).display());
    }
    None
}

/// A folder that is named by the caller. A relative path is one from where cargo
/// was called, or else from a folder above the package or above what is built.
fn named(folder: &Path) -> Vec<PathBuf> {
    if folder.is_absolute() {
        return vec![folder.to_path_buf()];
    }
    println!("cargo::rerun-if-env-changed=PWD");
    let called = env::var_os("PWD").map(PathBuf::from);
    called
        .into_iter()
        .chain(above())
        .map(|path| path.join(folder))
        .collect()
}

/// The folder of what was built, in a folder above the package or above what is
/// built from it.
fn built() -> impl Iterator<Item = PathBuf> {
    let folder = match &*variable("CARGO_CFG_TARGET_ARCH") {
        "aarch64" => "target/aarch64",
        _ => "target/staticlib",
    };
    above().map(move |path| path.join(folder))
}

/// Every folder above the package, and above what is built from it.
fn above() -> impl Iterator<Item = PathBuf> {
    ["CARGO_MANIFEST_DIR", "OUT_DIR"]
        .into_iter()
        .flat_map(|name| {
            let path = PathBuf::from(variable(name));
            path.ancestors().map(Path::to_path_buf).collect::<Vec<_>>()
        })
}

/// The folder of what is installed on this machine, for its own processor.
fn installed(library: &str) -> Option<PathBuf> {
    println!("cargo::rerun-if-env-changed=PKG_CONFIG_PATH");
    println!("cargo::rerun-if-env-changed=PKG_CONFIG_LIBDIR");
    if crossing() {
        return None;
    }
    let name = format!("ruddoshan-{}", library.strip_suffix("_c")?);
    let mut command = Command::new("pkg-config");
    let output = command.arg("--variable=libdir").arg(name).output().ok()?;
    let folder = String::from_utf8(output.stdout).ok()?;
    (output.status.success() && !folder.trim().is_empty()).then(|| PathBuf::from(folder.trim()))
}

/// Whether what is built is for another target than this machine.
fn crossing() -> bool {
    variable("HOST") != variable("TARGET")
}

/// A variable that cargo sets for every build script.
fn variable(name: &str) -> String {
    env::var(name).unwrap_or_else(|_| panic!("cargo sets {name}"))
}
