// SPDX-License-Identifier: MIT
//! Looks for the C libraries that the bench can compare with. Where one's header
//! is found, its part in `others/` is compiled and the library is linked. Where
//! `SFRAME_EARLIER_DIR` names a folder, the layer's archive there is linked too,
//! its functions under other names.

use std::env;
use std::path::Path;
use std::process::Command;

/// A library: the name of its part, a header of it, and what it is linked by.
const LIBRARIES: [(&str, &str, &str); 4] = [
    ("bearssl", "bearssl.h", "bearssl"),
    ("nettle", "nettle/gcm.h", "nettle"),
    ("openssl", "openssl/evp.h", "crypto"),
    ("tomcrypt", "tomcrypt.h", "tomcrypt"),
];

/// The functions of an earlier layer that are called, without their `sframe_`.
const EARLIER: [&str; 6] = [
    "make",
    "add_sending",
    "add_receiving",
    "remove",
    "seal",
    "open",
];

fn main() {
    println!("cargo::rerun-if-changed=others");
    println!("cargo::rerun-if-env-changed=CPATH");
    println!("cargo::rerun-if-env-changed=SFRAME_EARLIER_DIR");
    println!("cargo::rustc-check-cfg=cfg(has_earlier)");
    if let Some(folder) = env::var_os("SFRAME_EARLIER_DIR") {
        match rename(&Path::new(&folder).join("libsframe_c.a")) {
            Ok(()) => println!("cargo::rustc-cfg=has_earlier"),
            Err(why) => println!("cargo::error=SFRAME_EARLIER_DIR: {why}"),
        }
    }
    for (name, header, library) in LIBRARIES {
        println!("cargo::rustc-check-cfg=cfg(has_{name})");
        if has_header(name, header) {
            match compile(name, library) {
                Ok(()) => println!("cargo::rustc-cfg=has_{name}"),
                Err(why) => println!("cargo::error=others/{name}.c: {why}"),
            }
        }
    }
}

/// The C compiler, which also looks into a folder of the library's own.
fn compiler(name: &str) -> Command {
    let mut command = Command::new("cc");
    command.arg(format!("-I/usr/include/{name}"));
    command
}

/// Whether the C compiler finds the library's header.
fn has_header(name: &str, header: &str) -> bool {
    compiler(name)
        .args(["-E", "-include", header, "-x", "c", "/dev/null"])
        .output()
        .is_ok_and(|output| output.status.success())
}

/// Compiles the part of `others/` that calls the library, and links both.
fn compile(name: &str, library: &str) -> Result<(), String> {
    let folder = env::var("OUT_DIR").map_err(|error| error.to_string())?;
    let object = Path::new(&folder).join(format!("{name}.o"));
    let archive = Path::new(&folder).join(format!("libothers_{name}.a"));
    run(compiler(name)
        .args(["-std=c99", "-O2", "-Wall", "-Wextra", "-Werror", "-c"])
        .arg(format!("others/{name}.c"))
        .arg("-o")
        .arg(&object))?;
    run(Command::new("ar").arg("crs").arg(&archive).arg(&object))?;
    println!("cargo::rustc-link-search=native={folder}");
    println!("cargo::rustc-link-lib=static=others_{name}");
    println!("cargo::rustc-link-lib={library}");
    Ok(())
}

/// Links an earlier layer. All its names are its own but those of the functions,
/// which begin with `earlier_`.
fn rename(archive: &Path) -> Result<(), String> {
    println!("cargo::rerun-if-changed={}", archive.display());
    let folder = env::var("OUT_DIR").map_err(|error| error.to_string())?;
    let renamed = Path::new(&folder).join("libearlier.a");
    let mut command = Command::new("objcopy");
    for name in EARLIER {
        command.arg(format!("--redefine-sym=sframe_{name}=earlier_{name}"));
        command.arg(format!("--keep-global-symbol=earlier_{name}"));
    }
    run(command.arg(archive).arg(renamed))?;
    println!("cargo::rustc-link-search=native={folder}");
    println!("cargo::rustc-link-lib=static=earlier");
    Ok(())
}

fn run(command: &mut Command) -> Result<(), String> {
    let output = command.output().map_err(|error| error.to_string())?;
    if output.status.success() {
        Ok(())
    } else {
        Err(String::from_utf8_lossy(&output.stderr).replace('\n', " "))
    }
}
