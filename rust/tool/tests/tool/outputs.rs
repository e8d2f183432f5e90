// SPDX-License-Identifier: MIT
//! Where results go: no file is lost, and no counter for a result that has no
//! place.

use super::folder::{done, Folder};
use std::os::unix::fs::symlink;

/// The next counter of the ward's key.
fn next(folder: &Folder) -> u64 {
    let list = String::from_utf8(folder.done("list ward --json")).unwrap();
    let (_, rest) = list.split_once("\"next_counter\": \"").unwrap();
    rest.split_once('"').unwrap().0.parse().unwrap()
}

fn folder(name: &str) -> Folder {
    let folder = Folder::with_stores(name, 4);
    folder.write("picture", &[7; 200]);
    folder
}

#[test]
fn a_file_stays_unless_forced() {
    let folder = folder("force");
    let seal = "seal ward --kid 200 --in picture --out frame";
    folder.write("frame", b"before");
    folder.set_mode("frame", 0o640);
    let message = folder.fails(seal, 74);
    assert!(message.contains("--force would replace it"), "{message}");
    assert_eq!(
        (folder.read("frame"), next(&folder)),
        (b"before".to_vec(), 0)
    );

    folder.done(&format!("{seal} --force"));
    assert_eq!(
        (folder.read("frame").len(), folder.mode("frame")),
        (2 + 200 + 16, 0o640)
    );
    let open = "open doctor --in frame --out opened";
    folder.write("opened", b"before");
    folder.fails(open, 74);
    folder.done(&format!("{open} --force"));
    assert_eq!(folder.read("opened"), [7; 200]);

    // A link stays one.
    symlink("frame", folder.path("link")).unwrap();
    folder.done("seal ward --kid 200 --in picture --out link --force");
    assert!(folder.path("link").is_symlink());
    assert!(folder
        .done("header --in frame")
        .starts_with(b"key number 200, counter 1,"));
}

/// Also by force no store, lock, log or key is replaced, and no counter is used.
#[test]
fn what_is_never_replaced() {
    let folder = folder("never");
    folder.write("hex.key", &b"07".repeat(16));
    folder.anew("seal ward --kid 200 --in picture --out frame --log log");
    folder.write("copy", &folder.read("doctor"));
    let before: Vec<_> = folder.files().iter().map(|f| folder.read(f)).collect();
    for (out, status) in [
        ("ward", 64),
        ("./ward", 64),
        ("doctor", 74),
        ("copy", 74),
        ("ward.lock", 64),
        ("nobody.lock", 64),
        (".ward.new", 64),
        ("log", 74),
        ("key", 74),
        ("hex.key", 74),
        (".", 64),
    ] {
        let line = format!("seal ward --kid 200 --in picture --out {out} --force");
        folder.fails(&line, status);
    }
    let line = "seal ward --kid 200 --in picture --out log --log log --force";
    folder.fails(line, 64);
    folder.fails("open doctor --in frame --out doctor --force", 64);
    folder.fails("open doctor --in frame --out ward --force", 74);
    let after: Vec<_> = folder.files().iter().map(|f| folder.read(f)).collect();
    assert!(before == after);
    // A key has no force.
    folder.fails(
        "ratchet --suite 4 --key key --steps 1 --out key --force",
        64,
    );
    folder.fails("keygen --out key", 74);
    assert_eq!(folder.read("key"), [7; 32]);
}

/// What is wrong with a place is found before a counter is used.
#[test]
fn a_place_that_cannot_be_had() {
    let folder = folder("no-place");
    std::fs::create_dir(folder.path("folder")).unwrap();
    symlink("nowhere", folder.path("dangling")).unwrap();
    let before = folder.files();
    for out in ["no/where", "folder", "dangling", "picture/x", "ward/x"] {
        let line = format!("seal ward --kid 200 --in picture --out {out} --force");
        folder.fails(&line, 74);
    }
    assert_eq!((folder.files(), next(&folder)), (before, 0));
    assert!(folder.path("dangling").is_symlink());
}

/// Nothing else than the result is left.
#[test]
fn nothing_is_left_beside() {
    let folder = folder("beside");
    folder.done("seal ward --kid 200 --in picture --out frame");
    folder.fails("open doctor --in picture --out opened", 6);
    folder.fails("seal ward --kid 9 --in picture --out other", 6);
    folder.fails("seal ward --kid 200 --in nowhere --out other", 74);
    let files = [
        "doctor",
        "doctor.lock",
        "frame",
        "key",
        "picture",
        "ward",
        "ward.lock",
    ];
    assert_eq!(folder.files(), files);
}

/// A disk that takes 512 or 1024 bytes of a file at most.
fn on_a_full_disk(folder: &Folder, line: &str) -> std::process::Output {
    let limit = r#"trap "" XFSZ; ulimit -f 1; exec "$@""#;
    let tool = folder.command(line);
    let mut shell = std::process::Command::new("sh");
    shell.args(["-c", limit, "sh"]).arg(tool.get_program());
    shell.args(tool.get_args()).current_dir(folder.path("."));
    shell.output().unwrap()
}

#[test]
fn a_full_disk() {
    let folder = folder("full");
    folder.write("picture", &[7; 20_000]);
    let files = folder.files();
    let seal = "seal ward --kid 200 --in picture --out frame";
    let output = on_a_full_disk(&folder, seal);
    assert_eq!(output.status.code(), Some(74));
    assert_eq!((folder.files(), next(&folder)), (files, 1));

    folder.write("frame", b"before");
    let output = on_a_full_disk(&folder, &format!("{seal} --force"));
    assert_eq!(output.status.code(), Some(74));
    assert_eq!(
        (folder.read("frame"), next(&folder)),
        (b"before".to_vec(), 2)
    );

    // A key, a store and a log likewise.
    folder.write("log", &[1; 16 * 200]);
    for line in [
        "make large --keys 1024",
        "seal ward --kid 200 --in key --out small --log log",
    ] {
        assert_eq!(on_a_full_disk(&folder, line).status.code(), Some(74));
    }
    assert_eq!(folder.read("log"), [1; 16 * 200]);
    for file in ["large", ".large.new", "small", ".log.new"] {
        assert!(!folder.path(file).exists(), "{file}");
    }
}

/// A log that was begun as one stays as it was, too.
#[test]
fn a_full_disk_and_a_log_that_was_begun() {
    let folder = folder("full-log");
    folder.done("seal ward --kid 200 --in key --out begun --log log");
    folder.write("log", &[1; 16 * 200]);
    let line = "seal ward --kid 200 --in key --out small --log log";
    assert_eq!(on_a_full_disk(&folder, line).status.code(), Some(74));
    assert_eq!(folder.read("log"), [1; 16 * 200]);
    for file in ["small", ".log.new"] {
        assert!(!folder.path(file).exists(), "{file}");
    }
}

/// A device is written to, and stays one.
#[test]
fn devices() {
    let folder = folder("devices");
    folder.done("seal ward --kid 200 --in picture --out /dev/null");
    assert_eq!(next(&folder), 1);
    let message = folder.fails("seal ward --kid 200 --in picture --out /dev/full", 74);
    assert!(message.contains("/dev/full"), "{message}");
}

/// A run in a shell that does something to standard output.
fn redirected(folder: &Folder, line: &str, how: &str) -> std::process::Output {
    let tool = folder.command(line);
    let mut shell = std::process::Command::new("sh");
    let script = format!("exec \"$@\" {how}");
    shell.args(["-c", &script, "sh"]).arg(tool.get_program());
    shell.args(tool.get_args()).current_dir(folder.path("."));
    shell.output().unwrap()
}

/// Where standard output is closed no counter is used, no frame counts as opened and
/// no key is made. To throw a result away is no mistake.
#[test]
fn standard_output_that_is_closed() {
    let folder = folder("closed");
    let seal = "seal ward --kid 200 --in picture";
    let fails = |line: &str| {
        let message = super::folder::fails(line, 74, redirected(&folder, line, ">&-"));
        assert!(message.contains("standard output: closed"), "{message}");
    };
    fails(seal);
    fails(&format!("{seal} --out -"));
    fails(&format!("{seal} --hex --log log"));
    assert_eq!(next(&folder), 0);
    assert!(!folder.path("log.lock").exists());
    fails("keygen --out -");
    fails("ratchet --suite 4 --key key --steps 1 --out -");

    folder.done(&format!("{seal} --out frame"));
    fails("open doctor --in frame");
    let thrown = "open doctor --in frame";
    done(thrown, redirected(&folder, thrown, ">/dev/null"));
    folder.fails(thrown, 14);
    for how in [">/dev/null", ">>/dev/null", ">frame.2"] {
        done(seal, redirected(&folder, seal, how));
    }
    assert_eq!(next(&folder), 4);
    // A result in a file needs no standard output, and of text nothing is lost.
    let line = format!("{seal} --out frame.3");
    done(&line, redirected(&folder, &line, ">&-"));
    for line in ["list ward", "--version"] {
        done(line, redirected(&folder, line, ">&-"));
    }
}
