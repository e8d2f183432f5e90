// SPDX-License-Identifier: MIT
//! Which files a log is written to, and what a run that is refused leaves.

use super::folder::Folder;

const SEAL: &str = "seal ward --kid 200 --in picture --out frame";
const PIECES: &str = "seal-pieces ward --kid 200 --in picture --out frame";

fn folder(name: &str) -> Folder {
    let folder = Folder::with_stores(name, 4);
    folder.write("picture", b"a picture");
    folder
}

/// Checks that a run fails, and that it leaves every file as it was and no other.
#[track_caller]
fn leaves_all(folder: &Folder, line: &str, status: i32) -> String {
    let files = folder.files();
    let before: Vec<_> = files.iter().map(|file| folder.read(file)).collect();
    let message = folder.fails(line, status);
    assert_eq!(folder.files(), files, "{line}");
    let after: Vec<_> = files.iter().map(|file| folder.read(file)).collect();
    assert!(before == after, "{line}");
    message
}

/// A file that was not begun as a log gets no record, whatever its length: it may be
/// a key, the store of tracks of `moq`, or anything else.
#[test]
fn what_was_not_begun_as_a_log() {
    let folder = folder("no-log");
    folder.write("hex.key", &b"07".repeat(16));
    folder.write("tracks", &[0; 2 * 344]);
    folder.write("tracks.lock", b"");
    folder.write("other", &[9; 160]);
    folder.write("other.lock", b"another program's");
    folder.write("longer", &[9; 160]);
    folder.write("longer.lock", b"log\nof another program");
    for log in ["key", "hex.key", "tracks", "other", "longer"] {
        for seal in [SEAL, PIECES] {
            let message = leaves_all(&folder, &format!("{seal} --log {log}"), 74);
            assert!(message.contains("not begun as a log, by "), "{message}");
            let told = format!("/{log}.lock\": begin a new one");
            assert!(message.contains(&told), "{message}");
        }
    }
    // A log of an earlier version has an empty lock.
    folder.write("earlier", &[0; 16]);
    folder.write("earlier.lock", b"");
    let message = leaves_all(&folder, &format!("{SEAL} --log earlier"), 74);
    assert!(message.contains("an earlier version"), "{message}");
}

/// The lock of a log that is begun says so; one of another program is no lock.
#[test]
fn how_a_log_is_begun() {
    let folder = folder("begun");
    folder.write("empty", b"");
    folder.write("locked", b"");
    folder.write("locked.lock", b"");
    for (place, log) in ["new", "empty", "locked", "gone"].into_iter().enumerate() {
        if log == "gone" {
            folder.write("gone.lock", b"log\n");
        }
        for (seal, length) in [(SEAL, 16), (PIECES, 32)] {
            folder.anew(&format!("{seal} --log {log}"));
            assert_eq!(folder.read(log).len(), length, "{log}");
            assert_eq!(folder.read(&format!("{log}.lock")), b"log\n", "{log}");
        }
        assert_eq!(folder.read(log)[15], 2 * place as u8);
    }
    folder.write("cargo.lock", b"a list of packages");
    folder.write("void", b"");
    folder.write("void.lock", b"a list of packages");
    for log in ["cargo", "void"] {
        let message = leaves_all(&folder, &format!("{SEAL} --log {log} --force"), 74);
        assert!(message.contains("is no lock"), "{message}");
    }
}

/// A store that is made where a log was takes over its lock, which says no more.
#[test]
fn a_store_where_a_log_was() {
    let folder = folder("log-then-store");
    folder.anew(&format!("{SEAL} --log log"));
    std::fs::remove_file(folder.path("log")).unwrap();
    folder.done("make log --keys 2");
    assert_eq!(folder.read("log.lock"), b"");
    // As if it were of tracks.
    folder.write("log", &[0; 2 * 344]);
    leaves_all(&folder, &format!("{SEAL} --force --log log"), 74);
}

/// Nothing else gets the name of a log that is gone: it would be taken for one.
#[test]
fn a_key_where_a_log_was() {
    let folder = folder("log-then-key");
    folder.anew(&format!("{SEAL} --log log"));
    std::fs::remove_file(folder.path("log")).unwrap();
    for line in [
        "keygen --out log",
        "ratchet --suite 4 --key key --steps 1 --out log",
        "seal ward --kid 200 --in picture --out log --force",
        "open doctor --in frame --out log",
    ] {
        let message = leaves_all(&folder, line, 74);
        assert!(message.contains("the name of a log, by "), "{message}");
    }
    std::fs::remove_file(folder.path("log.lock")).unwrap();
    folder.done("keygen --out log");
    leaves_all(&folder, &format!("{SEAL} --force --log log"), 74);
}

/// A run that is refused before it changes anything leaves no lock.
#[test]
fn a_refused_run_leaves_no_lock() {
    let folder = folder("no-lock");
    folder.write("text", b"text");
    let seal = |rest: &str| format!("seal ward --kid 200 {rest}");
    let pieces = |rest: &str| format!("seal-pieces ward --kid 200 {rest}");
    for (line, status) in [
        (seal("--in picture --out lg --log lg"), 64),
        (seal("--in picture --out ./lg --log lg"), 64),
        (seal("--in picture --out lg --log ./lg --force"), 64),
        (pieces("--in picture --out lg --log lg"), 64),
        (pieces("--in picture --out ./lg --log lg"), 64),
        (seal("--in picture --out text --log lg"), 74),
        (pieces("--in picture --out text --log lg"), 74),
        (seal("--in nowhere --out frame --log lg"), 74),
        (pieces("--in nowhere --out frame --log lg"), 74),
        (seal("--in picture --out frame/ --log lg"), 64),
        (seal("--in picture --out frame --log lg/"), 64),
        ("seal text --kid 1 --in picture --log lg".into(), 1),
        ("seal nowhere --kid 1 --in picture --log lg".into(), 74),
        ("make other/ --keys 1".into(), 64),
        ("make other/. --keys 1".into(), 64),
        ("make other/./ --keys 1".into(), 64),
    ] {
        leaves_all(&folder, &line, status);
    }
    // So these names are free.
    folder.done(&seal("--in picture --out lg"));
    folder.done(&seal("--in picture --out lg --force"));
    folder.done("make other --keys 1");
}
