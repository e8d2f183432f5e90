// SPDX-License-Identifier: MIT
//! Keys: made, warned of, compared, and never shown.

use super::folder::Folder;
use reference::suites::Suite;

/// What a run that succeeds says on standard error.
#[track_caller]
fn said(folder: &Folder, line: &str) -> String {
    let output = folder.run(line);
    let message = String::from_utf8(output.stderr).unwrap();
    assert_eq!(output.status.code(), Some(0), "{line}: {message}");
    message
}

#[test]
fn keygen() {
    let folder = Folder::new("keygen");
    folder.done("keygen --out raw");
    folder.done("keygen --out other --bytes 64");
    folder.done("keygen --out text --hex --bytes 16");
    assert_eq!((folder.read("raw").len(), folder.mode("raw")), (32, 0o600));
    assert_eq!(folder.read("other").len(), 64);
    let text = String::from_utf8(folder.read("text")).unwrap();
    assert_eq!(text.len(), 33);
    assert!(
        text.trim_end().bytes().all(|b| b.is_ascii_hexdigit()),
        "{text}"
    );
    assert_ne!(folder.read("raw"), folder.read("other")[..32]);
    assert_eq!(folder.done("keygen --out -").len(), 32);

    let before = folder.read("raw");
    let message = folder.fails("keygen --out raw", 74);
    assert!(
        message.contains("a key is never written over one"),
        "{message}"
    );
    for bytes in [0, 15, 65] {
        folder.fails(&format!("keygen --out new --bytes {bytes}"), 3);
    }
    assert_eq!((folder.read("raw"), folder.files().len()), (before, 3));
}

#[test]
fn warnings() {
    let folder = Folder::with_stores("warnings", 4);
    folder.write("line", b"a passphrase, with a newline\n");
    folder.write("digits", &b"07".repeat(32));
    folder.write("open", &[7; 32]);
    let mut kid = 0;
    let mut warned = |key: &str, hex: &str, text: &str| {
        kid += 1;
        folder.done(&format!("make store{kid} --keys 1"));
        let add = format!("add store{kid} --sending --kid {kid} --suite 4 --key {key} {hex}");
        let message = said(&folder, &add);
        match text {
            "" => assert_eq!(message, ""),
            _ => assert!(message.contains(text), "{message}"),
        }
        assert!(message
            .lines()
            .all(|line| line.starts_with("sframe: warning: --key: ")));
        message.lines().count()
    };
    assert_eq!(warned("open", "", ""), 0);
    assert_eq!(warned("line", "", "ends in a newline"), 1);
    assert_eq!(warned("digits", "", "hex digits"), 1);
    assert_eq!(warned("digits", "--hex", ""), 0);
    for mode in [0o640, 0o604, 0o602] {
        folder.set_mode("open", mode);
        assert_eq!(warned("open", "", &format!("(mode {mode:o})")), 1);
    }
    folder.set_mode("line", 0o644);
    assert_eq!(warned("line", "", "others may read"), 2);
    let walk = "ratchet --suite 4 --key line --steps 1 --out walked";
    assert_eq!(said(&folder, walk).lines().count(), 2);
}

/// The last column of the first key.
fn fingerprint(folder: &Folder, store: &str) -> String {
    let list = String::from_utf8(folder.done(&format!("list {store}"))).unwrap();
    let row = list.lines().nth(1).unwrap();
    row.split_whitespace().last().unwrap().into()
}

/// Both ends of a key show one fingerprint. It is one step of HKDF over salt and
/// key, as the second program has it, and no part of either.
#[test]
fn fingerprints() {
    let suites = [
        Suite::Aes128CtrHmacSha256_80,
        Suite::Aes128CtrHmacSha256_64,
        Suite::Aes128CtrHmacSha256_32,
        Suite::Aes128GcmSha256_128,
        Suite::Aes256GcmSha512_128,
    ];
    let mut seen = vec![];
    for (number, suite) in (1..).zip(suites) {
        let folder = Folder::with_stores(&format!("fingerprint-{number}"), number);
        let ward = fingerprint(&folder, "ward");
        assert_eq!(ward, fingerprint(&folder, "doctor"));
        let store = folder.read("ward");
        let step = reference::ratchet::next_key(suite, &store[20..80]);
        let expected: String = step[..8].iter().map(|b| format!("{b:02x}")).collect();
        assert_eq!(ward, expected);
        // It stays while frames are sealed.
        folder.done("seal ward --kid 200 --in key --out frame");
        assert_eq!(fingerprint(&folder, "ward"), ward);
        seen.push(ward);

        folder.write("another", &[8; 32]);
        for (store, kid, key) in [("key-number", 201, "key"), ("key-itself", 200, "another")] {
            folder.done(&format!("make {store} --keys 1"));
            let add = format!("add {store} --receiving --kid {kid} --suite {number} --key {key}");
            folder.done(&add);
            seen.push(fingerprint(&folder, store));
        }
        folder.done("remove ward --kid 200");
        assert_eq!(fingerprint(&folder, "ward"), "-");
    }
    let count = seen.len();
    seen.sort();
    seen.dedup();
    assert_eq!((seen.len(), count), (15, 15));
}

/// Wherever a key is given by mistake, it is not shown.
#[test]
fn a_key_in_a_wrong_place() {
    let folder = Folder::with_stores("wrong-place", 4);
    let key = "00112233445566778899aabbccddeeff";
    for line in [
        format!("add ward --sending --kid {key} --suite 4 --key key"),
        format!("seal ward --kid {key}"),
        format!("seal ward --kid={key}"),
        format!("remove ward --kid 0x{key}"),
        format!("add ward --sending --kid 1 --suite {key} --key key"),
        format!("make store --keys {key}"),
        format!("header --kid 1 --ctr {key}"),
        format!("add ward --sending --kid 1 --suite 4 --key key {key}"),
        format!("--{key}"),
        key.to_string(),
    ] {
        let message = folder.fails(&line, 64);
        assert!(!message.contains("0011"), "{message}");
    }
    let message = folder.fails(&format!("seal ward --kid {key}"), 64);
    assert!(
        message.contains("--kid: not a number of up to 64 bits"),
        "{message}"
    );
}
