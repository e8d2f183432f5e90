// SPDX-License-Identifier: MIT
//! What the tool does when all is well, and when the caller is wrong.

use super::folder::{done, fails, Folder};

#[test]
fn every_suite_seals_and_opens() {
    for suite in 1..=5 {
        let folder = Folder::with_stores(&format!("suite-{suite}"), suite);
        folder.write("picture", b"a picture");
        folder.write("about", b"ward 3");
        for counter in 0..3 {
            folder.anew("seal ward --kid 200 --in picture --out frame --metadata about");
            let header = folder.done("header --in frame");
            let expected = format!("key number 200, counter {counter}, header of 2 bytes\n");
            assert_eq!(header, expected.as_bytes());
            folder.anew("open doctor --in frame --out opened --metadata about");
            assert_eq!(folder.read("opened"), b"a picture");
        }
    }
}

#[test]
fn streams_and_hex() {
    let folder = Folder::with_stores("streams", 4);
    let seal = "seal ward --kid 200 --hex";
    let hex = done(seal, folder.run_with_input(seal, b"a picture"));
    assert_eq!(hex.len(), 2 * (2 + 9 + 16) + 1);
    let open = "open doctor --hex";
    assert_eq!(done(open, folder.run_with_input(open, &hex)), b"a picture");

    let header = "header --in - --hex";
    let text = done(header, folder.run_with_input(header, &hex));
    assert_eq!(text, b"key number 200, counter 0, header of 2 bytes\n");
    assert_eq!(folder.done("header --kid 200 --ctr 0"), b"80c8\n");
    let text = done(header, folder.run_with_input(header, b"9000c8"));
    assert_eq!(text, b"key number 200, counter 0, header of 3 bytes\n");
}

/// Zero bytes stand before the result. An offset that the tool has no room for is
/// refused, and uses up no counter.
#[test]
fn results_at_an_offset() {
    let folder = Folder::with_stores("offset", 4);
    folder.write("picture", b"a picture");
    let seal = |offset: &str| format!("seal ward --kid 200 --in picture --offset {offset}");
    for offset in ["65537", "18446744073709551615"] {
        folder.fails(&seal(offset), 12);
        folder.fails(&format!("header --kid 1 --ctr 1 --offset {offset}"), 12);
    }
    let widest = folder.done(&seal("65536"));
    assert_eq!(widest.len(), 65_536 + 2 + 9 + 16);

    for offset in [0, 1, 17] {
        folder.anew(&(seal(&offset.to_string()) + " --out packet"));
        let packet = folder.read("packet");
        let (front, frame) = packet.split_at(offset);
        assert_eq!(front, vec![0; offset]);
        assert_eq!(frame.len(), 2 + 9 + 16);
        folder.write("frame", frame);
        assert_eq!(folder.done("open doctor --in frame"), b"a picture");
    }
    let hex = folder.done(&(seal("2") + " --hex"));
    assert!(hex.starts_with(b"000084c8"));
    let header = folder.done("header --kid 200 --ctr 0 --offset 2");
    assert_eq!(header, b"000080c8\n");
}

/// Each sealed frame's pair is put behind the others.
#[test]
fn a_log_of_sealings() {
    let folder = Folder::with_stores("log", 4);
    folder.done("add ward --sending --kid 7 --suite 1 --key key");
    folder.write("picture", b"a picture");
    let pairs = [(200, 0), (200, 1), (7, 0), (200, 2)];
    for (place, (kid, _)) in pairs.into_iter().enumerate() {
        folder.anew(&format!(
            "seal ward --kid {kid} --in picture --out frame --offset {place} --log log"
        ));
    }
    let want: Vec<u8> = pairs
        .into_iter()
        .flat_map(|(kid, ctr): (u64, u64)| [kid.to_be_bytes(), ctr.to_be_bytes()])
        .flatten()
        .collect();
    assert_eq!(folder.read("log"), want);
}

/// A refused sealing, and one whose log cannot be written, log nothing and use
/// up no counter.
#[test]
fn nothing_is_logged() {
    let folder = Folder::with_stores("unlogged", 4);
    folder.write("picture", b"a picture");
    let failed = |line: &str, status: i32| {
        assert_eq!(folder.run(line).status.code(), Some(status), "{line}");
    };
    failed("seal ward --kid 9 --in picture --log log", 6);
    assert!(!folder.path("log").exists());
    folder.write("cut", &[0; 17]);
    folder.write("full", &[0; 65_536]);
    for log in ["cut", "full", "missing/log"] {
        failed(&format!("seal ward --kid 200 --in picture --log {log}"), 74);
    }
    for line in ["--log ward", "--log -", "--log same --out same"] {
        folder.write("same", b"");
        failed(&format!("seal ward --kid 200 --in picture {line}"), 64);
    }
    folder.anew("seal ward --kid 200 --in picture --out frame --log log");
    assert_eq!(folder.read("log")[8..], [0; 8]);
}

/// Raw or in hex, from a file or from standard input, it is the same key.
#[test]
fn ways_to_give_a_key() {
    let folder = Folder::with_stores("keys", 5);
    let text = "07 ".repeat(31) + "07\n";
    folder.write("text", text.as_bytes());
    folder.write("picture", b"a picture");
    folder.anew("seal ward --kid 200 --in picture --out frame");
    for (place, key) in [("first", "--key text --hex"), ("second", "--key - --hex")] {
        folder.done(&format!("make {place} --keys 1"));
        let add = format!("add {place} --receiving --kid 200 --suite 5 {key}");
        done(&add, folder.run_with_input(&add, text.as_bytes()));
        assert_eq!(
            folder.done(&format!("open {place} --in frame")),
            b"a picture"
        );
    }
}

/// A key that is given in the place of its file is not shown.
#[test]
fn a_key_as_an_argument() {
    let folder = Folder::with_stores("no-key", 4);
    let key = "00112233445566778899aabbccddeeff";
    let add = format!("add ward --sending --kid 1 --suite 4 --key {key}");
    for line in [add.clone(), add.clone() + " --hex"] {
        let message = folder.fails(&line, 74);
        assert!(message.starts_with("sframe: --key: "), "{message}");
        assert!(!message.contains("0011"), "{message}");
    }
    folder.write(key, b"no hex");
    let message = folder.fails(&(add + " --hex"), 65);
    assert_eq!(message, "sframe: --key: not hex\n");
}

#[test]
fn list_shows_everything_but_keys() {
    let folder = Folder::with_stores("list", 4);
    folder.write("nothing", b"");
    folder.anew("seal ward --kid 200 --in nothing --out frame");
    folder.done("add ward --sending --kid 0xffffffffffffffff --suite 1 --key key");
    folder.done("remove ward --kid 0xffffffffffffffff");
    let list = String::from_utf8(folder.done("list ward")).unwrap();
    let rows: Vec<Vec<&str>> = list
        .lines()
        .map(|line| line.split_whitespace().collect())
        .collect();
    let suite = ["4", "AES_128_GCM_SHA256_128"].join(" ");
    let shown = &rows[1][..rows[1].len() - 1];
    assert_eq!(shown.join(" "), format!("sending {suite} 200 1 - -"));
    let retired = "retired 1 AES_128_CTR_HMAC_SHA256_80 18446744073709551615 0 - - -";
    assert_eq!(rows[2].join(" "), retired);
    assert_eq!(rows[3].join(" "), "2 of 2 records in use");

    // A receiving key: nothing opened, then the second and the third frame.
    let row = || {
        let list = String::from_utf8(folder.done("list doctor")).unwrap();
        let row: Vec<&str> = list.lines().nth(1).unwrap().split_whitespace().collect();
        row[..row.len() - 1].join(" ")
    };
    assert_eq!(row(), format!("receiving {suite} 200 - - -"));
    for _ in 0..2 {
        folder.anew("seal ward --kid 200 --in nothing --out frame");
        folder.done("open doctor --in frame");
    }
    let window = "0000000000000003";
    assert_eq!(row(), format!("receiving {suite} 200 - 2 {window}"));
    let report = folder.done("report doctor --kid 200");
    assert_eq!(report, b"2 of the last 64 counters opened\n");

    let empty = Folder::new("list-empty");
    empty.done("make store --keys 1024");
    let list = String::from_utf8(empty.done("list store")).unwrap();
    assert!(list.ends_with("0 of 1024 records in use\n"), "{list}");
}

/// Keys are listed by rising number, in whatever order they were added.
#[test]
fn keys_by_rising_number() {
    let folder = Folder::new("order");
    folder.write("key", &[7; 16]);
    folder.done("make store --keys 4");
    for kid in ["200", "0xffffffffffffffff", "0", "56"] {
        folder.done(&format!(
            "add store --receiving --kid {kid} --suite 4 --key key"
        ));
    }
    assert_eq!(kids(&folder, "store"), "0 56 200 18446744073709551615");
    folder.done("remove store --kid 56");
    assert_eq!(kids(&folder, "store"), "0 200 18446744073709551615");
}

/// The key numbers that a store lists.
fn kids(folder: &Folder, store: &str) -> String {
    let list = String::from_utf8(folder.done(&format!("list {store}"))).unwrap();
    let rows = list.lines().filter(|line| line.contains("AES_"));
    let kid = |row: &str| row.split_whitespace().nth(3).unwrap().to_string();
    rows.map(kid).collect::<Vec<_>>().join(" ")
}

/// The receiving keys of an epoch go. When it comes round again, the number of a
/// sender is still taken, and another context gives it a new one.
#[test]
fn a_change_of_epoch() {
    let folder = Folder::new("epoch");
    folder.write("key", &[7; 16]);
    folder.done("make store --keys 5");
    let kid = |context: u64, index: u64, epoch: u64| {
        let line = format!(
            "group-kid --context {context} --index {index} --epoch {epoch} \
             --index-width 6 --epoch-width 4"
        );
        let kid = String::from_utf8(folder.done(&line)).unwrap();
        kid.trim().to_string()
    };
    let add = |role: &str, kid: &str| format!("add store --{role} --kid {kid} --suite 4 --key key");
    assert_eq!(kid(3, 2, 16), 0xc20.to_string());
    let parts = folder.done("group-parts --kid 0xc20 --index-width 6 --epoch-width 4");
    assert_eq!(parts, b"context 3, index 2, epoch bits 0\n");

    for (index, epoch) in [(3, 14), (7, 14), (3, 15)] {
        folder.done(&add("receiving", &kid(0, index, epoch)));
    }
    folder.done(&add("sending", &kid(0, 20, 14)));
    assert_eq!(kids(&folder, "store"), "62 63 126 334");
    folder.done("change-epoch store --epoch-width 4 --epoch-bits 13");
    assert_eq!(kids(&folder, "store"), "62 63 126 334");
    folder.done("change-epoch store --epoch-width 4 --epoch-bits 14");
    assert_eq!(kids(&folder, "store"), "63 334");

    folder.done(&add("receiving", &kid(0, 3, 30)));
    folder.done("remove store --kid 334");
    folder.fails(&add("sending", &kid(0, 20, 30)), 4);
    folder.done(&add("sending", &kid(1, 20, 30)));
    assert_eq!(kids(&folder, "store"), "62 63 334 1358");
}

#[test]
fn wrong_command_lines() {
    let folder = Folder::with_stores("usage", 4);
    for line in [
        "",
        "frobnicate",
        "seal ward",
        "list",
        "seal ward --kid 1 --in",
    ] {
        folder.fails(line, 64);
    }
    // The result is not written over the store.
    folder.write("picture", b"a picture");
    let before = folder.read("ward");
    folder.fails("seal ward --kid 200 --in picture --out ward", 64);
    let out = folder.path("./ward");
    let seal = "seal ward --kid 200 --in picture --out";
    fails(seal, 64, folder.command(seal).arg(out).output().unwrap());
    assert_eq!(folder.read("ward"), before);
    // Nor is a store made or used where another one has its own files.
    let files = folder.files();
    folder.fails("make other.lock --keys 1", 64);
    folder.fails("make .other.new --keys 1", 64);
    folder.fails("list ward.lock", 64);
    assert_eq!(folder.files(), files);
    folder.done("make other.new --keys 1");
}

#[test]
fn inputs_that_are_no_hex() {
    let folder = Folder::with_stores("no-hex", 4);
    let open = "open doctor --hex";
    for text in ["8", "80c", "zz", "0x80"] {
        fails(open, 65, folder.run_with_input(open, text.as_bytes()));
    }
}

#[test]
fn files_that_fail() {
    let folder = Folder::with_stores("files", 4);
    let before = folder.files();
    for line in [
        "list nowhere",
        "seal nowhere --kid 200 --in key",
        "seal ward --kid 200 --in nowhere",
        "add ward --sending --kid 1 --suite 1 --key nowhere",
        "open doctor --in nowhere",
        "make no/where --keys 1",
        "seal ward --kid 200 --in key --out no/where",
    ] {
        folder.fails(line, 74);
    }
    assert_eq!(folder.files(), before);
    // The message stays on one line.
    for line in ["list", "open doctor --in"] {
        let output = folder.command(line).arg("no\nwhere").output().unwrap();
        fails(line, 74, output);
    }
}

/// Making anew would start the counters from 0.
#[test]
fn make_replaces_no_file() {
    let folder = Folder::with_stores("make", 4);
    let before = folder.read("ward");
    let message = folder.fails("make ward --keys 2", 74);
    assert!(
        message.contains("a store is never made over one"),
        "{message}"
    );
    assert_eq!(folder.read("ward"), before);
}

#[test]
fn a_store_is_its_owners_alone() {
    let folder = Folder::with_stores("mode", 4);
    assert_eq!(
        (folder.mode("ward"), folder.mode("ward.lock")),
        (0o600, 0o600)
    );
}

/// Whatever stands where the new store is written first, no key goes there.
#[test]
fn a_file_in_the_way() {
    use std::os::unix::fs::{symlink, PermissionsExt};
    let folder = Folder::with_stores("in-the-way", 4);
    let mode = |file| {
        let metadata = std::fs::symlink_metadata(folder.path(file)).unwrap();
        assert!(metadata.is_file(), "{file}");
        metadata.permissions().mode() & 0o777
    };

    folder.write(".ward.new", b"");
    let readable = PermissionsExt::from_mode(0o644);
    std::fs::set_permissions(folder.path(".ward.new"), readable).unwrap();
    // Who has it open already sees nothing of the store.
    let other = folder.path("other");
    std::fs::hard_link(folder.path(".ward.new"), &other).unwrap();
    folder.anew("seal ward --kid 200 --in key --out frame");
    assert_eq!((mode("ward"), folder.read("other")), (0o600, vec![]));

    symlink("other", folder.path(".ward.new")).unwrap();
    folder.anew("seal ward --kid 200 --in key --out frame");
    assert_eq!((mode("ward"), folder.read("other")), (0o600, vec![]));
    let header = folder.done("header --in frame");
    assert!(header.starts_with(b"key number 200, counter 1,"));
}

/// Each of two hard links would get a store and counters of its own.
#[test]
fn a_store_with_hard_links() {
    let folder = Folder::with_stores("hard-link", 4);
    folder.anew("seal ward --kid 200 --in key --out frame");
    for (store, other) in [("ward", "b"), ("doctor", "c")] {
        std::fs::hard_link(folder.path(store), folder.path(other)).unwrap();
    }
    let before = folder.read("ward");
    for store in ["ward", "b"] {
        let add = format!("add {store} --sending --kid 1 --suite 4 --key key");
        let remove = format!("remove {store} --kid 200");
        let epoch = format!("change-epoch {store} --epoch-width 0 --epoch-bits 0");
        let seal = format!("seal {store} --kid 200 --in key");
        for line in [add, remove, epoch, seal] {
            let message = folder.fails(&line, 74);
            assert!(message.contains("hard links"), "{message}");
        }
        folder.done(&format!("list {store}"));
    }
    assert_eq!(folder.read("ward"), before);
    assert_eq!(folder.read("b"), before);

    // Nor is a frame opened there: it could be opened again under the other name.
    // Nor is a result written to the store under that name.
    let before = folder.read("doctor");
    for store in ["doctor", "c"] {
        let message = folder.fails(&format!("open {store} --in frame"), 74);
        assert!(message.contains("hard links"), "{message}");
    }
    folder.fails("open doctor --in frame --out c", 64);
    assert_eq!(folder.read("doctor"), before);

    std::fs::remove_file(folder.path("b")).unwrap();
    folder.anew("seal ward --kid 200 --in key --out frame");
    let header = folder.done("header --in frame");
    assert!(header.starts_with(b"key number 200, counter 1,"));
}

/// A store and a symbolic link to it are locked and replaced as one.
#[test]
fn a_link_stays_a_link() {
    let folder = Folder::with_stores("link", 4);
    std::os::unix::fs::symlink("ward", folder.path("link")).unwrap();
    folder.write("picture", b"a picture");
    folder.anew("seal link --kid 200 --in picture --out frame");
    folder.anew("seal ward --kid 200 --in picture --out frame");
    let header = folder.done("header --in frame");
    assert!(header.starts_with(b"key number 200, counter 1,"));
    assert!(folder.path("link").is_symlink());
}

/// A receiver walks to the step that a frame names; raw and in hex.
#[test]
fn ratchet_and_key_numbers() {
    let folder = Folder::new("ratchet");
    folder.write("first", &[7; 16]);
    folder.write("text", "07".repeat(16).as_bytes());
    let kid = String::from_utf8(folder.done("kid --generation 2 --step 21 --bits 4")).unwrap();
    assert_eq!(kid, "37\n");
    let kid = kid.trim();
    folder.done("ratchet --suite 5 --key first --steps 21 --out sent");
    folder.done("ratchet --suite 5 --key text --hex --steps 3 --out third");
    folder.done("ratchet --suite 5 --key third --hex --steps 18 --out received");
    folder.done("make ward --keys 1");
    folder.done("make doctor --keys 1");
    folder.done(&format!(
        "add ward --sending --kid {kid} --suite 5 --key sent"
    ));
    folder.done(&format!(
        "add doctor --receiving --kid {kid} --suite 5 --key received --hex"
    ));
    folder.write("picture", b"a picture");
    folder.anew(&format!("seal ward --kid {kid} --in picture --out frame"));
    assert_eq!(folder.done("open doctor --in frame"), b"a picture");

    folder.done("ratchet --suite 5 --key first --steps 0 --out same");
    assert_eq!(folder.read("same"), [7; 16]);
}

/// A walked key is in a file of its own that others cannot read.
#[test]
fn where_a_walked_key_goes() {
    let folder = Folder::new("ratchet-file");
    folder.write("first", &[7; 16]);
    folder.done("ratchet --suite 1 --key first --steps 1 --out next");
    assert_eq!(folder.mode("next"), 0o600);
    let before = folder.read("next");
    assert_eq!(before.len(), 32);
    folder.fails("ratchet --suite 1 --key first --steps 2 --out next", 74);
    folder.fails("ratchet --suite 1 --key first --steps 1 --out first", 74);
    // Standard output is asked for, and is no terminal.
    let walked = folder.done("ratchet --suite 1 --key first --steps 1 --out -");
    assert_eq!(walked, before);
    folder.fails("ratchet --suite 1 --key first --steps 1", 64);
    folder.fails("kid --generation 1 --step 1", 64);
    assert_eq!(folder.read("next"), before);
    assert_eq!(folder.files(), ["first", "next"]);
}
