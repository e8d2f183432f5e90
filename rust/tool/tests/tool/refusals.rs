// SPDX-License-Identifier: MIT
//! Each refusal as exit status and message, with the store left as it was.

use super::folder::{done, fails, Folder};
use sframe::Refusal;

/// The refusals that are told in more words than their own.
const EXPLAINED: [Refusal; 6] = [
    Refusal::StoreNotSound,
    Refusal::KidHeld,
    Refusal::StoreFull,
    Refusal::KidUnknown,
    Refusal::WrongRole,
    Refusal::TooLong,
];

/// Checks that a run is refused and that no file has changed.
#[track_caller]
fn refused(folder: &Folder, line: &str, refusal: Refusal) {
    let before: Vec<_> = folder
        .files()
        .iter()
        .map(|file| folder.read(file))
        .collect();
    let message = folder.fails(line, refusal.number() as i32);
    let number = refusal.number();
    let start = format!("sframe: refused ({number}): ");
    assert!(message.starts_with(&start), "{message}");
    if !EXPLAINED.contains(&refusal) {
        assert_eq!(message, format!("{start}{refusal}\n"));
    }
    let after: Vec<_> = folder
        .files()
        .iter()
        .map(|file| folder.read(file))
        .collect();
    assert!(before == after, "{line}");
}

fn folder(name: &str) -> Folder {
    let folder = Folder::with_stores(name, 4);
    folder.write("picture", b"a picture");
    folder.anew("seal ward --kid 200 --in picture --out frame");
    folder
}

#[test]
fn store_not_sound() {
    let folder = folder("refused-1");
    let mut damaged = folder.read("ward");
    damaged[2] = 1;
    folder.write("damaged", &damaged);
    folder.write("long", &vec![0; 100_000]);
    folder.write("empty", b"");
    // A store of an earlier version: records of 80 bytes, with 0 in byte 3.
    let mut old = damaged[..80].to_vec();
    old[2..4].fill(0);
    folder.write("old", &[old, vec![0; 400]].concat());
    // An empty record before the key.
    let mut moved = folder.read("ward");
    moved.rotate_right(96);
    folder.write("moved", &moved);
    for store in ["damaged", "long", "empty", "old", "moved"] {
        for line in [
            format!("list {store}"),
            format!("remove {store} --kid 200"),
            format!("add {store} --sending --kid 1 --suite 9 --key key"),
            format!("seal {store} --kid 200 --in picture"),
            format!("open {store} --in frame"),
            format!("report {store} --kid 200"),
            format!("change-epoch {store} --epoch-width 65 --epoch-bits 1"),
        ] {
            refused(&folder, &line, Refusal::StoreNotSound);
        }
    }
    for (store, why) in [
        (
            "damaged",
            "record 1 has used its last counter by byte 2, and its counter is another",
        ),
        ("long", "the file has more bytes than 1024 records of 96"),
        ("empty", "the file is empty"),
        (
            "old",
            "record 1 has 0 in byte 3: a store of an earlier version",
        ),
        ("moved", "record 2 stands behind an empty one"),
    ] {
        let message = folder.fails(&format!("list {store}"), 1);
        let expected = format!("sframe: refused (1): the store is not sound: {why}\n");
        assert_eq!(message, expected);
    }
}

/// What is said beyond the refusal's own words.
#[test]
fn refusals_explained() {
    let folder = folder("explained");
    folder.write("more", &[0; 32_769]);
    folder.write("metadata", &[0; 1_025]);
    let told = |line: &str, status: i32, text: &str| {
        let message = folder.fails(line, status);
        assert_eq!(message, format!("sframe: refused ({status}): {text}\n"));
    };
    told(
        "seal ward --kid 200 --in more",
        9,
        "the plaintext has more than 32,768 bytes",
    );
    let line = "seal ward --kid 200 --in picture --metadata metadata";
    told(line, 9, "the metadata has more than 1,024 bytes");
    let line = "open doctor --in frame --metadata metadata";
    told(line, 9, "the metadata has more than 1,024 bytes");
    folder.write("much", &[&[0x80, 200][..], &[0; 33_000]].concat());
    told(
        "open doctor --in much",
        9,
        "the plaintext has more than 32,768 bytes",
    );

    told(
        "remove ward --kid 201",
        6,
        "the store does not have key number 201",
    );
    let role = "which does not allow the call";
    let line = "seal doctor --kid 200 --in picture";
    told(line, 7, &format!("key number 200 is receiving, {role}"));
    told(
        "open ward --in frame",
        7,
        &format!("key number 200 is sending, {role}"),
    );
    let add = |kid: u64| format!("add ward --sending --kid {kid} --suite 4 --key key");
    told(
        &add(200),
        4,
        "the store has key number 200 already, which is sending",
    );
    folder.done(&add(1));
    told(&add(2), 5, "all 2 records are in use");
    folder.done("remove ward --kid 200");
    told(
        &add(200),
        4,
        "the store has key number 200 already, which is retired",
    );
}

/// It is the number of keys that is wrong, not a store.
#[test]
fn number_of_keys() {
    let folder = folder("refused-keys");
    let files = folder.files();
    for keys in [0, 1_025, u64::MAX] {
        let message = folder.fails(&format!("make other --keys {keys}"), 1);
        let expected = "sframe: refused (1): a store has room for 1 to 1024 keys\n";
        assert_eq!(message, expected);
    }
    assert_eq!(folder.files(), files);
}

#[test]
fn add_refused() {
    let folder = folder("refused-add");
    folder.write("short", &[7; 15]);
    folder.write("long", &[7; 65]);
    folder.write("longer", &[7; 10_000]);
    let add = |rest: &str| format!("add ward --sending {rest}");
    for suite in ["0", "6", "256", "18446744073709551615"] {
        let line = add(&format!("--kid 1 --suite {suite} --key key"));
        refused(&folder, &line, Refusal::NoSuchSuite);
    }
    for (kid, key) in [(1, "key"), (1, "short"), (1, "longer"), (200, "key")] {
        let line = add(&format!("--kid {kid} --suite 3 --key {key}"));
        refused(&folder, &line, Refusal::SendingBarred);
    }
    for key in ["short", "long", "longer"] {
        let line = add(&format!("--kid 1 --suite 1 --key {key}"));
        refused(&folder, &line, Refusal::BaseKeyLength);
    }
    refused(
        &folder,
        &add("--kid 200 --suite 1 --key key"),
        Refusal::KidHeld,
    );
    folder.done(&add("--kid 1 --suite 1 --key key"));
    refused(
        &folder,
        &add("--kid 2 --suite 1 --key key"),
        Refusal::StoreFull,
    );
    folder.done("remove ward --kid 200");
    refused(
        &folder,
        &add("--kid 200 --suite 1 --key key"),
        Refusal::KidHeld,
    );
}

#[test]
fn unknown_numbers_and_roles() {
    let folder = folder("refused-6-7");
    refused(&folder, "remove ward --kid 201", Refusal::KidUnknown);
    refused(
        &folder,
        "seal ward --kid 201 --in picture",
        Refusal::KidUnknown,
    );
    refused(
        &folder,
        "seal doctor --kid 200 --in picture",
        Refusal::WrongRole,
    );
    refused(&folder, "open ward --in frame", Refusal::WrongRole);
    refused(&folder, "report ward --kid 200", Refusal::WrongRole);
    refused(&folder, "report doctor --kid 201", Refusal::KidUnknown);
    folder.done("remove ward --kid 200");
    refused(&folder, "remove ward --kid 200", Refusal::WrongRole);
    refused(
        &folder,
        "seal ward --kid 200 --in picture",
        Refusal::WrongRole,
    );
    folder.done("remove doctor --kid 200");
    refused(&folder, "open doctor --in frame", Refusal::KidUnknown);
}

#[test]
fn the_last_counter() {
    let folder = folder("refused-8");
    let mut store = folder.read("ward");
    store[12..20].copy_from_slice(&u64::MAX.to_be_bytes());
    folder.write("ward", &store);
    folder.anew("seal ward --kid 200 --in picture --out frame");
    assert_eq!(folder.done("open doctor --in frame"), b"a picture");
    refused(
        &folder,
        "seal ward --kid 200 --in picture",
        Refusal::CounterSpent,
    );
    let listed = String::from_utf8(folder.done("list ward")).unwrap();
    assert!(listed.contains("none left"), "{listed}");
}

#[test]
fn too_long() {
    let folder = folder("refused-9");
    folder.write("most", &[0; 32_768]);
    folder.write("more", &[0; 32_769]);
    folder.write("much", &[0; 1_000_000]);
    folder.write("metadata", &[0; 1_025]);
    folder.anew("seal ward --kid 200 --in most --out long");
    assert_eq!(folder.done("open doctor --in long"), [0; 32_768]);
    for line in [
        "seal ward --kid 200 --in more",
        "seal ward --kid 200 --in much",
        "seal ward --kid 200 --in picture --metadata metadata",
        "open doctor --in frame --metadata metadata",
    ] {
        refused(&folder, line, Refusal::TooLong);
    }
    folder.write("much", &[&[0x80, 200][..], &[0; 1_000_000]].concat());
    refused(&folder, "open doctor --in much", Refusal::TooLong);
}

/// Hex that is too long is refused as the bytes would be; white space does not
/// count.
#[test]
fn too_long_in_hex() {
    let folder = folder("refused-hex");
    folder.write("most", &[0; 32_768]);
    folder.anew("seal ward --kid 200 --in most --hex --out frame");
    let frame = String::from_utf8(folder.read("frame")).unwrap();
    let spaced: String = frame
        .chars()
        .map(|digit| format!(" \n\t {digit}"))
        .collect();
    folder.write("spaced", spaced.as_bytes());
    assert_eq!(folder.done("open doctor --in spaced --hex"), [0; 32_768]);
    for more in [16, 1_000_000] {
        let long = frame.clone() + &"00".repeat(more);
        folder.write("long", long.as_bytes());
        refused(&folder, "open doctor --in long --hex", Refusal::TooLong);
        let header = folder.done("header --in long --hex");
        assert!(header.starts_with(b"key number 200, counter 1,"));
    }

    let add = "add ward --sending --kid 1 --suite 4 --key long --hex";
    for bytes in [65, 100_000] {
        folder.write("long", "07".repeat(bytes).as_bytes());
        refused(&folder, add, Refusal::BaseKeyLength);
    }
    folder.write("long", "07 \n".repeat(64).as_bytes());
    folder.done(add);
}

#[test]
fn frames_refused() {
    let folder = folder("refused-10-11-13");
    let frame = folder.read("frame");
    for (bytes, refusal) in [
        (vec![], Refusal::BadHeader),
        (vec![0x80], Refusal::BadHeader),
        (vec![0x90, 7], Refusal::BadHeader),
        (vec![0x80, 7], Refusal::KidUnknown),
        (frame[..2].to_vec(), Refusal::FrameShort),
        (frame[..17].to_vec(), Refusal::FrameShort),
        (frame[..18].to_vec(), Refusal::TagDiffers),
        ([&frame[..], &[0]].concat(), Refusal::TagDiffers),
    ] {
        folder.write("damaged", &bytes);
        refused(&folder, "open doctor --in damaged", refusal);
        if refusal == Refusal::BadHeader {
            refused(&folder, "header --in damaged", refusal);
        }
    }
    refused(
        &folder,
        "open doctor --in frame --metadata key",
        Refusal::TagDiffers,
    );
    // Nothing of a refused frame is given out, and no file made for it.
    let open = "open doctor --in damaged --out opened";
    fails(open, 13, folder.run(open));
    assert!(!folder.path("opened").exists());
    let open = "open doctor --in frame";
    assert_eq!(done(open, folder.run(open)), b"a picture");
}

/// No frame is opened twice; one that was opened is refused as such, changed or
/// not, and so is one that lies 64 counters behind.
#[test]
fn frames_that_come_again() {
    let folder = folder("refused-14-15");
    let mut forged = folder.read("frame");
    *forged.last_mut().unwrap() ^= 1;
    folder.write("forged", &forged);
    refused(&folder, "open doctor --in forged", Refusal::TagDiffers);
    assert_eq!(folder.done("open doctor --in frame"), b"a picture");
    for frame in ["frame", "forged"] {
        let open = format!("open doctor --in {frame} --out opened");
        refused(&folder, &open, Refusal::AlreadyOpened);
        assert!(!folder.path("opened").exists());
    }

    let mut store = folder.read("ward");
    store[12..20].copy_from_slice(&64u64.to_be_bytes());
    folder.write("ward", &store);
    folder.anew("seal ward --kid 200 --in picture --out later");
    assert_eq!(folder.done("open doctor --in later"), b"a picture");
    for frame in ["frame", "forged"] {
        let open = format!("open doctor --in {frame} --out opened");
        refused(&folder, &open, Refusal::TooOld);
    }
}

#[test]
fn ratchet() {
    let folder = folder("refused-ratchet");
    folder.write("short", &[7; 15]);
    for (line, refusal) in [
        ("--suite 6 --key short --steps 65", Refusal::NoSuchSuite),
        ("--suite 1 --key short --steps 65", Refusal::BaseKeyLength),
        ("--suite 1 --key key --steps 65", Refusal::TooManySteps),
    ] {
        refused(&folder, &format!("ratchet {line} --out walked"), refusal);
    }
    for line in [
        "--generation 0 --step 0 --bits 0",
        "--generation 0 --step 0 --bits 17",
        "--generation 0x1000000000000000 --step 0 --bits 4",
    ] {
        refused(&folder, &format!("kid {line}"), Refusal::BadRatchetKid);
    }
}

#[test]
fn groups() {
    let folder = folder("refused-22-23");
    let member = |widths: &str, index: u64, context: u64| {
        format!("group-kid --context {context} --index {index} --epoch 14 {widths}")
    };
    let (good, wide) = (
        "--index-width 6 --epoch-width 4",
        "--index-width 60 --epoch-width 5",
    );
    for (line, refusal) in [
        (member(wide, u64::MAX, 1), Refusal::GroupKidTooLong),
        (member(good, 64, 1 << 54), Refusal::GroupPartTooLarge),
        (member(good, 63, 1 << 54), Refusal::GroupKidTooLong),
        (
            format!("group-parts --kid 0 {wide}"),
            Refusal::GroupKidTooLong,
        ),
    ] {
        refused(&folder, &line, refusal);
    }
    for (width, bits, refusal) in [
        (65, 0, Refusal::GroupKidTooLong),
        (u64::MAX, u64::MAX, Refusal::GroupKidTooLong),
        (0, 1, Refusal::GroupPartTooLarge),
        (4, 16, Refusal::GroupPartTooLarge),
    ] {
        folder.done("change-epoch doctor --epoch-width 1 --epoch-bits 1");
        let line = format!("change-epoch doctor --epoch-width {width} --epoch-bits {bits}");
        refused(&folder, &line, refusal);
    }
}
