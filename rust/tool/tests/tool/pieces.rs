// SPDX-License-Identifier: MIT
//! Sealing and checking in pieces.

use super::folder::{done, fails, Folder};
use std::fs::File;
use std::io::{Seek, SeekFrom};

/// The sizes of an input: none, around a piece of the tool, and the most.
const SIZES: [usize; 7] = [0, 1, 1_199, 1_200, 1_201, 5_000, 32_768];

fn picture(size: usize) -> Vec<u8> {
    (0..size).map(|at| (at * at / 7) as u8).collect()
}

fn said(counter: usize) -> Vec<u8> {
    format!("key number 200, counter {counter}: the tag matches\n").into_bytes()
}

/// From a file or a stream, the frame is that of the whole; it opens, and a check
/// of it is passed from a file or a stream too.
#[test]
fn frames_of_the_whole() {
    for suite in 1..=5 {
        let folder = Folder::with_stores(&format!("pieces-{suite}"), suite);
        folder.write("about", b"ward 3");
        for (counter, size) in SIZES.into_iter().enumerate() {
            let plaintext = picture(size);
            folder.write("picture", &plaintext);
            folder.write("copy", &folder.read("ward"));
            folder.done("seal copy --kid 200 --in picture --out whole --metadata about --force");
            let seal = "seal-pieces ward --kid 200 --out frame --metadata about --force";
            let input = match size % 2 {
                0 => folder.run(&format!("{seal} --in picture")),
                _ => folder.run_with_input(&format!("{seal} --length {size}"), &plaintext),
            };
            assert_eq!(done(seal, input), b"");
            assert_eq!(folder.read("frame"), folder.read("whole"));
            assert_eq!(folder.read("ward"), folder.read("copy"));

            let before = folder.read("doctor");
            let check = "check doctor --metadata about";
            assert_eq!(folder.done(&format!("{check} --in frame")), said(counter));
            let stream = format!("{check} --length {size}");
            let output = folder.run_with_input(&stream, &folder.read("frame"));
            assert_eq!(done(&stream, output), said(counter));
            assert_eq!(folder.read("doctor"), before);
            folder.done("open doctor --in frame --out opened --metadata about --force");
            assert_eq!(folder.read("opened"), plaintext);
            assert_eq!(folder.done(&format!("{check} --in frame")), said(counter));
        }
    }
}

/// An input that ends early or runs over leaves no output, and what stood there
/// stays; the counter is used, and logged.
#[test]
fn inputs_of_another_length() {
    let folder = Folder::with_stores("pieces-length", 4);
    folder.write("picture", &picture(3_000));
    folder.write("kept", b"before");
    let files = folder.files();
    for (length, out) in [
        (2_999, "frame"),
        (3_001, "frame"),
        (0, "kept"),
        (32_768, "kept"),
    ] {
        let seal = format!(
            "seal-pieces ward --kid 200 --in picture --length {length} --out {out} --force --log log"
        );
        let message = folder.fails(&seal, 16);
        assert!(message.contains("more or fewer"), "{message}");
    }
    // Without --force it is not begun.
    folder.fails("seal-pieces ward --kid 200 --in picture --out kept", 74);
    let mut left = folder.files();
    left.retain(|name| !name.starts_with("log"));
    assert_eq!((left, folder.read("kept")), (files, b"before".to_vec()));
    folder.done("seal-pieces ward --kid 200 --in picture --out frame --log log");
    let counters: Vec<u8> = folder.read("log").chunks(16).map(|pair| pair[15]).collect();
    assert_eq!(counters, [0, 1, 2, 3, 4]);
    let header = folder.done("header --in frame");
    assert_eq!(header, b"key number 200, counter 4, header of 2 bytes\n");
}

/// What is refused before the counter is taken leaves everything.
#[test]
fn refused_beginnings() {
    let folder = Folder::with_stores("pieces-refused", 1);
    folder.write("picture", b"a picture");
    folder.write("long", &[0; 1_025]);
    folder.write("huge", &[0; 32_769]);
    let before = folder.read("ward");
    let files = folder.files();
    for (line, status) in [
        ("ward --kid 7 --in picture --out frame", 6),
        ("doctor --kid 200 --in picture --out frame", 7),
        ("ward --kid 200 --in huge --out frame", 9),
        ("ward --kid 200 --in picture --out frame --metadata long", 9),
        ("ward --kid 200 --in picture --out frame --length 32769", 9),
        (
            "ward --kid 200 --in picture --out frame --length 0xffffffffffffffff",
            9,
        ),
        ("ward --kid 200 --in picture", 64),
        ("ward --kid 200 --in picture --out -", 64),
        ("ward --kid 200 --in picture --out /dev/null", 64),
        ("ward --kid 200 --in picture --out ward", 64),
        ("ward --kid 200 --out frame", 64),
        ("ward --kid 200 --in picture --out frame --hex", 64),
        ("ward --kid 200 --in missing --out frame", 74),
        ("ward --kid 200 --in picture --out missing/frame", 74),
    ] {
        folder.fails(&format!("seal-pieces {line}"), status);
    }
    assert_eq!((folder.files(), folder.read("ward")), (files, before));
}

#[test]
fn refused_checks() {
    let folder = Folder::with_stores("pieces-checks", 2);
    folder.write("picture", &picture(2_000));
    folder.done("seal-pieces ward --kid 200 --in picture --out frame");
    let frame = folder.read("frame");
    let files = folder.files();
    for (bytes, options, status) in [
        (&frame[..0], "", 10),
        (&frame[..1], "", 10),
        (&[0x10][..], "", 6),
        (&frame[..2], "", 11),
        (&frame[..9], "", 11),
        (&frame[..10], "", 13),
        (&frame[..2_009], "", 13),
        (&frame, "--length 1999", 11),
        (&frame, "--length 2001", 11),
        (&frame, "--length 2009", 16),
        (&frame, "--length 32769", 9),
        (&frame, "--metadata picture", 9),
        (&frame, "--metadata key", 13),
    ] {
        folder.write("other", bytes);
        folder.fails(&format!("check doctor --in other {options}"), status);
    }
    for at in [2, 1_202, 2_001, 2_002, 2_009] {
        let mut changed = frame.clone();
        changed[at] ^= 1;
        folder.write("other", &changed);
        folder.fails("check doctor --in other", 13);
    }
    folder.fails("check ward --in frame", 7);
    folder.fails("check key --in frame", 1);
    let stream = "check doctor";
    let message = fails(stream, 64, folder.run_with_input(stream, &frame));
    assert!(message.contains("a pipe or a device has no length"));
    std::fs::remove_file(folder.path("other")).expect("a file of the test");
    assert_eq!(folder.files(), files);
}

/// What is no tag is told with its length and that of a tag.
#[test]
fn tags_of_another_length() {
    let folder = Folder::with_stores("pieces-tags", 2);
    folder.write("picture", b"bed 44");
    folder.done("seal ward --kid 200 --in picture --out frame");
    let frame = folder.read("frame");
    folder.write("short", &frame[..7]);
    folder.write("long", &[&frame[..], &[0; 100]].concat());
    for (line, told) in [
        (
            "--in frame --length 5",
            "of 5 bytes leaves 9, and the tag has 8",
        ),
        (
            "--in frame --length 7",
            "of 7 bytes leaves 7, and the tag has 8",
        ),
        (
            "--in long --length 6",
            "of 6 bytes leaves more than 16, and the tag has 8",
        ),
        ("--in short", "followed by 5 bytes, and the tag alone has 8"),
    ] {
        let message = folder.fails(&format!("check doctor {line}"), 11);
        assert!(message.starts_with("sframe: refused (11): "), "{message}");
        assert!(message.contains(told), "{message}");
    }
}

/// Standard input that is a file has a length, from where it stands.
#[test]
fn a_file_as_standard_input() {
    let folder = Folder::with_stores("pieces-stdin", 4);
    folder.write("picture", &picture(3_000));
    let run = |line: &str, file: &str, from: u64| {
        let mut input = File::open(folder.path(file)).unwrap();
        input.seek(SeekFrom::Start(from)).unwrap();
        done(line, folder.command(line).stdin(input).output().unwrap())
    };
    let seal = "seal-pieces ward --kid 200 --out frame --force";
    for (counter, from) in [0, 1_000, 3_000].into_iter().enumerate() {
        run(seal, "picture", from);
        let opened = picture(3_000)[from as usize..].to_vec();
        assert_eq!(run("check doctor", "frame", 0), said(counter));
        assert_eq!(folder.done("open doctor --in frame"), opened);
        folder.write("behind", &[b"before", &folder.read("frame")[..]].concat());
        assert_eq!(run("check doctor --in -", "behind", 6), said(counter));
    }
}
