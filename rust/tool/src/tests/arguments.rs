// SPDX-License-Identifier: MIT
//! Command lines.

use crate::arguments::{Command, Streams};
use sframe::{Ctr, EpochBits, GroupParts, GroupWidths, Kid, Role};
use std::ffi::OsString;
use std::os::unix::ffi::OsStringExt;
use std::time::Duration;
use toolkit::output::Output;
use toolkit::place::Place;
use toolkit::words::About;

fn parse(line: &str) -> Result<Command, String> {
    let words = line.split_whitespace().map(OsString::from);
    Command::parse(words).map_err(|failure| failure.to_string())
}

#[test]
fn options_in_any_order() {
    let expected = Ok(Command::Add {
        store: "ward".into(),
        role: Role::Sending,
        kid: Kid(200),
        suite: 4,
        key: Place::Standard,
        hex: true,
        wait: Some(Duration::from_secs(3)),
    });
    for line in [
        "add ward --sending --kid 200 --suite 4 --key - --hex --wait 3",
        "add --hex --key - --kid 0xc8 --suite 0x4 --wait 3 ward --sending",
        "add --hex --key=- --kid=0xc8 --suite=4 --wait=3 --sending -- ward",
    ] {
        assert_eq!(parse(line), expected);
    }
}

#[test]
fn standard_streams_unless_named() {
    let Ok(Command::Seal { streams, .. }) = parse("seal ward --kid 1") else {
        panic!("not a seal");
    };
    let expected = Streams {
        input: Place::Standard,
        output: Output::new(None, false),
        metadata: None,
        hex: false,
    };
    assert_eq!(streams, expected);
    let Ok(Command::Seal { streams, .. }) = parse("seal ward --kid 1 --in - --out -") else {
        panic!("not a seal");
    };
    assert_eq!(streams.output, Output::new(Some(Place::Standard), false));
    let Ok(Command::Open { streams, .. }) = parse("open w --in a --out b --metadata - --force")
    else {
        panic!("not an open");
    };
    assert_eq!(streams.input, Place::File("a".into()));
    let output = Output::new(Some(Place::File("b".into())), true);
    assert_eq!(streams.output, output);
    assert_eq!(streams.metadata, Some(Place::Standard));
}

#[test]
fn numbers() {
    let header = |kid, ctr| {
        Ok(Command::WriteHeader {
            kid,
            ctr,
            offset: 0,
        })
    };
    assert_eq!(parse("header --kid 0 --ctr 7"), header(Kid(0), Ctr(7)));
    assert_eq!(
        parse("header --kid 18446744073709551615 --ctr 0xffffffffffffffff"),
        header(Kid(u64::MAX), Ctr(u64::MAX))
    );
    for kid in [
        "-1",
        "+1",
        "0x",
        "0x+1",
        "1e3",
        "c8",
        "18446744073709551616",
        "0x10000000000000000",
    ] {
        assert!(
            parse(&format!("header --ctr 0 --kid {kid}")).is_err(),
            "{kid}"
        );
    }
}

#[test]
fn a_report() {
    let expected = Command::Report {
        store: "doctor".into(),
        kid: Kid(200),
    };
    assert_eq!(parse("report doctor --kid 200"), Ok(expected));
}

#[test]
fn groups() {
    let widths = GroupWidths { index: 6, epoch: 4 };
    let parts = GroupParts {
        context: 3,
        index: 2,
        epoch: 16,
    };
    let line = "group-kid --epoch-width 4 --epoch 16 --index 2 --context 3 --index-width 6";
    assert_eq!(parse(line), Ok(Command::GroupKid { parts, widths }));
    let line = "group-parts --kid 0xc20 --index-width 6 --epoch-width 4";
    let kid = Kid(0xc20);
    assert_eq!(parse(line), Ok(Command::GroupParts { kid, widths }));
    let expected = Command::ChangeEpoch {
        store: "doctor".into(),
        epoch: EpochBits { width: 4, bits: 14 },
        wait: None,
    };
    let line = "change-epoch doctor --epoch-width 4 --epoch-bits 14";
    assert_eq!(parse(line), Ok(expected));
}

#[test]
fn offsets() {
    for (line, expected) in [
        ("seal ward --kid 1", 0),
        ("seal ward --kid 1 --offset 17", 17),
        ("seal --offset 0xffffffffffffffff ward --kid 1", u64::MAX),
    ] {
        let Ok(Command::Seal { offset, .. }) = parse(line) else {
            panic!("not a seal");
        };
        assert_eq!(offset, expected);
    }
    let expected = Command::WriteHeader {
        kid: Kid(1),
        ctr: Ctr(2),
        offset: 3,
    };
    assert_eq!(parse("header --kid 1 --ctr 2 --offset 3"), Ok(expected));
    for line in [
        "seal ward --kid 1 --offset",
        "seal ward --kid 1 --offset -1",
        "seal ward --kid 1 --offset 1 --offset 1",
        "open ward --offset 1",
        "header --in f --offset 1",
    ] {
        assert!(parse(line).is_err(), "{line}");
    }
}

#[test]
fn help_wherever_it_stands() {
    for line in ["--help", "-h", "help"] {
        assert_eq!(parse(line), Ok(Command::About(About::Help(None))));
    }
    for (line, name) in [
        ("seal --help", "seal"),
        ("add ward -h", "add"),
        ("add --kid x --frobnicate -h", "add"),
        ("help group-kid", "group-kid"),
    ] {
        assert_eq!(parse(line), Ok(Command::About(About::Help(Some(name)))));
    }
    // Behind `--` it is a store's name.
    let store = "-h".into();
    let expected = Command::List { store, json: true };
    assert_eq!(parse("list --json -- -h"), Ok(expected));
    assert_eq!(parse("--version"), Ok(Command::About(About::Version)));
    assert_eq!(parse("-V"), Ok(Command::About(About::Version)));
}

#[test]
fn wrong_lines() {
    for line in [
        "",
        "frobnicate",
        "make",
        "make ward",
        "make ward --keys",
        "make ward --keys many",
        "make ward --keys 4 --keys 5",
        "make ward other --keys 4",
        "add ward --kid 1 --suite 1 --key k",
        "add ward --sending --receiving --kid 1 --suite 1 --key k",
        "add ward --sending --kid 1 --suite 1",
        "add ward --sending --kid 1 --suite 1 --key k 00112233",
        "add ward --sending --kid 1 --suite 1 --key k --password x",
        "remove ward",
        "list ward --json=yes",
        "list -- --json ward",
        "make ward --keys 4 --wait soon",
        "keygen",
        "keygen --out k --force",
        "ratchet --suite 1 --key k --steps 1",
        "help frobnicate",
        "list ward --kid 1",
        "seal ward",
        "seal ward --kid 1 --metadata -",
        "seal ward --kid 1 --log -",
        "open ward --log log",
        "open ward --kid 1",
        "report",
        "report ward",
        "report ward --kid 1 --in f",
        "header",
        "header --kid 1",
        "header --in f --kid 1",
        "group-kid --context 0 --index 3 --epoch 14 --epoch-width 4",
        "group-kid --index 3 --epoch 14 --index-width 6 --epoch-width 4",
        "group-parts --kid 62 --index-width 6",
        "group-parts ward --kid 62 --index-width 6 --epoch-width 4",
        "change-epoch --epoch-width 4 --epoch-bits 14",
        "change-epoch ward --epoch-width 4",
        "change-epoch ward --epoch-width 4 --epoch 14",
    ] {
        assert!(parse(line).is_err(), "{line}");
    }
}

/// A message stays on one line, and does not repeat what may be a key.
#[test]
fn words_with_a_newline() {
    for words in [
        &["a\nb"][..],
        &["list", "-a\nb"],
        &["remove", "ward", "--kid", "a\nb"],
    ] {
        let failure = Command::parse(words.iter().map(OsString::from)).unwrap_err();
        let message = failure.to_string();
        assert!(!message.contains('\n'), "{message}");
    }
}

/// A word too many could be a key, and so could a value.
#[test]
fn what_may_be_a_key_is_not_repeated() {
    for line in [
        "list ward 00112233445566778899aabbccddeeff",
        "add ward --key=00112233445566778899aabbccddeeff",
        "add ward --password=00112233445566778899aabbccddeeff",
        "add ward --sending --kid 00112233445566778899aabbccddeeff --suite 4 --key k",
        "add ward --sending --kid 1 --suite 00112233445566778899aabbccddeeff --key k",
        "00112233445566778899aabbccddeeff",
        "--00112233445566778899aabbccddeeff",
        "list -00112233445566778899aabbccddeeff",
        "help 00112233445566778899aabbccddeeff",
    ] {
        let message = parse(line).unwrap_err();
        assert!(!message.contains("0011"), "{message}");
    }
}

/// Bytes may be a key, and are not repeated; nor is an empty word, which would not be
/// seen.
#[test]
fn commands_that_are_no_words() {
    let told = |words: &[&[u8]]| {
        let words = words.iter().map(|word| OsString::from_vec(word.to_vec()));
        Command::parse(words).unwrap_err().to_string()
    };
    assert_eq!(told(&[b"\xff"]), "there is no such command");
    assert_eq!(told(&[b"help", b"\xff"]), "there is no such command");
    assert_eq!(told(&[b"seal\xff", b"ward"]), "there is no such command");
    assert_eq!(told(&[b""]), "the command is an empty word");
    assert_eq!(told(&[b"help", b""]), "the command is an empty word");
}

/// A slip of the fingers is told what is near.
#[test]
fn near_names() {
    for (line, near) in [
        ("selo ward", "seal"),
        ("opne ward", "open"),
        ("lst", "list"),
    ] {
        let message = parse(line).unwrap_err();
        assert!(message.contains(&format!("; {near} is one")), "{message}");
    }
    assert_eq!(
        parse("frobnicate").unwrap_err(),
        "there is no command frobnicate"
    );
    let message = parse("list ward --keys 1").unwrap_err();
    assert_eq!(message, "list takes no --keys");
    let message = parse("list ward --frobnicate").unwrap_err();
    assert_eq!(message, "there is no option --frobnicate");
}
